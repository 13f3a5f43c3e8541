/* The library for a host: a run with its listing and its new image, the admission of a program, the test of an image.
 *
 * Each function answers for every input, reads and writes only inside what is lent, keeps nothing between two calls, and allocates
 * nothing. What is lent is lent for the call alone: no other thread touches a buffer that is written, or writes to one that is read, and
 * a buffer that is written overlaps no other. No pointer is NULL, also where its length is 0. Calls that write to buffers of their own
 * may run at the same time. A run needs 128 KB of stack and an admission 1,040 KB, as measured (docs/HOST.md): a thread of 2 MB has room.
 *
 * docs/HOST.md says the same at length. The definitions that the functions are proved to meet stand in crates/host/specs.
 */
#ifndef RAFENUMA_H
#define RAFENUMA_H

#include <stddef.h>
#include <stdint.h>

#ifdef __cplusplus
extern "C" {
#endif

/* The places of the eight numbers that a run writes. */
enum rafenuma_answer {
    RAFENUMA_OUTCOME = 0,        /* 0 done, 1 paused (the fuel is used up), 2 refused */
    RAFENUMA_FINISHED = 1,       /* the finished instructions */
    RAFENUMA_REFUSAL = 2,        /* the number of the refusal: of the creation or the run where the outcome is 2, else of the save; 0: none */
    RAFENUMA_DETAIL = 3,         /* its first detail, or 0 */
    RAFENUMA_SECOND_DETAIL = 4,  /* its second detail, or 0 */
    RAFENUMA_LISTING = 5,        /* the length of the listing that was written; 0: none was, for want of room */
    RAFENUMA_NEW_IMAGE = 6,      /* the length of the image that was saved last into new_image; 0: none was */
    RAFENUMA_LISTING_NEEDED = 7  /* the length of the whole listing, written or not */
};

/* Runs a program on a fresh machine over the tasks of an image.
 *
 *   memory     the machine's memory: read and written; 65,536 bytes as in runone, or any other length (23 where it is too short)
 *   image      the tasks to begin with: a task image, of length 0 for none; only read
 *   program    1 to 65,535 bytes (else 1 or 28); only read
 *   new_image  where S_SAVE, and after a run that is done or paused the save by the host, write the tasks; bytes past the image stay
 *   listing    where the listing (docs/REFERENCE.md, 'The listing') is written, whole or not at all; bytes past it stay
 *   answer     eight numbers, all of them written (enum rafenuma_answer)
 *   fuel       the instructions that may be finished
 *
 * Answers outcome + 256 * refusal + 65,536 * listing, where listing is 24 if the listing was not written and else 0.
 * So 0 means: done, saved and listed. */
uint64_t rafenuma_run(uint8_t *memory, size_t memory_length, const uint8_t *image, size_t image_length,
                      const uint8_t *program, size_t program_length, uint8_t *new_image, size_t new_image_length,
                      uint8_t *listing, size_t listing_length, uint64_t answer[8], uint64_t fuel);

/* Whether a program is admitted.
 *
 *   program    any bytes; only read
 *   kinds      1,000 bytes: if admitted, the letters (N C B S V) of the kinds at the program's end, bottom first, at its head; the rest stays
 *
 * Answers 256 * the number of kinds if admitted; else the number of the refusal (1, 27, 28) + 256 * the place (0 for 1 and 28). */
uint64_t rafenuma_admit(const uint8_t *program, size_t program_length, uint8_t kinds[1000]);

/* Whether a task image is sound.
 *
 *   image      any bytes; only read
 *
 * Answers 0 if it is sound; else 25 + 256 * the place of the first record that is cut or breaks a rule. */
uint64_t rafenuma_test_image(const uint8_t *image, size_t image_length);

#ifdef __cplusplus
}
#endif

#endif
