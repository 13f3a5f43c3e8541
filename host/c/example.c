/* Runs case C1 over the image I1 (docs/REFERENCE.md, 'Cases') and prints the listing, the eight numbers and the new image's length. */
#include "../rafenuma.h"
#include <stdio.h>

static uint8_t memory[65536], new_image[1048576], listing[65536];

int main(void) {
    static const uint8_t program[] = {0x01, 0, 0, 0, 0, 0x01, 0, 0, 0, 5, 0x0e, 0x01, 0, 0, 0, 0x63, 0x0f};
    static const uint8_t image[] = {8, 0, 0, 0, 1, 0, 1, 0, 0, 0, 1, 0, 0, 0, 10, 0, 0, 0, 2, 0, 0, 0, 0, 0, 3, 0, 2, 0, 0x41, 0x62};
    uint8_t kinds[1000];
    uint64_t answer[8];
    uint64_t packed = rafenuma_run(memory, sizeof memory, image, sizeof image, program, sizeof program, new_image,
                                   sizeof new_image, listing, sizeof listing, answer, 1000000);
    fwrite(listing, 1, answer[RAFENUMA_LISTING], stdout);
    printf("packed %llu, numbers", (unsigned long long)packed);
    for (int i = 0; i < 8; i++)
        printf(" %llu", (unsigned long long)answer[i]);
    uint64_t verdict = rafenuma_admit(program, sizeof program, kinds);
    printf("\nadmission %llu at %llu\n", (unsigned long long)(verdict % 256), (unsigned long long)(verdict / 256));
    printf("image %llu\n", (unsigned long long)rafenuma_test_image(new_image, answer[RAFENUMA_NEW_IMAGE]));
    return 0;
}
