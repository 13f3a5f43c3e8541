//! A safe wrapper of the library for a host: what is lent is a slice, and each answer is a struct or an enum.

mod c {
    unsafe extern "C" {
        pub fn rafenuma_run(
            memory: *mut u8,
            memory_length: usize,
            image: *const u8,
            image_length: usize,
            program: *const u8,
            program_length: usize,
            new_image: *mut u8,
            new_image_length: usize,
            listing: *mut u8,
            listing_length: usize,
            answer: *mut u64,
            fuel: u64,
        ) -> u64;
        pub fn rafenuma_admit(program: *const u8, program_length: usize, kinds: *mut u8) -> u64;
        pub fn rafenuma_test_image(image: *const u8, image_length: usize) -> u64;
    }
}

/// How a run ended.
#[derive(Clone, Copy, Debug, PartialEq, Eq)]
pub enum Outcome {
    Done,
    Paused,
    Refused,
}

/// A refusal (docs/REFERENCE.md, 'Refusals'): its number and its details, 0 for each that there is not.
#[derive(Clone, Copy, Debug, PartialEq, Eq)]
pub struct Refusal {
    pub number: u8,
    pub details: [u64; 2],
}

/// What came of a run.
#[derive(Clone, Copy, Debug, PartialEq, Eq)]
pub struct Run {
    pub outcome: Outcome,
    /// The finished instructions.
    pub finished: u64,
    /// Why the creation or the run was refused, or else the save after it.
    pub refusal: Option<Refusal>,
    /// The length of the listing that was written, or the length that it needs.
    pub listing: Result<usize, usize>,
    /// The length of the image that was saved last.
    pub new_image: usize,
}

/// Runs a program on a fresh machine over the tasks of an image. The image and the program are only read.
pub fn run(
    memory: &mut [u8],
    image: &[u8],
    program: &[u8],
    new_image: &mut [u8],
    listing: &mut [u8],
    fuel: u64,
) -> Run {
    let mut answer = [0u64; 8];
    // What is written is lent by `&mut`, so it overlaps nothing and nobody else touches it; the function is proved to stay inside.
    unsafe {
        c::rafenuma_run(
            memory.as_mut_ptr(),
            memory.len(),
            image.as_ptr(),
            image.len(),
            program.as_ptr(),
            program.len(),
            new_image.as_mut_ptr(),
            new_image.len(),
            listing.as_mut_ptr(),
            listing.len(),
            answer.as_mut_ptr(),
            fuel,
        )
    };
    let [outcome, finished, number, first, second, written, saved, needed] = answer;
    Run {
        outcome: match outcome {
            0 => Outcome::Done,
            1 => Outcome::Paused,
            _ => Outcome::Refused,
        },
        finished,
        refusal: (number != 0).then_some(Refusal { number: number as u8, details: [first, second] }),
        listing: if written == 0 { Err(needed as usize) } else { Ok(written as usize) },
        new_image: saved as usize,
    }
}

/// Whether a program is admitted: the letters of the kinds at its end, bottom first, or the refusal's number and place.
pub fn admit(program: &[u8]) -> Result<Vec<u8>, (u8, u64)> {
    let mut kinds = [0u8; 1000];
    let packed = unsafe { c::rafenuma_admit(program.as_ptr(), program.len(), kinds.as_mut_ptr()) };
    match (packed % 256, packed / 256) {
        (0, count) => Ok(kinds[..count as usize].to_vec()),
        (number, place) => Err((number as u8, place)),
    }
}

/// Whether a task image is sound; else the place of its first bad record.
pub fn test_image(image: &[u8]) -> Result<(), u64> {
    match unsafe { c::rafenuma_test_image(image.as_ptr(), image.len()) } {
        0 => Ok(()),
        packed => Err(packed / 256),
    }
}
