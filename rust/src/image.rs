//! The calls of the library on an image that may have any length, as
//! `include/boardtime.h` declares them but with slices.

pub use crate::returned::Returned;

/// The number that a call returns if the image is not 360 bytes long. Nothing
/// is touched then.
pub const WRONG_LENGTH: u8 = 255;

mod foreign {
    extern "C" {
        pub fn boardtime_fresh(image: *mut u8, image_length: usize) -> u8;
        pub fn boardtime_line(
            image: *mut u8,
            image_length: usize,
            line: *const u8,
            line_length: usize,
            out: *mut u8,
            out_length: usize,
        ) -> u32;
        pub fn boardtime_pass(image: *mut u8, image_length: usize, ticks: u64) -> u8;
    }
}

/// Stores the image of a fresh keeper. Returns 0 or `WRONG_LENGTH`.
pub fn fresh(image: &mut [u8]) -> u8 {
    // SAFETY: the pointer of a slice is not null and is valid for its length,
    // which is all that the library asks.
    unsafe { foreign::boardtime_fresh(image.as_mut_ptr(), image.len()) }
}

/// Answers one line, given without its LF, at the front of `out`. Returns 0, 1
/// to 12, or `WRONG_LENGTH`; 10 and `WRONG_LENGTH` come with length 0.
pub fn line(image: &mut [u8], line: &[u8], out: &mut [u8]) -> Returned {
    // SAFETY: the pointers of the slices are not null and each is valid for
    // its length. The image and the output are borrowed mutably, so neither
    // overlaps another slice.
    Returned::from_whole(unsafe {
        foreign::boardtime_line(
            image.as_mut_ptr(),
            image.len(),
            line.as_ptr(),
            line.len(),
            out.as_mut_ptr(),
            out.len(),
        )
    })
}

/// Lets ticks pass; more than 86400000 are refused with 2. Returns 0, 2, 3, 5
/// or `WRONG_LENGTH`.
pub fn pass(image: &mut [u8], ticks: u64) -> u8 {
    // SAFETY: as in `fresh`.
    unsafe { foreign::boardtime_pass(image.as_mut_ptr(), image.len(), ticks) }
}
