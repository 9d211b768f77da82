//! The calls of the library that write a line, as `include/boardtime.h`
//! declares them but with slices. `Command::write` and `plain` are made of
//! these.
//!
//! Each stores its line, without an LF, at the front of `out` and touches no
//! byte after it. It returns 10 if `out` is shorter than 256 bytes, else the
//! number of another refusal, else 0. A refusal comes with length 0, and `out`
//! is then as it was. The ranges are those of `Command`.

use crate::date::Date;
pub use crate::returned::Returned;

mod foreign {
    use super::Date;

    extern "C" {
        pub fn boardtime_write_start(
            out: *mut u8,
            out_length: usize,
            board: u64,
            rule: u64,
            claim: u64,
            lower: i64,
            upper: i64,
        ) -> u32;
        pub fn boardtime_write_pass(out: *mut u8, out_length: usize, ticks: u64) -> u32;
        pub fn boardtime_write_request(out: *mut u8, out_length: usize, peer: u64) -> u32;
        pub fn boardtime_write_reply(
            out: *mut u8,
            out_length: usize,
            peer: u64,
            tag: u64,
            trailing: i64,
            leading: i64,
        ) -> u32;
        pub fn boardtime_write_drop(out: *mut u8, out_length: usize, peer: u64) -> u32;
        pub fn boardtime_write_read(out: *mut u8, out_length: usize) -> u32;
        pub fn boardtime_write_waiting(out: *mut u8, out_length: usize) -> u32;
        pub fn boardtime_write_window(
            out: *mut u8,
            out_length: usize,
            slot: u64,
            start: *const Date,
            end: *const Date,
        ) -> u32;
        pub fn boardtime_write_flight(
            out: *mut u8,
            out_length: usize,
            peer: u64,
            out_time: u64,
            back_time: u64,
        ) -> u32;
        pub fn boardtime_plain(
            line: *const u8,
            line_length: usize,
            out: *mut u8,
            out_length: usize,
        ) -> u32;
    }
}

/// `(start BOARD RULE CLAIM (LOWER UPPER))`, where the rule is 0 for im and 1
/// for mm. Returns 0, 2 or 10.
pub fn write_start(
    out: &mut [u8],
    board: u64,
    rule: u64,
    claim: u64,
    lower: i64,
    upper: i64,
) -> Returned {
    // SAFETY: the pointer of a slice is not null and is valid for its length,
    // which is all that the library asks.
    Returned::from_whole(unsafe {
        foreign::boardtime_write_start(
            out.as_mut_ptr(),
            out.len(),
            board,
            rule,
            claim,
            lower,
            upper,
        )
    })
}

/// `(pass TICKS)`. Returns 0, 2 or 10.
pub fn write_pass(out: &mut [u8], ticks: u64) -> Returned {
    // SAFETY: as in `write_start`.
    Returned::from_whole(unsafe {
        foreign::boardtime_write_pass(out.as_mut_ptr(), out.len(), ticks)
    })
}

/// `(request PEER)`. Returns 0, 2 or 10.
pub fn write_request(out: &mut [u8], peer: u64) -> Returned {
    // SAFETY: as in `write_start`.
    Returned::from_whole(unsafe {
        foreign::boardtime_write_request(out.as_mut_ptr(), out.len(), peer)
    })
}

/// `(reply PEER TAG (TRAILING LEADING))`. Returns 0, 2 or 10.
pub fn write_reply(out: &mut [u8], peer: u64, tag: u64, trailing: i64, leading: i64) -> Returned {
    // SAFETY: as in `write_start`.
    Returned::from_whole(unsafe {
        foreign::boardtime_write_reply(out.as_mut_ptr(), out.len(), peer, tag, trailing, leading)
    })
}

/// `(drop PEER)`. Returns 0, 2 or 10.
pub fn write_drop(out: &mut [u8], peer: u64) -> Returned {
    // SAFETY: as in `write_start`.
    Returned::from_whole(unsafe {
        foreign::boardtime_write_drop(out.as_mut_ptr(), out.len(), peer)
    })
}

/// `(read)`. Returns 0 or 10.
pub fn write_read(out: &mut [u8]) -> Returned {
    // SAFETY: as in `write_start`.
    Returned::from_whole(unsafe { foreign::boardtime_write_read(out.as_mut_ptr(), out.len()) })
}

/// `(waiting)`. Returns 0 or 10.
pub fn write_waiting(out: &mut [u8]) -> Returned {
    // SAFETY: as in `write_start`.
    Returned::from_whole(unsafe { foreign::boardtime_write_waiting(out.as_mut_ptr(), out.len()) })
}

/// `(window SLOT (DATE DATE))`. Returns 0, 2, 10, 11 or 12.
pub fn write_window(out: &mut [u8], slot: u64, start: &Date, end: &Date) -> Returned {
    // SAFETY: as in `write_start`; and a reference to a date is valid and
    // aligned. The output is borrowed mutably, so it overlaps no date.
    Returned::from_whole(unsafe {
        foreign::boardtime_write_window(out.as_mut_ptr(), out.len(), slot, start, end)
    })
}

/// `(flight PEER (OUT BACK))`. Returns 0, 2 or 10.
pub fn write_flight(out: &mut [u8], peer: u64, out_time: u64, back_time: u64) -> Returned {
    // SAFETY: as in `write_start`.
    Returned::from_whole(unsafe {
        foreign::boardtime_write_flight(out.as_mut_ptr(), out.len(), peer, out_time, back_time)
    })
}

/// Reads a line, given without its LF, and writes its command: the line without
/// its `_`. Returns 0, 1, 2, 10, 11 or 12.
pub fn plain(line: &[u8], out: &mut [u8]) -> Returned {
    // SAFETY: the pointers of the slices are not null and each is valid for
    // its length. The output is borrowed mutably, so it does not overlap the
    // line.
    Returned::from_whole(unsafe {
        foreign::boardtime_plain(line.as_ptr(), line.len(), out.as_mut_ptr(), out.len())
    })
}
