//! The calls of the library that convert dates and moments, as
//! `include/boardtime.h` declares them but with references. `Date::moment` and
//! `Date::of` are made of these.

use crate::date::Date;

mod foreign {
    use super::Date;

    extern "C" {
        pub fn boardtime_moment_of(date: *const Date, moment: *mut i64) -> u8;
        pub fn boardtime_date_of(moment: i64, date: *mut Date) -> u8;
    }
}

/// Stores the moment at which the second of a date begins. Returns 0; or 11,
/// with 0 stored.
pub fn moment_of(date: &Date, moment: &mut i64) -> u8 {
    // SAFETY: a reference is valid and aligned. The moment is borrowed mutably,
    // so it does not overlap the date.
    unsafe { foreign::boardtime_moment_of(date, moment) }
}

/// Stores the date in whose second a moment falls. Returns 0; or 11, with six
/// zeros stored.
pub fn date_of(moment: i64, date: &mut Date) -> u8 {
    // SAFETY: a reference is valid and aligned.
    unsafe { foreign::boardtime_date_of(moment, date) }
}
