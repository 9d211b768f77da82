//! The lengths of the years and months of the Gregorian calendar.

/// Every fourth year has a 29 February, but of the years divisible by 100 only
/// those divisible by 400: "1900-02-29 doesn't exist; 2000-02-29 does."
const fn is_leap(year: u64) -> bool {
    if year.is_multiple_of(100) {
        year.is_multiple_of(400)
    } else {
        year.is_multiple_of(4)
    }
}

pub const fn days_in_year(year: u64) -> u64 {
    if is_leap(year) {
        366
    } else {
        365
    }
}

/// The days of a month, which is 1 through 12.
pub const fn days_in_month(year: u64, month: u64) -> u64 {
    match month {
        2 if is_leap(year) => 29,
        2 => 28,
        4 | 6 | 9 | 11 => 30,
        _ => 31,
    }
}
