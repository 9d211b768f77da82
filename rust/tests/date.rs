//! The wrapper's own duties where dates and moments are converted: what it hands
//! to the library and what it hands back. The package `differential` tests the
//! library.

use boardtime::{dates, Date, Refusal};

const FIRST_MOMENT: i64 = -3_155_673_600_000_000_000;
const LAST_MOMENT: i64 = 3_155_759_999_999_999_999;
const SECOND: i64 = 1_000_000_000;
const ZEROS: Date = date(0, 0, 0, [0, 0, 0]);

/// Dates with numbers that differ, so that none can stand for another, and dates
/// at the limits, each with the moment at which its second begins.
const DATES: [(Date, i64); 8] = [
    (date(2000, 1, 1, [0, 0, 0]), 0),
    (date(1999, 12, 31, [23, 59, 59]), -SECOND),
    (date(2000, 1, 1, [0, 0, 1]), SECOND),
    (date(2000, 2, 29, [0, 0, 0]), 59 * 86_400 * SECOND),
    (date(1900, 1, 1, [0, 0, 0]), FIRST_MOMENT),
    (
        date(1900, 3, 1, [0, 0, 0]),
        FIRST_MOMENT + 59 * 86_400 * SECOND,
    ),
    (date(2099, 12, 31, [23, 59, 59]), LAST_MOMENT - (SECOND - 1)),
    (date(2001, 2, 3, [4, 5, 6]), 34_488_306 * SECOND),
];

/// The first number that is refused at each place, and numbers that would be
/// accepted if they were cut short.
const NO_DATES: [Date; 20] = [
    date(1899, 12, 31, [23, 59, 59]),
    date(2100, 1, 1, [0, 0, 0]),
    date(2000, 0, 1, [0, 0, 0]),
    date(2000, 13, 1, [0, 0, 0]),
    date(2000, 1, 0, [0, 0, 0]),
    date(2000, 1, 32, [0, 0, 0]),
    date(2000, 4, 31, [0, 0, 0]),
    date(1900, 2, 29, [0, 0, 0]),
    date(1999, 2, 29, [0, 0, 0]),
    date(2000, 2, 30, [0, 0, 0]),
    date(2000, 1, 1, [24, 0, 0]),
    date(2000, 1, 1, [0, 60, 0]),
    date(1998, 12, 31, [23, 59, 60]),
    date(2000 + (1 << 16), 1, 1, [0, 0, 0]),
    date(2000, 257, 1, [0, 0, 0]),
    date(2000, 1, (1 << 16) + 1, [0, 0, 0]),
    date(2000, 1, 1, [256, 0, 0]),
    date(2000, 1, 1, [0, 1 << 32, 0]),
    date(2000, 1, 1, [0, 0, u64::MAX]),
    ZEROS,
];

const fn date(year: u64, month: u64, day: u64, [hour, minute, second]: [u64; 3]) -> Date {
    Date {
        year,
        month,
        day,
        hour,
        minute,
        second,
    }
}

#[test]
fn each_date_has_its_moment() {
    for (date, moment) in DATES {
        assert_eq!(date.moment(), Ok(moment), "{date:?}");
    }
}

/// From the moment at which the second begins to the last one before the next.
#[test]
fn the_moments_of_a_second_have_its_date() {
    for (date, moment) in DATES {
        for within in [0, 1, SECOND - 1] {
            assert_eq!(Date::of(moment + within), Ok(date), "{moment} + {within}");
        }
    }
    assert_eq!(Date::of(-1), Ok(date(1999, 12, 31, [23, 59, 59])));
}

#[test]
fn the_first_and_the_last_moment_have_dates() {
    assert_eq!(Date::of(FIRST_MOMENT), Ok(date(1900, 1, 1, [0, 0, 0])));
    assert_eq!(Date::of(LAST_MOMENT), Ok(date(2099, 12, 31, [23, 59, 59])));
    for moment in [FIRST_MOMENT - 1, LAST_MOMENT + 1, i64::MIN, i64::MAX] {
        assert_eq!(Date::of(moment), Err(Refusal::NoDate), "{moment}");
    }
}

#[test]
fn dates_that_do_not_exist_have_no_moment() {
    for date in NO_DATES {
        assert_eq!(date.moment(), Err(Refusal::NoDate), "{date:?}");
    }
}

#[test]
fn refused_calls_store_zeros() {
    for date in NO_DATES {
        let mut moment = 5;
        assert_eq!(dates::moment_of(&date, &mut moment), 11);
        assert_eq!(moment, 0);
    }
    for moment in [FIRST_MOMENT - 1, LAST_MOMENT + 1] {
        let mut date = DATES[7].0;
        assert_eq!(dates::date_of(moment, &mut date), 11);
        assert_eq!(date, ZEROS);
    }
}
