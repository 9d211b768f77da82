//! The two calls that convert dates and moments.

use independent::{date_of, moment_of};

use crate::order::DATES;
use crate::random::Random;
use crate::reference::{exists, moment};

const SECOND: i64 = 1_000_000_000;
const DAY: i64 = 86_400 * SECOND;

/// The first and the last second of the calendar.
const FIRST: [u64; 6] = [1900, 1, 1, 0, 0, 0];
const LAST: [u64; 6] = [2099, 12, 31, 23, 59, 59];

const NO_MOMENT: (u8, i64) = (11, 0);
const NO_DATE: (u8, [u64; 6]) = (11, [0; 6]);

/// The second of this date begins at `moment`, and ends one second later.
fn assert_second(date: [u64; 6], moment: i64) {
    assert_eq!(moment_of(date), (0, moment), "{date:?}");
    assert_eq!(date_of(moment), (0, date), "{moment}");
    assert_eq!(date_of(moment + SECOND - 1), (0, date), "{moment}");
    assert_ne!(date_of(moment - 1).1, date, "{moment}");
    assert_ne!(date_of(moment + SECOND).1, date, "{moment}");
}

#[test]
fn moment_0() {
    assert_second([2000, 1, 1, 0, 0, 0], 0);
    assert_second([1999, 12, 31, 23, 59, 59], -SECOND);
    assert_eq!(date_of(-1), (0, [1999, 12, 31, 23, 59, 59]));
    assert_eq!(date_of(-SECOND - 1), (0, [1999, 12, 31, 23, 59, 58]));
    assert_eq!(date_of(1), (0, [2000, 1, 1, 0, 0, 0]));
}

#[test]
fn known_moments() {
    for (date, seconds) in [
        ([2000, 1, 1, 0, 1, 0], 60),
        ([2000, 1, 1, 1, 0, 0], 3600),
        ([2000, 1, 2, 0, 0, 0], 86_400),
        ([2000, 2, 1, 0, 0, 0], 31 * 86_400),
        ([2000, 2, 29, 0, 0, 0], 59 * 86_400),
        ([2000, 3, 1, 0, 0, 0], 60 * 86_400),
        ([2001, 1, 1, 0, 0, 0], 366 * 86_400),
        ([1999, 1, 1, 0, 0, 0], -365 * 86_400),
        // The seconds of another scale, whose 0 is 1970-01-01.
        ([1970, 1, 1, 0, 0, 0], -946_684_800),
        ([2009, 2, 13, 23, 31, 30], 1_234_567_890 - 946_684_800),
        ([2038, 1, 19, 3, 14, 7], 2_147_483_647 - 946_684_800),
    ] {
        assert_second(date, seconds * SECOND);
    }
}

#[test]
fn leap_days() {
    for (year, leap) in [
        (1900, false),
        (1904, true),
        (1999, false),
        (2000, true),
        (2004, true),
        (2001, false),
        (2096, true),
        (2099, false),
    ] {
        let date = [year, 2, 29, 0, 0, 0];
        let february = moment_of([year, 2, 28, 0, 0, 0]).1;
        let march = [year, 3, 1, 0, 0, 0];
        if leap {
            assert_second(date, february + DAY);
            assert_second(march, february + 2 * DAY);
        } else {
            assert_eq!(moment_of(date), NO_MOMENT);
            assert_second(march, february + DAY);
        }
        assert_eq!(moment_of([year, 2, 30, 0, 0, 0]), NO_MOMENT);
    }
}

#[test]
fn the_ends_of_the_calendar() {
    // 36524 days before moment 0, and 36525 days after it.
    let (first, end) = (-36_524 * DAY, 36_525 * DAY);
    assert_second(FIRST, first);
    assert_second([1900, 1, 1, 0, 0, 1], first + SECOND);
    assert_second(LAST, end - SECOND);
    assert_second([2099, 12, 31, 23, 59, 58], end - 2 * SECOND);

    assert_eq!(moment_of([1899, 12, 31, 23, 59, 59]), NO_MOMENT);
    assert_eq!(moment_of([2100, 1, 1, 0, 0, 0]), NO_MOMENT);
    let outside = [
        first - 1,
        first - SECOND,
        first - SECOND - 1,
        end,
        end + 1,
        end + SECOND,
    ];
    for moment in outside {
        assert_eq!(date_of(moment), NO_DATE, "{moment}");
    }
}

#[test]
fn moments_far_outside() {
    let range_end = 4_000_000_000_000_000_000;
    for moment in [range_end, range_end + 1, i64::MAX - 1, i64::MAX] {
        assert_eq!(date_of(moment), NO_DATE, "{moment}");
        assert_eq!(date_of(-moment), NO_DATE, "{moment}");
    }
    assert_eq!(date_of(i64::MIN), NO_DATE);
}

#[test]
fn dates_that_do_not_exist() {
    for (place, values) in [
        (0, &[0, 1, 1899, 2100, 9999][..]),
        (1, &[0, 13, 99]),
        (2, &[0, 32, 99]),
        (3, &[24, 25, 99]),
        (4, &[60, 61, 99]),
        (5, &[60, 61, 99]),
    ] {
        for base in [FIRST, LAST, [2000, 1, 1, 0, 0, 0]] {
            for &value in values {
                let mut date = base;
                date[place] = value;
                assert_eq!(moment_of(date), NO_MOMENT, "{date:?}");
            }
        }
    }
    for month in [4, 6, 9, 11] {
        assert_eq!(moment_of([2000, month, 31, 0, 0, 0]), NO_MOMENT);
        assert_eq!(moment_of([2000, month, 30, 0, 0, 0]).0, 0);
    }
}

#[test]
fn no_field_is_cut_short() {
    let base = [2000, 1, 1, 0, 0, 0];
    for place in 0..6 {
        let width = if place == 0 { 10_000 } else { 100 };
        for added in [width, 256, 1 << 16, 1 << 32, 1 << 63] {
            let mut date = base;
            date[place] += added;
            assert_eq!(moment_of(date), NO_MOMENT, "{date:?}");
        }
        let mut date = base;
        date[place] = u64::MAX;
        assert_eq!(moment_of(date), NO_MOMENT, "{date:?}");
    }
}

#[test]
fn the_sample_dates() {
    for date in DATES {
        if exists(date) {
            assert_second(date, moment(date));
        } else {
            assert_eq!(moment_of(date), NO_MOMENT, "{date:?}");
        }
    }
}

#[test]
fn every_day() {
    let lengths = [31, 28, 31, 30, 31, 30, 31, 31, 30, 31, 30, 31];
    let mut days = -36_524;
    for year in 1900..=2099 {
        for month in 1..=12 {
            let leap_day = u64::from(month == 2 && year % 4 == 0 && year != 1900);
            let last = lengths[month as usize - 1] + leap_day;
            for day in 1..=last {
                let begin = days * DAY;
                assert_eq!(moment_of([year, month, day, 0, 0, 0]), (0, begin));
                assert_eq!(date_of(begin), (0, [year, month, day, 0, 0, 0]));
                let end = [year, month, day, 23, 59, 59];
                assert_eq!(moment_of(end), (0, begin + DAY - SECOND));
                assert_eq!(date_of(begin + DAY - 1), (0, end));
                days += 1;
            }
            assert_eq!(moment_of([year, month, 0, 0, 0, 0]), NO_MOMENT);
            assert_eq!(moment_of([year, month, last + 1, 0, 0, 0]), NO_MOMENT);
        }
    }
    assert_eq!(days, 36_525);
}

#[test]
fn every_second_of_a_day() {
    for day in [[1999, 12, 31], [2000, 2, 29]] {
        let [year, month, day] = day;
        let begin = moment([year, month, day, 0, 0, 0]);
        for second in 0..86_400 {
            let date = [
                year,
                month,
                day,
                second / 3600,
                second / 60 % 60,
                second % 60,
            ];
            let begin = begin + second as i64 * SECOND;
            assert_eq!(moment_of(date), (0, begin));
            assert_eq!(date_of(begin), (0, date));
            assert_eq!(date_of(begin + SECOND - 1), (0, date));
        }
    }
}

#[test]
fn random_moments() {
    let mut random = Random(0x00C0_FFEE_1234_5678);
    let mut seen = [0, 0];
    for _ in 0..100_000 {
        let asked = random.next() as i64 >> random.below(8);
        let (number, date) = date_of(asked);
        seen[usize::from(number == 0)] += 1;
        if number == 0 {
            assert!(exists(date));
            let begin = moment(date);
            assert!(begin <= asked && asked - begin < SECOND, "{asked}");
            assert_eq!(moment_of(date), (0, begin));
        } else {
            assert_eq!((number, date), NO_DATE);
            assert!(asked < moment(FIRST) || asked >= moment(LAST) + SECOND);
        }
    }
    assert!(seen.iter().all(|&count| count > 1000), "{seen:?}");
}

#[test]
fn random_fields() {
    let mut random = Random(0x7777_ABCD_0123_4567);
    let mut seen = [0, 0];
    for _ in 0..100_000 {
        let mut field = |from: u64, count: u64| from + random.below(count);
        let date = [
            field(1890, 220),
            field(0, 14),
            field(0, 33),
            field(0, 25),
            field(0, 61),
            field(0, 61),
        ];
        let found = exists(date);
        seen[usize::from(found)] += 1;
        let expected = if found { (0, moment(date)) } else { NO_MOMENT };
        assert_eq!(moment_of(date), expected, "{date:?}");
    }
    assert!(seen.iter().all(|&count| count > 1000), "{seen:?}");
}
