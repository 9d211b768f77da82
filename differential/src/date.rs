//! Dates as the calls are given them, and which of them exist.

use std::fmt;

use crate::limits::{FIRST_DATED, FIRST_YEAR, LAST_DATED, LAST_YEAR};

/// Places of the numbers of a date.
pub const YEAR: usize = 0;
pub const DAY: usize = 2;

/// Year, month, day, hour, minute and second. Any numbers will do. Dates that
/// exist are ordered as their seconds are.
#[derive(Clone, Copy, PartialEq, Eq, PartialOrd, Ord, Debug)]
pub struct Date(pub [u64; 6]);

impl Date {
    pub const FIRST: Date = Date([FIRST_YEAR, 1, 1, 0, 0, 0]);
    pub const LAST: Date = Date([LAST_YEAR, 12, 31, 23, 59, 59]);
    pub const ZEROS: Date = Date([0; 6]);

    /// The date of a moment, or of the nearest one that has a date. It is taken
    /// from one side, which is enough to make a case.
    pub fn near(moment: i64) -> Date {
        Date(independent::date_of(moment.clamp(FIRST_DATED, LAST_DATED)).1)
    }

    pub fn exists(self) -> bool {
        let Date([year, month, day, hour, minute, second]) = self;
        (FIRST_YEAR..=LAST_YEAR).contains(&year)
            && (1..=12).contains(&month)
            && (1..=last_day(year, month)).contains(&day)
            && hour < 24
            && minute < 60
            && second < 60
    }

    /// The date with another number at one place.
    pub fn with(self, place: usize, number: u64) -> Date {
        let Date(mut numbers) = self;
        numbers[place] = number;
        Date(numbers)
    }

    /// The same day at a second from 0 through 86399.
    pub fn at(self, second: u64) -> Date {
        let Date([year, month, day, ..]) = self;
        Date([
            year,
            month,
            day,
            second / 3600,
            second / 60 % 60,
            second % 60,
        ])
    }

    /// The first second of the next day.
    pub fn next_day(self) -> Date {
        let Date([year, month, day, ..]) = self;
        let next = if day < last_day(year, month) {
            [year, month, day + 1, 0, 0, 0]
        } else if month < 12 {
            [year, month + 1, 1, 0, 0, 0]
        } else {
            [year + 1, 1, 1, 0, 0, 0]
        };
        Date(next)
    }

    /// The date as a side would see it that looks at the lowest bits of each
    /// number alone. No year fits in 8 bits, so that the year keeps 16.
    pub fn cut(self, bits: u32) -> Date {
        let cut = |number: u64, bits: u32| number & ((1 << bits) - 1);
        let Date(numbers) = self;
        let year = cut(numbers[YEAR], bits.max(16));
        Date(numbers.map(|number| cut(number, bits))).with(YEAR, year)
    }

    pub fn to_library(self) -> boardtime::Date {
        let Date([year, month, day, hour, minute, second]) = self;
        boardtime::Date {
            year,
            month,
            day,
            hour,
            minute,
            second,
        }
    }

    pub fn from_library(date: boardtime::Date) -> Date {
        Date([
            date.year,
            date.month,
            date.day,
            date.hour,
            date.minute,
            date.second,
        ])
    }
}

/// The last day of a month of 1 through 12.
pub fn last_day(year: u64, month: u64) -> u64 {
    let is_leap = year.is_multiple_of(4) && (!year.is_multiple_of(100) || year.is_multiple_of(400));
    match month {
        2 if is_leap => 29,
        2 => 28,
        4 | 6 | 9 | 11 => 30,
        _ => 31,
    }
}

/// As it is spelled in a line.
impl fmt::Display for Date {
    fn fmt(&self, f: &mut fmt::Formatter<'_>) -> fmt::Result {
        let Date([year, month, day, hour, minute, second]) = self;
        write!(f, "{year:04}-{month:02}-{day:02}")?;
        write!(f, "T{hour:02}:{minute:02}:{second:02}")
    }
}

#[cfg(test)]
mod tests {
    use super::Date;

    #[test]
    fn dates_exist_as_the_text_says() {
        assert!(Date([2000, 2, 29, 0, 0, 0]).exists());
        assert!(Date::FIRST.exists() && Date::LAST.exists());
        for none in [
            [1900, 2, 29, 0, 0, 0],
            [1899, 12, 31, 23, 59, 59],
            [2100, 1, 1, 0, 0, 0],
            [2000, 13, 1, 0, 0, 0],
            [2000, 4, 31, 0, 0, 0],
            [2000, 1, 1, 24, 0, 0],
            [2000, 1, 1, 0, 60, 0],
            [2000, 1, 1, 0, 0, 60],
        ] {
            assert!(!Date(none).exists(), "{}", Date(none));
        }
    }

    #[test]
    fn days_follow_each_other() {
        for (day, next) in [
            ([1900, 2, 28, 5, 6, 7], [1900, 3, 1, 0, 0, 0]),
            ([2000, 2, 28, 0, 0, 0], [2000, 2, 29, 0, 0, 0]),
            ([2099, 12, 31, 0, 0, 0], [2100, 1, 1, 0, 0, 0]),
        ] {
            assert_eq!(Date(day).next_day(), Date(next));
        }
        assert_eq!(Date::LAST.at(86_399), Date::LAST);
    }

    #[test]
    fn numbers_are_cut() {
        let date = Date([2000 + (1 << 16), 257, 1 << 32, 0, 0, 0]);
        assert_eq!(date.cut(8), Date([2000, 1, 0, 0, 0, 0]));
        assert_eq!(date.cut(16), Date([2000, 257, 0, 0, 0, 0]));
        assert_eq!(date.cut(32), Date([67_536, 257, 0, 0, 0, 0]));
    }
}
