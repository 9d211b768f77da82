//! A date, and its moment.

use crate::dates;
use crate::refusal::{self, Refusal};

/// A date, laid out as in C. Its numbers may be any; it exists if the year is
/// 1900 to 2099, the month 1 to 12, the day 1 to the last of its month in the
/// Gregorian calendar, the hour 0 to 23, the minute and the second 0 to 59.
#[derive(Clone, Copy, PartialEq, Eq, Hash, Debug)]
#[repr(C)]
pub struct Date {
    pub year: u64,
    pub month: u64,
    pub day: u64,
    pub hour: u64,
    pub minute: u64,
    pub second: u64,
}

impl Date {
    /// Six zeros, which no date has.
    const NONE: Date = Date {
        year: 0,
        month: 0,
        day: 0,
        hour: 0,
        minute: 0,
        second: 0,
    };

    /// The moment at which the date's second begins, in nanoseconds from
    /// 2000-01-01T00:00:00 on a scale without leap seconds.
    ///
    /// Refused with `NoDate` if the date does not exist.
    ///
    /// ```
    /// use boardtime::{Date, Refusal};
    ///
    /// let leap = |year| Date { year, month: 2, day: 29, hour: 0, minute: 0, second: 0 };
    /// assert_eq!(leap(2000).moment(), Ok(59 * 86_400_000_000_000));
    /// assert_eq!(leap(1900).moment(), Err(Refusal::NoDate));
    /// ```
    pub fn moment(self) -> Result<i64, Refusal> {
        let mut moment = 0;
        refusal::result(dates::moment_of(&self, &mut moment))?;
        Ok(moment)
    }

    /// The date in whose second a moment falls: the second that began at or
    /// before it, also before 2000.
    ///
    /// Refused with `NoDate` outside the moments from -3155673600000000000
    /// through 3155759999999999999.
    ///
    /// ```
    /// use boardtime::{Date, Refusal};
    ///
    /// let date = Date::of(-1)?;
    /// assert_eq!((date.year, date.month, date.day), (1999, 12, 31));
    /// assert_eq!((date.hour, date.minute, date.second), (23, 59, 59));
    /// # Ok::<(), Refusal>(())
    /// ```
    pub fn of(moment: i64) -> Result<Date, Refusal> {
        let mut date = Date::NONE;
        refusal::result(dates::date_of(moment, &mut date))?;
        Ok(date)
    }
}
