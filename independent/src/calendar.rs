//! The two calls that write no line: they "convert dates and moments both
//! ways; a refused one gives its number and zeros". The years and months from
//! the beginning of the first year are counted one by one.

use crate::date::Date;
use crate::gregorian::{days_in_month, days_in_year};
use crate::limits::{FIRST_YEAR, SECOND};
use crate::refusal::Refusal;

const MINUTE: u64 = 60;
const HOUR: u64 = 60 * MINUTE;
const DAY: u64 = 24 * HOUR;

/// Seconds from the beginning of the first year to moment 0: "Moment 0 is
/// 2000-01-01T00:00:00".
const EPOCH: i64 = (days_before_year(2000) * DAY) as i64;

/// The moment at which a second begins. The date is its year, month, day,
/// hour, minute and second. Returns 0 and the moment, or 11 and 0.
pub fn moment_of(date: [u64; 6]) -> (u8, i64) {
    match Date::new(date) {
        Ok(date) => (0, date.moment()),
        Err(refusal) => (refusal.number(), 0),
    }
}

/// The date of the second in which a moment falls. Returns 0 and its year,
/// month, day, hour, minute and second, or 11 and six zeros.
pub fn date_of(moment: i64) -> (u8, [u64; 6]) {
    match Date::at(moment) {
        Ok(date) => (0, date.fields()),
        Err(refusal) => (refusal.number(), [0; 6]),
    }
}

impl Date {
    /// The moment at which this second begins. It is within 3.2 * 10^18 of 0.
    pub(crate) fn moment(self) -> i64 {
        let days =
            days_before_year(self.year) + days_before_month(self.year, self.month) + self.day - 1;
        let seconds = days * DAY + self.hour * HOUR + self.minute * MINUTE + self.second;
        (seconds as i64 - EPOCH) * SECOND
    }

    /// The date of the second in which the moment falls.
    fn at(moment: i64) -> Result<Date, Refusal> {
        // "A moment before 2000 falls in the second that began at or before
        // it": with a positive divisor, Euclidean division rounds toward minus
        // infinity.
        let second = moment.div_euclid(SECOND) + EPOCH;
        let Ok(second) = u64::try_from(second) else {
            return Err(Refusal::NoDate);
        };
        let [year, month, day] = day_at(second / DAY);
        let (hour, minute) = (second % DAY / HOUR, second % HOUR / MINUTE);
        // "A moment outside those years has no date": one after the last year
        // is refused here.
        Date::new([year, month, day, hour, minute, second % MINUTE])
    }
}

/// Days from the beginning of the first year to that of `year`.
const fn days_before_year(year: u64) -> u64 {
    let mut days = 0;
    let mut counted = FIRST_YEAR;
    while counted < year {
        days += days_in_year(counted);
        counted += 1;
    }
    days
}

/// Days from the beginning of the year to that of `month`.
fn days_before_month(year: u64, month: u64) -> u64 {
    (1..month).map(|counted| days_in_month(year, counted)).sum()
}

/// Year, month and day after `days` days from the beginning of the first year.
/// No moment is more than 400 years after it.
fn day_at(days: u64) -> [u64; 3] {
    let mut rest = days;
    let mut year = FIRST_YEAR;
    while rest >= days_in_year(year) {
        rest -= days_in_year(year);
        year += 1;
    }
    let mut month = 1;
    while rest >= days_in_month(year, month) {
        rest -= days_in_month(year, month);
        month += 1;
    }
    [year, month, rest + 1]
}
