//! A date and the test of one that a caller or a line gives.

use crate::gregorian::days_in_month;
use crate::limits::{FIRST_YEAR, LAST_YEAR};
use crate::refusal::Refusal;

/// A date that exists: "Gregorian calendar, years 1900 through 2099".
#[derive(Clone, Copy, PartialEq, Eq, Debug)]
pub struct Date {
    pub year: u64,
    pub month: u64,
    pub day: u64,
    pub hour: u64,
    pub minute: u64,
    pub second: u64,
}

impl Date {
    /// Makes a date of its year, month, day, hour, minute and second. They are
    /// taken in 64 bits, so that no field is cut before its test: one that is
    /// wider than its place makes no date.
    pub fn new(fields: [u64; 6]) -> Result<Date, Refusal> {
        let [year, month, day, hour, minute, second] = fields;
        let date = Date {
            year,
            month,
            day,
            hour,
            minute,
            second,
        };
        if date.day_exists() && date.time_exists() {
            Ok(date)
        } else {
            Err(Refusal::NoDate)
        }
    }

    pub fn fields(self) -> [u64; 6] {
        [
            self.year,
            self.month,
            self.day,
            self.hour,
            self.minute,
            self.second,
        ]
    }

    fn day_exists(self) -> bool {
        (FIRST_YEAR..=LAST_YEAR).contains(&self.year)
            && (1..=12).contains(&self.month)
            && (1..=days_in_month(self.year, self.month)).contains(&self.day)
    }

    /// The scale is "without leap seconds", so no minute has a second 60.
    fn time_exists(self) -> bool {
        self.hour < 24 && self.minute < 60 && self.second < 60
    }
}
