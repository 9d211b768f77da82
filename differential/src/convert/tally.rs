//! What the calls that convert dates and moments have counted.

use crate::date::Date;
use crate::limits::SECOND;
use crate::tally::{print_numbers, seldom, Numbers, WIDTHS};

/// The numbers that each of the two calls can return.
const NUMBERS: [u8; 2] = [0, 11];

pub struct ConvertTally {
    moments: Numbers,
    dates: Numbers,
    /// Refused dates that would exist if their numbers were cut, by the width.
    cut: [u64; WIDTHS.len()],
    /// Moments before 2000 between the beginnings of two seconds.
    rounded_down: u64,
}

impl ConvertTally {
    pub fn new() -> ConvertTally {
        ConvertTally {
            moments: [0; 256],
            dates: [0; 256],
            cut: [0; WIDTHS.len()],
            rounded_down: 0,
        }
    }

    pub fn moment_of(&mut self, date: Date, number: u8) {
        self.moments[usize::from(number)] += 1;
        for (width, count) in WIDTHS.iter().zip(&mut self.cut) {
            if number != 0 && date.cut(*width).exists() {
                *count += 1;
            }
        }
    }

    pub fn date_of(&mut self, moment: i64, number: u8) {
        self.dates[usize::from(number)] += 1;
        if number == 0 && moment < 0 && moment % SECOND != 0 {
            self.rounded_down += 1;
        }
    }

    /// How many conversions both sides were asked for.
    pub fn count(&self) -> u64 {
        self.moments.iter().chain(&self.dates).sum()
    }

    pub fn print(&self) {
        print_numbers("boardtime_moment_of", &self.moments);
        for (width, count) in WIDTHS.iter().zip(&self.cut) {
            println!("  dates whose lower {width} bits would exist: {count} times");
        }
        print_numbers("boardtime_date_of", &self.dates);
        println!(
            "  moments before 2000 between two seconds: {} times",
            self.rounded_down
        );
    }

    pub fn missing(&self, enough: u64) -> Vec<String> {
        let mut missing = seldom(enough, "boardtime_moment_of", &NUMBERS, &self.moments);
        missing.extend(seldom(enough, "boardtime_date_of", &NUMBERS, &self.dates));
        for (width, count) in WIDTHS.iter().zip(&self.cut) {
            if *count < enough {
                missing.push(format!(
                    "less than {enough} dates whose lower {width} bits would exist"
                ));
            }
        }
        if self.rounded_down < enough {
            missing.push(format!(
                "less than {enough} moments before 2000 between two seconds"
            ));
        }
        missing
    }
}
