//! Dates and moments that both sides convert.

mod guarded;
mod tally;

use std::fmt;
use std::process;

use boardtime::dates as library;

pub use tally::ConvertTally;

use crate::date::Date;
use crate::limits::{FIRST_DATED, LAST_DATED};
use crate::test::Test;
use guarded::Guarded;

const NO_DATE: u8 = 11;

#[derive(Clone, Copy)]
enum Call {
    MomentOf(Date),
    DateOf(i64),
}

/// The number that a call returned, and what it stored.
type Converted<T> = (u8, T);

impl Test {
    /// Has both sides give the moment of a date, and returns it if the date
    /// exists. It then has to be the one that is known, if one is.
    pub fn moment_of(&mut self, date: Date, known: Option<i64>) -> Option<i64> {
        self.tally.case();
        let expected = if date.exists() {
            (0, known)
        } else {
            (NO_DATE, Some(0))
        };
        let by_library = self.moment_by_library(date);
        let by_independent = independent::moment_of(date.0);
        let found = compare(expected, by_library, by_independent);
        self.judge(Call::MomentOf(date), found);
        self.tally.conversions.moment_of(date, expected.0);
        (expected.0 == 0).then_some(by_library.1)
    }

    /// Has both sides give the date of a moment, and returns it if there is one.
    /// It then has to be the one that is known, if one is.
    pub fn date_of(&mut self, moment: i64, known: Option<Date>) -> Option<Date> {
        self.tally.case();
        let expected = if (FIRST_DATED..=LAST_DATED).contains(&moment) {
            (0, known)
        } else {
            (NO_DATE, Some(Date::ZEROS))
        };
        let by_library = self.date_by_library(moment);
        let (number, date) = independent::date_of(moment);
        let found = compare(expected, by_library, (number, Date(date)));
        self.judge(Call::DateOf(moment), found);
        self.tally.conversions.date_of(moment, expected.0);
        (expected.0 == 0).then_some(by_library.1)
    }

    fn moment_by_library(&mut self, date: Date) -> Converted<i64> {
        let word = self.word();
        let mut lent = Guarded::new(word, word as i64);
        let given = date.to_library();
        let number = library::moment_of(&given, &mut lent.place);
        let mut found = lent.untouched(word);
        if Date::from_library(given) != date {
            found = Err("the date was changed".into());
        }
        self.judge(Call::MomentOf(date), found);
        (number, lent.place)
    }

    fn date_by_library(&mut self, moment: i64) -> Converted<Date> {
        let word = self.word();
        let mut lent = Guarded::new(word, Date([word; 6]).to_library());
        let number = library::date_of(moment, &mut lent.place);
        self.judge(Call::DateOf(moment), lent.untouched(word));
        (number, Date::from_library(lent.place))
    }

    /// A mismatch ends the test.
    fn judge(&self, call: Call, found: Result<(), String>) {
        if let Err(difference) = found {
            println!("MISMATCH: {difference}");
            println!("{}", self.case_in_words());
            println!("call: {call}");
            process::exit(1);
        }
    }
}

/// Compares the sides with each other, and with what is known without either.
fn compare<T: PartialEq + fmt::Debug>(
    expected: Converted<Option<T>>,
    by_library: Converted<T>,
    by_independent: Converted<T>,
) -> Result<(), String> {
    let difference = if by_library != by_independent {
        "the sides differ"
    } else if by_library.0 != expected.0 {
        "the number is another one than expected"
    } else if expected.1.as_ref().is_some_and(|one| *one != by_library.1) {
        "what is stored is not what was expected"
    } else {
        return Ok(());
    };
    Err(format!(
        "{difference}\n  expected:    {expected:?}\n  library:     {by_library:?}\n  \
         independent: {by_independent:?}"
    ))
}

impl fmt::Display for Call {
    fn fmt(&self, f: &mut fmt::Formatter<'_>) -> fmt::Result {
        match self {
            Call::MomentOf(date) => write!(f, "moment of {date}"),
            Call::DateOf(moment) => write!(f, "date of {moment}"),
        }
    }
}

#[cfg(test)]
mod tests {
    use super::compare;

    #[test]
    fn every_difference_is_found() {
        assert_eq!(compare((0, Some(5)), (0, 5), (0, 5)), Ok(()));
        assert_eq!(compare((0, None), (0, 5), (0, 5)), Ok(()));
        assert_eq!(compare((11, Some(0)), (11, 0), (11, 0)), Ok(()));
        for (expected, by_library, by_independent) in [
            ((0, None), (0, 5), (0, 6)),
            ((0, None), (0, 0), (11, 0)),
            // What is wrong on both sides is no difference between them.
            ((0, Some(5)), (0, 6), (0, 6)),
            ((0, None), (11, 0), (11, 0)),
            ((11, Some(0)), (0, 0), (0, 0)),
            ((11, Some(0)), (11, 5), (11, 5)),
        ] {
            assert!(compare(expected, by_library, by_independent).is_err());
        }
    }
}
