//! The places of a line at which a numeral stands, one of every kind.

use crate::order::spelled;
use crate::reference::numeral;

const END: i128 = 4_000_000_000_000_000_000;

/// A line that is a command once its numeral is put in, and the range of that
/// numeral. Whatever stands elsewhere in the line allows the whole range.
pub struct Place {
    before: &'static str,
    after: &'static str,
    least: i128,
    most: i128,
}

const fn place(before: &'static str, after: &'static str, least: i128, most: i128) -> Place {
    Place {
        before,
        after,
        least,
        most,
    }
}

/// Board, claim, both edges of a start, ticks, the peers, tag, both edges of a
/// reply, slot, peer and both times of a flight.
#[rustfmt::skip]
pub const PLACES: [Place; 15] = [
    place("(start ", " im 200 (-1000 1000))", 0, 15),
    place("(start 3 mm ", " (-1000 1000))", 0, 50_000),
    place("(start 3 im 200 (", " 4000000000000000000))", -END, END),
    place("(start 3 im 200 (-4000000000000000000 ", "))", -END, END),
    place("(pass ", ")", 0, 86_400_000),
    place("(request ", ")", 0, 15),
    place("(drop ", ")", 0, 15),
    place("(reply ", " 1 (-1000 1000))", 0, 15),
    place("(reply 4 ", " (-1000 1000))", 1, 16_777_215),
    place("(reply 4 1 (", " 4000000000000000000))", -END, END),
    place("(reply 4 1 (-4000000000000000000 ", "))", -END, END),
    place("(window ", " (1999-12-31T23:59:59 2000-01-01T00:00:00))", 0, 15),
    place("(flight ", " (1000 1000000000))", 0, 15),
    place("(flight 4 (", " 1000))", 0, 1_000_000_000),
    place("(flight 4 (1000 ", "))", 0, 1_000_000_000),
];

impl Place {
    pub fn line(&self, word: &str) -> String {
        format!("{}{word}{}", self.before, self.after)
    }

    pub fn is_edge(&self) -> bool {
        self.least < 0
    }

    /// The limits of the range and the values beside them.
    pub fn limits(&self) -> [i128; 6] {
        let (least, most) = (self.least, self.most);
        [least - 1, least, least + 1, most - 1, most, most + 1]
    }

    /// The plain spelling of the line with this numeral, or the number of the
    /// refusal. `None` is a word that is no numeral.
    pub fn expected(&self, value: Option<i128>) -> Result<String, u8> {
        match value {
            // "Only edges may be negative; a '-' elsewhere breaks the shape."
            Some(value) if value >= 0 || self.is_edge() => {
                if self.least <= value && value <= self.most {
                    Ok(self.line(&value.to_string()))
                } else {
                    Err(2)
                }
            }
            _ => Err(1),
        }
    }

    /// Checks the line with this word, of which the second reading tells
    /// whether it is a numeral. Returns whether it is one at this place.
    pub fn check(&self, word: &str) -> bool {
        let line = self.line(word);
        let expected = self.expected(numeral(word));
        assert_eq!(spelled(&line), expected, "{line}");
        expected != Err(1)
    }
}
