//! Numerals at every place of every command, spelled plain, grouped, and in
//! every way in which no numeral is.

use independent::Keeper;

use super::handmade::waiting_keeper;
use crate::limits::{Image, IMAGE_LENGTH, LAST_TAG, SHORTEST_OUTPUT};
use crate::random::Random;
use crate::spelling::{grouped, is_numeral, plain, WAYS};
use crate::test::Test;

/// Each round lends the lines at other places.
const ROUNDS: u64 = 2;

/// Up to so many digits are given with `_` at any of their places.
const FEW_DIGITS: usize = 9;

/// A place for a numeral, with the bytes before and after it. Where an edge is
/// in its range, it is in order with the other one.
struct Place {
    before: &'static str,
    after: &'static str,
    is_edge: bool,
}

const PLACES: [Place; 15] = [
    number("(start ", " im 200 (-1000 1000))"),
    number("(start 3 mm ", " (-1000 1000))"),
    edge("(start 3 im 200 (", " 4000000000000000000))"),
    edge("(start 3 im 200 (-4_000_000_000_000_000_000 ", "))"),
    number("(pass ", ")"),
    number("(request ", ")"),
    number("(reply ", " 9 (-1000 1000))"),
    number(BEFORE_TAG, " (-1_000 1_000))"),
    edge("(reply 4 9 (", " 4_000_000_000_000_000_000))"),
    edge("(reply 4 9 (-4000000000000000000 ", "))"),
    number("(drop ", ")"),
    number("(window ", " (1999-12-31T23:59:59 2000-01-01T00:00:01))"),
    number("(flight ", " (1000 2_000))"),
    number("(flight 7 (", " 1000000000))"),
    number("(flight 7 (1_000_000_000 ", "))"),
];

const BEFORE_TAG: &str = "(reply 4 ";

/// The first digits of each are those of a number of any length. Some are in the
/// range of every place that has numbers of so many digits.
const DIGITS: [&str; 4] = [
    "12345678901234567890",
    "10000000000000000000",
    "40000000000000000000",
    "99999999999999999999",
];

const fn number(before: &'static str, after: &'static str) -> Place {
    Place {
        before,
        after,
        is_edge: false,
    }
}

const fn edge(before: &'static str, after: &'static str) -> Place {
    Place {
        before,
        after,
        is_edge: true,
    }
}

impl Place {
    fn line(&self, text: &str) -> String {
        format!("{}{text}{}", self.before, self.after)
    }

    /// A keeper that accepts the command if these digits are in their range and
    /// no peer or slot.
    fn state(&self, digits: &str) -> Image {
        let mut keeper = waiting_keeper();
        if self.before.starts_with("(start") {
            keeper = Keeper::fresh();
        }
        let number = digits.parse().unwrap_or(0);
        if self.before == BEFORE_TAG && (1..=LAST_TAG).contains(&number) {
            keeper.requests = LAST_TAG;
            keeper.tags[4] = number;
        }
        let mut image = [0; IMAGE_LENGTH];
        keeper.to_image(&mut image);
        image
    }
}

pub fn run(test: &mut Test) {
    in_every_way(test);
    with_any_places(test);
}

/// Digits of every number up to one more than a numeral has.
fn numbers() -> impl Iterator<Item = &'static str> {
    let digits = |digits: &'static str| (1..=digits.len()).map(move |length| &digits[..length]);
    DIGITS.into_iter().flat_map(digits).chain(["0"])
}

fn in_every_way(test: &mut Test) {
    test.begin("numerals spelled in every way");
    for _ in 0..ROUNDS {
        for place in &PLACES {
            for digits in numbers() {
                for sign in ["", "-"] {
                    one_number(test, place, sign, digits);
                }
            }
        }
    }
}

fn one_number(test: &mut Test, place: &Place, sign: &str, digits: &str) {
    let state = place.state(digits);
    for text in [digits, &grouped(digits)] {
        give(test, state, place, &format!("{sign}{text}"));
    }
    for (at, way) in WAYS.iter().enumerate() {
        for text in (way.texts)(sign, digits) {
            assert!(!is_numeral(&text, place.is_edge), "{}: {text}", way.name);
            give(test, state, place, &text);
            test.tally.spellings.way(at);
        }
    }
}

/// A few digits, with every choice of the places that have `_`: before each
/// digit, and after the last.
fn with_any_places(test: &mut Test) {
    test.begin("numerals with `_` at any places");
    for place in &PLACES {
        for digits in (1..=FEW_DIGITS).map(|count| &DIGITS[0][..count]) {
            let state = place.state(digits);
            for choice in 0..2_u32 << digits.len() {
                for sign in ["", "-"] {
                    let text = with_places(digits, choice);
                    give(test, state, place, &format!("{sign}{text}"));
                }
            }
        }
    }
}

/// The lowest bit of the choice is the place before the first digit.
fn with_places(digits: &str, choice: u32) -> String {
    let mut text = String::new();
    for (at, digit) in digits.chars().chain(['_']).enumerate() {
        if choice >> at & 1 == 1 {
            text.push('_');
        }
        if at < digits.len() {
            text.push(digit);
        }
    }
    text
}

/// What is no numeral is refused with 1. A numeral is given what its plain
/// spelling is given, and leaves the same keeper.
fn give(test: &mut Test, state: Image, place: &Place, text: &str) {
    let line = place.line(text);
    let mut image = state;
    let returned = test.line(&mut image, line.as_bytes(), SHORTEST_OUTPUT);
    if !is_numeral(text, place.is_edge) {
        if returned.number != 1 {
            test.mismatch("what is no numeral was read", &line);
        }
        return;
    }
    let mut plain_image = state;
    let plain_line = plain(line.as_bytes());
    let plain_returned = test.line(&mut plain_image, &plain_line, SHORTEST_OUTPUT);
    if returned.number == 1 {
        test.mismatch("a numeral was not read", &line);
    }
    if returned != plain_returned || image != plain_image {
        test.mismatch("the plain spelling is another command", &line);
    }
}

/// A line with a numeral at some place that is spelled in some way.
pub fn line(random: &mut Random) -> String {
    let place = &PLACES[random.place(PLACES.len())];
    let digits = random.pick(&DIGITS);
    let digits = &digits[..1 + random.place(digits.len())];
    let sign = if place.is_edge && random.one_in(2) {
        "-"
    } else {
        ""
    };
    if random.one_in(2) {
        return place.line(&format!("{sign}{}", grouped(digits)));
    }
    let texts = (WAYS[random.place(WAYS.len())].texts)(sign, digits);
    match texts.len() {
        0 => place.line(digits),
        count => place.line(&texts[random.place(count)]),
    }
}

#[cfg(test)]
mod tests {
    use super::{with_places, PLACES};
    use crate::spelling::is_numeral;

    /// Of all choices of places, plain and grouped digits alone are numerals.
    #[test]
    fn every_choice_of_places_is_another_text() {
        let texts: Vec<_> = (0..256)
            .map(|choice| with_places("1234567", choice))
            .collect();
        let numerals: Vec<_> = texts
            .iter()
            .filter(|text| is_numeral(text, false))
            .collect();
        assert_eq!(numerals, ["1234567", "1_234_567"]);
        assert_eq!(texts[255], "_1_2_3_4_5_6_7_");
        let mut others = texts.clone();
        others.sort();
        others.dedup();
        assert_eq!(others.len(), texts.len());
    }

    /// So that what refuses a line is the numeral at its place.
    #[test]
    fn every_place_is_of_a_command_that_is_read() {
        for place in &PLACES {
            let mut out = [0; 256];
            let line = place.line("1");
            assert_eq!(
                independent::plain(line.as_bytes(), &mut out).number,
                0,
                "{line}"
            );
        }
    }
}
