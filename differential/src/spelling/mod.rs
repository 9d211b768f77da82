//! Numerals spelled plain, grouped, and in ways in which no numeral is.

mod tally;
mod ways;

use std::borrow::Cow;

pub use tally::SpellingTally;
pub use ways::WAYS;

use crate::limits::MOST_DIGITS;
use crate::random::Random;

const GROUP: usize = 3;

/// Digits with `_` between groups of three, counted from the right.
pub fn grouped(digits: &str) -> String {
    in_groups(digits, GROUP)
}

/// The same with groups of another size.
fn in_groups(digits: &str, size: usize) -> String {
    let mut text = String::with_capacity(2 * digits.len());
    for (at, digit) in digits.char_indices() {
        if at > 0 && (digits.len() - at).is_multiple_of(size) {
            text.push('_');
        }
        text.push(digit);
    }
    text
}

/// Whether a text is a numeral, which at an edge may be negative. It is stated
/// here once more, so that both sides are held against a third.
pub fn is_numeral(text: &str, at_edge: bool) -> bool {
    let (text, negative) = match text.strip_prefix('-') {
        Some(rest) => (rest, true),
        None => (text, false),
    };
    if negative && (!at_edge || text == "0") {
        return false;
    }
    let digits = text.replace('_', "");
    let plain = (1..=MOST_DIGITS).contains(&digits.len())
        && digits.bytes().all(|byte| byte.is_ascii_digit())
        && (digits == "0" || !digits.starts_with('0'));
    plain && (text == digits || text == grouped(&digits))
}

/// A line without its `_`, which is what is written back of it.
pub fn plain(line: &[u8]) -> Cow<'_, [u8]> {
    if !line.contains(&b'_') {
        return Cow::Borrowed(line);
    }
    let others = line.iter().copied().filter(|&byte| byte != b'_');
    Cow::Owned(others.collect())
}

/// A plain line with all numerals grouped.
pub fn all_grouped(line: &str) -> String {
    regrouped(line, || true)
}

/// A plain line with all numerals grouped, with some, or mostly with none.
pub fn some_grouped(random: &mut Random, line: String) -> String {
    match random.below(8) {
        0..=1 => all_grouped(&line),
        2 => regrouped(&line, || random.one_in(2)),
        _ => line,
    }
}

/// The same, but now and then one `_` is put in or taken out.
pub fn spelled(random: &mut Random, line: String) -> Vec<u8> {
    let mut line = some_grouped(random, line).into_bytes();
    if random.one_in(100) {
        let at = random.place(line.len() + 1);
        match line.get(at) {
            Some(b'_') => drop(line.remove(at)),
            _ => line.insert(at, b'_'),
        }
    }
    line
}

/// A plain line with those numerals grouped that are chosen. A date stays as it
/// is: its year is followed by '-', and its other numbers have two digits.
fn regrouped(line: &str, mut is_chosen: impl FnMut() -> bool) -> String {
    let mut text = String::with_capacity(2 * line.len());
    let mut rest = line;
    while let Some(begin) = rest.find(|byte: char| byte.is_ascii_digit()) {
        let (before, from) = rest.split_at(begin);
        let end = from.find(|byte: char| !byte.is_ascii_digit());
        let (digits, after) = from.split_at(end.unwrap_or(from.len()));
        text.push_str(before);
        if !after.starts_with('-') && is_chosen() {
            text.push_str(&grouped(digits));
        } else {
            text.push_str(digits);
        }
        rest = after;
    }
    text + rest
}

#[cfg(test)]
mod tests {
    use super::{all_grouped, is_numeral, plain, some_grouped, spelled};
    use crate::random::Random;

    #[test]
    fn numerals_are_plain_or_grouped() {
        for numeral in [
            "0",
            "127",
            "1000",
            "1_000",
            "12_345",
            "999_999",
            "1_000_000",
            "4_000_000_000_000_000_000",
            "9999999999999999999",
        ] {
            let negative = format!("-{numeral}");
            assert!(is_numeral(numeral, false) && is_numeral(numeral, true));
            assert!(!is_numeral(&negative, false));
            assert_eq!(is_numeral(&negative, true), numeral != "0");
        }
    }

    #[test]
    fn other_texts_are_no_numerals() {
        for none in [
            "",
            "_",
            "-",
            "--1",
            "12_7",
            "1000_000",
            "_100",
            "100_",
            "1__000",
            "1_00",
            "0_000",
            "001_000",
            "1_0000",
            "1_000000",
            "-_100",
            "_-100",
            "1 000",
            "10_000_000_000_000_000_000",
            "10000000000000000000",
        ] {
            for text in [none, &format!("-{none}")] {
                let found = is_numeral(text, false) || is_numeral(text, true);
                assert!(!found, "{text}");
            }
        }
    }

    #[test]
    fn lines_are_grouped_and_made_plain() {
        for (line, expected) in [
            ("(read)", "(read)"),
            ("(pass 999)", "(pass 999)"),
            ("(pass 86400000)", "(pass 86_400_000)"),
            (
                "(start 3 im 1000 (-1000 123456))",
                "(start 3 im 1_000 (-1_000 123_456))",
            ),
            (
                "(window 1000 (2000-01-01T00:00:00 2001-01-01T00:00:00))",
                "(window 1_000 (2000-01-01T00:00:00 2001-01-01T00:00:00))",
            ),
        ] {
            assert_eq!(all_grouped(line), expected);
            assert_eq!(*plain(expected.as_bytes()), *line.as_bytes());
        }
    }

    /// How many of these lines are spelled in each way.
    #[test]
    fn a_share_of_lines_is_grouped() {
        const LINE: &str = "(reply 4 1000 (1000 1000))";
        let mut random = Random::new(1);
        let (mut all, mut some, mut none, mut damaged) = (0, 0, 0, 0);
        for _ in 0..8000 {
            match some_grouped(&mut random, LINE.into()).matches('_').count() {
                0 => none += 1,
                3 => all += 1,
                _ => some += 1,
            }
            let line = spelled(&mut random, LINE.into());
            let text = String::from_utf8(line).expect("a line of letters");
            let parts = text.split([' ', '(', ')']).filter(|part| !part.is_empty());
            damaged += usize::from(!parts.skip(1).all(|part| is_numeral(part, true)));
        }
        assert!(
            all > 1000 && some > 500 && none > 4000,
            "{all} {some} {none}"
        );
        assert!((20..=120).contains(&damaged), "{damaged}");
    }
}
