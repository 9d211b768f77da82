//! The ways in which no numeral is spelled.

use super::{grouped, in_groups, GROUP};

/// A way to spell a sign, which may be empty, and the plain digits of a number.
/// No text that it gives is a numeral; it may give none.
pub struct Way {
    pub name: &'static str,
    pub texts: fn(&str, &str) -> Vec<String>,
}

pub const WAYS: [Way; 12] = [
    way("one `_` missing", missing),
    way("one `_` moved", moved),
    way("one `_` doubled", doubled),
    way("`_` before the digits", before),
    way("`_` after the digits", after),
    way("one `_` among plain digits", alone),
    way("groups of one, two or four", of_other_sizes),
    way("groups counted from the left", from_the_left),
    way("zeros in front", zeros),
    way("another byte for `_`", other_bytes),
    way("more than 19 digits", too_long),
    way("no digits", without_digits),
];

const fn way(name: &'static str, texts: fn(&str, &str) -> Vec<String>) -> Way {
    Way { name, texts }
}

/// The texts that are made of the grouped digits at each of their `_`, given the
/// digits before and after it.
fn at_each(digits: &str, change: impl Fn(&str, &str) -> Vec<String>) -> Vec<String> {
    let text = grouped(digits);
    text.match_indices('_')
        .flat_map(|(at, _)| change(&text[..at], &text[at + 1..]))
        .collect()
}

fn signed(sign: &str, texts: Vec<String>) -> Vec<String> {
    texts.iter().map(|text| format!("{sign}{text}")).collect()
}

/// Without the only one it would have, a numeral is plain.
fn missing(sign: &str, digits: &str) -> Vec<String> {
    if digits.len() <= 2 * GROUP {
        return Vec::new();
    }
    let texts = at_each(digits, |before, after| vec![format!("{before}{after}")]);
    signed(sign, texts)
}

/// By one digit, to the left and to the right.
fn moved(sign: &str, digits: &str) -> Vec<String> {
    let texts = at_each(digits, |before, after| {
        let (front, last) = before.split_at(before.len() - 1);
        let (first, rest) = after.split_at(1);
        vec![
            format!("{front}_{last}{after}"),
            format!("{before}{first}_{rest}"),
        ]
    });
    signed(sign, texts)
}

fn doubled(sign: &str, digits: &str) -> Vec<String> {
    let texts = at_each(digits, |before, after| vec![format!("{before}__{after}")]);
    signed(sign, texts)
}

/// After the sign and before it.
fn before(sign: &str, digits: &str) -> Vec<String> {
    [digits, &grouped(digits)]
        .iter()
        .flat_map(|text| [format!("{sign}_{text}"), format!("_{sign}{text}")])
        .collect()
}

fn after(sign: &str, digits: &str) -> Vec<String> {
    [digits, &grouped(digits)]
        .iter()
        .flat_map(|text| [format!("{sign}{text}_"), format!("{sign}{text}__")])
        .collect()
}

/// At every place but the one at which it groups four to six digits.
fn alone(sign: &str, digits: &str) -> Vec<String> {
    (1..digits.len())
        .map(|at| format!("{}_{}", &digits[..at], &digits[at..]))
        .filter(|text| *text != grouped(digits))
        .map(|text| format!("{sign}{text}"))
        .collect()
}

fn of_other_sizes(sign: &str, digits: &str) -> Vec<String> {
    [1, 2, 4]
        .iter()
        .filter(|&&size| size < digits.len())
        .map(|&size| format!("{sign}{}", in_groups(digits, size)))
        .collect()
}

/// Where the digits fill their groups, these are the right ones.
fn from_the_left(sign: &str, digits: &str) -> Vec<String> {
    if digits.len() < GROUP || digits.len().is_multiple_of(GROUP) {
        return Vec::new();
    }
    let mut text = String::from(sign);
    for (at, digit) in digits.char_indices() {
        if at > 0 && at.is_multiple_of(GROUP) {
            text.push('_');
        }
        text.push(digit);
    }
    vec![text]
}

/// Plain, grouped as if they belonged to the number, and as a group of their own.
fn zeros(sign: &str, digits: &str) -> Vec<String> {
    ["0", "00", "000"]
        .iter()
        .flat_map(|zeros| {
            let text = format!("{zeros}{digits}");
            let own = format!("{zeros}_{}", grouped(digits));
            [grouped(&text), text, own]
        })
        .map(|text| format!("{sign}{text}"))
        .collect()
}

/// Bytes that group digits elsewhere, or follow or precede `_` and digits in
/// ASCII.
fn other_bytes(sign: &str, digits: &str) -> Vec<String> {
    let texts = at_each(digits, |before, after| {
        [' ', ',', '.', '-', '`', '/', ':']
            .map(|byte| format!("{before}{byte}{after}"))
            .into()
    });
    signed(sign, texts)
}

/// With the digits at the end of twenty and more, plain and grouped.
fn too_long(sign: &str, digits: &str) -> Vec<String> {
    [20, 21, 22, 25]
        .map(|length| "1".repeat(length - digits.len().min(length - 1)) + digits)
        .iter()
        .flat_map(|digits| [digits.clone(), grouped(digits)])
        .map(|text| format!("{sign}{text}"))
        .collect()
}

fn without_digits(sign: &str, _: &str) -> Vec<String> {
    vec![
        format!("{sign}_"),
        format!("_{sign}_"),
        format!("{sign}___"),
    ]
}

#[cfg(test)]
mod tests {
    use super::{Way, WAYS};
    use crate::spelling::is_numeral;

    const DIGITS: &str = "12345678901234567890";

    #[test]
    fn no_way_spells_a_numeral() {
        for Way { name, texts } in &WAYS {
            for digits in (1..=20).map(|length| &DIGITS[..length]).chain(["0"]) {
                for text in ["", "-"].iter().flat_map(|sign| texts(sign, digits)) {
                    assert!(!is_numeral(&text, true), "{name}: {text}");
                }
            }
        }
    }

    /// The spellings that documents name, and one of each way.
    #[test]
    fn each_way_spells_as_it_says() {
        for (at, sign, digits, expected) in [
            (0, "", "1000000", "1000_000"),
            (0, "-", "1234567890", "-1_234_567890"),
            (1, "", "1000", "10_00"),
            (1, "-", "1000", "-_1000"),
            (2, "", "1000", "1__000"),
            (3, "", "100", "_100"),
            (3, "-", "1000", "-_1_000"),
            (3, "-", "1000", "_-1_000"),
            (4, "", "100", "100_"),
            (4, "", "1000", "1_000_"),
            (5, "", "127", "12_7"),
            (5, "", "1000000", "1000_000"),
            (6, "", "100", "1_00"),
            (6, "", "10000", "1_0000"),
            (7, "", "1234", "123_4"),
            (8, "", "0", "000_0"),
            (8, "", "1000", "001_000"),
            (8, "", "1000", "000_1_000"),
            (8, "", "1", "00_1"),
            (9, "", "1000", "1 000"),
            (10, "", "0", "11_111_111_111_111_111_110"),
            (11, "-", "1", "-_"),
        ] {
            let texts = (WAYS[at].texts)(sign, digits);
            let found = texts.iter().any(|text| text == expected);
            assert!(found, "{}: {texts:?}", WAYS[at].name);
        }
    }
}
