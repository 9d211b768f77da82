//! All words of a few bytes, and all places of `_` among the digits of longer
//! ones.

use std::collections::HashSet;

use independent::plain;

use crate::places::PLACES;

/// All words of at most `longest` of these bytes, with the empty one.
fn words(bytes: &str, longest: usize) -> Vec<String> {
    let mut words = vec![String::new()];
    let mut from = 0;
    for _ in 0..longest {
        let through = words.len();
        for place in from..through {
            for byte in bytes.chars() {
                words.push(format!("{}{byte}", words[place]));
            }
        }
        from = through;
    }
    words
}

#[test]
fn words_of_digits_and_separators() {
    let words = words("01_", 8);
    assert_eq!(words.len(), 9841);
    for place in &PLACES {
        let numerals = words.iter().filter(|word| place.check(word)).count();
        // Plain ones of 1 to 8 digits, and grouped ones of 4, 5 and 6.
        assert_eq!(
            numerals,
            2 + (2 + 4 + 8 + 16 + 32 + 64 + 128) + (8 + 16 + 32)
        );
    }
}

#[test]
fn words_with_signs() {
    let words = words("01_-", 7);
    assert_eq!(words.len(), 21_845);
    for place in &PLACES {
        let numerals = words.iter().filter(|word| place.check(word)).count();
        let unsigned = 2 + (2 + 4 + 8 + 16 + 32 + 64) + (8 + 16 + 32);
        // A '-' takes a byte, and 0 takes no '-'.
        let negative = 1 + (2 + 4 + 8 + 16 + 32) + (8 + 16);
        let expected = if place.is_edge() {
            unsigned + negative
        } else {
            unsigned
        };
        assert_eq!(numerals, expected);
    }
}

#[test]
fn words_with_other_bytes() {
    for word in words("1_ ()x", 5) {
        for place in &PLACES {
            place.check(&word);
        }
    }
}

/// The numerals are made here, instead of being found: those of two digits are
/// the binary ones.
#[test]
fn the_numerals_among_the_words() {
    let mut numerals = HashSet::new();
    for value in 0..1 << 8 {
        let plain = format!("{value:b}");
        let groups: Vec<&[u8]> = plain.as_bytes().rchunks(3).rev().collect();
        let grouped = String::from_utf8(groups.join(&b'_')).expect("ASCII");
        numerals.extend([plain, grouped].into_iter().filter(|word| word.len() <= 8));
    }
    let found = words("01_", 8).into_iter().filter(|word| {
        let line = format!("(pass {word})");
        plain(line.as_bytes(), &mut [0; 256]).number == 0
    });
    assert_eq!(found.collect::<HashSet<String>>(), numerals);
}

/// "Either at every group or at none": of all ways to put `_` between the
/// digits, one or two make a numeral.
#[test]
fn separators_at_all_places() {
    for digits in 1..=20_u32 {
        let every_group = (1..digits)
            .filter(|gap| gap % 3 == 0)
            .fold(0, |gaps, gap| gaps | 1 << gap);
        for gaps in (0..1_u32 << digits).step_by(2) {
            let mut line = b"(request ".to_vec();
            for left in (0..digits).rev() {
                line.push(b'7');
                // Bit n stands for the gap that has n digits to its right.
                if gaps >> left & 1 == 1 {
                    line.push(b'_');
                }
            }
            line.push(b')');
            let is_numeral = digits <= 19 && (gaps == 0 || gaps == every_group);
            let expected = match (is_numeral, digits) {
                (false, _) => 1,
                (true, 1) => 0,
                (true, _) => 2,
            };
            let number = plain(&line, &mut [0; 256]).number;
            assert_eq!(number, expected, "{}", line.escape_ascii());
        }
    }
}
