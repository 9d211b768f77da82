//! Grouped numerals at every kind of place.

use independent::Keeper;

use crate::caller::{ask, expect};
use crate::order::{samples, spelled, Order};
use crate::places::PLACES;
use crate::reference::{grouped_line, number_of};

/// Numerals that carry `_`, with their values.
const GROUPED: [(&str, i128); 18] = [
    ("1_000", 1000),
    ("1_001", 1001),
    ("1_100", 1100),
    ("9_999", 9999),
    ("10_000", 10_000),
    ("12_345", 12_345),
    ("50_000", 50_000),
    ("50_001", 50_001),
    ("100_000", 100_000),
    ("999_999", 999_999),
    ("1_000_000", 1_000_000),
    ("16_777_215", 16_777_215),
    ("16_777_216", 16_777_216),
    ("86_400_000", 86_400_000),
    ("86_400_001", 86_400_001),
    ("4_000_000_000_000_000_000", 4_000_000_000_000_000_000),
    ("4_000_000_000_000_000_001", 4_000_000_000_000_000_001),
    ("9_999_999_999_999_999_999", 9_999_999_999_999_999_999),
];

/// Words that are no numerals, without a '-' before them and with one.
#[rustfmt::skip]
const NO_NUMERALS: [&str; 58] = [
    // Not at every group, or not between groups of three.
    "12_7", "1000_000", "1_00", "1_0000", "1_0", "1_2", "12_34", "123_45", "1234_567", "1_000000",
    "1000000_000", "1_000000_000", "1000_000_000", "1_000_00", "1_00_000", "1_0000_000",
    "1_000_0000", "10_00_000", "1_2_3", "1_23_456", "0_1", "4000000000000000_000",
    "4_000000000000000000", "4_000_000_000_000_000000", "4000_000_000_000_000_000",
    // Not between.
    "_100", "100_", "_", "__", "___", "_1", "1_", "_1_000", "1_000_", "_000", "_1000", "1000_",
    // Two at one place.
    "1__000", "1_000__000", "1___000", "__100", "100__",
    // A leading zero.
    "0_000", "001_000", "01_000", "000_000", "0_001", "00_100", "0_0", "000_100", "0_100_000",
    // Other bytes in or beside a group.
    "1_00x", "1_x00", "x_000", "1_0.0", "1,000", "1.000", "1'000",
];

#[test]
fn grouped_numerals() {
    for place in &PLACES {
        for (word, value) in GROUPED {
            let expected = place.expected(Some(value));
            assert_eq!(spelled(place.line(word)), expected, "{word}");
            assert_eq!(spelled(place.line(&value.to_string())), expected);
            let expected = place.expected(Some(-value));
            assert_eq!(spelled(place.line(&format!("-{word}"))), expected);
        }
    }
}

#[test]
fn one_spelling_below_1000() {
    for place in &PLACES {
        for value in 0..1000 {
            let word = value.to_string();
            assert_eq!(spelled(place.line(&word)), place.expected(Some(value)));
            for word in [format!("_{word}"), format!("{word}_"), format!("0_{word}")] {
                assert_eq!(spelled(place.line(&word)), Err(1), "{word}");
            }
        }
    }
}

#[test]
fn words_that_are_no_numerals() {
    for place in &PLACES {
        for word in NO_NUMERALS {
            let line = place.line(word);
            assert_eq!(spelled(&line), Err(1), "{line}");
            assert_eq!(ask(&mut Keeper::fresh(), &line), "(no 1)", "{line}");
            assert_eq!(spelled(place.line(&format!("-{word}"))), Err(1), "-{word}");
        }
    }
}

#[test]
#[rustfmt::skip]
fn signs_of_grouped_numerals() {
    for place in &PLACES {
        for word in [
            "-_100", "-0_000", "_-100", "_-1_000", "-_1_000", "--1_000", "1_-000", "1-_000",
            "1_000-", "-1_000_", "-_", "_-", "+1_000", "-+1_000", "-1_00", "-1000_000", "-0_001",
            "1_ 000", "1 _000", "-0", "-00", "1_000 ", " 1_000", "(1_000)",
        ] {
            assert_eq!(spelled(place.line(word)), Err(1), "{word}");
        }
        let is_numeral = spelled(place.line("-1_000")) != Err(1);
        assert_eq!(is_numeral, place.is_edge());
    }
}

#[test]
fn limits_of_each_place() {
    for place in &PLACES {
        let mut seen = [0; 3];
        for value in place.limits() {
            let plain = place.line(&value.to_string());
            let expected = place.expected(Some(value));
            // One bit for each numeral of the line.
            for chosen in 0..16 {
                let line = grouped_line(&plain, chosen);
                assert_eq!(spelled(&line), expected, "{line}");
            }
            seen[expected.map_or_else(usize::from, |_| 0)] += 1;
        }
        // The value below the range is -1 but for the edges and the tag.
        assert!(seen == [4, 0, 2] || seen == [4, 1, 1], "{seen:?}");
    }
}

#[test]
fn digits_are_counted_without_separators() {
    for place in &PLACES {
        for digit in '1'..='9' {
            let (mut plain, mut grouped) = (String::new(), String::new());
            for digits in 1..=40 {
                plain.push(digit);
                // The groups are counted from the right, so the words are made
                // from there; all digits are the same.
                if digits > 1 && digits % 3 == 1 {
                    grouped.insert(0, '_');
                }
                grouped.insert(0, digit);
                let value = (digits <= 19).then(|| plain.parse().expect("19 digits"));
                for word in [&plain, &grouped] {
                    let spelling = spelled(place.line(word));
                    assert_eq!(spelling, place.expected(value), "{word}");
                }
            }
        }
    }
}

#[test]
#[rustfmt::skip]
fn nineteen_and_twenty_digits() {
    for place in &PLACES {
        let outside = place.expected(Some(9_999_999_999_999_999_999));
        assert_eq!(outside, Err(2));
        for word in ["9999999999999999999", "9_999_999_999_999_999_999"] {
            assert_eq!(spelled(place.line(word)), outside, "{word}");
        }
        for word in [
            "10000000000000000000", "10_000_000_000_000_000_000", "99_999_999_999_999_999_999",
            "100_000_000_000_000_000_000", "1_000_000_000_000_000_000_000",
            // 2 to the power 64 plus 5, and minus the same.
            "18_446_744_073_709_551_621", "-18_446_744_073_709_551_621",
            "-10_000_000_000_000_000_000",
            // Twenty digits, of which the first is a zero.
            "04_000_000_000_000_000_000", "00_000_000_000_000_000_005",
        ] {
            assert_eq!(spelled(place.line(word)), Err(1), "{word}");
        }
    }
}

#[test]
fn the_answers_are_plain() {
    expect(
        &mut Keeper::fresh(),
        &[
            ("(start 3 im 200 (-1_000 1_000))", "(started 3)"),
            ("(pass 10)", "(at 10 (9997000 10003000))"),
            ("(request 4)", "(sent 4 1)"),
            ("(pass 5)", "(at 15 (14996000 15004000))"),
            (
                "(reply 4 1 (9_999_000 10_001_000))",
                "(taken 4 (14996000 15002000))",
            ),
            ("(reply 4 1 (9_999_000 10_001_000))", "(no 7)"),
            ("(request 4)", "(sent 4 2)"),
            (
                "(reply 4 2 (15_002_001 15002001))",
                "(taken 4 (14996000 15002000))",
            ),
            ("(read)", "(time (14996000 16002200) (15499100 503100) 0 0)"),
            ("(pass 12_7)", "(no 1)"),
            ("(pass 1_000)", "(at 1015 (1014796000 1015202000))"),
            ("(pass 1000)", "(at 2015 (2014596000 2015402000))"),
            ("(request 1_000)", "(no 2)"),
            ("(drop 1_00)", "(no 1)"),
        ],
    );
}

#[test]
fn the_longest_numerals_of_a_keeper() {
    let mut keeper = Keeper::fresh();
    let edge = "4_000_000_000_000_000_000";
    let start = format!("(start 15 mm 50_000 (-{edge} {edge}))");
    assert_eq!(ask(&mut keeper, start), "(started 15)");
    let answer = "(time (-4000000000000000000 4000000000001050000) \
        (525000 4000000000000525000) 0 0)";
    assert_eq!(ask(&mut keeper, "(read)"), answer);
    keeper.requests = 16_777_214;
    assert_eq!(ask(&mut keeper, "(request 14)"), "(sent 14 16777215)");
    for (line, answer) in [
        ("(reply 14 16_777_216 (0 0))", "(no 2)"),
        ("(reply 14 16_777_214 (0 0))", "(no 7)"),
        (
            "(reply 14 16_777_215 (-1_000_000 999_999))",
            "(taken 14 (-2050000 2049999))",
        ),
    ] {
        assert_eq!(ask(&mut keeper, line), answer);
    }
}

/// A line with any of its numerals grouped has the effect of the plain line.
#[test]
fn mixed_lines() {
    let mut keeper = Keeper::fresh();
    for line in [
        "(start 1000 im 1000 (-1000 1000))",
        "(start 3 mm 50000 (-4000000000000000000 1000))",
        "(pass 86400000)",
        "(pass 1000)",
        "(request 1000)",
        "(request 4)",
        "(pass 3600000)",
        "(reply 4 16777215 (-1000000 1000000))",
        "(reply 1000 1000 (1000 -1000))",
        "(window 1000 (2000-01-01T00:00:00 2000-01-01T00:00:01))",
        "(flight 5 (1000000000 1000))",
        "(flight 5 (1000 1000000001))",
        "(flight 1000 (1000 1000))",
        "(reply 4 1 (-3000000000000000000 -2999999999999999999))",
        "(read)",
    ] {
        let before = keeper.clone();
        let answer = ask(&mut keeper, line);
        for chosen in 0..16 {
            let mut other = before.clone();
            let line = grouped_line(line, chosen);
            assert_eq!(ask(&mut other, &line), answer, "{line}");
            assert_eq!(other, keeper, "{line}");
        }
    }
}

/// Grouping changes neither the command nor the number of a refusal. The
/// limits of each place are tested above, so every seventh of the many samples
/// is enough.
#[test]
fn grouped_samples() {
    for order in samples().into_iter().step_by(7) {
        if matches!(order, Order::Start(_, rule, ..) if rule > 1) {
            continue;
        }
        let plain = order.line();
        let line = grouped_line(&plain, u32::MAX);
        let spelling = spelled(&line);
        assert_eq!(spelling, spelled(&plain), "{line}");
        let number = spelling.map_or_else(|number| number, |_| 0);
        assert_eq!(number, number_of(line.as_bytes()), "{line}");
    }
}
