//! Lines, outputs and images of every length.

use super::states;
use crate::lent::LONGEST;
use crate::limits::{Image, IMAGE_LENGTH, LONGEST_LINE, LONGEST_SHAPE, SHORTEST_OUTPUT};
use crate::random::Random;
use crate::test::Test;

const LINES: &[&str] = &[
    "(start 3 im 200 (-1000 1000))",
    "(pass 10)",
    "(request 5)",
    "(request 4)",
    "(request 3)",
    "(reply 4 1 (-1000 1000))",
    "(reply 4 2 (-1000 1000))",
    "(drop 15)",
    "(drop 9)",
    "(read)",
    "(waiting)",
    "(window 15 (1900-01-01T00:00:00 2099-12-31T23:59:59))",
    "(window 15 (1900-02-29T00:00:00 2099-12-31T23:59:59))",
    "(window 15 (2000-01-01T00:00:00 2000-01-01T00:00:00))",
    "(flight 5 (1000000000 2000))",
    "(flight 4 (1000000000 2000))",
    "(flight 5 (1_000_000_000 2_000))",
    "(pass 86400001)",
    "(pass 12x7)",
    "(pass 12_345)",
    LONGEST_FORM,
];

/// A line of the greatest length that has a command's shape.
const LONGEST_FORM: &str = concat!(
    "(start 9_999_999_999_999_999_999 mm 9_999_999_999_999_999_999",
    " (-9_999_999_999_999_999_999 -9_999_999_999_999_999_999))"
);

pub fn run(test: &mut Test) {
    lines(test);
    outputs(test);
    images(test);
}

/// Lines of every length; more of them about the greatest length, and about that
/// of the longest shape.
fn lines(test: &mut Test) {
    let mut random = test.begin("lines of every length");
    let states = states::all(test);
    assert_eq!(LONGEST_FORM.len(), LONGEST_SHAPE);
    for state in &states {
        for length in 0..=LONGEST {
            let near = |limit: usize| length.abs_diff(limit) <= 2;
            let near_limit = near(LONGEST_LINE) || near(LONGEST_SHAPE);
            for _ in 0..if near_limit { 100 } else { 1 } {
                for line in LINES {
                    line_of_length(test, &mut random, *state, line.as_bytes(), length);
                }
            }
        }
    }
}

/// The line cut to the length, or with something repeated after, within or
/// before it.
fn line_of_length(
    test: &mut Test,
    random: &mut Random,
    mut state: Image,
    line: &[u8],
    length: usize,
) {
    let mut long = line.to_vec();
    let byte = random.pick(b" 0)(19_\n\0");
    let at = random.place(line.len() + 1);
    while long.len() < length {
        long.insert(at, byte);
    }
    long.truncate(length);
    test.line(&mut state, &long, SHORTEST_OUTPUT);
}

/// Outputs of every length, for every answer.
fn outputs(test: &mut Test) {
    test.begin("outputs of every length");
    let states = states::all(test);
    for state in &states {
        for length in 0..=LONGEST {
            for line in LINES {
                let mut image = *state;
                test.line(&mut image, line.as_bytes(), length);
            }
        }
    }
}

/// Images of every length. The output is too short now and then: the image's
/// length is tested first.
fn images(test: &mut Test) {
    let mut random = test.begin("images of every length");
    let states = states::all(test);
    for length in (0..=LONGEST).filter(|&length| length != IMAGE_LENGTH) {
        for state in &states {
            let mut image = state.to_vec();
            image.resize(length, 0);
            let line = random.pick(LINES);
            let out_length = random.pick(&[0, SHORTEST_OUTPUT - 1, SHORTEST_OUTPUT, LONGEST]);
            test.line(&mut image, line.as_bytes(), out_length);
            test.pass(
                &mut image,
                random.pick(&[0, 1, 86_400_000, 86_400_001, 1 << 32, u64::MAX]),
            );
            test.fresh(&mut image);
        }
    }
}
