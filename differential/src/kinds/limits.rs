//! Numerals and dates at every limit, one past it, and spelled wrongly.

use super::states;
use crate::fitting;
use crate::limits::{Image, LAST_CLAIM, LAST_MOMENT, LAST_PASS, SHORTEST_OUTPUT};
use crate::random::Random;
use crate::spelling::{all_grouped, some_grouped, spelled};
use crate::test::Test;

const MIXED_LINES: u64 = 500_000;
const PASSES: u64 = 20_000;

/// What may stand at one place of a line.
struct Place {
    ordinary: &'static [&'static str],
    at_limits: &'static [&'static str],
    long: &'static [&'static str],
}

/// Numerals of the most digits, and of one digit more.
const LONG: &[&str] = &[
    "4000000000000000000",
    "9999999999999999999",
    "9_999_999_999_999_999_999",
    "-4000000000000000000",
    "-9999999999999999999",
    "-9_999_999_999_999_999_999",
    "10000000000000000000",
    "10_000_000_000_000_000_000",
    "-10000000000000000000",
];

const PEER: Place = Place {
    ordinary: &["1", "4", "15"],
    at_limits: &[
        "0", "3", "14", "15", "16", "17", "255", "256", "272", "1_000", "65_540",
    ],
    long: LONG,
};
const RULE: Place = Place {
    ordinary: &["im", "mm"],
    at_limits: &["i", "m", "imm", "IM", "mi", "im ", "", "0"],
    long: &["im", "mm"],
};
const CLAIM: Place = Place {
    ordinary: &["200"],
    at_limits: &[
        "0", "1", "49999", "50000", "50001", "65535", "65536", "65736",
    ],
    long: LONG,
};
const TAG: Place = Place {
    ordinary: &["1", "2"],
    at_limits: &[
        "0",
        "1",
        "16777214",
        "16777215",
        "16777216",
        "4294967295",
        "4294967296",
        "4294967297",
    ],
    long: LONG,
};
const TICKS: Place = Place {
    ordinary: &["1", "1000", "1_000"],
    at_limits: &[
        "0",
        "86399999",
        "86400000",
        "86400001",
        "4294967295",
        "4294967296",
        "4381367296",
    ],
    long: LONG,
};
const EDGE: Place = Place {
    ordinary: &["-1000", "-1_000", "0", "1000", "1_000"],
    at_limits: &[
        "-1",
        "1",
        "3999999999999999999",
        "4000000000000000000",
        "4000000000000000001",
        "-3999999999999999999",
        "-4000000000000000000",
        "-4000000000000000001",
        "9223372036854775807",
        "9223372036854775808",
        "-9223372036854775808",
        "-9223372036854775809",
        "-9999999999999999999",
    ],
    long: LONG,
};

const SLOT: Place = Place {
    ordinary: &["0", "5", "15"],
    at_limits: &[
        "0", "9", "10", "14", "15", "16", "17", "255", "256", "272", "1_000", "65_540",
    ],
    long: LONG,
};
const DATE: Place = Place {
    ordinary: &[
        "1999-12-31T23:59:59",
        "2000-01-01T00:00:00",
        "2000-01-01T00:00:01",
    ],
    at_limits: &[
        "1899-12-31T23:59:59",
        "1900-01-01T00:00:00",
        "1900-02-28T23:59:59",
        "1900-02-29T00:00:00",
        "2000-02-29T23:59:59",
        "2000-02-30T00:00:00",
        "2099-12-31T23:59:59",
        "2100-01-01T00:00:00",
        "2000-00-01T00:00:00",
        "2000-01-00T00:00:00",
        "2000-13-01T00:00:00",
        "2000-01-32T00:00:00",
        "2000-04-31T00:00:00",
        "2000-01-01T24:00:00",
        "2000-01-01T00:60:00",
        "2000-01-01T00:00:60",
        "0000-00-00T00:00:00",
        "9999-99-99T99:99:99",
        // From here on no date has this spelling.
        "200-01-01T00:00:00",
        "02000-01-01T00:00:00",
        "12000-01-01T00:00:00",
        "-2000-01-01T00:00:00",
        "+200-01-01T00:00:00",
        "2000-1-01T00:00:00",
        "2000-001-01T00:00:00",
        "2000-01-1T00:00:00",
        "2000-01-001T00:00:00",
        "2000-01-01T0:00:00",
        "2000-01-01T000:00:00",
        "2000-01-01T00:0:00",
        "2000-01-01T00:000:00",
        "2000-01-01T00:00:0",
        "2000-01-01T00:00:000",
        "2000-01-01T00:00:-1",
        "2000-01- 1T00:00:00",
        "2000-01-01T00:00",
        "2000-01-01",
        "2000-01-01 00:00:00",
        "2000-01-01t00:00:00",
        "2000/01/01T00:00:00",
        "2000-01-01T00.00.00",
        "2000-01-01T00:00:00Z",
        "2000-01-01T00:00:00.0",
        "20000101T000000",
        "2_00-01-01T00:00:00",
        "(2000-01-01T00:00:00)",
    ],
    long: &["1999-12-31T23:59:59", "2000-01-01T00:00:00"],
};

/// An out time or a back time.
const FLIGHT: Place = Place {
    ordinary: &["0", "1000", "2_000"],
    at_limits: &[
        "0",
        "1",
        "999999999",
        "1000000000",
        "1000000001",
        "4294967295",
        "4294967296",
        "5294967296",
        "5294967297",
    ],
    long: LONG,
};

/// What has no numeral's spelling or breaks every limit: leading zeros, signs,
/// 19 and 20 digits, bytes beside the digits, `_` where no group begins.
const ODD: &[&str] = &[
    "00",
    "01",
    "-0",
    "-00",
    "-01",
    "--1",
    "+1",
    "-",
    "",
    " 1",
    "1 ",
    "1x",
    "x1",
    "1/",
    "1:",
    "12_7",
    "1000_000",
    "_100",
    "100_",
    "1__000",
    "0_000",
    "001_000",
    "-_100",
    "-1_000",
    "-1",
    "9999999999999999999",
    "10000000000000000000",
    "00000000000000000001",
    "0000000000000000001",
    "18446744073709551615",
    "18446744073709551616",
    "18446744073709551617",
    "-10000000000000000000",
];

/// The places of each command, with the bytes between them.
const FORMS: &[(&[&str], &[&Place])] = &[
    (
        &["(start ", " ", " ", " (", " ", "))"],
        &[&PEER, &RULE, &CLAIM, &EDGE, &EDGE],
    ),
    (&["(pass ", ")"], &[&TICKS]),
    (&["(request ", ")"], &[&PEER]),
    (
        &["(reply ", " ", " (", " ", "))"],
        &[&PEER, &TAG, &EDGE, &EDGE],
    ),
    (&["(drop ", ")"], &[&PEER]),
    (&["(window ", " (", " ", "))"], &[&SLOT, &DATE, &DATE]),
    (&["(flight ", " (", " ", "))"], &[&PEER, &FLIGHT, &FLIGHT]),
];

pub fn run(test: &mut Test) {
    let mut random = test.begin("numerals and dates at limits");
    let states = states::all(test);
    for state in &states {
        one_place_at_a_time(test, &mut random, state);
        long_everywhere(test, state);
    }
    for _ in 0..MIXED_LINES {
        let state = random.pick(&states);
        let (texts, places) = random.pick(FORMS);
        let values: Vec<&str> = places
            .iter()
            .map(|place| mixed(&mut random, place))
            .collect();
        let line = spelled(&mut random, spell(texts, &values));
        give(test, state, &line);
    }
    for _ in 0..PASSES {
        pass_to_the_end(test, &mut random);
    }
}

/// Every value at every place, with ordinary values elsewhere, and each line also
/// grouped.
fn one_place_at_a_time(test: &mut Test, random: &mut Random, state: &Image) {
    for (texts, places) in FORMS {
        for (at, place) in places.iter().enumerate() {
            for value in place.at_limits.iter().chain(ODD) {
                let mut values: Vec<&str> = places
                    .iter()
                    .map(|place| random.pick(place.ordinary))
                    .collect();
                values[at] = value;
                let line = spell(texts, &values);
                give(test, *state, line.as_bytes());
                give(test, *state, all_grouped(&line).as_bytes());
            }
        }
    }
}

/// Every choice of long numerals for all places. The longest lines that have a
/// command's shape are among these.
fn long_everywhere(test: &mut Test, state: &Image) {
    for (texts, places) in FORMS {
        let choices: usize = places.iter().map(|place| place.long.len()).product();
        for choice in 0..choices {
            let mut rest = choice;
            let mut values = Vec::new();
            for place in *places {
                values.push(place.long[rest % place.long.len()]);
                rest /= place.long.len();
            }
            give(test, *state, spell(texts, &values).as_bytes());
        }
    }
}

fn mixed(random: &mut Random, place: &Place) -> &'static str {
    match random.below(20) {
        0 => random.pick(ODD),
        1..=7 => random.pick(place.at_limits),
        _ => random.pick(place.ordinary),
    }
}

fn spell(texts: &[&str], values: &[&str]) -> String {
    let mut line = String::from(texts[0]);
    for (value, text) in values.iter().zip(&texts[1..]) {
        line.push_str(value);
        line.push_str(text);
    }
    line
}

fn give(test: &mut Test, mut state: Image, line: &[u8]) {
    test.line(&mut state, line, SHORTEST_OUTPUT);
}

/// A pass that takes the upper edge just to the end of the range, or one
/// nanosecond past it.
fn pass_to_the_end(test: &mut Test, random: &mut Random) {
    let claim = random.between(0, i64::from(LAST_CLAIM));
    let ticks = random.between(0, LAST_PASS as i64);
    let past = random.between(-1, 1);
    let upper = LAST_MOMENT - ticks * (1_000_000 + claim) + past;
    let start = format!("(start 1 im {claim} ({} {upper}))", upper - 5);
    let pass = format!("(pass {ticks})");
    let [start, pass] = [start, pass].map(|line| some_grouped(random, line));
    let mut image = states::after(test, &[&start]);
    test.line(&mut image, pass.as_bytes(), SHORTEST_OUTPUT);
    test.line(&mut image, b"(read)", fitting::out_length(random));
}
