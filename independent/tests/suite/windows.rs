//! The window command: its shape, its refusals in order and its answers.

use independent::{answer_line, Answered, Keeper};

use crate::caller::{after, ask, expect, UNTOUCHED};
use crate::random::Random;
use crate::reference::{grouped_line, moment, text_of_date};

const SECOND: i64 = 1_000_000_000;
const END: i64 = 4_000_000_000_000_000_000;

/// The longest tick at claim 200. The told upper edge lies this much above the
/// keeper's.
const TICK: i64 = 1_000_200;

/// A keeper with these edges.
fn between(lower: i64, upper: i64) -> Keeper {
    after(&[&format!("(start 3 im 200 ({lower} {upper}))")])
}

/// What a keeper with these edges answers to the line.
fn answer(lower: i64, upper: i64, line: &str) -> String {
    ask(&mut between(lower, upper), line)
}

#[test]
fn the_three_answers() {
    let line = "(window 4 (2000-01-01T00:00:00 2000-01-01T00:00:01))";
    for (lower, upper, expected) in [
        (0, 0, "(open 4)"),
        (1, SECOND - TICK - 1, "(open 4)"),
        (0, SECOND - TICK - 1, "(open 4)"),
        (-1, SECOND - TICK - 1, "(unsure 4)"),
        (0, SECOND - TICK, "(unsure 4)"),
        (0, SECOND - 1, "(unsure 4)"),
        // The window lies between the told edges.
        (-1, SECOND - TICK, "(unsure 4)"),
        (-1, SECOND, "(unsure 4)"),
        (-END, END, "(unsure 4)"),
        (-1, 0, "(unsure 4)"),
        (-1, -1, "(unsure 4)"),
        (-TICK, -TICK, "(unsure 4)"),
        (-END, -TICK, "(unsure 4)"),
        (SECOND - 1, SECOND - 1, "(unsure 4)"),
        (SECOND - 1, SECOND, "(unsure 4)"),
        (-TICK - 1, -TICK - 1, "(shut 4)"),
        (-END, -TICK - 1, "(shut 4)"),
        (SECOND, SECOND, "(shut 4)"),
        (SECOND, END, "(shut 4)"),
        (-END, -END, "(shut 4)"),
        (END, END, "(shut 4)"),
    ] {
        assert_eq!(answer(lower, upper, line), expected, "{lower} {upper}");
    }
}

/// Moves each edge, and the told upper edge, by one nanosecond about each end
/// of the window, and works the answer moment by moment.
fn check_edges(dates: &str, start: i64, end: i64) {
    let line = format!("(window 0 ({dates}))");
    // In order, because every window here is longer than a tick.
    let about = [start - TICK, start, end - TICK, end];
    let edges = about.map(|edge| [edge - 1, edge, edge + 1]).concat();
    for (place, &lower) in edges.iter().enumerate() {
        for &upper in &edges[place..] {
            let expected = match inside_and_outside(lower, upper + TICK, start, end) {
                [true, false] => "(open 0)",
                [false, true] => "(shut 0)",
                _ => "(unsure 0)",
            };
            assert_eq!(answer(lower, upper, &line), expected, "{lower} {upper}");
        }
    }
}

/// Whether a moment from `lower` through `upper` is inside the window, and
/// whether one is outside. Only the edges and the moments beside the ends are
/// asked: every other is as its neighbour is.
fn inside_and_outside(lower: i64, upper: i64, start: i64, end: i64) -> [bool; 2] {
    let mut asked = vec![lower, upper, start - 1, start, end - 1, end];
    asked.retain(|&moment| lower <= moment && moment <= upper);
    let is_inside = |&moment: &i64| start <= moment && moment < end;
    [asked.iter().any(is_inside), !asked.iter().all(is_inside)]
}

#[test]
fn edges_one_nanosecond_beside_the_ends() {
    for (dates, start, end) in [
        ("2000-01-01T00:00:00 2000-01-01T00:00:01", 0, SECOND),
        ("1999-12-31T23:59:59 2000-01-01T00:00:00", -SECOND, 0),
        (
            "1999-12-31T23:59:58 1999-12-31T23:59:59",
            -2 * SECOND,
            -SECOND,
        ),
        (
            "1900-01-01T00:00:00 2099-12-31T23:59:59",
            -3_155_673_600 * SECOND,
            3_155_759_999 * SECOND,
        ),
        (
            "2000-02-28T00:00:00 2000-03-01T00:00:00",
            58 * 86_400 * SECOND,
            60 * 86_400 * SECOND,
        ),
    ] {
        check_edges(dates, start, end);
    }
}

#[test]
fn the_longest_window() {
    let line = "(window 15 (1900-01-01T00:00:00 2099-12-31T23:59:59))";
    let (start, end) = (-3_155_673_600 * SECOND, 3_155_759_999 * SECOND);
    assert_eq!(answer(start, end - TICK - 1, line), "(open 15)");
    assert_eq!(answer(start, end - TICK, line), "(unsure 15)");
    assert_eq!(answer(-END, start - TICK - 1, line), "(shut 15)");
    assert_eq!(answer(-END, start - TICK, line), "(unsure 15)");
    assert_eq!(answer(end - 1, END, line), "(unsure 15)");
    assert_eq!(answer(end, END, line), "(shut 15)");
    assert_eq!(answer(-END, END, line), "(unsure 15)");
}

#[test]
fn nothing_in_the_keeper_moves() {
    let lines = ["(start 3 mm 200 (-1000 1000))", "(request 4)", "(pass 5)"];
    let before = after(&lines);
    let mut keeper = before.clone();
    expect(
        &mut keeper,
        &[
            (
                "(window 1 (1999-12-31T00:00:00 2000-01-02T00:00:00))",
                "(open 1)",
            ),
            (
                "(window 2 (2000-01-01T00:00:01 2000-01-02T00:00:00))",
                "(shut 2)",
            ),
        ],
    );
    assert_eq!(keeper, before);
}

#[test]
fn every_slot() {
    let mut keeper = between(0, 0);
    for slot in 0..16 {
        let line = format!("(window {slot} (2000-01-01T00:00:00 2000-01-01T00:00:01))");
        assert_eq!(ask(&mut keeper, line), format!("(open {slot})"));
    }
    // The slot may be the number of the board, which is 3.
    for slot in [16, 17, 99, 255, 256, 1000, 9_999_999_999_999_999_999_u64] {
        let line = format!("(window {slot} (2000-01-01T00:00:00 2000-01-01T00:00:01))");
        assert_eq!(ask(&mut keeper, &line), "(no 2)");
        assert_eq!(ask(&mut keeper, grouped_line(&line, 1)), "(no 2)");
    }
}

#[test]
#[rustfmt::skip]
fn windows_that_are_no_command() {
    let date = "2000-01-01T00:00:00";
    for line in [
        "(window)", "(window )", "(window 1)", "(window 1 )", "(window 1 ())",
        &format!("(window 1 ({date}))"), &format!("(window 1 {date} {date})"),
        &format!("(window ({date} {date}))"), &format!("(window 1 ({date} {date})"),
        &format!("(window 1 ({date} {date})) "), &format!("(window 1 ({date} {date})))"),
        &format!("(window 1 ({date} {date} ))"), &format!("(window 1 ({date} {date}) )"),
        &format!("(window 1 ( {date} {date}))"), &format!("(window 1  ({date} {date}))"),
        &format!("(window 1({date} {date}))"), &format!("(window 1 ({date}  {date}))"),
        &format!("(window 1 ({date}{date}))"), &format!("(window 1 ({date} {date} {date}))"),
        &format!("(window  1 ({date} {date}))"), &format!("(window 01 ({date} {date}))"),
        &format!("(window -1 ({date} {date}))"), &format!("(window -0 ({date} {date}))"),
        &format!("(window x ({date} {date}))"), &format!("(windows 1 ({date} {date}))"),
        &format!("(Window 1 ({date} {date}))"), &format!("(window 1 ({date} 0))"),
        &format!("(window 10000000000000000000 ({date} {date}))"),
        &format!("(window 1 ({date}\t{date}))"), &format!("(window 1 ({date} {date}))\n"),
    ] {
        assert_eq!(ask(&mut between(0, 0), line), "(no 1)", "{line:?}");
        assert_eq!(ask(&mut Keeper::fresh(), line), "(no 1)", "{line:?}");
    }
}

#[test]
#[rustfmt::skip]
fn dates_of_another_shape() {
    let good = "2000-01-02T00:00:00";
    for date in [
        "", "2000", "2000-01-01", "2000-01-01T00:00", "2000-01-01T00:00:0", "2000-01-01T00:00:000",
        "2000-01-01T00:00:00Z", "2000-01-01 00:00:00", "2000-01-01t00:00:00", "2000/01/01T00:00:00",
        "2000-01-01T00.00.00", "2000-1-01T00:00:00", "2000-01-1T00:00:00", "2000-001-1T00:00:00",
        "02000-01-01T00:00:00", "02000-01-1T00:00:00", "200-01-01T00:00:00", "-200-01-01T00:00:00",
        "+200-01-01T00:00:00", "2000-01-01T-1:00:00", "2000-01-01T+1:00:00", "2000-01-01T0x:00:00",
        "2000-01-01T 0:00:00", "2000-01-01T00:00: 0", "2_00-01-01T00:00:00", "2000-01-01T00:00:00.0",
        "20000-1-01T00:00:00", "2000-01-01T0:000:00", "2000-01-01T000:0:00", "0000000000000000000",
        "2000-01-01T00-00-00", "2000:01:01T00:00:00", "YYYY-MM-DDTHH:MM:SS",
        // "Dates take no `_`", also where a numeral might, and at any width.
        "2_000-01-01T00:00:00", "20_00-01-01T00:00:00", "_200-01-01T00:00:00", "200_-01-01T00:00:00",
        "_2000-01-01T00:00:00", "2000_-01-01T00:00:00", "2000-_1-01T00:00:00", "2000-0_1-01T00:00:00",
        "2000-01-0_T00:00:00", "2000-01-01T_0:00:00", "2000-01-01T00:0_:00", "2000-01-01T00:00:0_",
        "2000-01-01T00:00:00_", "2000-01-01T00:00:_00", "2000_01_01T00:00:00", "2000-01-01_00:00:00",
    ] {
        for line in [format!("(window 1 ({date} {good}))"), format!("(window 1 ({good} {date}))")] {
            assert_eq!(ask(&mut between(0, 0), &line), "(no 1)", "{line:?}");
        }
    }
}

#[test]
fn every_byte_of_a_date() {
    // A digit at the place of a digit is a shape, and no other byte is.
    let date = b"2000-01-01T00:00:00";
    for place in 0..19 {
        for byte in 0..=255_u8 {
            let mut line = b"(window 1 (2000-01-01T00:00:00 2001-01-01T00:00:00))".to_vec();
            let is_shape = if date[place].is_ascii_digit() {
                byte.is_ascii_digit()
            } else {
                byte == date[place]
            };
            for at in [11, 31] {
                let before = line[at + place];
                line[at + place] = byte;
                let answer = ask(&mut between(0, 0), &line);
                assert_eq!(answer != "(no 1)", is_shape, "{}", line.escape_ascii());
                line[at + place] = before;
            }
        }
    }
}

#[test]
#[rustfmt::skip]
fn number_11() {
    for date in [
        "1900-02-29T00:00:00", "2000-02-30T00:00:00", "2001-02-29T00:00:00", "2000-04-31T00:00:00",
        "2000-00-01T00:00:00", "2000-13-01T00:00:00", "2000-99-01T00:00:00", "2000-01-00T00:00:00",
        "2000-01-32T00:00:00", "2000-01-99T00:00:00", "2000-01-01T24:00:00", "2000-01-01T99:00:00",
        "2000-01-01T00:60:00", "2000-01-01T00:99:00", "2000-01-01T00:00:60", "2000-01-01T00:00:99",
        "1999-12-31T23:59:60", "0000-01-01T00:00:00", "0001-01-01T00:00:00", "1899-12-31T23:59:59",
        "2100-01-01T00:00:00", "9999-12-31T23:59:59", "0000-00-00T00:00:00", "9999-99-99T99:99:99",
    ] {
        for good in ["1900-01-01T00:00:00", "2099-12-31T23:59:59", date] {
            for dates in [format!("({date} {good})"), format!("({good} {date})")] {
                let line = format!("(window 1 {dates})");
                assert_eq!(ask(&mut between(0, 0), &line), "(no 11)", "{line}");
                assert_eq!(ask(&mut Keeper::fresh(), &line), "(no 11)", "{line}");
                // Number 2 comes first.
                let line = format!("(window 16 {dates})");
                assert_eq!(ask(&mut between(0, 0), &line), "(no 2)", "{line}");
            }
        }
    }
}

#[test]
fn leap_days_in_a_window() {
    let line = "(window 1 (2000-02-29T00:00:00 2000-03-01T00:00:00))";
    assert_eq!(answer(0, 0, line), "(shut 1)");
    let line = "(window 1 (1900-02-28T00:00:00 1900-03-01T00:00:00))";
    assert_eq!(answer(0, 0, line), "(shut 1)");
    let line = "(window 1 (1900-02-29T00:00:00 1900-03-01T00:00:00))";
    assert_eq!(answer(0, 0, line), "(no 11)");
}

#[test]
fn number_12() {
    for (start, end) in [
        ("2000-01-01T00:00:00", "2000-01-01T00:00:00"),
        ("2000-01-01T00:00:01", "2000-01-01T00:00:00"),
        ("2000-01-01T00:01:00", "2000-01-01T00:00:59"),
        ("2000-01-01T01:00:00", "2000-01-01T00:59:59"),
        ("2000-01-02T00:00:00", "2000-01-01T23:59:59"),
        ("2000-02-01T00:00:00", "2000-01-31T23:59:59"),
        ("2001-01-01T00:00:00", "2000-12-31T23:59:59"),
        ("2099-12-31T23:59:59", "1900-01-01T00:00:00"),
        ("2099-12-31T23:59:59", "2099-12-31T23:59:59"),
        ("1900-01-01T00:00:00", "1900-01-01T00:00:00"),
    ] {
        let line = format!("(window 1 ({start} {end}))");
        assert_eq!(ask(&mut between(0, 0), &line), "(no 12)", "{line}");
        assert_eq!(ask(&mut Keeper::fresh(), &line), "(no 12)", "{line}");
        let line = format!("(window 16 ({start} {end}))");
        assert_eq!(ask(&mut between(0, 0), &line), "(no 2)", "{line}");
        if start != end {
            let line = format!("(window 1 ({end} {start}))");
            let answer = ask(&mut between(END, END), &line);
            assert_eq!(answer, "(shut 1)", "{line}");
        }
    }
}

#[test]
fn refusals_in_order() {
    // Each line has one fault less than the one before it.
    let lines = [
        ("(window 16 (2000-13-01T00:00:00 2000-13-01T00:00:0))", 1),
        ("(window 16 (2000-13-01T00:00:00 2000-13-01T00:00:00))", 2),
        ("(window 15 (2000-13-01T00:00:00 2000-13-01T00:00:00))", 11),
        ("(window 15 (2000-13-01T00:00:00 2000-12-01T00:00:00))", 11),
        ("(window 15 (2000-12-01T00:00:00 2000-13-01T00:00:00))", 11),
        ("(window 15 (2000-12-01T00:00:00 2000-12-01T00:00:00))", 12),
        ("(window 15 (2000-12-01T00:00:00 2000-12-01T00:00:01))", 3),
    ];
    for (line, number) in lines {
        let answer = ask(&mut Keeper::fresh(), line);
        assert_eq!(answer, format!("(no {number})"), "{line}");
        // Number 10 comes before each.
        let mut out = [UNTOUCHED; 255];
        let answered = answer_line(&mut Keeper::fresh(), line.as_bytes(), &mut out);
        let refused = Answered {
            number: 10,
            length: 0,
        };
        assert_eq!(answered, refused);
        assert_eq!(out, [UNTOUCHED; 255]);
    }
    let (line, _) = lines[6];
    assert_eq!(answer(0, 0, line), "(shut 15)");
}

/// What the paper's sentences give, with the told edges and the window as
/// ranges.
fn expected_word(lower: i64, upper: i64, start: i64, end: i64) -> &'static str {
    // The moments that the interval and the window share.
    let (from, through) = (lower.max(start), upper.min(end - 1));
    if from > through {
        "shut"
    } else if (from, through) == (lower, upper) {
        "open"
    } else {
        "unsure"
    }
}

#[test]
fn random_windows() {
    let mut random = Random(0x0DDB_A115_0F00_BA44);
    let mut seen = [0; 3];
    for _ in 0..50_000 {
        // Few different values, so that the edges often meet the ends.
        let day = 1 + random.below(3);
        let dates = [
            [1999, 12, 28 + day, 0, 0, random.below(3)],
            [2000, 1, day, 0, 0, 3 + random.below(3)],
        ];
        let [start, end] = dates.map(moment);
        let mut edge = || {
            let base = [start, end, 0][random.below(3) as usize];
            let told = [0, TICK][random.below(2) as usize];
            base - told + random.below(5) as i64 - 2
        };
        let (first, second) = (edge(), edge());
        let (lower, upper) = (first.min(second), first.max(second));
        let [from, until] = dates.map(text_of_date);
        let line = format!("(window 6 ({from} {until}))");
        let word = expected_word(lower, upper + TICK, start, end);
        assert_eq!(answer(lower, upper, &line), format!("({word} 6)"));
        for (count, known) in seen.iter_mut().zip(["open", "shut", "unsure"]) {
            *count += u32::from(word == known);
        }
    }
    assert!(seen.iter().all(|&count| count > 500), "{seen:?}");
}
