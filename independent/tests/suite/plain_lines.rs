//! Lines that are read and written again.

use independent::limits::MAX_LINE;
use independent::{answer_line, Keeper};

use crate::caller::{after, ask};
use crate::order::{samples, spelled};
use crate::random::{random_line, Random};
use crate::reference::{grouped, number_of};

/// The line without each `_`. Of a command this is the plain spelling, because
/// only a numeral can carry one.
fn without_separators(line: &[u8]) -> Vec<u8> {
    line.iter().copied().filter(|&byte| byte != b'_').collect()
}

/// Checks one line against the second reading of lines, and against what a
/// fresh keeper answers: it refuses what is no command with number 1, 2, 11 or
/// 12, and every command but a start with number 3. Returns the number of
/// `plain`.
fn check(line: &[u8]) -> u8 {
    let spelled = spelled(line);
    let number = match &spelled {
        Ok(again) => {
            assert_eq!(again.as_bytes(), without_separators(line));
            0
        }
        Err(number) => *number,
    };
    assert_eq!(number, number_of(line), "{}", line.escape_ascii());
    let answered = answer_line(&mut Keeper::fresh(), line, &mut [0; 256]);
    let read = if answered.number == 3 {
        0
    } else {
        answered.number
    };
    assert_eq!(number, read, "{}", line.escape_ascii());
    number
}

const COMMANDS: [&str; 13] = [
    "(start 3 im 200 (-1000 1000))",
    "(start 15 mm 50000 (-5 2))",
    "(pass 86400000)",
    "(request 4)",
    "(reply 4 16777215 (-9 4000000000000000000))",
    "(drop 0)",
    "(read)",
    "(waiting)",
    "(window 7 (1999-12-31T23:59:58 1999-12-31T23:59:59))",
    "(window 15 (2000-02-29T00:00:00 2010-10-20T10:20:30))",
    "(flight 0 (0 0))",
    "(flight 9 (12 345))",
    "(flight 15 (1000000000 999999999))",
];

/// Commands with grouped numerals, in some beside plain ones, and their plain
/// spellings.
#[rustfmt::skip]
const GROUPED: [(&str, &str); 10] = [
    ("(start 3 im 200 (-1_000 1_000))", "(start 3 im 200 (-1000 1000))"),
    ("(start 15 mm 50_000 (-1000 1_000))", "(start 15 mm 50000 (-1000 1000))"),
    ("(start 0 im 1000 (-12_345 1234567))", "(start 0 im 1000 (-12345 1234567))"),
    ("(pass 1_000)", "(pass 1000)"),
    ("(pass 86_400_000)", "(pass 86400000)"),
    ("(reply 4 16_777_215 (-9 999))", "(reply 4 16777215 (-9 999))"),
    (
        "(reply 4 1 (-4_000_000_000_000_000_000 4000000000000000000))",
        "(reply 4 1 (-4000000000000000000 4000000000000000000))",
    ),
    (
        "(reply 4 1000 (-4000000000000000000 -3_999_999_999_999_999_999))",
        "(reply 4 1000 (-4000000000000000000 -3999999999999999999))",
    ),
    ("(flight 4 (1_000_000_000 1000))", "(flight 4 (1000000000 1000))"),
    ("(flight 4 (1000 12_345_678))", "(flight 4 (1000 12345678))"),
];

/// How often each number was returned by `plain`.
struct Seen([u32; 13]);

impl Seen {
    fn check(&mut self, line: &[u8]) {
        self.0[usize::from(check(line))] += 1;
    }

    fn assert_all(&self) {
        for (number, least) in [(0, 100), (1, 100), (2, 100), (11, 100), (12, 50)] {
            assert!(self.0[number] > least, "{number}: {:?}", self.0);
        }
    }
}

#[test]
fn commands_come_back_byte_for_byte() {
    for line in COMMANDS {
        assert_eq!(check(line.as_bytes()), 0, "{line}");
    }
    for order in samples().into_iter().filter(|order| order.is_allowed()) {
        assert_eq!(check(order.line().as_bytes()), 0, "{order:?}");
    }
}

#[test]
fn grouped_numerals_come_back_plain() {
    for (line, spelling) in GROUPED {
        assert_eq!(check(line.as_bytes()), 0, "{line}");
        assert_eq!(spelled(line).as_deref(), Ok(spelling));
        // The plain spelling stays.
        assert_eq!(spelled(spelling).as_deref(), Ok(spelling));
    }
}

#[test]
fn a_command_that_a_keeper_refuses_is_written() {
    let mut keeper = after(&["(start 1 im 0 (0 4000000000000000000))"]);
    for (line, answer) in [
        ("(start 1 im 0 (0 0))", "(no 3)"),
        ("(request 1)", "(no 4)"),
        ("(pass 1)", "(no 5)"),
        ("(reply 2 1 (0 0))", "(no 7)"),
        ("(drop 2)", "(no 7)"),
        ("(flight 1 (2 1))", "(no 4)"),
        ("(request 3)", "(sent 3 1)"),
        ("(flight 3 (2 1))", "(no 6)"),
    ] {
        assert_eq!(ask(&mut keeper, line), answer);
        assert_eq!(spelled(line).as_deref(), Ok(line));
    }
}

#[test]
#[rustfmt::skip]
fn number_1() {
    for line in [
        "", " ", "()", "read", "(read", "(read) ", " (read)", "(read))", "(read)\n", "(read)\r",
        "(Read)", "(waiting )", "(waiting (1 1))", "(pass 12x7)", "(pass 5) ", "(pass  5)",
        "(pass 05)", "(pass -5)", "(pass -0)", "(pass +5)", "(pass 00)", "(pass 5)\n",
        "(pass 10000000000000000000)", "(request -1)", "(drop 01)", "(no 1)", "(started 3)",
        "(start 3 xx 0 (0 0))", "(start 3 im 0 (-0 0))", "(start 3 im 0 (00 0))",
        "(start 3 im 0  (0 0))", "(start 3 im 0 (0 0)) ", "(reply 1 1 (0 -0))",
        "(reply 1 01 (0 0))", "(reply 1 -1 (0 0))", "(start 3 im 0 (-10000000000000000000 0))",
        "(pass 12_7)", "(pass 1000_000)", "(pass _100)", "(pass 1_0000)", "(request _1)",
        "(pass 10_000_000_000_000_000_000)", "(re_ad)", "(read_)", "(pass_1)", "(drop 1_)",
        "(start 3 i_m 0 (0 0))", "(start 3 im 0_(0 0))", "(start 3 im_0 (0 0))",
        "(flight 1)", "(flight 1 (2))", "(flight 1 (2 3 4))", "(flight 1 (-2 3))",
        "(flight 1 (2 -3))", "(flight 1 (2 12_7))", "(flight 1 (2 3))\n",
    ] {
        assert_eq!(check(line.as_bytes()), 1, "{line:?}");
    }
}

#[test]
fn number_2() {
    for line in [
        "(start 16 im 0 (0 0))",
        "(start 0 im 50001 (0 0))",
        "(start 0 im 0 (1 0))",
        "(start 0 mm 0 (-4000000000000000001 0))",
        "(start 0 mm 0 (0 4000000000000000001))",
        "(start 0 mm 0 (-9999999999999999999 0))",
        "(start 0 mm 0 (0 9999999999999999999))",
        "(pass 86400001)",
        "(pass 9999999999999999999)",
        "(request 16)",
        "(reply 16 1 (0 0))",
        "(reply 1 0 (0 0))",
        "(reply 1 16777216 (0 0))",
        "(reply 1 1 (0 -1))",
        "(drop 256)",
        "(start 1_000 im 0 (0 0))",
        "(start 0 im 50_001 (0 0))",
        "(start 0 im 0 (1_001 1_000))",
        "(start 0 mm 0 (-4_000_000_000_000_000_001 0))",
        "(start 0 mm 0 (0 9_999_999_999_999_999_999))",
        "(pass 86_400_001)",
        "(request 1_000)",
        "(reply 1 16_777_216 (0 0))",
        "(flight 16 (0 0))",
        "(flight 1 (1000000001 0))",
        "(flight 1 (0 1000000001))",
        "(flight 1 (1_000_000_001 0))",
        "(flight 1 (0 9_999_999_999_999_999_999))",
    ] {
        assert_eq!(check(line.as_bytes()), 2, "{line:?}");
    }
}

#[test]
fn numbers_11_and_12() {
    for (line, number) in [
        ("(window 0 (2000-02-30T00:00:00 2001-01-01T00:00:00))", 11),
        ("(window 0 (2000-01-01T00:00:00 2100-01-01T00:00:00))", 11),
        ("(window 0 (2100-01-01T00:00:00 2000-01-01T00:00:00))", 11),
        ("(window 0 (2000-01-01T00:00:00 2000-01-01T00:00:00))", 12),
        ("(window 0 (2000-01-01T00:00:01 2000-01-01T00:00:00))", 12),
    ] {
        assert_eq!(check(line.as_bytes()), number, "{line:?}");
    }
}

#[test]
fn number_1_comes_before_number_2() {
    for line in [
        "(window 16 (2000-01-01T00:00:00 2000-01-01T00:00:0))",
        "(window 16 (2000-13-01T00:00:00 2000-01-01T00:00:00) )",
        "(pass 86400001 )",
        "(start 16 xx 0 (0 0))",
        "(start 16 im 50001 (2 1)))",
        "(reply 16 0 (2 1) )",
        "(reply 16 0 (2 -0))",
        "(request 16))",
        "(start 1_000 im 50_001 (0 1_00))",
        "(reply 1_000 0 (2 1_))",
        "(window 16 (2_000-01-01T00:00:00 2000-01-01T00:00:00))",
        "(flight 16 (1000000001 -0))",
        "(flight 16 (1000000001 0) )",
    ] {
        assert_eq!(check(line.as_bytes()), 1, "{line:?}");
    }
}

#[test]
fn long_lines() {
    // The longest line of a command shape has 118 bytes: every numeral is
    // grouped and has 19 digits, which no range but that of the edges allows.
    let numeral = grouped(&"9".repeat(19));
    let longest = format!("(start {numeral} mm {numeral} (-{numeral} -{numeral}))");
    assert_eq!(longest.len(), 118);
    assert_eq!(check(longest.as_bytes()), 2);
    assert_eq!(without_separators(longest.as_bytes()).len(), 94);
    assert_eq!(check(&without_separators(longest.as_bytes())), 2);

    for line in COMMANDS.into_iter().chain([longest.as_str()]) {
        for length in [119, 120, 121, 159, 160, 161, 162, 256, 300, 100_000] {
            for filling in [b' ', b')', b'0', b'_', b'\n'] {
                let mut line = line.as_bytes().to_vec();
                line.resize(length, filling);
                assert_eq!(check(&line), 1);
            }
        }
    }
}

/// No shape is as long as the limit, so no line shows where it lies. These are
/// refused for their numeral as well.
#[test]
fn long_numerals() {
    assert_eq!(MAX_LINE, 160);
    for length in [118, 120, 121, 159, 160, 161, 162] {
        for digit in ["0", "1", "9", "_"] {
            let line = format!("(pass {})", digit.repeat(length - 7));
            assert_eq!(line.len(), length);
            assert_eq!(check(line.as_bytes()), 1);
        }
    }
    // Grouped, of 19 digits and more. The two words together give every
    // length about the limit.
    for digits in 19..=120 {
        let numeral = grouped(&"1".repeat(digits));
        let number = if digits == 19 { 2 } else { 1 };
        for word in ["pass", "request"] {
            let line = format!("({word} {numeral})");
            assert_eq!(check(line.as_bytes()), number, "{line}");
        }
    }
}

#[test]
fn every_change_of_one_byte() {
    let mut seen = Seen([0; 13]);
    let grouped = GROUPED.map(|(line, _)| line);
    for line in COMMANDS.into_iter().chain(grouped) {
        let line = line.as_bytes();
        for place in 0..line.len() {
            let mut shorter = line.to_vec();
            shorter.remove(place);
            seen.check(&shorter);
            for byte in 0..=255 {
                let mut other = line.to_vec();
                other[place] = byte;
                seen.check(&other);
                let mut longer = line.to_vec();
                longer.insert(place, byte);
                seen.check(&longer);
            }
        }
    }
    seen.assert_all();
}

#[test]
fn random_lines() {
    let mut random = Random(0x1357_9BDF_0246_8ACE);
    let mut seen = Seen([0; 13]);
    for _ in 0..60_000 {
        let line = random_line(&mut random);
        seen.check(&line);
    }
    seen.assert_all();
    for _ in 0..10_000 {
        let length = random.below(170) as usize;
        let line: Vec<u8> = (0..length).map(|_| random.next() as u8).collect();
        check(&line);
    }
}
