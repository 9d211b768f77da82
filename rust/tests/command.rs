//! The wrapper's own duties where a line is written: what it hands to the
//! library and what it hands back. The package `differential` tests the library.

use boardtime::{lines, plain, Command, Date, Keeper, Refusal, Rule, OUTPUT_BYTES};

const UNTOUCHED: u8 = 0xA5;

const START: Command = Command::Start {
    board: 3,
    rule: Rule::Im,
    claim: 200,
    lower: -1000,
    upper: 1000,
};

/// The first second that has a date, and the last one.
const FIRST: Date = date(1900, 1, 1, [0, 0, 0]);
const LAST: Date = date(2099, 12, 31, [23, 59, 59]);
/// No date: 1900 is no leap year.
const NO_DATE: Date = date(1900, 2, 29, [0, 0, 0]);

/// Every form, with numbers that differ, so that none can stand for another.
const COMMANDS: [(Command, &str); 13] = [
    (START, "(start 3 im 200 (-1000 1000))"),
    (
        Command::Start {
            board: 15,
            rule: Rule::Mm,
            claim: 50_000,
            lower: -4_000_000_000_000_000_000,
            upper: -3_999_999_999_999_999_999,
        },
        "(start 15 mm 50000 (-4000000000000000000 -3999999999999999999))",
    ),
    (Command::Pass { ticks: 86_400_000 }, "(pass 86400000)"),
    (Command::Request { peer: 4 }, "(request 4)"),
    (
        Command::Reply {
            peer: 15,
            tag: 16_777_215,
            trailing: -5,
            leading: 4_000_000_000_000_000_000,
        },
        "(reply 15 16777215 (-5 4000000000000000000))",
    ),
    (Command::Drop { peer: 0 }, "(drop 0)"),
    (Command::Read, "(read)"),
    (Command::Waiting, "(waiting)"),
    (
        window(
            7,
            date(2001, 2, 3, [4, 5, 6]),
            date(2013, 10, 29, [11, 48, 57]),
        ),
        "(window 7 (2001-02-03T04:05:06 2013-10-29T11:48:57))",
    ),
    (
        window(15, FIRST, LAST),
        "(window 15 (1900-01-01T00:00:00 2099-12-31T23:59:59))",
    ),
    (flight(12, 3456, 789), "(flight 12 (3456 789))"),
    (
        flight(15, 999_999_999, 1_000_000_000),
        "(flight 15 (999999999 1000000000))",
    ),
    (flight(0, 1_000_000_000, 0), "(flight 0 (1000000000 0))"),
];

/// Grouped numerals at every place whose range has some, also beside plain ones,
/// each line with its plain spelling.
const GROUPED: [(&str, &str); 7] = [
    (
        "(start 15 mm 50_000 (-4_000_000_000_000_000_000 -3_999_999_999_999_999_999))",
        "(start 15 mm 50000 (-4000000000000000000 -3999999999999999999))",
    ),
    (
        "(start 3 im 200 (-1_000 1000))",
        "(start 3 im 200 (-1000 1000))",
    ),
    ("(pass 86_400_000)", "(pass 86400000)"),
    (
        "(reply 15 16_777_215 (-12_345 123_456))",
        "(reply 15 16777215 (-12345 123456))",
    ),
    ("(reply 4 1000 (0 1_000_000))", "(reply 4 1000 (0 1000000))"),
    (
        "(flight 15 (1_000_000_000 999_999_999))",
        "(flight 15 (1000000000 999999999))",
    ),
    ("(flight 4 (1000 2_000))", "(flight 4 (1000 2000))"),
];

/// The ticks of a pass, or an edge, that are no numerals: not every group has
/// its `_`, a group has not three digits, or `_` stands where no group begins;
/// and a leading zero, a sign that is out of place, twenty digits.
const NO_TICKS: [&str; 14] = [
    "12_7",
    "1000_000",
    "1_000000",
    "_100",
    "100_",
    "_",
    "1__000",
    "1_00",
    "1_0000",
    "0_000",
    "001_000",
    "-1_000",
    "+1_000",
    "10_000_000_000_000_000_000",
];
const NO_EDGES: [&str; 6] = [
    "-_100",
    "_-100",
    "-100_",
    "-1000_000",
    "-0_000",
    "-10_000_000_000_000_000_000",
];

/// Flight times with a '-', which only an edge may have, or with what is no
/// numeral, and lines without the brackets or the parts of a flight.
const NO_FLIGHTS: [&str; 11] = [
    "(flight 4 (-1 0))",
    "(flight 4 (0 -1))",
    "(flight 4 (-1000 -2000))",
    "(flight 4 (-1_000 2000))",
    "(flight 4 (-0 0))",
    "(flight -4 (0 0))",
    "(flight 4 (0 12_7))",
    "(flight 4 0 0)",
    "(flight 4 (0))",
    "(flight 4 (0 0)",
    "(flight 4)",
];

/// Each has one number that is the first refused, or one that would be accepted
/// if it were cut short, or edges in the wrong order.
const REFUSED: [Command; 23] = [
    start(16, 0, 0, 0),
    start(256, 0, 0, 0),
    start(0, 50_001, 0, 0),
    start(0, 1 << 16, 0, 0),
    start(0, 0, -4_000_000_000_000_000_001, 0),
    start(0, 0, 0, i64::MAX),
    start(0, 0, 1, 0),
    Command::Pass { ticks: 86_400_001 },
    Command::Pass { ticks: 1 << 32 },
    Command::Request { peer: u64::MAX },
    reply(1 << 32, 1, 0),
    reply(0, 0, 0),
    reply(0, 1, i64::MIN),
    Command::Drop { peer: 16 },
    // The slot comes before the dates and their order.
    window(16, NO_DATE, LAST),
    window(256, LAST, FIRST),
    flight(16, 0, 0),
    flight(256, 0, 0),
    flight(0, 1_000_000_001, 0),
    flight(0, 1 << 32, 0),
    flight(0, 0, 1_000_000_001),
    flight(0, 0, 1 << 32),
    flight(0, u64::MAX, u64::MAX),
];

/// Windows with a slot in its range that are refused all the same. That a date
/// does not exist comes before the order of the two.
const NO_WINDOWS: [(Command, Refusal); 6] = [
    (window(0, NO_DATE, LAST), Refusal::NoDate),
    (window(0, LAST, NO_DATE), Refusal::NoDate),
    (
        window(0, date(1899, 12, 31, [23, 59, 59]), LAST),
        Refusal::NoDate,
    ),
    (
        window(0, FIRST, date(2100, 1, 1, [0, 0, 0])),
        Refusal::NoDate,
    ),
    (window(0, FIRST, FIRST), Refusal::NoWindow),
    (window(0, LAST, FIRST), Refusal::NoWindow),
];

const fn start(board: u64, claim: u64, lower: i64, upper: i64) -> Command {
    Command::Start {
        board,
        rule: Rule::Mm,
        claim,
        lower,
        upper,
    }
}

const fn reply(peer: u64, tag: u64, leading: i64) -> Command {
    Command::Reply {
        peer,
        tag,
        trailing: 0,
        leading,
    }
}

const fn window(slot: u64, start: Date, end: Date) -> Command {
    Command::Window { slot, start, end }
}

const fn flight(peer: u64, out: u64, back: u64) -> Command {
    Command::Flight { peer, out, back }
}

const fn date(year: u64, month: u64, day: u64, [hour, minute, second]: [u64; 3]) -> Date {
    Date {
        year,
        month,
        day,
        hour,
        minute,
        second,
    }
}

#[test]
fn each_command_has_its_line() {
    for (command, line) in COMMANDS {
        let mut out = [UNTOUCHED; OUTPUT_BYTES + 9];
        assert_eq!(command.write(&mut out), Ok(line.as_bytes()));
        assert!(out[line.len()..].iter().all(|&byte| byte == UNTOUCHED));
    }
}

#[test]
fn lines_that_can_be_read_are_written_back() {
    for (_, line) in COMMANDS {
        let mut out = [UNTOUCHED; OUTPUT_BYTES + 9];
        assert_eq!(plain(line.as_bytes(), &mut out), Ok(line.as_bytes()));
        assert!(out[line.len()..].iter().all(|&byte| byte == UNTOUCHED));
    }
}

#[test]
fn grouped_numerals_are_written_back_plain() {
    for (line, expected) in GROUPED {
        let mut out = [UNTOUCHED; OUTPUT_BYTES];
        assert_eq!(plain(line.as_bytes(), &mut out), Ok(expected.as_bytes()));
        let rest = &out[expected.len()..];
        assert!(rest.iter().all(|&byte| byte == UNTOUCHED), "{line}");
    }
}

#[test]
fn what_is_no_numeral_is_not_read() {
    let passes = NO_TICKS.map(|ticks| format!("(pass {ticks})"));
    let starts = NO_EDGES.map(|edge| format!("(start 3 im 200 ({edge} 1000))"));
    let dates = [
        "(window 0 (2_000-01-01T00:00:00 2001-01-01T00:00:00))".into(),
        "(window 0 (2000-01-01T00:00:00 2_001-01-01T00:00:00))".into(),
    ];
    for line in passes.iter().chain(&starts).chain(&dates) {
        let mut out = [UNTOUCHED; OUTPUT_BYTES];
        let refused = plain(line.as_bytes(), &mut out);
        assert_eq!(refused, Err(Refusal::NoShape), "{line}");
        assert_eq!(out, [UNTOUCHED; OUTPUT_BYTES], "{line}");
    }
}

#[test]
fn what_is_no_flight_is_not_read() {
    for line in NO_FLIGHTS {
        let mut out = [UNTOUCHED; OUTPUT_BYTES];
        let refused = plain(line.as_bytes(), &mut out);
        assert_eq!(refused, Err(Refusal::NoShape), "{line}");
        assert_eq!(out, [UNTOUCHED; OUTPUT_BYTES], "{line}");
    }
}

/// Each is a numeral, so that its range is asked.
#[test]
fn grouped_numerals_outside_their_ranges_are_refused() {
    let mut out = [UNTOUCHED; OUTPUT_BYTES];
    for line in [
        "(pass 86_400_001)",
        "(request 1_000)",
        "(start 1_000 im 200 (-1000 1000))",
        "(start 3 im 50_001 (-1000 1000))",
        "(start 3 im 200 (1_000 -1_000))",
        "(reply 4 16_777_216 (0 0))",
        "(reply 4 1 (0 4_000_000_000_000_000_001))",
        "(drop 9_999_999_999_999_999_999)",
        "(window 1_000 (2000-01-01T00:00:00 2001-01-01T00:00:00))",
        "(flight 1_000 (0 0))",
        "(flight 4 (1_000_000_001 0))",
        "(flight 4 (0 1_000_000_001))",
    ] {
        let refused = plain(line.as_bytes(), &mut out);
        assert_eq!(refused, Err(Refusal::OutsideRange), "{line}");
        assert_eq!(out, [UNTOUCHED; OUTPUT_BYTES]);
    }
}

#[test]
fn numbers_outside_their_ranges_are_refused() {
    let mut out = [UNTOUCHED; OUTPUT_BYTES];
    for command in REFUSED {
        let refused = command.write(&mut out);
        assert_eq!(refused, Err(Refusal::OutsideRange), "{command:?}");
        assert_eq!(out, [UNTOUCHED; OUTPUT_BYTES]);
    }
}

#[test]
fn dates_that_make_no_window_are_refused() {
    let mut out = [UNTOUCHED; OUTPUT_BYTES];
    for (command, refusal) in NO_WINDOWS {
        assert_eq!(command.write(&mut out), Err(refusal), "{command:?}");
        assert_eq!(out, [UNTOUCHED; OUTPUT_BYTES]);
    }
}

#[test]
fn rules_without_a_name_are_refused() {
    let mut out = [UNTOUCHED; OUTPUT_BYTES];
    for rule in [2, 255, 256, 257, 1 << 32, u64::MAX] {
        let returned = lines::write_start(&mut out, 3, rule, 200, -1000, 1000);
        assert_eq!((returned.number, returned.length), (2, 0), "{rule}");
        assert_eq!(out, [UNTOUCHED; OUTPUT_BYTES]);
    }
}

#[test]
fn lines_that_cannot_be_read_are_refused() {
    let mut out = [UNTOUCHED; OUTPUT_BYTES];
    for (line, refusal) in [
        ("", Refusal::NoShape),
        ("(pass 10) ", Refusal::NoShape),
        ("(read)\n", Refusal::NoShape),
        ("(pass 86400001)", Refusal::OutsideRange),
        ("(start 3 im 200 (1000 -1000))", Refusal::OutsideRange),
        (
            "(window 0 (2000-1-01T00:00:00 2000-01-02T00:00:00))",
            Refusal::NoShape,
        ),
        (
            "(window 16 (1900-02-29T00:00:00 1900-01-01T00:00:00))",
            Refusal::OutsideRange,
        ),
        (
            "(window 15 (1900-02-29T00:00:00 1900-01-01T00:00:00))",
            Refusal::NoDate,
        ),
        (
            "(window 15 (2000-02-29T00:00:00 2000-02-29T00:00:00))",
            Refusal::NoWindow,
        ),
        ("(flight 4 (0 0)) ", Refusal::NoShape),
        ("(flight 4 (1000000000 1000000001))", Refusal::OutsideRange),
        ("(flight 16 (-1 1000000001))", Refusal::NoShape),
    ] {
        assert_eq!(plain(line.as_bytes(), &mut out), Err(refusal), "{line}");
        assert_eq!(out, [UNTOUCHED; OUTPUT_BYTES]);
    }
}

/// Before anything else is asked.
#[test]
fn short_outputs_are_refused() {
    for length in [0, 1, OUTPUT_BYTES - 1] {
        let mut out = vec![UNTOUCHED; length];
        let accepted = COMMANDS.map(|(command, _)| command);
        let no_windows = NO_WINDOWS.map(|(command, _)| command);
        for command in accepted.iter().chain(&REFUSED).chain(&no_windows) {
            assert_eq!(command.write(&mut out), Err(Refusal::ShortOutput));
        }
        for line in ["(read)", "(pass 12x7)", "(pass 86400001)"] {
            let refused = plain(line.as_bytes(), &mut out);
            assert_eq!(refused, Err(Refusal::ShortOutput));
        }
        assert!(out.iter().all(|&byte| byte == UNTOUCHED));
    }
}

#[test]
fn written_lines_are_answered() {
    let mut keeper = Keeper::fresh();
    for (command, expected) in [
        (START, "(started 3)\n"),
        (Command::Pass { ticks: 10 }, "(at 10 (9997000 10003000))\n"),
        (Command::Request { peer: 4 }, "(sent 4 1)\n"),
        (Command::Waiting, "(waiting (4 1))\n"),
        (reply(4, 1, 10_001_000), "(taken 4 (9997000 10001000))\n"),
        (Command::Drop { peer: 4 }, "(no 7)\n"),
        (
            Command::Read,
            "(time (9997000 11001200) (10499100 502100) 0 0)\n",
        ),
        (window(7, FIRST, LAST), "(open 7)\n"),
        (flight(4, 1000, 2000), "(flight 4)\n"),
        (flight(3, 1000, 2000), "(no 4)\n"),
        (Command::Request { peer: 4 }, "(sent 4 2)\n"),
        (flight(4, 0, 0), "(no 6)\n"),
        (Command::Drop { peer: 4 }, "(dropped 4)\n"),
        (flight(4, 0, 0), "(flight 4)\n"),
    ] {
        let mut line = [0; OUTPUT_BYTES];
        let mut out = [0; OUTPUT_BYTES];
        let line = command.write(&mut line).expect("numbers in their ranges");
        assert_eq!(keeper.answer(line, &mut out).bytes, expected.as_bytes());
    }
}
