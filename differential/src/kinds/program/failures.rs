//! Reads and writes that fail.

use super::input::Input;
use crate::limits::LONGEST_LINE;
use crate::program::{End, Sink, Socket, Source};
use crate::random::Random;
use crate::test::Test;

/// What a program may read at once.
const READ: usize = 65_536;

/// Lengths of the whole lines before an unfinished one.
const BEFORE: &[usize] = &[0, 1, 300, READ - 100, READ - 1, READ, READ + 1];

/// Unfinished lines. Some are commands if an LF follows.
const UNFINISHED: &[&[u8]] = &[
    b"",
    b" ",
    b"\r",
    b"\0",
    b"(rea",
    b"(read)",
    b"(pass 1)",
    b"(waiting)",
    b"(start 15 mm 50000 (-4000000000000000000 -3999999999999999999))",
    b"(pass 1_",
    b"(pass 1_000)",
];

/// Lengths of unfinished lines that are no commands.
const LENGTHS: &[usize] = &[
    LONGEST_LINE - 1,
    LONGEST_LINE,
    LONGEST_LINE + 1,
    200,
    READ - 1,
    READ,
    70_000,
];

/// Outputs to which nothing can be written.
const FAILING: &[Sink] = &[
    Sink::Closed,
    Sink::Full,
    Sink::ReadOnly,
    Sink::GoneUnsignalled,
    Sink::NonBlocking { held: usize::MAX },
];

pub fn run(test: &mut Test) {
    unreadable_inputs(test);
    unfinished_lines(test);
    unwritable_outputs(test);
    filled_outputs(test);
}

/// The first read fails. There is nothing to write, so that it does not matter
/// that a write would fail too.
fn unreadable_inputs(test: &mut Test) {
    test.begin("program: inputs that can't be read");
    for source in [Source::Closed, Source::Directory, Source::WriteOnly] {
        test.run_failing(b"", source, Sink::Pipe, End::ReadingFailed);
        for &sink in FAILING {
            test.run_failing(b"", source, sink, End::ReadingFailed);
        }
    }
    for source in [Source::NonBlocking, Source::Reset] {
        for input in [&b""[..], b"(read)"] {
            for &sink in FAILING {
                test.run_failing(input, source, sink, End::ReadingFailed);
            }
        }
    }
}

/// A read fails after whole lines and an unfinished one.
fn unfinished_lines(test: &mut Test) {
    let mut random = test.begin("program: unfinished lines");
    for source in [Source::NonBlocking, Source::Reset] {
        for &before in BEFORE {
            let lines = whole_lines(&mut random, before);
            let long = LENGTHS
                .iter()
                .flat_map(|&length| long_lines(&mut random, length));
            let short = UNFINISHED.iter().map(|line| line.to_vec());
            for line in short.chain(long) {
                let input = [&lines, &line[..]].concat();
                test.run_failing(&input, source, Sink::Pipe, End::ReadingFailed);
            }
        }
    }
}

/// Lines that together have this length.
fn whole_lines(random: &mut Random, length: usize) -> Vec<u8> {
    /// More than a line has.
    const ROOM: usize = 170;
    let mut input = Input::new();
    if let Some(most) = length.checked_sub(ROOM) {
        input = Input::started(random, "im");
        input.lines_up_to(random, most);
    }
    if let Some(rest) = length.checked_sub(input.len() + 1) {
        input.line(vec![b' '; rest]);
    }
    assert_eq!(input.len(), length);
    input.bytes().to_vec()
}

/// Lines of this length: a command and spaces, commands, and any bytes.
fn long_lines(random: &mut Random, length: usize) -> [Vec<u8>; 3] {
    let mut spaces = b"(pass 1)".to_vec();
    spaces.resize(length, b' ');
    let commands = b"(pass 1)".iter().copied().cycle().take(length).collect();
    let mut any = vec![0; length];
    random.fill(&mut any);
    for byte in any.iter_mut().filter(|byte| **byte == b'\n') {
        *byte = 0;
    }
    [spaces, commands, any]
}

/// The first write fails.
fn unwritable_outputs(test: &mut Test) {
    let mut random = test.begin("program: outputs that can't be written");
    let many = session(&mut random, 3 * READ);
    let and_one = [&many[..], b"(read)"].concat();
    let long = [&[b'x'; 70_000][..], b"\n"].concat();
    let inputs: [&[u8]; 6] = [b"\n", b"(read)\n", b"(read)\n(rea", &many, &and_one, &long];
    for &sink in FAILING.iter().chain([&Sink::Gone]) {
        let end = End::WritingFailed;
        for input in inputs {
            test.run_failing(input, Source::File, sink, end);
            // After the failure the program does not wait for more lines.
            test.run_failing(input, Source::Open, sink, end);
        }
        for input in [b"(read)", &long[..70_000]] {
            test.run_failing(input, Source::File, sink, end);
        }
        test.run_failing(b"", Source::File, sink, End::Quiet);
    }
}

/// Some writes succeed, and then one fails.
fn filled_outputs(test: &mut Test) {
    let mut random = test.begin("program: outputs that become full");
    let enough = Socket::capacity().expect("a socket") + 2 * READ;
    for held in [0, 1, 777, 4096, READ - 1, READ, 100_001] {
        let sink = Sink::NonBlocking { held };
        for source in [Source::File, Source::Open] {
            let input = session(&mut random, enough);
            test.run_failing(&input, source, sink, End::WritingFailed);
        }
        let input = session(&mut random, 1000);
        test.run_failing(&input, Source::File, sink, End::Quiet);
    }
}

/// Lines with answers of at least so many bytes. At most one peer waits, so
/// that the bytes of every answer are given.
fn session(random: &mut Random, answers: usize) -> Vec<u8> {
    const LINES: &[&str] = &["(read)", "(read)", "(pass 1)", "(pass 0)", "(waiting)", ""];
    let mut input = Input::new();
    let mut written = input.line("(start 3 im 200 (-1000000000 1000000000))");
    while written < answers {
        written += input.line("(request 5)");
        for _ in 0..random.place(30) {
            written += input.line(random.pick(LINES));
        }
        let reply = input.reply().expect("a peer waits");
        written += input.line(reply);
    }
    input.bytes().to_vec()
}
