//! Lines that are no commands, between lines that move the keeper: long,
//! empty, of spaces, and of any bytes.

use super::both_ways;
use super::input::Input;
use crate::limits::LONGEST_LINE;
use crate::random::Random;
use crate::test::Test;

const KIB: usize = 1024;

pub fn run(test: &mut Test) {
    long(test);
    very_long(test);
    empty(test);
    of_any_bytes(test);
}

/// Lines about the greatest length, also that of a shape, and about the length of
/// a buffer.
fn long(test: &mut Test) {
    let mut random = test.begin("program: long lines");
    for _ in 0..6 {
        let mut input = Input::started(&mut random, "im");
        let about_limits = (117..=122).chain(157..=171);
        for length in about_limits.chain([1000, 65_544]).chain(65_534..=65_538) {
            for filling in 0..FILLINGS {
                let line = long_line(&mut random, &input, filling, length);
                input.line(line);
                input.move_and_show(&mut random);
            }
        }
        both_ways(test, &mut random, input.bytes());
    }
}

/// A line of some MiB before, between and after short ones.
fn very_long(test: &mut Test) {
    let mut random = test.begin("program: lines of some MiB");
    for filling in 0..FILLINGS {
        let mut input = Input::started(&mut random, "mm");
        if random.one_in(2) {
            input.lines_up_to(&mut random, 100 * KIB);
        }
        let length = KIB * KIB + random.place(2 * KIB * KIB);
        let line = long_line(&mut random, &input, filling, length);
        input.line(line);
        input.move_and_show(&mut random);
        let mut bytes = input.bytes().to_vec();
        if random.one_in(2) {
            bytes.extend(long_line(&mut random, &input, filling, length));
        }
        both_ways(test, &mut random, &bytes);
    }
}

const FILLINGS: usize = 7;
const PASS: &[u8] = b"(pass 1)";

/// A line of this length, which is more than a command has. Most of these would
/// move the keeper if the program took a part of the line for a line.
fn long_line(random: &mut Random, input: &Input, filling: usize, length: usize) -> Vec<u8> {
    let command = match input.reply() {
        Some(reply) if random.one_in(2) => reply.into_bytes(),
        _ => PASS.to_vec(),
    };
    match filling {
        // A command at the front, or the whole line full of them.
        0 => padded(&command, b" ", length),
        1 => padded(b"", PASS, length),
        2 => padded(b"", b"(pass 1)\r", length),
        3 => padded(&command, b"\0(pass 1)", length),
        // Commands after as many bytes as a program may hold of a line.
        4 => {
            let front = LONGEST_LINE - 2 + random.place(5);
            padded(&padded(b"", b"x", front), PASS, length)
        }
        // A command at the end; of a line that is a little longer than allowed
        // it stands at that same place.
        5 => [&padded(b"", b"x", length - PASS.len())[..], PASS].concat(),
        _ => any_bytes(random, length),
    }
}

/// `front`, and then `filling` again and again, up to this length.
fn padded(front: &[u8], filling: &[u8], length: usize) -> Vec<u8> {
    let rest = filling.iter().cycle();
    front.iter().chain(rest).take(length).copied().collect()
}

/// Random bytes, none of them LF.
fn any_bytes(random: &mut Random, length: usize) -> Vec<u8> {
    let mut bytes = vec![0; length];
    random.fill(&mut bytes);
    for byte in &mut bytes {
        if *byte == b'\n' {
            *byte = 0;
        }
    }
    bytes
}

/// Tens of thousands of empty lines: seven bytes written for each one read.
fn empty(test: &mut Test) {
    let mut random = test.begin("program: empty lines");
    for _ in 0..4 {
        let mut input = Input::started(&mut random, "im");
        let most = random.pick(&[10, 1000, 30_000]);
        while input.len() < 60_000 {
            for _ in 0..random.place(most) {
                input.line("");
            }
            input.move_and_show(&mut random);
        }
        both_ways(test, &mut random, input.bytes());
    }
    both_ways(test, &mut random, &[b'\n'; 100_000]);
}

/// Bytes of every value, of a few values that matter, and of spaces alone.
fn of_any_bytes(test: &mut Test) {
    const FEW: &[u8] = b"\n\n\r\0 ()1x\x7F\x80\xFF";
    let mut random = test.begin("program: any bytes");
    for _ in 0..6 {
        let mut input = Input::started(&mut random, "mm");
        while input.len() < 200 * KIB {
            let mut line = vec![b' '; random.place(200)];
            match random.below(4) {
                0 => random.fill(&mut line),
                1 => line.fill_with(|| random.pick(FEW)),
                2 => line = [&input.fitting_line(&mut random)[..], b"\r"].concat(),
                _ => {}
            }
            // What is added may be several lines; none of them is a command.
            input.line(line);
            input.move_and_show(&mut random);
        }
        both_ways(test, &mut random, input.bytes());
    }
    for length in [1, 100, 70_000, 300_000] {
        let mut bytes = vec![0; length];
        random.fill(&mut bytes);
        both_ways(test, &mut random, &bytes);
    }
}
