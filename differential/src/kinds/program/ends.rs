//! The end of an input: last lines with and without LF.

use super::both_ways;
use super::input::Input;
use crate::program::Delivery;
use crate::random::Random;
use crate::test::Test;

/// Inputs of one or two lines, or none.
const SHORT: &[&[u8]] = &[
    b"",
    b"\n",
    b"\n\n",
    b"\n\n\n",
    b" ",
    b" \n",
    b"\n ",
    b"\n \n",
    b"\r",
    b"\r\n",
    b"\n\r",
    b"\0",
    b"\0\n",
    b"\n\0",
    b"(read)",
    b"(read)\n",
    b"(read)\n\n",
    b"\n(read)",
    b"(start 3 im 200 (-1000 1000))",
    b"(start 3 im 200 (-1000 1000))\n(read)",
    b"(start 3 im 200 (-1000 1000))\n(read)\n\n",
    b"(start 3 im 200 (-1000 1000))\n(pass 1)\n(rea",
    b"(start 3 im 200 (0 0))\n(window 3 (1999-12-31T23:59:59 2000-01-01T00:00:00))",
    b"(start 3 im 200 (-1 -1))\n(window 3 (1999-12-31T23:59:59 2000-01-01T00:00:00))\n(rea",
    b"(start 3 im 200 (-1000 1000))\n(flight 4 (1000 2000))",
    b"(start 3 im 200 (-1000 1000))\n(flight 4 (1_000 2_000))\n(request 4)\n(flight 4 (0 0))",
    b"(start 3 mm 200 (-1000 1000))\n(flight 4 (1000000000 0))\n(flight 4 (0 1_000_000_001))\n(fl",
    // The longest start, plain and grouped, and lines that begin with it.
    b"(start 15 mm 50000 (-4000000000000000000 -3999999999999999999))",
    b"(start 15 mm 50000 (-4000000000000000000 -3999999999999999999))x\n(read)",
    b"(start 15 mm 50_000 (-4_000_000_000_000_000_000 -3_999_999_999_999_999_999))",
    b"(start 15 mm 50_000 (-4_000_000_000_000_000_000 -3_999_999_999_999_999_999))_\n(read)",
    b"(start 3 im 200 (-1_000 1_000))\n(pass 1_000)\n(pass 1_00",
    b"(start 3 im 200 (-1_000 1_000))\n(pass 1000_000)\n(pass 1_000)",
];

/// Where an input may end: just before, at and after the end of a buffer.
const TOTALS: &[usize] = &[
    400, 4096, 65_535, 65_536, 65_537, 131_071, 131_072, 131_073, 196_608,
];

/// Lengths of a last line. Most are about the greatest length of a line, or of
/// one that has a shape.
const LENGTHS: &[usize] = &[
    0, 1, 6, 8, 55, 67, 118, 119, 120, 121, 159, 160, 161, 162, 163, 300,
];

pub fn run(test: &mut Test) {
    short(test);
    last_lines(test);
}

fn short(test: &mut Test) {
    let mut random = test.begin("program: short inputs");
    for input in SHORT {
        every_way(test, &mut random, input);
    }
    // A single line, as long as a line may be and a little more.
    for length in (117..=121).chain(157..=165).chain([65_535, 65_536, 65_537]) {
        for byte in [b' ', b'x', b'(', b'\0', b'\r'] {
            let line = vec![byte; length];
            every_way(test, &mut random, &line);
            every_way(test, &mut random, &[&line[..], b"\n"].concat());
        }
    }
}

fn last_lines(test: &mut Test) {
    let mut random = test.begin("program: last lines");
    for &total in TOTALS {
        for &length in LENGTHS {
            for lf in [&b""[..], b"\n", b"\n\n"] {
                let end = [&last_line(length)[..], lf].concat();
                let input = ending_with(&mut random, total, &end);
                both_ways(test, &mut random, &input);
            }
        }
    }
}

/// A command of this length if one is at hand, else a line that begins like
/// one.
fn last_line(length: usize) -> Vec<u8> {
    let command: &[u8] = match length {
        8 => b"(pass 7)",
        55 => b"(reply 1 1 (-4000000000000000000 -3999999999999999999))",
        67 => b"(reply 1 1 (-4_000_000_000_000_000_000 -3_999_999_999_999_999_999))",
        _ => b"(read)",
    };
    let mut line = command.to_vec();
    line.resize(length, b' ');
    line
}

/// An input of `total` bytes that ends with these.
fn ending_with(random: &mut Random, total: usize, end: &[u8]) -> Vec<u8> {
    let mut input = Input::new();
    input.line("(start 0 im 50000 (-4000000000000000000 -3999999999999999990))");
    input.line("(request 1)");
    // The rest in lines that are no commands, and a last one that fits.
    let filling = random.pick(b"x \0");
    while let Some(rest) = total.checked_sub(input.len() + 1 + end.len()) {
        input.line(vec![filling; rest.min(99)]);
    }
    [input.bytes(), end].concat()
}

fn every_way(test: &mut Test, random: &mut Random, input: &[u8]) {
    both_ways(test, random, input);
    if input.len() < 200 {
        let bytes = Delivery::in_equal_pieces(random, input.len(), 1);
        test.run_program(input, &bytes);
    }
}
