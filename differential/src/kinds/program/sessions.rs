//! Inputs of lines that move the keeper, long and short.

use super::both_ways;
use super::input::Input;
use crate::fitting;
use crate::program::{Delivery, LENGTHS};
use crate::random::Random;
use crate::test::Test;

const KIB: usize = 1024;
const FILES: usize = 10;
const MIXED_RUNS: usize = 10;
const SHORT_RUNS: usize = 100;
const SHORT_LINES: usize = 400;

/// The most bytes through a pipe, and the most pieces of the same length.
const LONGEST: usize = 400 * KIB;
const MOST_PIECES: usize = 20_000;

pub fn run(test: &mut Test) {
    files(test);
    pipes(test);
    short(test);
}

fn files(test: &mut Test) {
    let mut random = test.begin("program: sessions from a file");
    for at in 0..FILES {
        let length = match at {
            0 => 3 * KIB * KIB,
            _ => 300 * KIB + random.place(700 * KIB),
        };
        let input = session(&mut random, length);
        test.run_program(&input, &Delivery::File);
    }
}

fn pipes(test: &mut Test) {
    let mut random = test.begin("program: sessions through a pipe");
    for &length in LENGTHS {
        let input = session(&mut random, LONGEST.min(length * MOST_PIECES));
        let delivery = Delivery::in_equal_pieces(&mut random, input.len(), length);
        test.run_program(&input, &delivery);
    }
    for _ in 0..MIXED_RUNS {
        let length = 1 + random.place(LONGEST);
        let input = session(&mut random, length);
        let delivery = Delivery::in_mixed_pieces(&mut random, input.len());
        test.run_program(&input, &delivery);
    }
}

/// Short runs may begin anywhere in the range, so that passes and adoptions
/// leave it, and requests wait too long.
fn short(test: &mut Test) {
    let mut random = test.begin("program: short sessions");
    for _ in 0..SHORT_RUNS {
        let mut input = Input::new();
        for _ in 0..SHORT_LINES {
            let line = fitting::line(&mut random, input.image());
            input.line(line);
        }
        both_ways(test, &mut random, input.bytes());
    }
}

fn session(random: &mut Random, length: usize) -> Vec<u8> {
    let rule = random.pick(&["im", "mm"]);
    let mut input = Input::started(random, rule);
    input.lines_up_to(random, length);
    input.bytes().to_vec()
}
