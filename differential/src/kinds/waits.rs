//! Replies at the last tick that a request may wait, and one tick past it.

use super::states;
use crate::fitting;
use crate::limits::LAST_WAIT;
use crate::random::Random;
use crate::test::Test;

const RUNS: u64 = 16_000;
const REPLIES: u64 = 4;

pub fn run(test: &mut Test) {
    let mut random = test.begin("waits at their limit");
    for _ in 0..RUNS {
        let start = format!(
            "(start 9 {} {} (0 {}))",
            random.pick(&["im", "mm"]),
            random.pick(&[0, 1, 200, 50_000]),
            random.pick(&[0_i64, 1000, 8_000_000_000_000])
        );
        let peer = random.below(9);
        let request = format!("(request {peer})");
        let mut image = states::after(test, &[&start, "(pass 3)", &request]);
        for ticks in parts(&mut random) {
            test.pass(&mut image, ticks);
        }
        for _ in 0..REPLIES {
            let line = fitting::line(&mut random, &image);
            let out_length = fitting::out_length(&mut random);
            test.line(&mut image, &line, out_length);
        }
    }
}

/// Passes that together take the limit of a wait, or one tick more or less.
fn parts(random: &mut Random) -> Vec<u64> {
    let mut rest = LAST_WAIT - 1 + random.below(3);
    let mut parts = Vec::new();
    for _ in 0..random.below(4) {
        let part = random.below(rest + 1);
        parts.push(part);
        rest -= part;
    }
    parts.push(rest);
    parts
}
