//! Replies under mm that are as wide as the own edges and would take an edge to
//! the end of the range, each also with one nanosecond more or less.

use super::states;
use crate::limits::{LAST_CLAIM, LAST_MOMENT, SHORTEST_OUTPUT};
use crate::random::Random;
use crate::spelling::some_grouped;
use crate::test::Test;

const RUNS: u64 = 40_000;

pub fn run(test: &mut Test) {
    let mut random = test.begin("adoptions at the ends of the range");
    for _ in 0..RUNS {
        adopt(test, &mut random);
    }
}

fn adopt(test: &mut Test, random: &mut Random) {
    let claim = random.between(0, i64::from(LAST_CLAIM));
    let (shortest, longest) = (1_000_000 - claim, 1_000_000 + claim);
    let wait = random.between(0, 3_600_000);
    let moved = (wait + 1) * longest;
    // Wide enough for a reply that is moved outward on both sides.
    let first_width = 2 * moved + random.between(0, 1_000_000_000);
    let width = first_width + wait * (longest - shortest);

    let at_the_start = random.one_in(2);
    let lower = if at_the_start {
        -LAST_MOMENT
    } else {
        LAST_MOMENT - first_width - moved
    };
    let upper = lower + first_width;
    let replied_width = width - 2 * moved + random.between(-1, 1);
    let trailing = if at_the_start {
        -LAST_MOMENT + moved + random.between(-1, 1)
    } else {
        LAST_MOMENT - moved + random.between(-1, 1) - replied_width
    };

    let start = format!("(start 2 mm {claim} ({lower} {upper}))");
    let pass = format!("(pass {wait})");
    let leading = trailing + replied_width;
    let reply = format!("(reply 5 1 ({trailing} {leading}))");
    let [start, pass, reply] = [start, pass, reply].map(|line| some_grouped(random, line));
    let mut image = states::after(test, &[&start, "(request 5)", &pass]);
    test.line(&mut image, reply.as_bytes(), SHORTEST_OUTPUT);
    test.line(&mut image, b"(read)", SHORTEST_OUTPUT);
}
