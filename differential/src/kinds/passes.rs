//! Passes by number, and the image of a fresh keeper.

use independent::Keeper;

use super::handmade::waiting_keeper;
use super::states;
use crate::lent::LONGEST;
use crate::limits::{IMAGE_LENGTH, LAST_CLAIM, LAST_MOMENT, LAST_PASS, LAST_TICKS};
use crate::random::Random;
use crate::test::Test;

const PASSES: u64 = 150_000;
/// The first number that does not fit in 32 bits.
const CUT: u64 = 1 << 32;
const FRESHES: u64 = 5000;

pub fn run(test: &mut Test) {
    passes(test);
    freshes(test);
}

fn passes(test: &mut Test) {
    let mut random = test.begin("passes by number");
    let states = states::all(test);
    for _ in 0..PASSES {
        let mut image = random.pick(&states);
        let ticks = ticks(&mut random);
        test.pass(&mut image, ticks);
        test.pass(&mut image, ticks);

        let ticks = ticks.min(LAST_PASS);
        let mut image = [0; IMAGE_LENGTH];
        near_an_end(&mut random, ticks).to_image(&mut image);
        test.pass(&mut image, ticks);
    }
}

/// All 64 bits are the caller's. The kinds of numbers about 2^32 tell a side
/// that looks at the lower half alone: it would accept most of them.
fn ticks(random: &mut Random) -> u64 {
    match random.below(14) {
        0 => 0,
        1 => 1,
        2 => LAST_PASS - 1,
        3 => LAST_PASS,
        4 => LAST_PASS + 1,
        5 => random.next() >> 32,
        6 => CUT - 1 + random.below(3),
        7 => CUT + random.below(LAST_PASS + 2),
        8 => (1 + random.below(CUT - 1)) * CUT + random.below(LAST_PASS + 2),
        9 => (1 << (32 + random.below(32))) + random.below(2),
        10 => u64::MAX - random.below(2),
        11 => random.next(),
        _ => random.below(LAST_PASS),
    }
}

/// A keeper that a pass of this many ticks, no more than one pass may have,
/// takes to the end of the range, of the ticks, or of both, or one more or
/// less.
fn near_an_end(random: &mut Random, ticks: u64) -> Keeper {
    let mut keeper = waiting_keeper();
    keeper.claim = random.pick(&[0, 1, 200, LAST_CLAIM]);
    if !random.one_in(3) {
        let moved = ticks as i64 * (1_000_000 + i64::from(keeper.claim));
        keeper.upper = (LAST_MOMENT - moved + random.between(-1, 1)).min(LAST_MOMENT);
    }
    if !random.one_in(3) {
        let rest = LAST_TICKS - ticks + random.below(3) - 1;
        keeper.ticks = rest.min(LAST_TICKS);
    }
    keeper
}

fn freshes(test: &mut Test) {
    let mut random = test.begin("fresh keepers");
    for _ in 0..FRESHES {
        let length = if random.one_in(2) {
            IMAGE_LENGTH
        } else {
            random.place(LONGEST + 1)
        };
        let mut image = vec![0; length];
        random.fill(&mut image);
        test.fresh(&mut image);
    }
}
