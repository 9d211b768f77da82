//! Images made by hand, each at a limit of what a keeper may hold or just past
//! it.

use independent::{Keeper, Rule};

use crate::fitting;
use crate::limits::{
    Image, IMAGE_LENGTH, LAST_CLAIM, LAST_FLIGHT, LAST_MOMENT, LAST_PASS, LAST_TAG, LAST_TICKS,
    PEERS, VERSION,
};
use crate::random::Random;
use crate::test::Test;

const LINES_OF_EACH: u64 = 3000;

/// One thing done to a keeper that waits for peers 4 and 15.
type Change = fn(&mut Keeper);

const CHANGES: &[Change] = &[
    |_| {},
    |keeper| keeper.started = false,
    |keeper| keeper.rule = Rule::Mm,
    |keeper| keeper.board = 15,
    |keeper| keeper.board = 16,
    |keeper| keeper.board = 20,
    |keeper| keeper.board = 255,
    |keeper| keeper.board = 4,
    |keeper| keeper.claim = LAST_CLAIM,
    |keeper| keeper.claim = LAST_CLAIM + 1,
    |keeper| keeper.claim = u16::MAX,
    |keeper| keeper.requests = LAST_TAG - 1,
    |keeper| keeper.requests = LAST_TAG,
    |keeper| keeper.requests = LAST_TAG + 1,
    |keeper| keeper.requests = u32::MAX,
    |keeper| keeper.requests = 2,
    |keeper| keeper.requests = 1,
    |keeper| keeper.requests = 0,
    |keeper| keeper.conflicts = keeper.requests - 2,
    |keeper| keeper.conflicts = keeper.requests - 1,
    |keeper| keeper.conflicts = u32::MAX,
    |keeper| keeper.conflicts = u32::MAX - 1,
    |keeper| keeper.ticks = LAST_TICKS,
    |keeper| keeper.ticks = LAST_TICKS + 1,
    |keeper| keeper.ticks = LAST_TICKS - 1,
    |keeper| keeper.ticks = LAST_TICKS - LAST_PASS,
    |keeper| keeper.ticks = u64::MAX,
    |keeper| keeper.ticks = keeper.sent_at[4],
    |keeper| keeper.ticks = keeper.sent_at[4] - 1,
    |keeper| keeper.upper = LAST_MOMENT,
    |keeper| keeper.upper = LAST_MOMENT + 1,
    |keeper| keeper.upper = i64::MAX,
    |keeper| keeper.upper = keeper.lower,
    |keeper| keeper.upper = keeper.lower - 1,
    |keeper| keeper.lower = -LAST_MOMENT,
    |keeper| keeper.lower = -LAST_MOMENT - 1,
    |keeper| keeper.lower = i64::MIN,
    |keeper| (keeper.lower, keeper.upper) = (-LAST_MOMENT, LAST_MOMENT),
    |keeper| (keeper.lower, keeper.upper) = (-LAST_MOMENT, -LAST_MOMENT),
    |keeper| (keeper.lower, keeper.upper) = (LAST_MOMENT, LAST_MOMENT),
    |keeper| (keeper.lower, keeper.upper) = (-5, 2),
    |keeper| (keeper.lower, keeper.upper) = (-5, -2),
    |keeper| keeper.tags[4] = keeper.tags[15],
    |keeper| keeper.tags[4] = 0,
    |keeper| keeper.tags[4] = keeper.requests,
    |keeper| keeper.tags[4] = keeper.requests + 1,
    |keeper| keeper.tags[7] = 3,
    |keeper| keeper.tags[7] = keeper.tags[4],
    |keeper| keeper.tags[3] = 3,
    |keeper| keeper.sent_at[4] = keeper.ticks,
    |keeper| keeper.sent_at[4] = keeper.ticks + 1,
    |keeper| keeper.sent_at[15] = u64::MAX,
    |keeper| keeper.sent_at[7] = 1,
    |keeper| keeper.sent_at[3] = 1,
    |keeper| keeper.waiting |= 1 << 7,
    |keeper| keeper.waiting |= 1 << 3,
    |keeper| keeper.waiting &= !(1 << 4),
    |keeper| keeper.waiting = 0,
    |keeper| keeper.waiting = u16::MAX,
    |keeper| all_wait(keeper, PEERS - 1),
    |keeper| all_wait(keeper, PEERS),
    |keeper| keeper.out_times[4] = LAST_FLIGHT,
    |keeper| keeper.out_times[4] = LAST_FLIGHT + 1,
    |keeper| keeper.back_times[4] = LAST_FLIGHT,
    |keeper| keeper.back_times[4] = LAST_FLIGHT + 1,
    |keeper| keeper.out_times[15] = u32::MAX,
    |keeper| keeper.back_times[15] = u32::MAX,
    |keeper| keeper.out_times[3] = LAST_FLIGHT,
    |keeper| keeper.out_times[3] = LAST_FLIGHT + 1,
    |keeper| keeper.back_times[3] = LAST_FLIGHT,
    |keeper| keeper.back_times[3] = LAST_FLIGHT + 1,
    |keeper| (keeper.out_times, keeper.back_times) = ([0; PEERS], [0; PEERS]),
    |keeper| (keeper.out_times, keeper.back_times) = ([LAST_FLIGHT; PEERS], [LAST_FLIGHT; PEERS]),
    |keeper| *keeper = Keeper::fresh(),
];

pub fn run(test: &mut Test) {
    let mut random = test.begin("images made by hand");
    for change in CHANGES {
        let mut keeper = waiting_keeper();
        change(&mut keeper);
        let mut image = [0; IMAGE_LENGTH];
        keeper.to_image(&mut image);
        give(test, &mut random, image);
    }
    // What a keeper's fields cannot spell: versions, flags and rules.
    for (at, value) in [
        (0, 0),
        (0, VERSION - 1),
        (0, VERSION + 1),
        (0, 255),
        (1, 2),
        (1, 255),
        (3, 2),
        (3, 255),
    ] {
        let mut image = [0; IMAGE_LENGTH];
        waiting_keeper().to_image(&mut image);
        image[at] = value;
        give(test, &mut random, image);
    }
}

fn give(test: &mut Test, random: &mut Random, image: Image) {
    for _ in 0..LINES_OF_EACH {
        let mut image = image;
        let line = fitting::line(random, &image);
        let out_length = fitting::out_length(random);
        test.line(&mut image, &line, out_length);
    }
    for ticks in [0, 1, 2, LAST_PASS, LAST_PASS + 1, 1 << 32, u64::MAX] {
        let mut image = image;
        test.pass(&mut image, ticks);
    }
}

/// Board 3 with two requests waiting of ten sent, three conflicts, and flight
/// times of two peers and at its own place.
pub fn waiting_keeper() -> Keeper {
    let mut keeper = Keeper {
        started: true,
        board: 3,
        claim: 200,
        lower: 14_996_000,
        upper: 15_004_000,
        ticks: 1000,
        requests: 10,
        conflicts: 3,
        waiting: 1 << 4 | 1 << 15,
        ..Keeper::fresh()
    };
    (keeper.tags[4], keeper.sent_at[4]) = (9, 900);
    (keeper.tags[15], keeper.sent_at[15]) = (5, 0);
    (keeper.out_times[4], keeper.back_times[4]) = (1000, 2000);
    (keeper.out_times[9], keeper.back_times[9]) = (LAST_FLIGHT, 67_305_985);
    (keeper.out_times[3], keeper.back_times[3]) = (7, 8);
    keeper
}

/// The first `count` of the other peers wait, with the longest tags; if that
/// is one too many, the board itself waits too.
fn all_wait(keeper: &mut Keeper, count: usize) {
    keeper.requests = LAST_TAG;
    keeper.conflicts = LAST_TAG - count as u32;
    keeper.board = 15;
    keeper.waiting = ((1_u32 << count) - 1) as u16;
    for peer in 0..count {
        keeper.tags[peer] = LAST_TAG - peer as u32;
        keeper.sent_at[peer] = keeper.ticks;
    }
    keeper.tags[count..].fill(0);
    keeper.sent_at[count..].fill(0);
}
