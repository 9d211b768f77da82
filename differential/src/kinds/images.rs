//! Images that no keeper wrote: damaged, made from random fields, or of random
//! bytes.

use independent::{Keeper, Rule};

use super::states;
use crate::fitting;
use crate::limits::{
    Image, IMAGE_LENGTH, LAST_CLAIM, LAST_FLIGHT, LAST_MOMENT, LAST_TAG, LAST_TICKS, PEERS, VERSION,
};
use crate::random::Random;
use crate::test::Test;

const RANDOM_FIELDS: u64 = 1_300_000;
const RANDOM_BYTES: u64 = 60_000;

pub fn run(test: &mut Test) {
    damaged(test);
    of_random_fields(test);
    of_random_bytes(test);
}

/// Every byte of an image damaged in turn.
fn damaged(test: &mut Test) {
    let mut random = test.begin("images with one byte damaged");
    let states = states::all(test);
    for state in &states {
        for at in 0..IMAGE_LENGTH {
            for damage in [1, 2, 4, 8, 16, 32, 64, 128, 255, 3] {
                let mut image = *state;
                image[at] ^= damage;
                let mut other = image;
                give(test, &mut random, &mut image);
                test.line(&mut other, b"(read)", 256);
            }
        }
    }
}

/// Fields that fit each other, with up to three of them then set to something
/// else. About half of these keepers count as started.
fn of_random_fields(test: &mut Test) {
    let mut random = test.begin("images of random fields");
    for _ in 0..RANDOM_FIELDS {
        let mut keeper = fitting_fields(&mut random);
        for _ in 0..random.pick(&[0, 0, 1, 1, 2, 3]) {
            set_a_field(&mut random, &mut keeper);
        }
        let mut image = [0; IMAGE_LENGTH];
        keeper.to_image(&mut image);
        give(test, &mut random, &mut image);
    }
}

fn of_random_bytes(test: &mut Test) {
    let mut random = test.begin("images of random bytes");
    for _ in 0..RANDOM_BYTES {
        let mut image = [0; IMAGE_LENGTH];
        random.fill(&mut image);
        if !random.one_in(4) {
            image[0] = VERSION;
            image[1] = 1;
            image[3] &= 1;
        }
        give(test, &mut random, &mut image);
        // After an accepted start the keeper goes on.
        give(test, &mut random, &mut image);
    }
}

fn give(test: &mut Test, random: &mut Random, image: &mut Image) {
    let line = fitting::line(random, image);
    let out_length = fitting::out_length(random);
    test.line(image, &line, out_length);
}

fn fitting_fields(random: &mut Random) -> Keeper {
    let lower = random.between(-LAST_MOMENT, LAST_MOMENT);
    let mut keeper = Keeper {
        started: true,
        board: random.place(PEERS) as u8,
        rule: random.pick(&[Rule::Im, Rule::Mm]),
        claim: random.between(0, i64::from(LAST_CLAIM)) as u16,
        lower,
        upper: random.between(lower, LAST_MOMENT),
        ticks: ticks(random),
        requests: random.pick(&[16, 17, 1000, LAST_TAG - 1, LAST_TAG]),
        ..Keeper::fresh()
    };
    keeper.waiting = (random.next() & random.next()) as u16 & !(1 << keeper.board);
    let waiting = keeper.waiting.count_ones();
    keeper.conflicts = match random.below(3) {
        0 => 0,
        1 => keeper.requests - waiting,
        _ => random.below(u64::from(keeper.requests - waiting) + 1) as u32,
    };
    // Tags that go up from peer to peer differ; the last one may be the newest.
    let step = keeper.requests / PEERS as u32;
    for peer in (0..PEERS).filter(|&peer| keeper.waiting >> peer & 1 == 1) {
        keeper.tags[peer] = step * peer as u32 + 1 + random.below(u64::from(step)) as u32;
        let waited = random.pick(&[0, 1, 3_599_999, 3_600_000, 3_600_001]);
        keeper.sent_at[peer] = keeper.ticks.saturating_sub(waited);
    }
    // Of every place, the board's own too.
    if !random.one_in(3) {
        keeper.out_times = [(); PEERS].map(|()| flight_time(random));
        keeper.back_times = [(); PEERS].map(|()| flight_time(random));
    }
    keeper
}

/// A time in its range.
fn flight_time(random: &mut Random) -> u32 {
    match random.below(8) {
        0..=2 => 0,
        3 => random.below(1000) as u32,
        4 => 1_000_000 + random.below(u64::from(LAST_CLAIM) + 1) as u32,
        5 => LAST_FLIGHT - random.below(2) as u32,
        _ => random.below(u64::from(LAST_FLIGHT) + 1) as u32,
    }
}

fn ticks(random: &mut Random) -> u64 {
    match random.below(4) {
        0 => random.below(20),
        1 => random.below(10_000_000),
        2 => random.below(LAST_TICKS + 1),
        _ => LAST_TICKS - random.below(200),
    }
}

/// Sets a field to a value at a limit, equal to another, or random.
fn set_a_field(random: &mut Random, keeper: &mut Keeper) {
    let peer = random.place(PEERS);
    let other = random.place(PEERS);
    match random.below(18) {
        0 => keeper.board = random.pick(&[0, 15, 16, 17, 31, 255]),
        1 => keeper.claim = random.pick(&[0, LAST_CLAIM, LAST_CLAIM + 1, u16::MAX]),
        2 => keeper.lower = edge(random, keeper),
        3 => keeper.upper = edge(random, keeper),
        4 => keeper.ticks = random.pick(&[0, 1, LAST_TICKS, LAST_TICKS + 1, u64::MAX]),
        5 => keeper.requests = random.pick(&[0, 1, LAST_TAG, LAST_TAG + 1, u32::MAX]),
        6 => {
            let waiting = keeper.waiting.count_ones();
            let room = keeper.requests.saturating_sub(waiting);
            keeper.conflicts = random.pick(&[room, room.wrapping_add(1), u32::MAX]);
        }
        7 => keeper.waiting ^= 1 << peer,
        8 => keeper.waiting |= 1 << (keeper.board % 16),
        9 => keeper.tags[peer] = keeper.tags[other],
        10 => keeper.tags[peer] = random.pick(&[0, 1, keeper.requests, keeper.requests / 2]),
        11 => keeper.tags[peer] = keeper.requests.wrapping_add(1),
        12 => keeper.sent_at[peer] = random.pick(&[0, 1, keeper.ticks]),
        13 => keeper.sent_at[peer] = keeper.ticks.wrapping_add(1),
        14 => keeper.sent_at[peer] = keeper.sent_at[other],
        15 => keeper.out_times[peer] = long_flight_time(random),
        16 => keeper.back_times[peer] = long_flight_time(random),
        _ => keeper.started = false,
    }
}

/// A time at its limit or past it, by one or in its highest bits alone.
fn long_flight_time(random: &mut Random) -> u32 {
    random.pick(&[
        LAST_FLIGHT,
        LAST_FLIGHT,
        LAST_FLIGHT + 1,
        1 << 30,
        1 << 31,
        u32::MAX,
    ])
}

fn edge(random: &mut Random, keeper: &Keeper) -> i64 {
    let by_one = random.between(-1, 1);
    match random.below(4) {
        0 => LAST_MOMENT + by_one,
        1 => -LAST_MOMENT + by_one,
        2 => keeper.lower.wrapping_add(by_one),
        _ => keeper.upper.wrapping_add(by_one),
    }
}
