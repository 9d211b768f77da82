//! Lists of the waiting peers of keepers that are handed in: tags and tick counts
//! in no order of the peers, near each other and far apart.

use independent::Keeper;

use crate::limits::{IMAGE_LENGTH, LAST_TAG, LAST_TICKS, PEERS, SHORTEST_OUTPUT};
use crate::random::Random;
use crate::test::Test;

const RUNS: u64 = 60_000;

pub fn run(test: &mut Test) {
    let mut random = test.begin("lists of waiting peers");
    for _ in 0..RUNS {
        let keeper = keeper(&mut random);
        let mut image = [0; IMAGE_LENGTH];
        keeper.to_image(&mut image);
        list(test, &mut image);
        // A peer is dropped, if it waits, and asked.
        let peer = random.place(PEERS);
        for word in ["drop", "request"] {
            let line = format!("({word} {peer})");
            test.line(&mut image, line.as_bytes(), SHORTEST_OUTPUT);
        }
        list(test, &mut image);
    }
}

fn list(test: &mut Test, image: &mut [u8; IMAGE_LENGTH]) {
    let returned = test.line(image, b"(waiting)", SHORTEST_OUTPUT);
    if returned.number == 0 {
        let keeper = Keeper::from_image(image).expect("the image of a keeper");
        test.tally.listing.list(&keeper);
    }
}

/// A started keeper with up to fifteen peers waiting. Their tags are among the
/// newest of the requests, and neither these nor the tick counts are in any order.
fn keeper(random: &mut Random) -> Keeper {
    let ticks = random.pick(&[0, 20, 10_000_000, LAST_TICKS]);
    let newest = random.pick(&[16, 17, 300, 70_000, LAST_TAG]);
    let requests = random.between(i64::from(newest), i64::from(LAST_TAG)) as u32;
    let mut keeper = Keeper {
        started: true,
        board: random.place(PEERS) as u8,
        ticks,
        requests,
        ..Keeper::fresh()
    };
    let count = random.below(PEERS as u64) as u32;
    while keeper.waiting.count_ones() < count {
        let peer = random.place(PEERS);
        let tag = requests - random.below(u64::from(newest)) as u32;
        if peer != usize::from(keeper.board) && !keeper.tags.contains(&tag) {
            keeper.waiting |= 1 << peer;
            keeper.tags[peer] = tag;
            keeper.sent_at[peer] = random.below(ticks + 1);
        }
    }
    keeper
}
