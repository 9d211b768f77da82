//! Replies whose bracket begins at the keeper's upper edge or ends at its lower
//! one, and replies that are as wide as its edges when they are moved outward,
//! each also with one nanosecond more or less.

use super::states;
use crate::bracketing::Place;
use crate::limits::{LAST_CLAIM, LAST_WAIT, SHORTEST_OUTPUT};
use crate::random::Random;
use crate::spelling::some_grouped;
use crate::test::Test;

const RUNS: u64 = 60_000;

pub fn run(test: &mut Test) {
    let mut random = test.begin("replies at the ends of their brackets");
    for _ in 0..RUNS {
        meet(test, &mut random);
    }
}

fn meet(test: &mut Test, random: &mut Random) {
    let place = random.pick(&Place::ALL);
    let rule = match place {
        Place::Width => "mm",
        Place::Begin | Place::End => random.pick(&["im", "mm"]),
    };
    let last_claim = i64::from(LAST_CLAIM);
    let some_claim = random.between(0, last_claim);
    let claim = random.pick(&[0, 1, 200, some_claim, last_claim]);
    let (shortest, longest) = (1_000_000 - claim, 1_000_000 + claim);
    let last_wait = random.pick(&[0, 1, 20, LAST_WAIT as i64]);
    let wait = random.between(0, last_wait);

    let first_lower = random.between(-1_000_000_000_000_000, 1_000_000_000_000_000);
    let first_upper = first_lower + first_width(random, place, (wait + 1) * longest);
    let edges = [first_lower + wait * shortest, first_upper + wait * longest];
    let by = random.between(-1, 1);
    let [trailing, leading] = reply(random, place, edges, wait, longest, by);

    let start = format!("(start 2 {rule} {claim} ({first_lower} {first_upper}))");
    let pass = format!("(pass {wait})");
    let reply = format!("(reply 5 1 ({trailing} {leading}))");
    let [start, pass, reply] = [start, pass, reply].map(|line| some_grouped(random, line));
    let mut image = states::after(test, &[&start, "(request 5)", &pass]);
    let returned = test.line(&mut image, reply.as_bytes(), SHORTEST_OUTPUT);
    if returned.number == 0 {
        test.tally.bracketing.reply(rule, place, by);
    }
    test.line(&mut image, b"(read)", SHORTEST_OUTPUT);
}

/// A width of the first edges. For a width to be compared, a reply has to be
/// able to have it.
fn first_width(random: &mut Random, place: Place, outward: i64) -> i64 {
    let last = random.pick(&[0, 10, 1000, 10_000_000, 10_000_000_000]);
    let some = random.between(0, last);
    match place {
        Place::Width => 2 * outward + 1 + some,
        Place::Begin | Place::End => some,
    }
}

/// The edges of a reply at this place, or `by` nanoseconds after it.
fn reply(
    random: &mut Random,
    place: Place,
    [lower, upper]: [i64; 2],
    wait: i64,
    longest: i64,
    by: i64,
) -> [i64; 2] {
    let last = random.pick(&[0, 1000, 10_000_000]);
    let some = random.between(0, last);
    match place {
        Place::Begin => {
            let trailing = upper + longest + by;
            [trailing, trailing + some]
        }
        Place::End => {
            let leading = lower - wait * longest + by;
            [leading - some, leading]
        }
        Place::Width => {
            let outward = (wait + 1) * longest;
            let trailing = lower + outward + random.between(-10, 10);
            [trailing, trailing + (upper - lower) - 2 * outward + by]
        }
    }
}
