//! Lines that fit a keeper: made from what it holds, so that every outcome of
//! every command occurs often.

use independent::Keeper;

use crate::date::Date;
use crate::lent::LONGEST;
use crate::limits::{
    Image, FIRST_DATED, LAST_CLAIM, LAST_DATED, LAST_FLIGHT, LAST_MOMENT, LAST_PASS, LAST_TAG,
    LAST_WAIT, PEERS, SECOND, SHORTEST_OUTPUT, SLOTS,
};
use crate::random::Random;
use crate::spelling;
use crate::write::Command;

/// A line for the keeper of this image. Its numerals are plain or grouped; now
/// and then one `_` too many or too few makes it no command.
pub fn line(random: &mut Random, image: &Image) -> Vec<u8> {
    // Cases are made for unreadable images too; a fresh keeper stands for them.
    let keeper = Keeper::from_image(image).unwrap_or_else(Keeper::fresh);
    let text = if !keeper.started && !random.one_in(4) {
        start(random)
    } else {
        match random.below(100) {
            0..=20 => pass(random, &keeper),
            21..=43 => request(random, &keeper),
            44..=77 => reply(random, &keeper),
            78..=82 => format!("(drop {})", peer(random, &keeper)),
            83..=85 => "(read)".into(),
            86..=87 => "(waiting)".into(),
            88..=93 => window(random, &keeper),
            94..=98 => flight(random, &keeper),
            _ => start(random),
        }
    };
    spelling::spelled(random, text)
}

/// Mostly long enough for an answer.
pub fn out_length(random: &mut Random) -> usize {
    match random.below(50) {
        0 => random.place(SHORTEST_OUTPUT),
        1..=9 => SHORTEST_OUTPUT,
        _ => SHORTEST_OUTPUT + random.place(LONGEST - SHORTEST_OUTPUT + 1),
    }
}

pub fn start(random: &mut Random) -> String {
    let claim = match random.below(6) {
        0 => 0,
        1 => 1,
        2 => 200,
        3 => LAST_CLAIM,
        _ => random.below(u64::from(LAST_CLAIM) + 1) as u16,
    };
    let (lower, upper) = first_edges(random);
    format!(
        "(start {} {} {claim} ({lower} {upper}))",
        random.place(PEERS),
        random.pick(&["im", "mm"])
    )
}

/// Edges in different parts of the range. Near its ends, passes and adoptions
/// leave it.
fn first_edges(random: &mut Random) -> (i64, i64) {
    let width = match random.below(4) {
        0 => 0,
        1 => random.between(0, 10),
        2 => random.between(0, 1_000_000_000),
        _ => random.between(0, 100_000_000_000_000),
    };
    let lower = match random.below(8) {
        0..=2 => random.between(-10_000_000, 10_000_000),
        3..=4 => -LAST_MOMENT + random.pick(&[0, 0, 1, 1_000_000, 1_000_000_000]),
        5..=6 => LAST_MOMENT - width - random.pick(&[0, 1, 1_000_000_000, 100_000_000_000_000]),
        _ => random.between(-LAST_MOMENT, LAST_MOMENT - width),
    };
    if random.one_in(20) {
        return (lower, LAST_MOMENT);
    }
    (lower, lower + width)
}

fn pass(random: &mut Random, keeper: &Keeper) -> String {
    let last = LAST_PASS as i64;
    let ticks = match random.below(40) {
        0..=3 => 0,
        4..=24 => random.between(1, 20),
        25..=33 => random.between(1, 5000),
        34..=35 => random.between(1, LAST_WAIT as i64 + 1),
        36 => random.between(1, last),
        37 => last + random.between(-1, 1),
        _ => ticks_to_the_end(random, keeper),
    };
    format!("(pass {ticks})")
}

/// The pass that takes the upper edge to the end of the range, or one more or
/// less. Far from the end that is the longest pass.
fn ticks_to_the_end(random: &mut Random, keeper: &Keeper) -> i64 {
    let room = i128::from(LAST_MOMENT) - i128::from(keeper.upper);
    let ticks = room / longest_tick(keeper) + i128::from(random.between(-1, 1));
    ticks.clamp(0, i128::from(LAST_PASS)) as i64
}

fn request(random: &mut Random, keeper: &Keeper) -> String {
    let peer = if random.one_in(30) {
        usize::from(keeper.board)
    } else {
        random.place(PEERS)
    };
    format!("(request {peer})")
}

fn reply(random: &mut Random, keeper: &Keeper) -> String {
    let peer = peer(random, keeper);
    let own = keeper.tags[peer % PEERS];
    let tag = match random.below(20) {
        0 => own.wrapping_sub(1),
        1 => own.wrapping_add(1),
        2 => random.below(u64::from(keeper.requests) + 2) as u32,
        _ => own,
    };
    // A tag of 0 breaks its limit; it is asked for less often than it arises.
    let tag = if tag == 0 && !random.one_in(10) {
        1
    } else {
        tag
    };
    let (trailing, leading) = replied_edges(random, keeper, peer);
    format!("(reply {peer} {tag} ({trailing} {leading}))")
}

/// A peer, mostly one that waits.
fn peer(random: &mut Random, keeper: &Keeper) -> usize {
    if random.one_in(30) {
        return usize::from(keeper.board);
    }
    let first = random.place(PEERS);
    if random.one_in(12) {
        return first;
    }
    (first..first + PEERS)
        .map(|peer| peer % PEERS)
        .find(|&peer| keeper.waiting >> peer & 1 == 1)
        .unwrap_or(first)
}

fn replied_edges(random: &mut Random, keeper: &Keeper, peer: usize) -> (i128, i128) {
    let waited = keeper.ticks.wrapping_sub(keeper.sent_at[peer % PEERS]);
    let tick = longest_tick(keeper);
    // A keeper that does not count as started may hold any numbers; there the
    // edges only have to be some numbers.
    let moved = i128::from(waited.min(u64::from(LAST_TAG))) * tick;
    let outward = moved + tick;
    let out = i128::from(keeper.out_times[peer % PEERS]);
    let back = i128::from(keeper.back_times[peer % PEERS]);
    let (lower, upper) = (i128::from(keeper.lower), i128::from(keeper.upper));
    let width = upper.saturating_sub(lower).max(0);
    let by_one = i128::from(random.between(-1, 1));
    let some = some_width(random);
    // The least width of a reply whose bracket holds a moment.
    let not_empty = (out + back - outward).max(0);
    let (trailing, leading) = match random.below(11) {
        // Within the own edges.
        0..=1 => (lower + some % (width + 1), upper),
        // The bracket begins at, just before or just after the upper edge.
        2 => {
            let trailing = upper + tick - back + by_one;
            (trailing, trailing + not_empty + some)
        }
        // The bracket ends at, just before or just after the lower edge.
        3 => {
            let leading = lower - moved + out + by_one;
            (leading - not_empty - some, leading)
        }
        // As wide as the own edges when moved outward, or one more or less.
        4..=5 => {
            let trailing = lower - by_one + some % (width + 1);
            (trailing, trailing + width - 2 * outward + by_one)
        }
        // The bracket holds one moment, two or none, if the times are long enough.
        6 => {
            let trailing = lower + tick - back + some % (width + 1);
            (trailing, trailing + out + back - outward + by_one)
        }
        // Adoption takes an edge to the end of the range, or one past it.
        7 => {
            let trailing = outward + by_one - i128::from(LAST_MOMENT);
            (trailing, trailing + some % (width - 2 * outward).max(1))
        }
        8 => {
            let leading = i128::from(LAST_MOMENT) - outward + by_one;
            (leading - some % (width - 2 * outward).max(1), leading)
        }
        9 => (lower - some, upper + some),
        _ => (lower + some, upper - some),
    };
    ordered_in_range(random, trailing, leading)
}

fn some_width(random: &mut Random) -> i128 {
    let last = random.pick(&[0, 3, 1000, 1_000_000, 1_000_000_000, 100_000_000_000_000]);
    i128::from(random.between(0, last))
}

/// Mostly a pair of edges that meets its limits.
fn ordered_in_range(random: &mut Random, trailing: i128, leading: i128) -> (i128, i128) {
    if random.one_in(100) {
        return (trailing, leading);
    }
    let end = i128::from(LAST_MOMENT);
    let trailing = trailing.clamp(-end, end);
    (trailing, leading.clamp(trailing, end))
}

/// Mostly a window that can be one.
fn window(random: &mut Random, keeper: &Keeper) -> String {
    let slot = if random.one_in(40) {
        SLOTS as u64
    } else {
        random.below(SLOTS as u64)
    };
    let (one, mut other) = (date(random, keeper), date(random, keeper));
    // Dates about the same edge are often the same.
    if one == other && !random.one_in(20) {
        other = Date::near(random.between(FIRST_DATED, LAST_DATED));
    }
    let (start, end) = if random.one_in(20) {
        (one, other)
    } else {
        (one.min(other), one.max(other))
    };
    Command::Window { slot, start, end }.to_string()
}

/// Mostly a date of a second about an edge of the keeper. A told edge is less
/// than that away from it.
fn date(random: &mut Random, keeper: &Keeper) -> Date {
    let edge = random.pick(&[keeper.lower, keeper.upper]);
    let last = random.pick(&[1, 2, 60, 100_000, 100_000_000]);
    let moved = random.between(-last, last) * SECOND;
    let date = Date::near(edge.saturating_add(moved));
    if random.one_in(40) {
        return date.with(random.place(6), random.pick(&[0, 13, 31, 60, 99]));
    }
    date
}

/// Mostly for a peer that does not wait, with times in their range.
fn flight(random: &mut Random, keeper: &Keeper) -> String {
    let first = random.place(PEERS);
    let peer = match random.below(20) {
        0 => usize::from(keeper.board),
        1..=3 => peer(random, keeper),
        _ => (first..first + PEERS)
            .map(|peer| peer % PEERS)
            .find(|&peer| keeper.waiting >> peer & 1 == 0)
            .unwrap_or(first),
    };
    let [out, back] = [(); 2].map(|()| flight_time(random, keeper));
    format!("(flight {peer} ({out} {back}))")
}

/// Mostly so short that a bracket of a tick or two holds a moment.
fn flight_time(random: &mut Random, keeper: &Keeper) -> i128 {
    let last = i64::from(LAST_FLIGHT);
    let some = match random.below(32) {
        0..=7 => 0,
        8..=15 => random.between(1, 1000),
        16..=23 => random.between(1000, 500_000),
        24..=26 => return longest_tick(keeper) + i128::from(random.between(-1, 1)),
        27 => random.between(0, 20 * 1_000_000),
        28..=29 => random.between(0, last),
        30 => last - random.between(0, 1),
        _ => last + random.between(0, 1),
    };
    i128::from(some)
}

fn longest_tick(keeper: &Keeper) -> i128 {
    1_000_000 + i128::from(keeper.claim)
}
