//! Replies of peers that have flight times: their bracket begins at the keeper's
//! upper edge, ends at its lower one, or holds one moment, and under mm they are as
//! wide as its edges or adopted at an end of the range, each also with one
//! nanosecond more or less. Also images with flight times at their limit or past it,
//! at every place, and images of an older library.

use super::handmade::waiting_keeper;
use super::states;
use crate::fitting;
use crate::limits::{
    Image, IMAGE_LENGTH, LAST_CLAIM, LAST_FLIGHT, LAST_MOMENT, LAST_WAIT, OLDER_LENGTH,
    OLDER_VERSION, PEERS, SHORTEST_OUTPUT, VERSION,
};
use crate::random::Random;
use crate::shifting::{Pair, Reply, Times};
use crate::spelling::some_grouped;
use crate::test::Test;

const RUNS: u64 = 80_000;
/// Fitting lines for each time at each place of an image.
const LINES_OF_EACH: u64 = 40;

/// Where the out times and the back times begin in an image.
const OUT_TIMES: usize = 232;
const BACK_TIMES: usize = 296;

/// The last wait after which, whatever the claim, flight times can leave a bracket
/// empty.
const LAST_EMPTY_WAIT: i64 = 2 * LAST_FLIGHT as i64 / (1_000_000 + LAST_CLAIM as i64) - 1;

/// What a reply is made for.
#[derive(Clone, Copy)]
enum Aim {
    /// A bracket that begins at the upper edge.
    Begin,
    /// One that ends at the lower edge.
    End,
    /// One of one moment between the edges.
    Length,
    /// One between the edges.
    Inside,
    /// A reply as wide as the edges when it is moved outward.
    Width,
    /// The same at an end of the range.
    Range,
}

impl Aim {
    const ALL: [Aim; 6] = [
        Aim::Begin,
        Aim::End,
        Aim::Length,
        Aim::Inside,
        Aim::Width,
        Aim::Range,
    ];

    /// A rule under which there is something to aim at.
    fn rule(self, random: &mut Random) -> &'static str {
        match self {
            Aim::Width | Aim::Range => "mm",
            Aim::Begin | Aim::End | Aim::Length | Aim::Inside => random.pick(&["im", "mm"]),
        }
    }
}

pub fn run(test: &mut Test) {
    replies(test);
    at_every_place(test);
    older_images(test);
}

fn replies(test: &mut Test) {
    let mut random = test.begin("replies of peers with flight times");
    for _ in 0..RUNS {
        two_replies(test, &mut random);
    }
}

/// A keeper, a peer and its flight times, and another peer with its own.
struct Case {
    rule: &'static str,
    claim: i64,
    board: usize,
    peer: usize,
    other: usize,
    times: Times,
    others: Times,
}

impl Case {
    fn random(random: &mut Random, rule: &'static str) -> Case {
        let last_claim = i64::from(LAST_CLAIM);
        let some_claim = random.between(0, last_claim);
        let board = random.place(PEERS);
        let peer = (board + 1 + random.place(PEERS - 1)) % PEERS;
        let other = (peer + 1 + random.place(PEERS - 1)) % PEERS;
        Case {
            rule,
            claim: random.pick(&[0, 1, 200, some_claim, last_claim]),
            board,
            peer,
            other,
            times: Times { out: 0, back: 0 },
            others: Times { out: 0, back: 0 },
        }
    }

    fn shortest(&self) -> i64 {
        1_000_000 - self.claim
    }

    fn longest(&self) -> i64 {
        1_000_000 + self.claim
    }

    fn sum(&self) -> i64 {
        self.times.out + self.times.back
    }

    /// Edges after a pass.
    fn passed(&self, [lower, upper]: Pair, ticks: i64) -> Pair {
        [
            lower + ticks * self.shortest(),
            upper + ticks * self.longest(),
        ]
    }

    fn reply(&self, wait: i64, edges: Pair, [trailing, leading]: Pair) -> Reply {
        Reply {
            rule: self.rule,
            longest: self.longest(),
            wait,
            edges,
            trailing,
            leading,
            times: self.times,
            others: self.others,
        }
    }
}

/// A reply for an aim, and another one of the same peer, with the same times.
fn two_replies(test: &mut Test, random: &mut Random) {
    let aim = random.pick(&Aim::ALL);
    let rule = aim.rule(random);
    let mut case = Case::random(random, rule);
    let wait = wait(random, aim);
    let by = random.between(-1, 1);
    case.times = times(random, aim, &case, wait, by);
    case.others = times(random, Aim::Begin, &case, wait, by);
    let first = first_edges(random, aim, &case, wait);
    let edges = case.passed(first, wait);
    let replied = aimed(random, aim, &case, wait, edges, by);

    let mut image = with_times(test, random, &case, first);
    let reply = case.reply(wait, edges, replied);
    let edges = ask(test, random, &mut image, &case, 1, &reply);
    if matches!(aim, Aim::Range) {
        return;
    }
    // The times stay when a request ends, by a reply or by a drop.
    let mut tag = 2;
    if random.one_in(2) {
        for word in ["request", "drop"] {
            accept(test, &mut image, &format!("({word} {})", case.peer));
        }
        tag += 1;
    }
    let wait = random.between(0, 20);
    let edges = case.passed(edges, wait);
    let aim = random.pick(&[Aim::Begin, Aim::End]);
    let replied = aimed(random, aim, &case, wait, edges, by);
    let reply = case.reply(wait, edges, replied);
    ask(test, random, &mut image, &case, tag, &reply);
}

fn wait(random: &mut Random, aim: Aim) -> i64 {
    let last = match aim {
        Aim::Length => random.pick(&[0, 1, 20, LAST_EMPTY_WAIT]),
        _ => random.pick(&[0, 1, 20, 900, LAST_WAIT as i64]),
    };
    random.between(0, last)
}

/// Flight times with which there is a reply for the aim.
fn times(random: &mut Random, aim: Aim, case: &Case, wait: i64, by: i64) -> Times {
    let tick = case.longest();
    loop {
        let [out, back] = [(); 2].map(|()| time(random, tick, wait));
        // A bracket of so many moments leaves the reply a width, which must not be
        // negative. The other aims have room for any times.
        if !matches!(aim, Aim::Length) || out + back + by >= (wait + 1) * tick {
            return Times { out, back };
        }
    }
}

fn time(random: &mut Random, tick: i64, wait: i64) -> i64 {
    let last = i64::from(LAST_FLIGHT);
    let time = match random.below(16) {
        0..=1 => 0,
        2..=4 => random.between(1, 1000),
        5..=6 => tick + random.between(-1, 1),
        7..=8 => wait * tick + random.between(-1, 1),
        9..=10 => (wait + 1) * tick - random.between(0, tick),
        11..=13 => last - random.pick(&[0, 0, 0, 1]),
        _ => random.between(0, last),
    };
    time.clamp(0, last)
}

/// Edges of the keeper before the wait, wide enough for the aim.
fn first_edges(random: &mut Random, aim: Aim, case: &Case, wait: i64) -> Pair {
    let outward = (wait + 1) * case.longest();
    let last = random.pick(&[0, 10, 1000, 10_000_000, 10_000_000_000]);
    let some = random.between(0, last);
    let width = match aim {
        Aim::Begin | Aim::End => some,
        Aim::Length => 2 + some,
        Aim::Inside => outward + some,
        Aim::Width | Aim::Range => 2 * outward + 1 + case.sum() + some,
    };
    let lower = match aim {
        Aim::Range if random.one_in(2) => -LAST_MOMENT,
        Aim::Range => LAST_MOMENT - outward - width,
        _ => random.between(-1_000_000_000_000_000, 1_000_000_000_000_000),
    };
    [lower, lower + width]
}

/// The edges of a reply for the aim, or `by` nanoseconds after it.
fn aimed(
    random: &mut Random,
    aim: Aim,
    case: &Case,
    wait: i64,
    [lower, upper]: Pair,
    by: i64,
) -> Pair {
    let tick = case.longest();
    let Times { out, back } = case.times;
    let outward = (wait + 1) * tick;
    // The width of a reply whose bracket holds one moment.
    let one_moment = case.sum() - outward;
    let last = random.pick(&[0, 1000, 10_000_000]);
    let width = one_moment.max(0) + random.between(0, last);
    match aim {
        Aim::Begin => {
            let trailing = upper + by + tick - back;
            [trailing, trailing + width]
        }
        Aim::End => {
            let leading = lower + by - wait * tick + out;
            [leading - width, leading]
        }
        Aim::Length => {
            let begin = random.between(lower + 1, upper - 1);
            let trailing = begin + tick - back;
            [trailing, trailing + one_moment + by]
        }
        Aim::Inside => {
            let room = upper - lower;
            let length = (width - one_moment).min(room);
            let begin = lower + random.between(0, room - length);
            let trailing = begin + tick - back;
            [trailing, trailing + (one_moment + length).max(0)]
        }
        Aim::Width => {
            let trailing = lower + outward + random.between(-10, 10);
            [trailing, trailing + upper - lower - 2 * outward + by]
        }
        Aim::Range => {
            let width = upper - lower - 2 * outward - random.between(0, 1);
            if lower < 0 {
                let trailing = -LAST_MOMENT + outward + by;
                [trailing, trailing + width]
            } else {
                let leading = LAST_MOMENT - outward + by;
                [leading - width, leading]
            }
        }
    }
}

/// A keeper with these edges that knows the times of both peers: set by lines, or
/// handed in, with some times at every other place.
fn with_times(test: &mut Test, random: &mut Random, case: &Case, [lower, upper]: Pair) -> Image {
    let Case {
        rule, claim, board, ..
    } = case;
    let start = format!("(start {board} {rule} {claim} ({lower} {upper}))");
    let start = some_grouped(random, start);
    let mut image = states::after(test, &[&start]);
    let known = [(case.peer, case.times), (case.other, case.others)];
    if random.one_in(2) {
        for place in 0..PEERS {
            let [out, back] = [(); 2].map(|()| time(random, case.longest(), 2));
            put(&mut image, place, Times { out, back });
        }
        for (place, times) in known {
            put(&mut image, place, times);
        }
        return image;
    }
    for (peer, times) in known.into_iter().filter(|(peer, _)| peer != board) {
        let Times { out, back } = times;
        // Twice: the second ones stand.
        for (out, back) in [(back, out), (out, back)] {
            let line = some_grouped(random, format!("(flight {peer} ({out} {back}))"));
            let mut expected = image;
            put(&mut expected, peer, Times { out, back });
            let (number, answer) = test.answer(&mut image, line.as_bytes());
            if (number, &answer[..]) != (0, format!("(flight {peer})\n").as_bytes()) {
                test.mismatch("a flight is not answered as expected", &line);
            }
            if image != expected {
                test.mismatch("a flight sets something else", &line);
            }
        }
    }
    image
}

/// Puts times at their places in an image.
fn put(image: &mut Image, peer: usize, times: Times) {
    for (begin, time) in [(OUT_TIMES, times.out), (BACK_TIMES, times.back)] {
        put_time(image, begin + 4 * peer, time as u32);
    }
}

fn put_time(image: &mut Image, at: usize, time: u32) {
    image[at..at + 4].copy_from_slice(&time.to_le_bytes());
}

/// A request of the peer, a pass and the reply, which is answered as this crate
/// says too. Returns the edges after it.
fn ask(
    test: &mut Test,
    random: &mut Random,
    image: &mut Image,
    case: &Case,
    tag: u64,
    reply: &Reply,
) -> Pair {
    let peer = case.peer;
    accept(test, image, &format!("(request {peer})"));
    if random.one_in(4) {
        let Times { out, back } = case.others;
        let line = format!("(flight {peer} ({out} {back}))");
        if test.line(image, line.as_bytes(), SHORTEST_OUTPUT).number != 6 {
            test.mismatch("a flight for a peer that waits is not refused", &line);
        }
    }
    let pass = some_grouped(random, format!("(pass {})", reply.wait));
    accept(test, image, &pass);
    let (trailing, leading) = (reply.trailing, reply.leading);
    let line = format!("(reply {peer} {tag} ({trailing} {leading}))");
    let line = some_grouped(random, line);
    let (number, answer) = test.answer(image, line.as_bytes());
    let (expected, text) = reply.answer(peer);
    if (number, &answer[..]) != (expected, text.as_bytes()) {
        let text = text.escape_default();
        let difference = format!("a reply is not answered as expected, `{text}`");
        test.mismatch(&difference, &line);
    }
    test.tally.shifting.reply(reply);
    test.line(image, b"(read)", SHORTEST_OUTPUT);
    reply.edges_after()
}

fn accept(test: &mut Test, image: &mut Image, line: &str) {
    if test.line(image, line.as_bytes(), SHORTEST_OUTPUT).number != 0 {
        test.mismatch("a line is not accepted", line);
    }
}

/// Every one of the 32 times, the board's own too, at its limit and past it. A
/// start sets all to 0.
fn at_every_place(test: &mut Test) {
    let mut random = test.begin("flight times at every place of an image");
    for at in (OUT_TIMES..IMAGE_LENGTH).step_by(4) {
        for time in [
            0,
            1,
            LAST_FLIGHT - 1,
            LAST_FLIGHT,
            LAST_FLIGHT + 1,
            1 << 30,
            1 << 31,
            u32::MAX,
        ] {
            let mut image = [0; IMAGE_LENGTH];
            waiting_keeper().to_image(&mut image);
            put_time(&mut image, at, time);
            let expected = if time <= LAST_FLIGHT { 0 } else { 3 };
            hand_in(test, image, expected);
            for _ in 0..LINES_OF_EACH {
                let mut image = image;
                let line = fitting::line(&mut random, &image);
                test.line(&mut image, &line, SHORTEST_OUTPUT);
            }
            image[1] = 0;
            begin_anew(test, image);
        }
    }
}

/// Images of version 1, alone and with any bytes behind them.
fn older_images(test: &mut Test) {
    let mut random = test.begin("images of an older library");
    for state in states::all(test) {
        let mut older = state[..OLDER_LENGTH].to_vec();
        older[0] = OLDER_VERSION;
        for line in ["(read)", "(pass 1)", "(start 3 im 200 (-1000 1000))"] {
            if test
                .line(&mut older, line.as_bytes(), SHORTEST_OUTPUT)
                .number
                != 255
            {
                test.mismatch("an older image is not refused for its length", line);
            }
        }
        if test.pass(&mut older, 1) != 255 {
            test.mismatch("an older image is not refused for its length", "(pass 1)");
        }
        for is_blank in [true, false] {
            let mut image = [0; IMAGE_LENGTH];
            if !is_blank {
                random.fill(&mut image);
            }
            image[..OLDER_LENGTH].copy_from_slice(&older);
            hand_in(test, image, 3);
            begin_anew(test, image);
        }
    }
}

/// Whether a keeper that is handed in counts as started, by the number of what
/// asks no more.
fn hand_in(test: &mut Test, image: Image, expected: u8) {
    for line in ["(read)", "(waiting)", "(pass 0)"] {
        let mut image = image;
        if test
            .line(&mut image, line.as_bytes(), SHORTEST_OUTPUT)
            .number
            != expected
        {
            test.mismatch("a keeper handed in is not taken as expected", line);
        }
    }
    let mut image = image;
    if test.pass(&mut image, 1) != expected {
        test.mismatch("a keeper handed in is not taken as expected", "(pass 1)");
    }
}

/// A start of a keeper that counts as not started.
fn begin_anew(test: &mut Test, mut image: Image) {
    let line = "(start 3 im 200 (-1000 1000))";
    accept(test, &mut image, line);
    let mut expected = [0; IMAGE_LENGTH];
    expected[..4].copy_from_slice(&[VERSION, 1, 3, 0]);
    expected[4..6].copy_from_slice(&200_u16.to_le_bytes());
    expected[8..16].copy_from_slice(&(-1000_i64).to_le_bytes());
    expected[16..24].copy_from_slice(&1000_i64.to_le_bytes());
    if image != expected {
        test.mismatch("a start leaves another image", line);
    }
}
