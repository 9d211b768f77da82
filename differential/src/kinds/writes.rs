//! Commands to be written: numbers and dates at every limit and of every size,
//! outputs of every length.

use super::dates::{self, random_six, some_date};
use super::states;
use crate::date::Date;
use crate::fitting;
use crate::lent::LONGEST;
use crate::limits::{
    Image, LAST_CLAIM, LAST_FLIGHT, LAST_MOMENT, LAST_PASS, LAST_TAG, PEERS, SHORTEST_OUTPUT, SLOTS,
};
use crate::random::Random;
use crate::spelling::some_grouped;
use crate::test::Test;
use crate::write::Command;

/// Each round lends the outputs at other places.
const ROUNDS: u64 = 8;
const RANDOM_COMMANDS: u64 = 300_000;

/// Every limit of a number with its neighbours, and numbers of which the lower
/// 8, 16 or 32 bits alone would be allowed.
const NUMBERS: &[u64] = &[
    0,
    1,
    2,
    9,
    10,
    14,
    15,
    16,
    17,
    99,
    100,
    255,
    256,
    257,
    271,
    272,
    49_999,
    50_000,
    50_001,
    65_535,
    65_536,
    65_537,
    16_777_214,
    16_777_215,
    16_777_216,
    86_399_999,
    86_400_000,
    86_400_001,
    999_999_999,
    1_000_000_000,
    1_000_000_001,
    (1 << 32) - 1,
    1 << 32,
    (1 << 32) + 1,
    (1 << 32) + 15,
    (1 << 32) + 1_000_000_000,
    (1 << 32) + 1_000_000_001,
    (1 << 63) - 1,
    1 << 63,
    u64::MAX - 1,
    u64::MAX,
];

const EDGES: &[i64] = &[
    i64::MIN,
    i64::MIN + 1,
    -LAST_MOMENT - 1,
    -LAST_MOMENT,
    -LAST_MOMENT + 1,
    -1 << 32,
    -1000,
    -10,
    -9,
    -1,
    0,
    1,
    9,
    10,
    1000,
    1 << 32,
    LAST_MOMENT - 1,
    LAST_MOMENT,
    LAST_MOMENT + 1,
    i64::MAX - 1,
    i64::MAX,
];

/// Every form, allowed and with a number outside its range.
const FORMS: &[Command] = &[
    start(3, 0, 200, -1000, 1000),
    start(15, 1, LAST_CLAIM as u64, -LAST_MOMENT, -LAST_MOMENT + 1),
    start(3, 2, 200, -1000, 1000),
    Command::Pass { ticks: 10 },
    Command::Pass {
        ticks: LAST_PASS + 1,
    },
    Command::Request { peer: 4 },
    Command::Request { peer: 16 },
    reply(4, 1, 9_999_000, 10_001_000),
    reply(15, LAST_TAG as u64, -LAST_MOMENT, -LAST_MOMENT + 1),
    reply(4, 1, 1000, -1000),
    Command::Drop { peer: 15 },
    Command::Drop { peer: 256 },
    Command::Read,
    Command::Waiting,
    window(15, Date::FIRST, Date::LAST),
    window(16, Date::FIRST, Date::LAST),
    window(15, Date::FIRST, Date::ZEROS),
    window(15, Date::LAST, Date::LAST),
    flight(4, 1000, 2000),
    flight(15, LAST_FLIGHT as u64, LAST_FLIGHT as u64),
    flight(16, 0, 0),
    flight(0, LAST_FLIGHT as u64 + 1, 0),
    flight(0, 0, LAST_FLIGHT as u64 + 1),
];

const fn start(board: u64, rule: u64, claim: u64, lower: i64, upper: i64) -> Command {
    Command::Start {
        board,
        rule,
        claim,
        lower,
        upper,
    }
}

const fn reply(peer: u64, tag: u64, trailing: i64, leading: i64) -> Command {
    Command::Reply {
        peer,
        tag,
        trailing,
        leading,
    }
}

const fn window(slot: u64, start: Date, end: Date) -> Command {
    Command::Window { slot, start, end }
}

const fn flight(peer: u64, out: u64, back: u64) -> Command {
    Command::Flight { peer, out, back }
}

pub fn run(test: &mut Test) {
    at_limits(test);
    outputs(test);
    of_random_numbers(test);
}

/// Every number at every place, with ordinary numbers elsewhere, and every pair
/// of edges.
fn at_limits(test: &mut Test) {
    let mut random = test.begin("written commands at limits");
    let states = states::all(test);
    let pairs = EDGES
        .iter()
        .flat_map(|&first| EDGES.iter().map(move |&second| (first, second)));
    let mut commands: Vec<Command> = NUMBERS.iter().flat_map(|&n| with_number(n)).collect();
    commands.extend(pairs.flat_map(with_edges));
    let of_dates = NUMBERS.iter().chain(dates::NUMBERS);
    commands.extend(of_dates.flat_map(|&n| with_number_of_a_date(n)));
    for _ in 0..ROUNDS {
        for &command in &commands {
            write_and_read(test, &mut random, &states, command, SHORTEST_OUTPUT);
        }
    }
}

/// The commands that have this number in one place.
fn with_number(number: u64) -> [Command; 13] {
    [
        start(number, 0, 200, -1000, 1000),
        start(3, number, 200, -1000, 1000),
        start(3, 1, number, -1000, 1000),
        Command::Pass { ticks: number },
        Command::Request { peer: number },
        reply(number, 1, -1000, 1000),
        reply(4, number, -1000, 1000),
        Command::Drop { peer: number },
        window(number, Date::FIRST, Date::LAST),
        flight(number, 1000, 2000),
        flight(4, number, 2000),
        flight(15, 1000, number),
        flight(0, number, number),
    ]
}

/// The windows that have this number at one place of one of their dates, also
/// with a bit above its lowest 8, 16 or 32.
fn with_number_of_a_date(number: u64) -> Vec<Command> {
    let mut windows = Vec::new();
    for place in 0..6 {
        for above in [0, 1 << 8, 1 << 16, 1 << 32] {
            let number = number | above;
            let start = Date::FIRST.with(place, number);
            let end = Date::LAST.with(place, number);
            windows.push(window(0, start, Date::LAST));
            windows.push(window(15, Date::FIRST, end));
        }
    }
    windows
}

/// The commands that have these edges.
fn with_edges((first, second): (i64, i64)) -> [Command; 3] {
    [
        start(0, 0, 0, first, second),
        start(15, 1, u64::from(LAST_CLAIM), first, second),
        reply(0, 1, first, second),
    ]
}

fn outputs(test: &mut Test) {
    test.begin("written commands into outputs of every length");
    for length in 0..=LONGEST {
        for _ in 0..ROUNDS {
            for &command in FORMS {
                test.write(command, length);
            }
        }
    }
}

fn of_random_numbers(test: &mut Test) {
    let mut random = test.begin("written commands of random numbers");
    let states = states::all(test);
    for _ in 0..RANDOM_COMMANDS {
        let command = random_command(&mut random);
        let out_length = fitting::out_length(&mut random);
        write_and_read(test, &mut random, &states, command, out_length);
    }
}

/// What is written is then given to a keeper, also grouped. That both sides
/// answer the same shows that the line is read as the command that it was
/// written from.
fn write_and_read(
    test: &mut Test,
    random: &mut Random,
    states: &[Image],
    command: Command,
    out_length: usize,
) {
    if let Some(line) = test.write(command, out_length) {
        let mut image = random.pick(states);
        let line = some_grouped(random, line);
        test.line(&mut image, line.as_bytes(), SHORTEST_OUTPUT);
    }
}

fn random_command(random: &mut Random) -> Command {
    let peer = number(random, 0, PEERS as u64 - 1);
    let (first, second) = edges(random);
    match random.below(22) {
        0..=4 => {
            let rule = number(random, 0, 1);
            let claim = number(random, 0, u64::from(LAST_CLAIM));
            start(peer, rule, claim, first, second)
        }
        5..=6 => Command::Pass {
            ticks: number(random, 0, LAST_PASS),
        },
        7..=8 => Command::Request { peer },
        9..=12 => {
            let tag = number(random, 1, u64::from(LAST_TAG));
            reply(peer, tag, first, second)
        }
        13 => Command::Drop { peer },
        14 => Command::Read,
        15 => Command::Waiting,
        16..=17 => {
            let out = number(random, 0, u64::from(LAST_FLIGHT));
            let back = number(random, 0, u64::from(LAST_FLIGHT));
            flight(peer, out, back)
        }
        _ => random_window(random),
    }
}

/// Mostly a window that can be one.
fn random_window(random: &mut Random) -> Command {
    let slot = number(random, 0, SLOTS as u64 - 1);
    let one = if random.one_in(4) {
        random_six(random)
    } else {
        some_date(random)
    };
    let other = match random.below(10) {
        0 => one,
        1..=2 => random_six(random),
        _ => some_date(random),
    };
    if random.one_in(8) {
        return window(slot, one, other);
    }
    window(slot, one.min(other), one.max(other))
}

/// Mostly a number from `first` through `last`, of any count of digits.
fn number(random: &mut Random, first: u64, last: u64) -> u64 {
    match random.below(20) {
        0 => random.pick(NUMBERS),
        1 => random.next() >> random.below(64),
        2 => last + random.below(2),
        // Allowed but for the bits above the lowest 8, 16 or 32.
        3 => (1 << random.pick(&[8, 16, 32])) + first,
        4..=8 => (random.next() >> random.below(64)).clamp(first, last),
        _ => first + random.below(last - first + 1),
    }
}

/// Mostly in order and within the range.
fn edges(random: &mut Random) -> (i64, i64) {
    let (first, second) = (edge(random), edge(random));
    if random.one_in(8) {
        return (first, second);
    }
    (first.min(second), first.max(second))
}

/// An edge of any count of digits and either sign.
fn edge(random: &mut Random) -> i64 {
    match random.below(16) {
        0 => random.pick(EDGES),
        1 => random.next() as i64,
        2..=5 => {
            let power = 10_i64.pow(random.below(19) as u32) + random.between(-1, 1);
            power * random.pick(&[-1, 1])
        }
        6..=8 => random.between(-LAST_MOMENT, LAST_MOMENT),
        _ => {
            let edge = random.next() as i64 >> random.below(64);
            edge.clamp(-LAST_MOMENT, LAST_MOMENT)
        }
    }
}
