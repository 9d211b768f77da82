//! Windows about the edges that are told of a keeper, and windows of dates at
//! every limit.

use super::dates::{some_date, NUMBERS};
use super::states;
use crate::date::{last_day, Date};
use crate::fitting;
use crate::limits::{Image, FIRST_DATED, LAST_CLAIM, LAST_DATED, SECOND, SHORTEST_OUTPUT, SLOTS};
use crate::random::Random;
use crate::test::Test;
use crate::touching::Moments;
use crate::write::Command;

const RUNS: u64 = 80_000;

const YEARS: [u64; 14] = [
    0, 1582, 1899, 1900, 1901, 1904, 1999, 2000, 2001, 2096, 2099, 2100, 2400, 9999,
];
const TIMES: [u64; 8] = [0, 1, 23, 24, 25, 59, 60, 99];

pub fn run(test: &mut Test) {
    at_edges(test);
    at_limits(test);
}

fn at_edges(test: &mut Test) {
    let mut random = test.begin("windows at the edges");
    for _ in 0..RUNS {
        at_an_edge(test, &mut random);
    }
}

/// A keeper whose told edges are at the ends of a window or about them.
fn at_an_edge(test: &mut Test, random: &mut Random) {
    let limits = limits(random);
    let claim = random.pick(&[0, 1, 200, i64::from(LAST_CLAIM)]);
    let tick = 1_000_000 + claim;
    let edges = told_edges(random, limits, tick);
    let [lower, told] = edges;
    let mut image = started(test, random, claim, [lower, told - tick]);
    let window = Command::Window {
        slot: random.place(SLOTS) as u64,
        start: Date::near(limits[0]),
        end: Date::near(limits[1]),
    };
    let line = window.to_string();
    let out_length = fitting::out_length(random);
    let returned = test.line(&mut image, line.as_bytes(), out_length);
    if returned.number == 0 {
        test.tally.touching.window(&Moments { limits, edges });
    }
}

/// The moments at which a window begins and ends, which are whole seconds.
fn limits(random: &mut Random) -> [i64; 2] {
    let [first, last] = [FIRST_DATED, LAST_DATED].map(|moment| moment.div_euclid(SECOND));
    let from = match random.below(8) {
        0 => first,
        1 => last - 1,
        2 => random.between(-2, 1),
        _ => random.between(first, last - 1),
    };
    let until = match random.below(8) {
        0 => last,
        1..=3 => from + 1,
        4..=5 => from + random.between(1, 100_000),
        _ => random.between(from + 1, last),
    };
    [from, until.min(last)].map(|second| second * SECOND)
}

/// Edges at these moments or about them that can be told: they are at least one
/// longest tick apart.
fn told_edges(random: &mut Random, limits: [i64; 2], tick: i64) -> [i64; 2] {
    let [lower, upper] = edges(random, limits);
    if upper - lower >= tick {
        return [lower, upper];
    }
    let edge = random.pick(&[lower, upper]);
    if random.one_in(2) {
        [edge, edge + tick]
    } else {
        [edge - tick, edge]
    }
}

/// Edges, in order, each at one of these moments or about it.
fn edges(random: &mut Random, [start, end]: [i64; 2]) -> [i64; 2] {
    let mut edge = || {
        let by_one = random.between(-1, 1);
        match random.below(10) {
            0..=3 => start + by_one,
            4..=7 => end + by_one,
            8 => random.between(start - SECOND, end + SECOND),
            _ => start + (end - start) / 2,
        }
    };
    let (one, other) = (edge(), edge());
    [one.min(other), one.max(other)]
}

/// A keeper that has these edges. If they are wide enough, a pass takes it there.
fn started(test: &mut Test, random: &mut Random, claim: i64, [lower, upper]: [i64; 2]) -> Image {
    let ticks = random.pick(&[0, 1, 1000]);
    let start = |lower, upper| format!("(start 3 im {claim} ({lower} {upper}))");
    let first = lower - ticks * (1_000_000 - claim);
    let second = upper - ticks * (1_000_000 + claim);
    if first > second {
        return states::after(test, &[&start(lower, upper)]);
    }
    states::after(test, &[&start(first, second), &format!("(pass {ticks})")])
}

/// Windows with each of these dates at the start, at the end and at both,
/// written, and as lines whether they can be written or not.
fn at_limits(test: &mut Test) {
    let mut random = test.begin("windows of dates at limits");
    let states = states::all(test);
    for date in dates_at_limits() {
        let other = some_date(&mut random);
        for (start, end) in [
            (Date::FIRST, date),
            (date, Date::LAST),
            (date, date),
            (date, other),
            (other, date),
        ] {
            let slot = random.pick(&[0, 1, 9, 10, 15, 15, 16, 17, 255]);
            let window = Command::Window { slot, start, end };
            test.write(window, SHORTEST_OUTPUT);
            let mut image = random.pick(&states);
            test.line(&mut image, window.to_string().as_bytes(), SHORTEST_OUTPUT);
        }
    }
}

/// Days about the ends of every month of some years, times about the ends of
/// some days, and every limit at every place. No number has more digits than its
/// place in a line.
fn dates_at_limits() -> Vec<Date> {
    let mut dates = Vec::new();
    for year in YEARS {
        for month in 0..=13 {
            let last = last_day(year, month);
            for day in [0, 1, 28, 29, last, last + 1, 32, 99] {
                dates.push(Date([year, month, day, 0, 0, 0]));
            }
        }
    }
    for day in [Date::FIRST, Date([2000, 2, 29, 0, 0, 0]), Date::LAST] {
        let Date([year, month, day, ..]) = day;
        for hour in TIMES {
            for minute in TIMES {
                dates.extend(TIMES.map(|second| Date([year, month, day, hour, minute, second])));
            }
        }
    }
    for place in 0..6 {
        let fitting = NUMBERS.iter().filter(|&&number| place == 0 || number < 100);
        dates.extend(fitting.map(|&number| Date([2000, 1, 1, 0, 0, 0]).with(place, number)));
    }
    dates
}
