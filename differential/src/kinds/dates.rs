//! Dates and moments converted both ways: every day, and random ones.

use crate::date::{last_day, Date, DAY};
use crate::limits::{FIRST_DATED, LAST_DATED, SECOND};
use crate::random::Random;
use crate::test::Test;

const RANDOM_MOMENTS: u64 = 300_000;
const RANDOM_SIXES: u64 = 300_000;

/// Seconds in a day, and some of them: the first and the last, those about the
/// end of a minute, of an hour and of half the day.
const IN_A_DAY: u64 = 86_400;
const SECONDS: [u64; 9] = [0, 1, 59, 60, 3599, 3600, 43_199, 43_200, IN_A_DAY - 1];

/// Each limit of a number of a date with its neighbours, and others.
pub const NUMBERS: &[u64] = &[
    0, 1, 2, 3, 4, 11, 12, 13, 22, 23, 24, 28, 29, 30, 31, 32, 58, 59, 60, 61, 99, 1582, 1899,
    1900, 1901, 1904, 1999, 2000, 2001, 2004, 2096, 2099, 2100, 2101, 9999,
];

pub fn run(test: &mut Test) {
    days(test);
    random_moments(test);
    random_sixes(test);
}

/// The days are counted here once more, so that both sides are held against a
/// third.
fn days(test: &mut Test) {
    let mut random = test.begin("every day, both ways");
    let mut day = Date::FIRST;
    let mut begin = FIRST_DATED;
    // The first day that has no date comes after the last second that has one.
    while day <= Date::LAST {
        for second in SECONDS.into_iter().chain([random.below(IN_A_DAY)]) {
            let moment = begin + second as i64 * SECOND;
            both_ways(test, &mut random, day.at(second), moment);
        }
        no_days(test, day);
        let next = begin + IN_A_DAY as i64 * SECOND;
        test.date_of(next - 1, Some(day.at(IN_A_DAY - 1)));
        day = day.next_day();
        begin = next;
    }
    assert_eq!(begin, LAST_DATED + 1);
    test.date_of(FIRST_DATED - 1, None);
    test.date_of(begin, None);
    test.moment_of(day, None);
}

/// A date and the moment at which its second begins.
fn both_ways(test: &mut Test, random: &mut Random, date: Date, moment: i64) {
    test.moment_of(date, Some(moment));
    for within in [0, 1, SECOND - 1, random.between(0, SECOND - 1)] {
        test.date_of(moment + within, Some(date));
    }
}

/// After the last day of a month, the days that it has not.
fn no_days(test: &mut Test, day: Date) {
    let Date([year, month, of_month, ..]) = day;
    if of_month == last_day(year, month) {
        for none in (of_month + 1..=32).chain([0, 99, 256 + of_month]) {
            test.moment_of(day.with(DAY, none), None);
        }
    }
}

fn random_moments(test: &mut Test) {
    let mut random = test.begin("dates of random moments");
    for _ in 0..RANDOM_MOMENTS {
        let moment = random_moment(&mut random);
        if let Some(date) = test.date_of(moment, None) {
            let begin = moment.div_euclid(SECOND) * SECOND;
            test.moment_of(date, Some(begin));
        }
    }
}

fn random_moment(random: &mut Random) -> i64 {
    let near = random.between(-3, 3) * random.pick(&[1, SECOND, 86_400 * SECOND]);
    match random.below(8) {
        0..=1 => random.next() as i64,
        2 => FIRST_DATED + near,
        3 => LAST_DATED + near,
        4 => near + random.between(-1, 1),
        5 => random.pick(&[i64::MIN, i64::MAX - 10]) + random.between(0, 10),
        // At the beginning of a second, or one nanosecond from it.
        6 => random.between(FIRST_DATED, LAST_DATED) / SECOND * SECOND + random.between(-1, 1),
        _ => random.between(FIRST_DATED, LAST_DATED),
    }
}

fn random_sixes(test: &mut Test) {
    let mut random = test.begin("moments of random sixes");
    for _ in 0..RANDOM_SIXES {
        let date = random_six(&mut random);
        if let Some(moment) = test.moment_of(date, None) {
            test.date_of(moment, Some(date));
        }
    }
}

/// Six numbers: a date, or one of which some numbers are set to others.
pub fn random_six(random: &mut Random) -> Date {
    if random.one_in(20) {
        return Date([(); 6].map(|()| random.next() >> random.below(64)));
    }
    let mut six = some_date(random);
    for _ in 0..random.pick(&[0, 0, 1, 1, 2]) {
        let place = random.place(6);
        six = six.with(place, other_number(random, six.0[place]));
    }
    six
}

/// A date that exists.
pub fn some_date(random: &mut Random) -> Date {
    match random.below(12) {
        0 => Date::FIRST,
        1 => Date::LAST,
        _ => Date::near(random.between(FIRST_DATED, LAST_DATED)),
    }
}

/// A number at the place of one that may be right.
fn other_number(random: &mut Random, number: u64) -> u64 {
    match random.below(8) {
        0 => number.wrapping_sub(1),
        1 => number.wrapping_add(1),
        // The same but for bits above the lowest 8, 16 or 32.
        2..=3 => number | (1 + random.below(200)) << random.pick(&[8, 16, 32]),
        4 => random.next() >> random.below(64),
        5 => u64::MAX - random.below(3),
        _ => random.pick(NUMBERS),
    }
}
