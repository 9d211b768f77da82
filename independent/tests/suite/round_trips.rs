//! Commands that are written and read again, and commands compared by their
//! lines.

use std::collections::{HashMap, HashSet};

use independent::{Keeper, Rule};

use crate::caller::ask;
use crate::order::{samples, spelled, written, Order, END};
use crate::random::Random;
use crate::reference::{grouped_line, moment};

/// Every tick of a keeper whose claim is 0.
const TICK: i64 = 1_000_000;

/// A keeper of another board than `peer`, with edges that cover the range.
fn wide(peer: u64) -> Keeper {
    let mut keeper = Keeper::fresh();
    keeper.started = true;
    keeper.board = (peer as u8 + 1) % 16;
    (keeper.lower, keeper.upper) = (-END, END);
    keeper
}

/// Checks that the line is read as this command. Each is asked of a keeper
/// that answers otherwise if any number of the command differs.
fn check_reading(order: Order, line: &str) {
    let (mut keeper, answer) = match order {
        Order::Start(board, ..) => (Keeper::fresh(), format!("(started {board})")),
        Order::Pass(ticks) => {
            let mut keeper = wide(0);
            (keeper.lower, keeper.upper) = (0, 0);
            let edge = ticks * 1_000_000;
            (keeper, format!("(at {ticks} ({edge} {edge}))"))
        }
        Order::Request(peer) => (wide(peer), format!("(sent {peer} 1)")),
        Order::Reply(peer, tag, trailing, leading) => {
            // Of trailing edges in the first tick of the range only the width
            // and the plain spelling tell which one was read.
            let lower = (trailing - TICK).max(-END);
            let answer = format!("(taken {peer} ({lower} {leading}))");
            (waiting_for(peer, tag as u32), answer)
        }
        Order::Drop(peer) => (waiting_for(peer, 1), format!("(dropped {peer})")),
        Order::Read => {
            let (lower, upper, half) = (-END, END + TICK, TICK / 2);
            let answer = format!("(time ({lower} {upper}) ({half} {}) 0 0)", END + half);
            (wide(0), answer)
        }
        Order::Waiting => (waiting_for(5, 9), "(waiting (5 9))".into()),
        Order::Window(slot, start, end) => return check_window(slot, start, end, line),
        Order::Flight(peer, ..) => (wide(peer), format!("(flight {peer})")),
    };
    assert_eq!(ask(&mut keeper, line), answer, "{line}");
    if let Order::Flight(peer, out_time, back_time) = order {
        let mut expected = wide(peer);
        expected.out_times[peer as usize] = out_time as u32;
        expected.back_times[peer as usize] = back_time as u32;
        assert_eq!(keeper, expected);
    }
    if let Order::Start(board, rule, claim, lower, upper) = order {
        let expected = Keeper {
            started: true,
            board: board as u8,
            rule: [Rule::Im, Rule::Mm][rule as usize],
            claim: claim as u16,
            lower,
            upper,
            ..Keeper::fresh()
        };
        assert_eq!(keeper, expected);
    }
}

/// Told edges beside the ends of the window tell both of them. No window is
/// shorter than a second, so it has room for the tick that is told.
fn check_window(slot: u64, start: [u64; 6], end: [u64; 6], line: &str) {
    let (start, end) = (moment(start), moment(end));
    for (lower, told_upper, word) in [
        (start - 1 - TICK, start - 1, "shut"),
        (start - TICK, start, "unsure"),
        (start - 1, end - 1, "unsure"),
        (start, end - 1, "open"),
        (start, end, "unsure"),
        (end - 1, end - 1 + TICK, "unsure"),
        (end, end + TICK, "shut"),
    ] {
        let mut keeper = wide(0);
        (keeper.lower, keeper.upper) = (lower, told_upper - TICK);
        assert_eq!(ask(&mut keeper, line), format!("({word} {slot})"), "{line}");
    }
}

/// A wide keeper with one request waiting. Under rule im, and with no tick
/// since the request, it takes over the leading edge of the reply, and the
/// trailing one less a tick.
fn waiting_for(peer: u64, tag: u32) -> Keeper {
    let mut keeper = wide(peer);
    keeper.requests = tag;
    keeper.waiting = 1 << peer;
    keeper.tags[peer as usize] = tag;
    keeper
}

/// Two moments of every size, in order.
fn random_edges(random: &mut Random) -> (i64, i64) {
    let mut edge = || {
        let bits = random.below(64);
        (random.next() as i64 >> bits).clamp(-END, END)
    };
    let (first, second) = (edge(), edge());
    (first.min(second), first.max(second))
}

/// A random date. No month has fewer than 28 days.
fn random_date(random: &mut Random) -> [u64; 6] {
    [
        1900 + random.below(200),
        1 + random.below(12),
        1 + random.below(28),
        random.below(24),
        random.below(60),
        random.below(60),
    ]
}

/// A random window. Its dates have the same fields up to a random one.
fn random_window(random: &mut Random) -> Order {
    let slot = random.below(16);
    let (first, mut second) = (random_date(random), random_date(random));
    let same = random.below(6) as usize;
    second[..same].copy_from_slice(&first[..same]);
    if first == second {
        return Order::Window(slot, first, [2099, 12, 31, 23, 59, 59]);
    }
    Order::Window(slot, first.min(second), first.max(second))
}

/// A random command with numbers in their ranges.
fn random_order(random: &mut Random) -> Order {
    let (first, second) = random_edges(random);
    let board = random.below(16);
    let mut time = || random.below(1_000_000_001) >> random.below(30);
    let (out_time, back_time) = (time(), time());
    match random.below(9) {
        0 | 1 => Order::Start(board, random.below(2), random.below(50_001), first, second),
        2 => Order::Pass(random.below(86_400_001)),
        3 => Order::Request(board),
        4 => Order::Reply(board, random.below(16_777_215) + 1, first, second),
        5 => Order::Drop(board),
        6 => Order::Flight(board, out_time, back_time),
        _ => random_window(random),
    }
}

/// The samples that are allowed, and random commands.
fn allowed_orders() -> Vec<Order> {
    let mut orders = samples();
    orders.retain(|order| order.is_allowed());
    let mut random = Random(0x0F1E_2D3C_4B5A_6978);
    orders.extend((0..20_000).map(|_| random_order(&mut random)));
    orders
}

#[test]
fn a_command_written_and_read_is_the_same_command() {
    for order in allowed_orders() {
        let line = written(order).expect("a line");
        assert_eq!(line, order.line());
        check_reading(order, &line);
        assert_eq!(spelled(&line), Ok(line));
    }
}

#[test]
fn a_grouped_line_is_the_same_command() {
    let mut random = Random(0x6E0F_00D5_1234_4321);
    for order in allowed_orders() {
        let plain = order.line();
        for chosen in [u32::MAX, random.next() as u32] {
            let line = grouped_line(&plain, chosen);
            check_reading(order, &line);
            assert_eq!(spelled(&line).as_ref(), Ok(&plain), "{line}");
        }
    }
}

#[test]
fn every_small_number() {
    for ticks in 0..20_000 {
        let line = format!("(pass {ticks})");
        assert_eq!(written(Order::Pass(ticks)).as_ref(), Ok(&line));
        assert_eq!(spelled(grouped_line(&line, 1)), Ok(line));
    }
    for board in 0..16 {
        for order in [
            Order::Request(board),
            Order::Drop(board),
            Order::Start(board, 1, 0, -7, 7),
            Order::Reply(board, 12, -7, 7),
            Order::Window(board, [2000, 1, 1, 0, 0, 0], [2000, 1, 1, 0, 0, 1]),
            Order::Flight(board, 12, 7),
        ] {
            check_reading(order, &written(order).expect("a line"));
        }
    }
    for claim in 0..=50_000 {
        let line = written(Order::Start(1, 0, claim, 0, 0));
        assert_eq!(line, Ok(format!("(start 1 im {claim} (0 0))")));
    }
}

#[test]
fn lines_are_equal_exactly_when_the_commands_are() {
    let orders = allowed_orders();
    let mut lines: HashMap<String, Order> = HashMap::new();
    for &order in &orders {
        let line = written(order).expect("a line");
        let other = lines.entry(line).or_insert(order);
        assert_eq!(*other, order);
    }
    // With more lines than commands, a command would have two of them.
    let different: HashSet<Order> = orders.into_iter().collect();
    assert_eq!(lines.len(), different.len());
    assert!(lines.len() > 10_000, "{}", lines.len());
}
