//! The line of each form, to the byte.

use crate::order::{samples, written, Order, END};

#[test]
#[rustfmt::skip]
fn every_form() {
    for (order, line) in [
        (Order::Start(3, 0, 200, -1000, 1000), "(start 3 im 200 (-1000 1000))"),
        (Order::Start(0, 1, 0, 0, 0), "(start 0 mm 0 (0 0))"),
        (Order::Start(15, 1, 50_000, -5, -2), "(start 15 mm 50000 (-5 -2))"),
        (Order::Start(10, 0, 1, 7, 4_000_000), "(start 10 im 1 (7 4000000))"),
        (Order::Pass(0), "(pass 0)"),
        (Order::Pass(10), "(pass 10)"),
        (Order::Pass(86_400_000), "(pass 86400000)"),
        (Order::Request(0), "(request 0)"),
        (Order::Request(15), "(request 15)"),
        (Order::Reply(4, 1, 9_999_000, 10_001_000), "(reply 4 1 (9999000 10001000))"),
        (Order::Reply(0, 16_777_215, -1, 0), "(reply 0 16777215 (-1 0))"),
        (Order::Drop(0), "(drop 0)"),
        (Order::Drop(12), "(drop 12)"),
        (Order::Read, "(read)"),
        (Order::Waiting, "(waiting)"),
        (
            Order::Window(0, [1900, 1, 1, 0, 0, 0], [2099, 12, 31, 23, 59, 59]),
            "(window 0 (1900-01-01T00:00:00 2099-12-31T23:59:59))",
        ),
        (
            Order::Window(15, [2001, 2, 3, 4, 5, 6], [2001, 2, 3, 4, 5, 7]),
            "(window 15 (2001-02-03T04:05:06 2001-02-03T04:05:07))",
        ),
        (Order::Flight(0, 0, 0), "(flight 0 (0 0))"),
        (Order::Flight(4, 7, 30), "(flight 4 (7 30))"),
        (Order::Flight(4, 30, 7), "(flight 4 (30 7))"),
        (Order::Flight(15, 1_000_000_000, 1_000_000_000), "(flight 15 (1000000000 1000000000))"),
    ] {
        assert_eq!(written(order).as_deref(), Ok(line));
    }
}

#[test]
fn every_count_of_digits() {
    for power in (0..=18).map(|digits| 10_i64.pow(digits)) {
        for edge in [power - 1, power, -power] {
            let line = format!("(start 1 im 0 ({edge} {edge}))");
            assert_eq!(written(Order::Start(1, 0, 0, edge, edge)), Ok(line));
            let line = format!("(reply 1 1 ({edge} {edge}))");
            assert_eq!(written(Order::Reply(1, 1, edge, edge)), Ok(line));
        }
    }
    for ticks in [
        1, 9, 10, 99, 100, 999, 1000, 9999, 10_000, 99_999, 9_999_999, 10_000_000,
    ] {
        assert_eq!(written(Order::Pass(ticks)), Ok(format!("(pass {ticks})")));
    }
    for power in (0..=9).map(|digits| 10_u64.pow(digits)) {
        for time in [power - 1, power] {
            let line = format!("(flight 1 ({time} {time}))");
            assert_eq!(written(Order::Flight(1, time, time)), Ok(line));
        }
    }
}

#[test]
fn all_samples() {
    let mut counts = [0; 13];
    for order in samples() {
        let number = order.number();
        counts[usize::from(number)] += 1;
        let expected = if number == 0 {
            Ok(order.line())
        } else {
            Err(number)
        };
        assert_eq!(written(order), expected, "{order:?}");
    }
    for (number, least) in [(0, 1000), (2, 1000), (11, 1000), (12, 100)] {
        assert!(counts[number] > least, "{number}: {counts:?}");
    }
}

#[test]
fn the_longest_line() {
    let start = written(Order::Start(15, 1, 50_000, -END, -END)).expect("a line");
    assert_eq!(
        start,
        "(start 15 mm 50000 (-4000000000000000000 -4000000000000000000))"
    );
    let reply = written(Order::Reply(15, 16_777_215, -END, -END)).expect("a line");
    assert_eq!(
        reply,
        "(reply 15 16777215 (-4000000000000000000 -4000000000000000000))"
    );
    assert_eq!((start.len(), reply.len()), (63, 63));
    let lines = samples()
        .into_iter()
        .filter_map(|order| written(order).ok());
    assert_eq!(lines.map(|line| line.len()).max(), Some(63));
}
