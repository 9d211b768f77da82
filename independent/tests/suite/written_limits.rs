//! Last allowed and first refused values of every number of a command that is
//! written.

use crate::order::{written, Order, DATES, END};
use crate::reference::{exists, text_of_date};

fn assert_allowed(order: Order, line: &str) {
    assert_eq!(written(order).as_deref(), Ok(line));
}

fn assert_refused(order: Order) {
    assert_eq!(written(order), Err(2), "{order:?}");
}

#[test]
fn board_and_peer() {
    for board in [0, 15] {
        assert_allowed(
            Order::Start(board, 0, 0, 0, 0),
            &format!("(start {board} im 0 (0 0))"),
        );
        assert_allowed(Order::Request(board), &format!("(request {board})"));
        assert_allowed(
            Order::Reply(board, 1, 0, 0),
            &format!("(reply {board} 1 (0 0))"),
        );
        assert_allowed(Order::Drop(board), &format!("(drop {board})"));
        assert_allowed(
            Order::Flight(board, 0, 0),
            &format!("(flight {board} (0 0))"),
        );
    }
    for board in [16, 255, 256, 65_536, 1 << 32, 1 << 63, u64::MAX] {
        assert_refused(Order::Start(board, 0, 0, 0, 0));
        assert_refused(Order::Request(board));
        assert_refused(Order::Reply(board, 1, 0, 0));
        assert_refused(Order::Drop(board));
        assert_refused(Order::Flight(board, 0, 0));
    }
}

#[test]
fn flight_times() {
    let limit = 1_000_000_000;
    for (out_time, back_time) in [(0, 0), (limit, 0), (0, limit), (limit, limit), (2, 1)] {
        assert_allowed(
            Order::Flight(4, out_time, back_time),
            &format!("(flight 4 ({out_time} {back_time}))"),
        );
    }
    for time in [
        limit + 1,
        1 << 31,
        1 << 32,
        (1 << 32) + 1,
        1 << 63,
        u64::MAX,
    ] {
        assert_refused(Order::Flight(4, time, 0));
        assert_refused(Order::Flight(4, 0, time));
        assert_refused(Order::Flight(4, limit, time));
        assert_refused(Order::Flight(4, time, limit));
        assert_refused(Order::Flight(4, time, time));
        assert_refused(Order::Flight(16, time, time));
    }
}

#[test]
fn rule() {
    assert_allowed(Order::Start(0, 0, 0, 0, 0), "(start 0 im 0 (0 0))");
    assert_allowed(Order::Start(0, 1, 0, 0, 0), "(start 0 mm 0 (0 0))");
    for rule in [2, 255, 256, 257, 65_536, 1 << 32, u64::MAX] {
        assert_refused(Order::Start(0, rule, 0, 0, 0));
    }
}

#[test]
fn claim() {
    assert_allowed(Order::Start(0, 0, 0, 0, 0), "(start 0 im 0 (0 0))");
    assert_allowed(Order::Start(0, 0, 50_000, 0, 0), "(start 0 im 50000 (0 0))");
    for claim in [50_001, 65_535, 65_536, 1 << 32, u64::MAX] {
        assert_refused(Order::Start(0, 0, claim, 0, 0));
    }
}

#[test]
fn ticks() {
    assert_allowed(Order::Pass(0), "(pass 0)");
    assert_allowed(Order::Pass(86_400_000), "(pass 86400000)");
    for ticks in [86_400_001, 1 << 32, 1 << 63, u64::MAX] {
        assert_refused(Order::Pass(ticks));
    }
}

#[test]
fn tag() {
    assert_allowed(Order::Reply(0, 1, 0, 0), "(reply 0 1 (0 0))");
    assert_allowed(
        Order::Reply(0, 16_777_215, 0, 0),
        "(reply 0 16777215 (0 0))",
    );
    for tag in [0, 16_777_216, 1 << 32, (1 << 32) + 1, u64::MAX] {
        assert_refused(Order::Reply(0, tag, 0, 0));
    }
}

#[test]
fn edges() {
    for (first, second) in [(-END, -END), (-END, END), (END, END), (0, 0), (-1, 0)] {
        assert_allowed(
            Order::Start(0, 0, 0, first, second),
            &format!("(start 0 im 0 ({first} {second}))"),
        );
        assert_allowed(
            Order::Reply(0, 1, first, second),
            &format!("(reply 0 1 ({first} {second}))"),
        );
    }
    for (first, second) in [
        (-END - 1, -END),
        (-END - 1, 0),
        (-END - 1, -END - 1),
        (END, END + 1),
        (0, END + 1),
        (END + 1, END + 1),
        (i64::MIN, i64::MIN),
        (i64::MIN, i64::MAX),
        (i64::MIN, 0),
        (0, i64::MAX),
        (i64::MAX, i64::MAX),
        // First above second.
        (1, 0),
        (0, -1),
        (END, END - 1),
        (-END + 1, -END),
        (END, -END),
        (i64::MAX, i64::MIN),
    ] {
        assert_refused(Order::Start(0, 0, 0, first, second));
        assert_refused(Order::Reply(0, 1, first, second));
    }
}

#[test]
fn slot() {
    let (start, end) = ([2000, 1, 1, 0, 0, 0], [2000, 1, 1, 0, 0, 1]);
    for slot in [0, 15] {
        assert_allowed(
            Order::Window(slot, start, end),
            &format!("(window {slot} (2000-01-01T00:00:00 2000-01-01T00:00:01))"),
        );
    }
    for slot in [16, 255, 256, 65_536, 1 << 32, 1 << 63, u64::MAX] {
        assert_refused(Order::Window(slot, start, end));
        // Number 2 comes before numbers 11 and 12.
        assert_refused(Order::Window(slot, [0; 6], end));
        assert_refused(Order::Window(slot, start, [u64::MAX; 6]));
        assert_refused(Order::Window(slot, start, start));
    }
}

#[test]
fn dates_of_a_window() {
    let (first, last) = ([1900, 1, 1, 0, 0, 0], [2099, 12, 31, 23, 59, 59]);
    for date in DATES {
        // The end is not later than the start in two of the four; number 11
        // comes before number 12.
        let orders = [(first, date), (date, last), (date, first), (last, date)];
        for (start, end) in orders {
            let order = Order::Window(0, start, end);
            let expected = if !exists(date) {
                Err(11)
            } else if start >= end {
                Err(12)
            } else {
                let (start, end) = (text_of_date(start), text_of_date(end));
                Ok(format!("(window 0 ({start} {end}))"))
            };
            assert_eq!(written(order), expected, "{order:?}");
        }
    }
}
