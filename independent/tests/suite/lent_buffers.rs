//! The buffer that is lent to a call that writes a command: its length, and
//! which bytes of it are touched.

use independent::{plain, Written};

use crate::order::{Order, END};

const SHORT: Written = Written {
    number: 10,
    length: 0,
};

/// A buffer of this length in which neighbouring bytes differ.
fn lent(length: usize) -> Vec<u8> {
    (0..length).map(|place| (place * 7 + 128) as u8).collect()
}

/// Checks the call on a buffer of every length: number 10 below 256 bytes,
/// else `expected`, which is a line or another number.
fn on_every_length(call: impl Fn(&mut [u8]) -> Written, expected: Result<&str, u8>) {
    for length in (0..=300).chain([4096]) {
        let mut out = lent(length);
        let written = call(&mut out);
        let mut after = lent(length);
        if length < 256 {
            assert_eq!(written, SHORT, "{length}");
        } else {
            let (number, line) = match expected {
                Ok(line) => (0, line),
                Err(number) => (number, ""),
            };
            after[..line.len()].copy_from_slice(line.as_bytes());
            let length = line.len();
            assert_eq!(written, Written { number, length });
        }
        assert_eq!(out, after);
    }
}

#[test]
fn allowed_numbers() {
    for order in [
        Order::Start(3, 0, 200, -1000, 1000),
        Order::Start(15, 1, 50_000, -END, -END),
        Order::Pass(86_400_000),
        Order::Request(15),
        Order::Reply(15, 16_777_215, -END, END),
        Order::Drop(0),
        Order::Read,
        Order::Waiting,
        Order::Window(15, [1900, 1, 1, 0, 0, 0], [2099, 12, 31, 23, 59, 59]),
        Order::Flight(0, 0, 0),
        Order::Flight(15, 1_000_000_000, 1_000_000_000),
    ] {
        on_every_length(|out| order.write(out), Ok(&order.line()));
    }
}

#[test]
fn number_10_comes_before_number_2() {
    for order in [
        Order::Start(16, 0, 0, 0, 0),
        Order::Start(0, 2, 0, 0, 0),
        Order::Start(0, 0, 50_001, 0, 0),
        Order::Start(0, 0, 0, 1, 0),
        Order::Start(u64::MAX, u64::MAX, u64::MAX, i64::MAX, i64::MIN),
        Order::Pass(u64::MAX),
        Order::Request(256),
        Order::Reply(16, 1, 0, 0),
        Order::Reply(0, 0, 0, 0),
        Order::Reply(0, 1, 0, END + 1),
        Order::Reply(u64::MAX, u64::MAX, i64::MAX, i64::MIN),
        Order::Drop(1 << 32),
        Order::Flight(16, 0, 0),
        Order::Flight(0, 1_000_000_001, 0),
        Order::Flight(0, 0, 1_000_000_001),
        Order::Flight(u64::MAX, u64::MAX, u64::MAX),
    ] {
        on_every_length(|out| order.write(out), Err(2));
    }
}

#[test]
fn number_10_comes_before_the_numbers_of_a_window() {
    let (date, none) = ([2000, 1, 1, 0, 0, 0], [0; 6]);
    for (order, number) in [
        (Order::Window(16, date, date), 2),
        (Order::Window(u64::MAX, none, none), 2),
        (Order::Window(0, none, date), 11),
        (Order::Window(0, date, none), 11),
        (Order::Window(0, date, date), 12),
    ] {
        on_every_length(|out| order.write(out), Err(number));
    }
}

#[test]
fn plain_on_every_length() {
    for line in [
        "(start 3 im 200 (-1000 1000))",
        "(pass 5)",
        "(waiting)",
        "(window 3 (1999-12-31T23:59:59 2000-01-01T00:00:00))",
        "(flight 3 (20 10))",
    ] {
        on_every_length(|out| plain(line.as_bytes(), out), Ok(line));
    }
    // Longer than its plain spelling, which is what is written.
    for (line, spelling) in [
        ("(pass 1_000)", "(pass 1000)"),
        (
            "(start 3 im 50_000 (-1_000 1000))",
            "(start 3 im 50000 (-1000 1000))",
        ),
        (
            "(flight 3 (1_000_000_000 1_000))",
            "(flight 3 (1000000000 1000))",
        ),
    ] {
        on_every_length(|out| plain(line.as_bytes(), out), Ok(spelling));
    }
    let long = " ".repeat(161);
    for (line, number) in [
        ("", 1),
        ("(pass 12x7)", 1),
        ("(pass 86400001 )", 1),
        (&long, 1),
        ("(pass 12_7)", 1),
        ("(pass 86400001)", 2),
        ("(pass 86_400_001)", 2),
        ("(reply 1 1 (1 0))", 2),
        ("(flight 1 (1 -1))", 1),
        ("(flight 1 (1 1000000001))", 2),
        ("(window 3 (2000-01-01T00:00:00 2000-01-01T00:00))", 1),
        ("(window 16 (2000-01-01T00:00:60 2000-01-01T00:00:00))", 2),
        ("(window 3 (2000-01-01T00:00:60 2000-01-01T00:00:00))", 11),
        ("(window 3 (2000-01-01T00:00:01 2000-01-01T00:00:00))", 12),
    ] {
        on_every_length(|out| plain(line.as_bytes(), out), Err(number));
    }
}
