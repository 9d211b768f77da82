//! A command with the numbers that a caller gives, and a caller that checks,
//! at every call that writes one, what must hold for all of them.

use independent::{
    plain, write_drop, write_flight, write_pass, write_read, write_reply, write_request,
    write_start, write_waiting, write_window, Written,
};

use crate::caller::UNTOUCHED;
use crate::reference::{number_of_window, text_of_date};

/// Last moment of the range.
pub const END: i64 = 4_000_000_000_000_000_000;

/// A second filling, in case that a call writes the first one.
const ALSO_UNTOUCHED: u8 = 0x11;

/// The numbers may lie outside their ranges.
#[derive(Clone, Copy, PartialEq, Eq, Hash, Debug)]
pub enum Order {
    Start(u64, u64, u64, i64, i64),
    Pass(u64),
    Request(u64),
    Reply(u64, u64, i64, i64),
    Drop(u64),
    Read,
    Waiting,
    Window(u64, [u64; 6], [u64; 6]),
    Flight(u64, u64, u64),
}

impl Order {
    /// Makes the call for this form.
    pub fn write(self, out: &mut [u8]) -> Written {
        match self {
            Order::Start(board, rule, claim, lower, upper) => {
                write_start(out, board, rule, claim, lower, upper)
            }
            Order::Pass(ticks) => write_pass(out, ticks),
            Order::Request(peer) => write_request(out, peer),
            Order::Reply(peer, tag, trailing, leading) => {
                write_reply(out, peer, tag, trailing, leading)
            }
            Order::Drop(peer) => write_drop(out, peer),
            Order::Read => write_read(out),
            Order::Waiting => write_waiting(out),
            Order::Window(slot, start, end) => write_window(out, slot, start, end),
            Order::Flight(peer, out_time, back_time) => {
                write_flight(out, peer, out_time, back_time)
            }
        }
    }

    /// The number of the call, straight from the specification.
    pub fn number(self) -> u8 {
        if let Order::Window(slot, start, end) = self {
            number_of_window(i128::from(slot), start, end)
        } else if self.is_in_range() {
            0
        } else {
            2
        }
    }

    pub fn is_allowed(self) -> bool {
        self.number() == 0
    }

    /// Whether every number of a command without dates is in its range.
    fn is_in_range(self) -> bool {
        let edges = |first: i64, second: i64| -END <= first && first <= second && second <= END;
        match self {
            Order::Start(board, rule, claim, lower, upper) => {
                board <= 15 && rule <= 1 && claim <= 50_000 && edges(lower, upper)
            }
            Order::Pass(ticks) => ticks <= 86_400_000,
            Order::Request(peer) | Order::Drop(peer) => peer <= 15,
            Order::Reply(peer, tag, trailing, leading) => {
                peer <= 15 && (1..=16_777_215).contains(&tag) && edges(trailing, leading)
            }
            Order::Read | Order::Waiting => true,
            Order::Window(..) => unreachable!(),
            Order::Flight(peer, out_time, back_time) => {
                peer <= 15 && out_time <= 1_000_000_000 && back_time <= 1_000_000_000
            }
        }
    }

    /// The line of an allowed command.
    pub fn line(self) -> String {
        match self {
            Order::Start(board, rule, claim, lower, upper) => {
                let rule = ["im", "mm"][rule as usize];
                format!("(start {board} {rule} {claim} ({lower} {upper}))")
            }
            Order::Pass(ticks) => format!("(pass {ticks})"),
            Order::Request(peer) => format!("(request {peer})"),
            Order::Reply(peer, tag, trailing, leading) => {
                format!("(reply {peer} {tag} ({trailing} {leading}))")
            }
            Order::Drop(peer) => format!("(drop {peer})"),
            Order::Read => "(read)".into(),
            Order::Waiting => "(waiting)".into(),
            Order::Window(slot, start, end) => {
                let (start, end) = (text_of_date(start), text_of_date(end));
                format!("(window {slot} ({start} {end}))")
            }
            Order::Flight(peer, out_time, back_time) => {
                format!("(flight {peer} ({out_time} {back_time}))")
            }
        }
    }
}

/// Writes the command and returns its line or the number of the refusal.
pub fn written(order: Order) -> Result<String, u8> {
    checked(|out| order.write(out))
}

/// Hands the line to `plain` and returns its spelling or the number of the
/// refusal.
pub fn spelled(line: impl AsRef<[u8]>) -> Result<String, u8> {
    checked(|out| plain(line.as_ref(), out))
}

/// Makes the call on two buffers with different bytes in them. Checks that it
/// returns the same for both and touches only the bytes of its line.
fn checked(call: impl Fn(&mut [u8]) -> Written) -> Result<String, u8> {
    let mut first = [UNTOUCHED; 300];
    let mut second = [ALSO_UNTOUCHED; 300];
    let Written { number, length } = call(&mut first);
    assert_eq!(call(&mut second), Written { number, length });
    assert!(first[length..].iter().all(|&byte| byte == UNTOUCHED));
    assert!(second[length..].iter().all(|&byte| byte == ALSO_UNTOUCHED));
    assert_eq!(first[..length], second[..length]);
    if number != 0 {
        assert_eq!(length, 0);
        return Err(number);
    }
    let line = String::from_utf8(first[..length].to_vec()).expect("ASCII");
    assert!((1..=160).contains(&length) && !line.contains(['\n', '_']));
    Ok(line)
}

/// Every moment at which an edge begins or ends to be allowed, and those
/// beside it.
pub const EDGES: [i64; 12] = [
    i64::MIN,
    i64::MIN + 1,
    -END - 1,
    -END,
    -END + 1,
    -1,
    0,
    1,
    END - 1,
    END,
    END + 1,
    i64::MAX,
];

/// Board and peer numbers. Some of those above 15 would be allowed if they
/// were cut to 8, 16 or 32 bits.
pub const BOARDS: [u64; 12] = [
    0,
    1,
    9,
    10,
    15,
    16,
    255,
    256,
    65_536 + 3,
    1 << 32,
    (1 << 32) + 7,
    u64::MAX,
];

pub const RULES: [u64; 8] = [0, 1, 2, 255, 256, 257, 1 << 32, u64::MAX];

pub const CLAIMS: [u64; 9] = [
    0,
    1,
    49_999,
    50_000,
    50_001,
    65_535,
    65_536,
    1 << 32,
    u64::MAX,
];

pub const TICKS: [u64; 10] = [
    0,
    1,
    86_399_999,
    86_400_000,
    86_400_001,
    1 << 32,
    (1 << 32) + 1,
    1 << 63,
    (1 << 63) + 1,
    u64::MAX,
];

pub const TAGS: [u64; 9] = [
    0,
    1,
    2,
    16_777_214,
    16_777_215,
    16_777_216,
    1 << 32,
    (1 << 32) + 1,
    u64::MAX,
];

/// Out and back times. Some of those above the limit would be allowed if they
/// were cut to 32 bits.
pub const TIMES: [u64; 12] = [
    0,
    1,
    9,
    10,
    999_999_999,
    1_000_000_000,
    1_000_000_001,
    u32::MAX as u64,
    1 << 32,
    (1 << 32) + 1_000_000_000,
    1 << 63,
    u64::MAX,
];

/// Dates that exist, in order, and others. Some of the others would exist if a
/// field were cut to 8, 16 or 32 bits, or to its width.
pub const DATES: [[u64; 6]; 28] = [
    [1900, 1, 1, 0, 0, 0],
    [1900, 2, 28, 23, 59, 59],
    [1900, 3, 1, 0, 0, 0],
    [1999, 12, 31, 23, 59, 59],
    [2000, 1, 1, 0, 0, 0],
    [2000, 2, 29, 12, 30, 45],
    [2026, 9, 8, 7, 6, 5],
    [2099, 12, 31, 23, 59, 59],
    [1899, 12, 31, 23, 59, 59],
    [2100, 1, 1, 0, 0, 0],
    [0, 1, 1, 0, 0, 0],
    [9999, 12, 31, 23, 59, 59],
    [12_000, 1, 1, 0, 0, 0],
    [65_536 + 2000, 1, 1, 0, 0, 0],
    [(1 << 32) + 2000, 1, 1, 0, 0, 0],
    [u64::MAX, 1, 1, 0, 0, 0],
    [1900, 2, 29, 0, 0, 0],
    [2000, 2, 30, 0, 0, 0],
    [2000, 0, 1, 0, 0, 0],
    [2000, 13, 1, 0, 0, 0],
    [2000, 256 + 1, 1, 0, 0, 0],
    [2000, 1, 0, 0, 0, 0],
    [2000, 1, 100 + 1, 0, 0, 0],
    [2000, 1, 1, 24, 0, 0],
    [2000, 1, 1, 256, 0, 0],
    [2000, 1, 1, 0, 60, 0],
    [2000, 1, 1, 0, 0, 60],
    [2000, 1, 1, 0, 0, u64::MAX],
];

/// Every pair of the edges above.
pub fn edge_pairs() -> impl Iterator<Item = (i64, i64)> {
    EDGES
        .into_iter()
        .flat_map(|first| EDGES.into_iter().map(move |second| (first, second)))
}

/// Commands with the numbers above, allowed ones and others. Of a start and a
/// reply, all pairs of edges come with each other number in turn.
pub fn samples() -> Vec<Order> {
    let mut orders = vec![Order::Read, Order::Waiting];
    orders.extend(TICKS.map(Order::Pass));
    orders.extend(BOARDS.map(Order::Request));
    orders.extend(BOARDS.map(Order::Drop));
    for start in DATES {
        for end in DATES {
            orders.extend(BOARDS.map(|slot| Order::Window(slot, start, end)));
        }
    }
    for out_time in TIMES {
        for back_time in TIMES {
            orders.extend(BOARDS.map(|peer| Order::Flight(peer, out_time, back_time)));
        }
    }
    for (first, second) in edge_pairs() {
        for board in BOARDS {
            orders.extend(RULES.map(|rule| Order::Start(board, rule, 200, first, second)));
            orders.extend(CLAIMS.map(|claim| Order::Start(board, 1, claim, first, second)));
            orders.extend(TAGS.map(|tag| Order::Reply(board, tag, first, second)));
        }
    }
    orders
}
