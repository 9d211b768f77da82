//! A command as the calls that write it are given it.

use std::fmt;

use crate::date::Date;
use crate::limits::{LAST_CLAIM, LAST_FLIGHT, LAST_MOMENT, LAST_PASS, LAST_TAG, PEERS, SLOTS};

/// Any numbers will do. The rule is 0 for im and 1 for mm.
#[derive(Clone, Copy)]
pub enum Command {
    Start {
        board: u64,
        rule: u64,
        claim: u64,
        lower: i64,
        upper: i64,
    },
    Pass {
        ticks: u64,
    },
    Request {
        peer: u64,
    },
    Reply {
        peer: u64,
        tag: u64,
        trailing: i64,
        leading: i64,
    },
    Drop {
        peer: u64,
    },
    Read,
    Waiting,
    Window {
        slot: u64,
        start: Date,
        end: Date,
    },
    Flight {
        peer: u64,
        out: u64,
        back: u64,
    },
}

impl Command {
    /// The number that is returned for it if the output is long enough.
    pub fn number(&self) -> u8 {
        if !self.is_allowed() {
            return 2;
        }
        match *self {
            Command::Window { start, end, .. } if !start.exists() || !end.exists() => 11,
            Command::Window { start, end, .. } if end <= start => 12,
            _ => 0,
        }
    }

    /// Whether every number, but those of dates, is within its range and the
    /// edges are in order.
    fn is_allowed(&self) -> bool {
        match *self {
            Command::Start {
                board,
                rule,
                claim,
                lower,
                upper,
            } => {
                is_peer(board)
                    && rule <= 1
                    && claim <= u64::from(LAST_CLAIM)
                    && are_edges(lower, upper)
            }
            Command::Pass { ticks } => ticks <= LAST_PASS,
            Command::Request { peer } | Command::Drop { peer } => is_peer(peer),
            Command::Reply {
                peer,
                tag,
                trailing,
                leading,
            } => {
                is_peer(peer)
                    && (1..=u64::from(LAST_TAG)).contains(&tag)
                    && are_edges(trailing, leading)
            }
            Command::Read | Command::Waiting => true,
            Command::Window { slot, .. } => slot < SLOTS as u64,
            Command::Flight { peer, out, back } => {
                is_peer(peer) && is_flight_time(out) && is_flight_time(back)
            }
        }
    }

    /// The command as a side would see it that looks at the lowest bits of each
    /// number alone. Edges stay.
    pub fn cut(self, bits: u32) -> Command {
        let cut = |number: u64| number & ((1 << bits) - 1);
        match self {
            Command::Start {
                board,
                rule,
                claim,
                lower,
                upper,
            } => Command::Start {
                board: cut(board),
                rule: cut(rule),
                claim: cut(claim),
                lower,
                upper,
            },
            Command::Pass { ticks } => Command::Pass { ticks: cut(ticks) },
            Command::Request { peer } => Command::Request { peer: cut(peer) },
            Command::Reply {
                peer,
                tag,
                trailing,
                leading,
            } => Command::Reply {
                peer: cut(peer),
                tag: cut(tag),
                trailing,
                leading,
            },
            Command::Drop { peer } => Command::Drop { peer: cut(peer) },
            Command::Read | Command::Waiting => self,
            Command::Window { slot, start, end } => Command::Window {
                slot: cut(slot),
                start: start.cut(bits),
                end: end.cut(bits),
            },
            Command::Flight { peer, out, back } => Command::Flight {
                peer: cut(peer),
                out: cut(out),
                back: cut(back),
            },
        }
    }
}

fn is_peer(number: u64) -> bool {
    number < PEERS as u64
}

fn is_flight_time(number: u64) -> bool {
    number <= u64::from(LAST_FLIGHT)
}

fn are_edges(first: i64, second: i64) -> bool {
    let range = -LAST_MOMENT..=LAST_MOMENT;
    range.contains(&first) && range.contains(&second) && first <= second
}

/// The line. A rule that has no name is shown by its number.
impl fmt::Display for Command {
    fn fmt(&self, f: &mut fmt::Formatter<'_>) -> fmt::Result {
        match self {
            Command::Start {
                board,
                rule,
                claim,
                lower,
                upper,
            } => {
                let rule = match rule {
                    0 => "im".into(),
                    1 => "mm".into(),
                    _ => rule.to_string(),
                };
                write!(f, "(start {board} {rule} {claim} ({lower} {upper}))")
            }
            Command::Pass { ticks } => write!(f, "(pass {ticks})"),
            Command::Request { peer } => write!(f, "(request {peer})"),
            Command::Reply {
                peer,
                tag,
                trailing,
                leading,
            } => write!(f, "(reply {peer} {tag} ({trailing} {leading}))"),
            Command::Drop { peer } => write!(f, "(drop {peer})"),
            Command::Read => write!(f, "(read)"),
            Command::Waiting => write!(f, "(waiting)"),
            Command::Window { slot, start, end } => write!(f, "(window {slot} ({start} {end}))"),
            Command::Flight { peer, out, back } => write!(f, "(flight {peer} ({out} {back}))"),
        }
    }
}
