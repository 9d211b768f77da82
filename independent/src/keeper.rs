//! The keeper's state and the test of a keeper that a caller hands in.

use crate::interval::Interval;
use crate::limits::{BOARDS, MAX_CLAIM, MAX_REQUESTS, MAX_TICKS, NOMINAL_TICK};

/// How a consistent reply changes the edges.
#[derive(Clone, Copy, PartialEq, Eq, Debug)]
pub enum Rule {
    /// Intersection of the own interval and the bracket of the reply.
    Im,
    /// Adoption of the peer's interval, moved outward, if it is no wider than
    /// the own.
    Mm,
}

/// The state of one board's time keeper.
#[derive(Clone, PartialEq, Eq, Debug)]
pub struct Keeper {
    pub started: bool,
    pub board: u8,
    pub rule: Rule,
    pub claim: u16,
    /// Lower edge at the last tick.
    pub lower: i64,
    /// Upper edge at the last tick.
    pub upper: i64,
    /// Ticks passed since the start.
    pub ticks: u64,
    /// Requests sent since the start; also the newest tag.
    pub requests: u32,
    pub conflicts: u32,
    /// Bit p is set while the request to peer p waits for its reply.
    pub waiting: u16,
    /// Tag of each waiting request, 0 for the other peers.
    pub tags: [u32; BOARDS],
    /// Tick count at which each waiting request was sent, 0 for the others.
    pub sent_at: [u64; BOARDS],
    /// Least time that a request takes to each peer, in nanoseconds.
    pub out_times: [u32; BOARDS],
    /// Least time that a reply takes back from each peer, in nanoseconds.
    pub back_times: [u32; BOARDS],
}

impl Keeper {
    /// A keeper that has not started.
    pub const fn fresh() -> Keeper {
        Keeper {
            started: false,
            board: 0,
            rule: Rule::Im,
            claim: 0,
            lower: 0,
            upper: 0,
            ticks: 0,
            requests: 0,
            conflicts: 0,
            waiting: 0,
            tags: [0; BOARDS],
            sent_at: [0; BOARDS],
            out_times: [0; BOARDS],
            back_times: [0; BOARDS],
        }
    }

    /// Whether the keeper has started and its fields meet the conditions that
    /// the calls rely on. All fields are open to the caller, so every call
    /// asks again.
    pub fn counts_as_started(&self) -> bool {
        self.started
            && self.numbers_are_valid()
            && self.requests_are_valid()
            && self.flight_times_are_valid()
    }

    /// The numbers that do not belong to a single peer. Passing this test
    /// also makes `board` a valid peer number.
    fn numbers_are_valid(&self) -> bool {
        // In u64 the sum fits whatever the conflict count is.
        let answered_or_waiting = u64::from(self.conflicts) + u64::from(self.waiting.count_ones());
        usize::from(self.board) < BOARDS
            && self.claim <= MAX_CLAIM
            && self.interval().is_valid()
            && self.ticks <= MAX_TICKS
            && self.requests <= MAX_REQUESTS
            && answered_or_waiting <= u64::from(self.requests)
            && !self.waits(self.board)
    }

    /// The tag and tick count of every peer. The board's own place is tested
    /// with the others: it does not wait, so it must hold 0 for both.
    fn requests_are_valid(&self) -> bool {
        for (peer, (&tag, &sent_at)) in self.tags.iter().zip(&self.sent_at).enumerate() {
            let valid = if self.waiting >> peer & 1 == 0 {
                tag == 0 && sent_at == 0
            } else {
                // Places without a request must hold 0, which this tag is not,
                // so the count may include them.
                tag != 0
                    && tag <= self.requests
                    && sent_at <= self.ticks
                    && self.tags.iter().filter(|&&other| other == tag).count() == 1
            };
            if !valid {
                return false;
            }
        }
        true
    }

    /// Whether a request to `peer`, which is below 16, waits for its reply.
    pub(crate) fn waits(&self, peer: u8) -> bool {
        self.waiting >> peer & 1 != 0
    }

    /// The edges at the last tick.
    pub(crate) fn interval(&self) -> Interval {
        Interval {
            lower: self.lower,
            upper: self.upper,
        }
    }

    pub(crate) fn set_interval(&mut self, interval: Interval) {
        self.lower = interval.lower;
        self.upper = interval.upper;
    }

    /// Shortest length of a tick in nanoseconds.
    pub(crate) fn shortest_tick(&self) -> i64 {
        NOMINAL_TICK - i64::from(self.claim)
    }

    /// Longest length of a tick in nanoseconds.
    pub(crate) fn longest_tick(&self) -> i64 {
        NOMINAL_TICK + i64::from(self.claim)
    }
}
