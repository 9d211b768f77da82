//! What the calls do to a keeper.
//!
//! Except for `started_by`, each method expects a keeper that counts as
//! started, and changes nothing if it refuses. The comments give the largest
//! values, which all fit in 64 bits.

use crate::command::{Reply, Start};
use crate::flight::Flight;
use crate::interval::Interval;
use crate::keeper::{Keeper, Rule};
use crate::limits::{MAX_MOMENT, MAX_REQUESTS, MAX_TICKS, MAX_WAIT};
use crate::refusal::Refusal;

/// What became of an accepted reply.
#[derive(Clone, Copy, PartialEq, Eq, Debug)]
pub enum Outcome {
    Taken,
    Kept,
    Conflict,
}

impl Keeper {
    pub(crate) fn started_by(start: &Start) -> Keeper {
        Keeper {
            started: true,
            board: start.board,
            rule: start.rule,
            claim: start.claim,
            lower: start.interval.lower,
            upper: start.interval.upper,
            ..Keeper::fresh()
        }
    }

    /// `count` is at most 86400000, so it fits in i64 too, and an edge moves by
    /// less than 10^14.
    pub(crate) fn pass(&mut self, count: u64) -> Result<(), Refusal> {
        let lower = self.lower + count as i64 * self.shortest_tick();
        let upper = self.upper + count as i64 * self.longest_tick();
        let ticks = self.ticks + count;
        // The edges only rise and stay in order, so the upper one is the
        // first to leave the range.
        if upper > MAX_MOMENT || ticks > MAX_TICKS {
            return Err(Refusal::Overflow);
        }
        self.lower = lower;
        self.upper = upper;
        self.ticks = ticks;
        Ok(())
    }

    /// Returns the tag of the new request.
    pub(crate) fn request(&mut self, peer: u8) -> Result<u32, Refusal> {
        self.refuse_own_board(peer)?;
        self.refuse_waiting(peer)?;
        if self.requests >= MAX_REQUESTS {
            return Err(Refusal::TagsUsed);
        }
        self.requests += 1;
        self.waiting |= 1 << peer;
        self.tags[usize::from(peer)] = self.requests;
        self.sent_at[usize::from(peer)] = self.ticks;
        Ok(self.requests)
    }

    pub(crate) fn reply(&mut self, reply: &Reply) -> Result<Outcome, Refusal> {
        self.refuse_own_board(reply.peer)?;
        let place = usize::from(reply.peer);
        if !self.waits(reply.peer) || self.tags[place] != reply.tag {
            return Err(Refusal::NotWaiting);
        }
        let wait = self.ticks - self.sent_at[place];
        if wait > MAX_WAIT {
            return Err(Refusal::Late);
        }
        // At most 3600000, so the wait fits in i64 too.
        let outcome = self.merge(reply, wait as i64)?;
        self.end_request(reply.peer);
        Ok(outcome)
    }

    pub(crate) fn drop_request(&mut self, peer: u8) -> Result<(), Refusal> {
        self.refuse_own_board(peer)?;
        if !self.waits(peer) {
            return Err(Refusal::NotWaiting);
        }
        self.end_request(peer);
        Ok(())
    }

    /// Sets both flight times of a peer: "It is refused with 6 while that peer
    /// has a request waiting, after 4."
    pub(crate) fn set_flight(&mut self, flight: &Flight) -> Result<(), Refusal> {
        self.refuse_own_board(flight.peer)?;
        self.refuse_waiting(flight.peer)?;
        self.out_times[usize::from(flight.peer)] = flight.out_time;
        self.back_times[usize::from(flight.peer)] = flight.back_time;
        Ok(())
    }

    /// Brings the peer's interval into the keeper's own. `wait` is the number
    /// of ticks since the request was sent.
    fn merge(&mut self, reply: &Reply, wait: i64) -> Result<Outcome, Refusal> {
        let bracket = self.shifted(self.bracket(reply.interval, wait), reply.peer);
        // "A bracket left empty is a conflict": it shares no moment.
        let Some(shared) = self.interval().shared_with(bracket) else {
            self.conflicts += 1;
            return Ok(Outcome::Conflict);
        };
        match self.rule {
            Rule::Im => {
                self.set_interval(shared);
                Ok(Outcome::Taken)
            }
            Rule::Mm => self.adopt(self.moved_outward(reply.interval, wait)),
        }
    }

    /// Rule mm: takes the peer's interval, moved outward, over if it is no
    /// wider than the own at the last tick. Each width is below 8.1 * 10^18.
    fn adopt(&mut self, moved: Interval) -> Result<Outcome, Refusal> {
        if moved.width() > self.interval().width() {
            return Ok(Outcome::Kept);
        }
        if !moved.is_valid() {
            return Err(Refusal::Overflow);
        }
        self.set_interval(moved);
        Ok(Outcome::Taken)
    }

    fn refuse_own_board(&self, peer: u8) -> Result<(), Refusal> {
        if peer == self.board {
            Err(Refusal::OwnBoard)
        } else {
            Ok(())
        }
    }

    fn refuse_waiting(&self, peer: u8) -> Result<(), Refusal> {
        if self.waits(peer) {
            Err(Refusal::Waiting)
        } else {
            Ok(())
        }
    }

    /// The flight times belong to the peer and stay.
    fn end_request(&mut self, peer: u8) {
        self.waiting &= !(1 << peer);
        self.tags[usize::from(peer)] = 0;
        self.sent_at[usize::from(peer)] = 0;
    }
}
