//! The three places at which the time since the last count matters: "A frame
//! may arrive, or a reading leave, almost a whole tick after the last count."
//!
//! The keeper's own edges stay those at the last tick. `wait` is the number of
//! ticks since the request was sent, at most 3600000, so no edge moves by 4 *
//! 10^12 or more.

use crate::interval::Interval;
use crate::keeper::Keeper;

impl Keeper {
    /// The told edges. A reading leaves before the next tick, so its moment is
    /// less than one longest tick above the upper edge. "A told edge may pass
    /// the range by that tick."
    pub(crate) fn told(&self) -> Interval {
        self.interval().widened(0, self.longest_tick())
    }

    /// The bracket of a reply from a peer without flight times: where the last
    /// tick was, by the peer's edges. The peer read them at most `wait` ticks
    /// before the last tick, and less than one tick after it. Either edge may
    /// lie outside the range.
    pub(crate) fn bracket(&self, peer: Interval, wait: i64) -> Interval {
        peer.widened(self.longest_tick(), wait * self.longest_tick())
    }

    /// What rule mm compares and adopts: the peer's edges, each moved outward
    /// by one tick more than the wait. "The mm adoption is unchanged" by flight
    /// times.
    pub(crate) fn moved_outward(&self, peer: Interval, wait: i64) -> Interval {
        let span = (wait + 1) * self.longest_tick();
        peer.widened(span, span)
    }
}
