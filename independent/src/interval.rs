//! An interval of moments.

use crate::limits::{MAX_MOMENT, MIN_MOMENT};

/// The moments from the lower through the upper edge.
#[derive(Clone, Copy, PartialEq, Eq, Debug)]
pub struct Interval {
    pub lower: i64,
    pub upper: i64,
}

impl Interval {
    /// Both edges lie in the range and are in order.
    pub fn is_valid(self) -> bool {
        MIN_MOMENT <= self.lower && self.lower <= self.upper && self.upper <= MAX_MOMENT
    }

    /// Moves the lower edge down by `below` and the upper edge up by `above`.
    /// The result may leave the range.
    pub fn widened(self, below: i64, above: i64) -> Interval {
        Interval {
            lower: self.lower - below,
            upper: self.upper + above,
        }
    }

    /// Moves the lower edge up by `below` and the upper edge down by `above`.
    /// The result may have its edges out of order: it then holds no moment.
    pub fn narrowed(self, below: i64, above: i64) -> Interval {
        Interval {
            lower: self.lower + below,
            upper: self.upper - above,
        }
    }

    pub fn width(self) -> i64 {
        self.upper - self.lower
    }

    /// The moments that both intervals hold; `None` if there are none. One is
    /// enough. An interval with its edges out of order shares none: the larger
    /// lower edge is then above the smaller upper one, whatever the other is.
    pub fn shared_with(self, other: Interval) -> Option<Interval> {
        let shared = Interval {
            lower: self.lower.max(other.lower),
            upper: self.upper.min(other.upper),
        };
        (shared.lower <= shared.upper).then_some(shared)
    }
}
