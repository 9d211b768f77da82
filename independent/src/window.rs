//! A heater window, and where the moments of a keeper lie in it.

use crate::date::Date;
use crate::interval::Interval;

/// A window whose end is later than its start.
pub struct Window {
    pub slot: u8,
    pub start: Date,
    pub end: Date,
}

/// Whether the moments of an interval are inside the window.
#[derive(Clone, Copy, PartialEq, Eq, Debug)]
pub enum WindowState {
    /// Every moment is inside.
    Open,
    /// No moment is inside.
    Shut,
    /// Some moments are inside and some are not.
    Unsure,
}

impl Window {
    /// The state for an interval whose edges are in order.
    pub(crate) fn state(&self, interval: Interval) -> WindowState {
        // The window has no gap, so it holds every moment of the interval if
        // it holds both edges.
        if self.holds(interval.lower) && self.holds(interval.upper) {
            WindowState::Open
        } else if self.is_before(interval.lower) || self.is_after(interval.upper) {
            WindowState::Shut
        } else {
            WindowState::Unsure
        }
    }

    /// "The window holds its first moment and not its last."
    fn holds(&self, moment: i64) -> bool {
        !self.is_after(moment) && !self.is_before(moment)
    }

    /// Whether the whole window lies before the moment. It also does if the
    /// moment is its end, which it does not hold.
    fn is_before(&self, moment: i64) -> bool {
        self.end.moment() <= moment
    }

    /// Whether the whole window lies after the moment.
    fn is_after(&self, moment: i64) -> bool {
        moment < self.start.moment()
    }
}
