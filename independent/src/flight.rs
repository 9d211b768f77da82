//! The known flight times of the peers: "Our longer harness has repeaters that
//! never take less than a known time."

use crate::interval::Interval;
use crate::keeper::Keeper;
use crate::limits::MAX_FLIGHT;

/// The times of one peer, "0 through 1000000000 ns". "Here the pair need not be
/// in order."
pub struct Flight {
    pub peer: u8,
    /// Least time that a request takes to the peer.
    pub out_time: u32,
    /// Least time that a reply takes back.
    pub back_time: u32,
}

impl Keeper {
    /// "A keeper handed in with either above that counts as not started." The
    /// board's own place is tested with the others.
    pub(crate) fn flight_times_are_valid(&self) -> bool {
        let mut times = self.out_times.iter().chain(&self.back_times);
        times.all(|&time| time <= MAX_FLIGHT)
    }

    /// The shifted bracket: "A bracket's lower end gains BACK and its upper end
    /// loses OUT". It is left empty if its ends are then out of order.
    pub(crate) fn shifted(&self, bracket: Interval, peer: u8) -> Interval {
        let place = usize::from(peer);
        let back_time = i64::from(self.back_times[place]);
        let out_time = i64::from(self.out_times[place]);
        bracket.narrowed(back_time, out_time)
    }
}
