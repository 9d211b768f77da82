//! The causes of a refusal.

/// Why a call is refused. The value of each cause is its number.
#[derive(Clone, Copy, PartialEq, Eq, Debug)]
#[repr(u8)]
pub enum Refusal {
    /// The line is no command shape, or is too long.
    Shape = 1,
    /// A numeral is outside its range, or a first edge is above the second.
    Range = 2,
    /// A start after a start, or another call before one.
    Order = 3,
    /// The peer is the board itself.
    OwnBoard = 4,
    /// An edge would leave the range, or the ticks would pass their limit.
    Overflow = 5,
    /// A request to a peer that has one waiting, or flight times for one.
    Waiting = 6,
    /// A reply or drop for a peer with none waiting, or another tag.
    NotWaiting = 7,
    /// A reply after too many ticks.
    Late = 8,
    /// A request after all tags were used.
    TagsUsed = 9,
    /// The lent output is too short for an answer.
    ShortOutput = 10,
    /// A date that does not exist or is outside the years 1900 through 2099,
    /// or a moment that has no date.
    NoDate = 11,
    /// A window whose end is not later than its start.
    NoWindow = 12,
}

impl Refusal {
    pub fn number(self) -> u8 {
        self as u8
    }
}
