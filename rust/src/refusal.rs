//! The causes of a refusal.

use core::error::Error;
use core::fmt;

/// Why a call was refused. The value of each cause is its number.
#[derive(Clone, Copy, PartialEq, Eq, Hash, Debug)]
#[repr(u8)]
pub enum Refusal {
    /// The line has no command's shape, or is longer than 160 bytes. What is no
    /// numeral's spelling breaks the shape; `Keeper::answer` says which ones are.
    NoShape = 1,
    /// A number is outside its range, or a first edge is above the second.
    OutsideRange = 2,
    /// A start after a start, or another call before one.
    WrongOrder = 3,
    /// The peer is the board itself.
    OwnBoard = 4,
    /// An edge would leave the range of moments, or the ticks their limit.
    Overflow = 5,
    /// A request to a peer that has one waiting, or flight times for one.
    StillWaiting = 6,
    /// A reply or drop for a peer with none waiting, or a reply with another
    /// tag.
    NotWaiting = 7,
    /// A reply more than 3600000 ticks after its request.
    TooLate = 8,
    /// A request after 16777215 were sent.
    TagsSpent = 9,
    /// The output is shorter than 256 bytes.
    ShortOutput = 10,
    /// A date does not exist or lies outside the years 1900 through 2099, or a
    /// moment lies outside them and has no date.
    NoDate = 11,
    /// A window whose end is not later than its start.
    NoWindow = 12,
}

impl Refusal {
    /// The number that stands in `(no NUMBER)`.
    pub const fn number(self) -> u8 {
        self as u8
    }
}

impl fmt::Display for Refusal {
    fn fmt(&self, f: &mut fmt::Formatter<'_>) -> fmt::Result {
        write!(f, "refused with number {} ({self:?})", self.number())
    }
}

impl Error for Refusal {}

/// The result for a number that a call returns, if it has no image or one of
/// 360 bytes.
pub(crate) fn result(number: u8) -> Result<(), Refusal> {
    match number {
        0 => Ok(()),
        1 => Err(Refusal::NoShape),
        2 => Err(Refusal::OutsideRange),
        3 => Err(Refusal::WrongOrder),
        4 => Err(Refusal::OwnBoard),
        5 => Err(Refusal::Overflow),
        6 => Err(Refusal::StillWaiting),
        7 => Err(Refusal::NotWaiting),
        8 => Err(Refusal::TooLate),
        9 => Err(Refusal::TagsSpent),
        10 => Err(Refusal::ShortOutput),
        11 => Err(Refusal::NoDate),
        12 => Err(Refusal::NoWindow),
        _ => unreachable!("the library returned {number}, which is no refusal's number"),
    }
}
