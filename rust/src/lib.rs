//! The time keeper of a board, over the proved static library: `Keeper` and
//! `image` over its archive libboardtime_lib.a, `Command`, `plain` and `lines`
//! over libboardtime_uplink.a, and `Date` and `dates` over libboardtime_dates.a.
//!
//! ```
//! use boardtime::{Command, Keeper, Refusal, Rule, OUTPUT_BYTES};
//!
//! let mut line = [0; OUTPUT_BYTES];
//! let mut out = [0; OUTPUT_BYTES];
//! let start = Command::Start { board: 3, rule: Rule::Im, claim: 200, lower: -1000, upper: 1000 };
//! let line = start.write(&mut line)?;
//! assert_eq!(line, b"(start 3 im 200 (-1000 1000))");
//!
//! let mut keeper = Keeper::fresh();
//! let answer = keeper.answer(line, &mut out);
//! assert_eq!(answer.number, 0);
//! assert_eq!(answer.bytes, b"(started 3)\n");
//! assert_eq!(keeper.pass(10), Ok(()));
//! assert_eq!(keeper.pass(86_400_001), Err(Refusal::OutsideRange));
//! # Ok::<(), Refusal>(())
//! ```
//!
//! The crate needs no heap. It is built with all three archives; a program that
//! makes the calls of one has nothing of the others in it. They are for x86-64
//! Linux, and for another target the crate is not built.

#![no_std]

mod command;
mod date;
pub mod dates;
pub mod image;
pub mod lines;
mod refusal;
mod returned;

pub use command::{plain, Command, Rule};
pub use date::Date;
pub use refusal::Refusal;

/// Length of an image.
pub const IMAGE_BYTES: usize = 360;

/// Least length of the output of a call. No answer is longer, and no line that
/// is written.
pub const OUTPUT_BYTES: usize = 256;

/// Greatest length of a line without its LF; a longer one is refused with 1.
pub const LINE_BYTES: usize = 160;

/// A board's time keeper, held as its image.
///
/// Two keepers are equal if all bytes of their images are.
#[derive(Clone, PartialEq, Eq, Debug)]
pub struct Keeper {
    image: [u8; IMAGE_BYTES],
}

/// What a call with a line returns.
#[derive(Clone, Copy, PartialEq, Eq, Debug)]
pub struct Answer<'a> {
    /// 0 for an accepted line, else the number of the refusal.
    pub number: u8,
    /// The answer with its LF; empty if the output was too short.
    pub bytes: &'a [u8],
}

impl Keeper {
    /// A keeper that has not started.
    pub fn fresh() -> Keeper {
        let mut image = [0; IMAGE_BYTES];
        // The image has the right length, so this call is always accepted.
        image::fresh(&mut image);
        Keeper { image }
    }

    /// The keeper of an image that was kept, as over a reset. Any bytes will
    /// do: those that no keeper can hold count as a keeper not started. So does
    /// an image that a library before flight times left, put at the front of
    /// these bytes: start anew.
    pub const fn from_image(image: [u8; IMAGE_BYTES]) -> Keeper {
        Keeper { image }
    }

    /// The image to keep; `include/boardtime.h` gives its layout.
    pub const fn image(&self) -> &[u8; IMAGE_BYTES] {
        &self.image
    }

    /// Answers one line, given without its LF, at the front of `out`. No byte
    /// of `out` after the answer is touched. A refused line leaves the keeper
    /// as it was.
    ///
    /// The edges of a keeper, and those in the answers to a pass and to a reply,
    /// are those at the last tick that was passed. `(read)` tells the upper edge
    /// with one longest tick more, and `(window ...)` goes by the same edges,
    /// since almost a whole tick may have gone by since then. A reply may be
    /// given at any moment between two ticks, once all ticks that were counted
    /// are passed. Its edges are such that held the true time when the peer sent
    /// them, as those that the peer's own `(read)` tells.
    ///
    /// `(flight PEER (OUT BACK))` sets a peer's flight times, in nanoseconds: a
    /// request never takes less than OUT to reach the peer, and its reply never
    /// less than BACK to come back. The bracket of that peer's replies then
    /// begins BACK later and ends OUT earlier; one left empty is a conflict.
    ///
    /// A numeral of a line has 1 to 19 digits, and the first of two or more is
    /// not 0. It is plain, without any `_`, or grouped, with one `_` between
    /// every two groups of three digits, counted from the right. Only an edge
    /// may be negative. A date takes no `_`. An answer has plain numerals alone.
    ///
    /// ```
    /// use boardtime::{Keeper, OUTPUT_BYTES};
    ///
    /// let mut out = [0; OUTPUT_BYTES];
    /// let mut keeper = Keeper::fresh();
    /// keeper.answer(b"(start 3 im 200 (-1_000 1_000))", &mut out);
    /// let answer = keeper.answer(b"(pass 1_000)", &mut out);
    /// assert_eq!(answer.bytes, b"(at 1000 (999799000 1000201000))\n");
    /// for refused in [&b"(pass 12_7)"[..], b"(pass 1000_000)", b"(pass _100)"] {
    ///     assert_eq!(keeper.answer(refused, &mut out).number, 1);
    /// }
    /// ```
    pub fn answer<'a>(&mut self, line: &[u8], out: &'a mut [u8]) -> Answer<'a> {
        let returned = image::line(&mut self.image, line, out);
        Answer {
            number: returned.number,
            bytes: &out[..returned.length],
        }
    }

    /// Lets ticks pass, as `(pass TICKS)` does; more than 86400000 are refused.
    /// A refused pass leaves the keeper as it was.
    pub fn pass(&mut self, ticks: u64) -> Result<(), Refusal> {
        refusal::result(image::pass(&mut self.image, ticks))
    }
}

/// The same as `Keeper::fresh`.
impl Default for Keeper {
    fn default() -> Keeper {
        Keeper::fresh()
    }
}

impl Answer<'_> {
    /// `Ok` for an accepted line, else why it was refused.
    pub fn result(&self) -> Result<(), Refusal> {
        refusal::result(self.number)
    }
}
