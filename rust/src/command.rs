//! Commands, written as the lines that a keeper answers.

use crate::date::Date;
use crate::lines::{self, Returned};
use crate::refusal::{self, Refusal};

/// The rule of a start. The value of each is its number in an image.
#[derive(Clone, Copy, PartialEq, Eq, Hash, Debug)]
#[repr(u8)]
pub enum Rule {
    /// `im`
    Im = 0,
    /// `mm`
    Mm = 1,
}

/// A command. Its numbers and dates may be any; numbers outside their ranges and
/// dates that do not exist are refused when it is written.
#[derive(Clone, Copy, PartialEq, Eq, Hash, Debug)]
pub enum Command {
    /// `(start BOARD RULE CLAIM (LOWER UPPER))`: a board of 0 to 15, a claim of
    /// 0 to 50000, edges from -4000000000000000000 through
    /// 4000000000000000000, the lower at most the upper.
    Start {
        board: u64,
        rule: Rule,
        claim: u64,
        lower: i64,
        upper: i64,
    },
    /// `(pass TICKS)`: 0 to 86400000.
    Pass { ticks: u64 },
    /// `(request PEER)`: 0 to 15.
    Request { peer: u64 },
    /// `(reply PEER TAG (TRAILING LEADING))`: a peer of 0 to 15, a tag of 1 to
    /// 16777215, edges as those of a start.
    Reply {
        peer: u64,
        tag: u64,
        trailing: i64,
        leading: i64,
    },
    /// `(drop PEER)`: 0 to 15.
    Drop { peer: u64 },
    /// `(read)`
    Read,
    /// `(waiting)`: its answer lists the waiting peers by tag, smallest first.
    Waiting,
    /// `(window SLOT (DATE DATE))`: a slot of 0 to 15, an end later than the
    /// start. The window holds the first moment of its start's second, and not
    /// that of its end's.
    Window { slot: u64, start: Date, end: Date },
    /// `(flight PEER (OUT BACK))`: a peer of 0 to 15, and two times of 0 to
    /// 1000000000 ns, in any order.
    Flight { peer: u64, out: u64, back: u64 },
}

impl Command {
    /// Writes the command's line, without an LF, at the front of `out`. No byte
    /// of `out` after the line is touched. A keeper answers the line as it
    /// stands; the program takes it with an LF behind it. Its numerals are
    /// plain, without `_`.
    ///
    /// Refused with `ShortOutput` if `out` is shorter than `OUTPUT_BYTES`, else
    /// with `OutsideRange` if a number is outside its range or a first edge is
    /// above the second, else with `NoDate` if a date does not exist, else with
    /// `NoWindow` if a window's end is not later than its start. `out` is then
    /// as it was.
    ///
    /// ```
    /// use boardtime::{Command, Refusal, OUTPUT_BYTES};
    ///
    /// let mut out = [0; OUTPUT_BYTES];
    /// let reply = Command::Reply { peer: 4, tag: 1, trailing: -5, leading: 2 };
    /// assert_eq!(reply.write(&mut out), Ok(&b"(reply 4 1 (-5 2))"[..]));
    /// let request = Command::Request { peer: 256 };
    /// assert_eq!(request.write(&mut out), Err(Refusal::OutsideRange));
    /// ```
    pub fn write<'a>(&self, out: &'a mut [u8]) -> Result<&'a [u8], Refusal> {
        let returned = match *self {
            Command::Start {
                board,
                rule,
                claim,
                lower,
                upper,
            } => lines::write_start(out, board, rule as u64, claim, lower, upper),
            Command::Pass { ticks } => lines::write_pass(out, ticks),
            Command::Request { peer } => lines::write_request(out, peer),
            Command::Reply {
                peer,
                tag,
                trailing,
                leading,
            } => lines::write_reply(out, peer, tag, trailing, leading),
            Command::Drop { peer } => lines::write_drop(out, peer),
            Command::Read => lines::write_read(out),
            Command::Waiting => lines::write_waiting(out),
            Command::Window { slot, start, end } => lines::write_window(out, slot, &start, &end),
            Command::Flight {
                peer,
                out: out_time,
                back,
            } => lines::write_flight(out, peer, out_time, back),
        };
        written(returned, out)
    }
}

/// Reads a line, given without its LF, and writes its command as
/// `Command::write` does: the line's plain spelling. That is the line without
/// its `_`, so that a line that has none is written back byte for byte.
///
/// Refused with `ShortOutput` if `out` is shorter than `OUTPUT_BYTES`, else with
/// `NoShape`, `OutsideRange`, `NoDate` or `NoWindow` for what is wrong with the
/// line. `out` is then as it was.
///
/// ```
/// use boardtime::{plain, Refusal, OUTPUT_BYTES};
///
/// let mut out = [0; OUTPUT_BYTES];
/// assert_eq!(plain(b"(pass 10)", &mut out), Ok(&b"(pass 10)"[..]));
/// assert_eq!(plain(b"(pass 1_000)", &mut out), Ok(&b"(pass 1000)"[..]));
/// assert_eq!(plain(b"(pass  10)", &mut out), Err(Refusal::NoShape));
/// ```
pub fn plain<'a>(line: &[u8], out: &'a mut [u8]) -> Result<&'a [u8], Refusal> {
    written(lines::plain(line, out), out)
}

/// The line that a call left at the front of its output.
fn written(returned: Returned, out: &[u8]) -> Result<&[u8], Refusal> {
    refusal::result(returned.number)?;
    Ok(&out[..returned.length])
}
