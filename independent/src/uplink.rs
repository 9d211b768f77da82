//! The calls that write a command as its line: one for each form, which takes
//! the numbers of the command, and one that takes a line.
//!
//! None of them asks a keeper, so the only refusals are those that come before
//! number 3.

use crate::command::Command;
use crate::interval::Interval;
use crate::keeper::Rule;
use crate::limits::MIN_OUTPUT;
use crate::refusal::Refusal;
use crate::writer::Writer;

/// What a call that writes a command returns.
#[derive(Clone, Copy, PartialEq, Eq, Debug)]
pub struct Written {
    /// 0 for a command that was written, else the number of the refusal.
    pub number: u8,
    /// Length of the line, which has no LF; 0 for a refusal.
    pub length: usize,
}

/// `(start BOARD RULE CLAIM (LOWER UPPER))`; `rule` is 0 for im and 1 for mm.
pub fn write_start(
    out: &mut [u8],
    board: u64,
    rule: u64,
    claim: u64,
    lower: i64,
    upper: i64,
) -> Written {
    let interval = Interval { lower, upper };
    let command = rule_of(rule).and_then(|rule| Command::start(board, rule, claim, interval));
    write(out, command)
}

/// `(pass TICKS)`
pub fn write_pass(out: &mut [u8], ticks: u64) -> Written {
    write(out, Command::pass(ticks))
}

/// `(request PEER)`
pub fn write_request(out: &mut [u8], peer: u64) -> Written {
    write(out, Command::request(peer))
}

/// `(reply PEER TAG (TRAILING LEADING))`
pub fn write_reply(out: &mut [u8], peer: u64, tag: u64, trailing: i64, leading: i64) -> Written {
    let interval = Interval {
        lower: trailing,
        upper: leading,
    };
    write(out, Command::reply(peer, tag, interval))
}

/// `(drop PEER)`
pub fn write_drop(out: &mut [u8], peer: u64) -> Written {
    write(out, Command::drop_request(peer))
}

/// `(read)`
pub fn write_read(out: &mut [u8]) -> Written {
    write(out, Ok(Command::Read))
}

/// `(waiting)`
pub fn write_waiting(out: &mut [u8]) -> Written {
    write(out, Ok(Command::Waiting))
}

/// `(window SLOT (DATE DATE))`; a date is its year, month, day, hour, minute
/// and second.
pub fn write_window(out: &mut [u8], slot: u64, start: [u64; 6], end: [u64; 6]) -> Written {
    write(out, Command::window(slot, start, end))
}

/// `(flight PEER (OUT BACK))`
pub fn write_flight(out: &mut [u8], peer: u64, out_time: u64, back_time: u64) -> Written {
    write(out, Command::flight(peer, out_time, back_time))
}

/// Reads a line, given without its LF, and writes the command that it is: "a
/// line read and written gives the plain spelling". Only grouped numerals have
/// another, so a line without `_` gives its own bytes.
pub fn plain(line: &[u8], out: &mut [u8]) -> Written {
    write(out, Command::read(line))
}

/// Writes the command to the front of `out`. The buffer is tested first,
/// because number 10 comes before the refusal that `command` may hold.
fn write(out: &mut [u8], command: Result<Command, Refusal>) -> Written {
    let Some(output) = out.first_chunk_mut::<MIN_OUTPUT>() else {
        return refused(Refusal::ShortOutput);
    };
    match command {
        Ok(command) => {
            let mut writer = Writer::new(output);
            command.write(&mut writer);
            Written {
                number: 0,
                length: writer.length(),
            }
        }
        Err(refusal) => refused(refusal),
    }
}

fn refused(refusal: Refusal) -> Written {
    Written {
        number: refusal.number(),
        length: 0,
    }
}

/// The numbers of the rules are those in the image of a keeper.
fn rule_of(number: u64) -> Result<Rule, Refusal> {
    match number {
        0 => Ok(Rule::Im),
        1 => Ok(Rule::Mm),
        _ => Err(Refusal::Range),
    }
}
