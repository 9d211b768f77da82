//! The commands: their shapes, the ranges of their numbers and the tests of
//! their dates.
//!
//! A wrong shape comes before a numeral outside its range, so each reading
//! function first takes the whole line and only then makes the command, which
//! tests the numbers and, after them, the dates.

use crate::date::Date;
use crate::flight::Flight;
use crate::interval::Interval;
use crate::keeper::Rule;
use crate::limits::{BOARDS, MAX_CLAIM, MAX_FLIGHT, MAX_LINE, MAX_PASS, MAX_REQUESTS, SLOTS};
use crate::reader::Reader;
use crate::refusal::Refusal;
use crate::window::Window;

/// A command with numbers within their ranges and dates that exist.
pub enum Command {
    Start(Start),
    Pass { ticks: u64 },
    Request { peer: u8 },
    Reply(Reply),
    Drop { peer: u8 },
    Read,
    Waiting,
    Window(Window),
    Flight(Flight),
}

pub struct Start {
    pub board: u8,
    pub rule: Rule,
    pub claim: u16,
    pub interval: Interval,
}

pub struct Reply {
    pub peer: u8,
    pub tag: u32,
    /// From the trailing through the leading edge of the peer.
    pub interval: Interval,
}

impl Command {
    /// Reads a line without its LF.
    pub fn read(line: &[u8]) -> Result<Command, Refusal> {
        if line.len() > MAX_LINE {
            return Err(Refusal::Shape);
        }
        let mut reader = Reader::new(line);
        if reader.take(b"(pass ") {
            read_pass(reader)
        } else if reader.take(b"(request ") {
            Command::request(read_peer(reader)?)
        } else if reader.take(b"(reply ") {
            read_reply(reader)
        } else if reader.take(b"(drop ") {
            Command::drop_request(read_peer(reader)?)
        } else if reader.take(b"(start ") {
            read_start(reader)
        } else if reader.take(b"(window ") {
            read_window(reader)
        } else if reader.take(b"(flight ") {
            read_flight(reader)
        } else if line == b"(read)" {
            Ok(Command::Read)
        } else if line == b"(waiting)" {
            Ok(Command::Waiting)
        } else {
            Err(Refusal::Shape)
        }
    }

    // The functions below make a command of numbers and dates that are not
    // tested yet. They take them in 64 bits, so that no number is cut before
    // its test.

    pub fn start(
        board: u64,
        rule: Rule,
        claim: u64,
        interval: Interval,
    ) -> Result<Command, Refusal> {
        Ok(Command::Start(Start {
            board: board_number(board)?,
            rule,
            claim: at_most(claim, u64::from(MAX_CLAIM))? as u16,
            interval: valid(interval)?,
        }))
    }

    pub fn pass(ticks: u64) -> Result<Command, Refusal> {
        let ticks = at_most(ticks, MAX_PASS)?;
        Ok(Command::Pass { ticks })
    }

    pub fn request(peer: u64) -> Result<Command, Refusal> {
        let peer = board_number(peer)?;
        Ok(Command::Request { peer })
    }

    pub fn reply(peer: u64, tag: u64, interval: Interval) -> Result<Command, Refusal> {
        // The first request has tag 1.
        if tag == 0 {
            return Err(Refusal::Range);
        }
        Ok(Command::Reply(Reply {
            peer: board_number(peer)?,
            tag: at_most(tag, u64::from(MAX_REQUESTS))? as u32,
            interval: valid(interval)?,
        }))
    }

    pub fn drop_request(peer: u64) -> Result<Command, Refusal> {
        let peer = board_number(peer)?;
        Ok(Command::Drop { peer })
    }

    /// "11 first, both after 2": the slot is tested first, then both dates, and
    /// last their order.
    pub fn window(slot: u64, start: [u64; 6], end: [u64; 6]) -> Result<Command, Refusal> {
        let slot = at_most(slot, SLOTS as u64 - 1)? as u8;
        let start = Date::new(start)?;
        let end = Date::new(end)?;
        if end.moment() <= start.moment() {
            return Err(Refusal::NoWindow);
        }
        Ok(Command::Window(Window { slot, start, end }))
    }

    pub fn flight(peer: u64, out_time: u64, back_time: u64) -> Result<Command, Refusal> {
        Ok(Command::Flight(Flight {
            peer: board_number(peer)?,
            out_time: flight_time(out_time)?,
            back_time: flight_time(back_time)?,
        }))
    }
}

/// `TICKS)`
fn read_pass(mut reader: Reader) -> Result<Command, Refusal> {
    let ticks = reader.count()?;
    reader.finish(b")")?;
    Command::pass(ticks)
}

/// `PEER)`
fn read_peer(mut reader: Reader) -> Result<u64, Refusal> {
    let peer = reader.count()?;
    reader.finish(b")")?;
    Ok(peer)
}

/// `PEER TAG (TRAILING LEADING))`
fn read_reply(mut reader: Reader) -> Result<Command, Refusal> {
    let peer = reader.count()?;
    reader.expect(b" ")?;
    let tag = reader.count()?;
    let interval = reader.finish_with_interval()?;
    Command::reply(peer, tag, interval)
}

/// `BOARD RULE CLAIM (LOWER UPPER))`
fn read_start(mut reader: Reader) -> Result<Command, Refusal> {
    let board = reader.count()?;
    let rule = if reader.take(b" im ") {
        Rule::Im
    } else {
        reader.expect(b" mm ")?;
        Rule::Mm
    };
    let claim = reader.count()?;
    let interval = reader.finish_with_interval()?;
    Command::start(board, rule, claim, interval)
}

/// `SLOT (DATE DATE))`
fn read_window(mut reader: Reader) -> Result<Command, Refusal> {
    let slot = reader.count()?;
    reader.expect(b" (")?;
    let start = reader.date()?;
    reader.expect(b" ")?;
    let end = reader.date()?;
    reader.finish(b"))")?;
    Command::window(slot, start, end)
}

/// `PEER (OUT BACK))`: the times are no edges, so neither takes a '-'.
fn read_flight(mut reader: Reader) -> Result<Command, Refusal> {
    let peer = reader.count()?;
    reader.expect(b" (")?;
    let out_time = reader.count()?;
    reader.expect(b" ")?;
    let back_time = reader.count()?;
    reader.finish(b"))")?;
    Command::flight(peer, out_time, back_time)
}

fn board_number(value: u64) -> Result<u8, Refusal> {
    Ok(at_most(value, BOARDS as u64 - 1)? as u8)
}

fn flight_time(value: u64) -> Result<u32, Refusal> {
    Ok(at_most(value, u64::from(MAX_FLIGHT))? as u32)
}

/// Passes on a value up to `limit`, which may then be cast to a type that
/// holds the limit.
fn at_most(value: u64, limit: u64) -> Result<u64, Refusal> {
    if value <= limit {
        Ok(value)
    } else {
        Err(Refusal::Range)
    }
}

fn valid(interval: Interval) -> Result<Interval, Refusal> {
    if interval.is_valid() {
        Ok(interval)
    } else {
        Err(Refusal::Range)
    }
}
