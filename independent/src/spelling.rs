//! The line of a command, without an LF and without `_`: its plain spelling.
//!
//! A command holds only numbers within their ranges and dates that exist, so
//! every line written here is read as the same command again.

use crate::command::{Command, Reply, Start};
use crate::flight::Flight;
use crate::keeper::Rule;
use crate::window::Window;
use crate::writer::Writer;

impl Command {
    pub fn write(&self, writer: &mut Writer) {
        match self {
            Command::Start(start) => write_start(start, writer),
            Command::Pass { ticks } => write_one(b"(pass ", *ticks, writer),
            Command::Request { peer } => write_one(b"(request ", u64::from(*peer), writer),
            Command::Reply(reply) => write_reply(reply, writer),
            Command::Drop { peer } => write_one(b"(drop ", u64::from(*peer), writer),
            Command::Read => writer.text(b"(read)"),
            Command::Waiting => writer.text(b"(waiting)"),
            Command::Window(window) => write_window(window, writer),
            Command::Flight(flight) => write_flight(flight, writer),
        }
    }
}

/// A form with one number, which `opening` precedes.
fn write_one<const N: usize>(opening: &[u8; N], number: u64, writer: &mut Writer) {
    writer.text(opening);
    writer.count(number);
    writer.text(b")");
}

/// `(start BOARD RULE CLAIM (LOWER UPPER))`
fn write_start(start: &Start, writer: &mut Writer) {
    writer.text(b"(start ");
    writer.count(u64::from(start.board));
    match start.rule {
        Rule::Im => writer.text(b" im "),
        Rule::Mm => writer.text(b" mm "),
    }
    writer.count(u64::from(start.claim));
    writer.text(b" ");
    writer.interval(start.interval);
    writer.text(b")");
}

/// `(reply PEER TAG (TRAILING LEADING))`
fn write_reply(reply: &Reply, writer: &mut Writer) {
    writer.text(b"(reply ");
    writer.count(u64::from(reply.peer));
    writer.text(b" ");
    writer.count(u64::from(reply.tag));
    writer.text(b" ");
    writer.interval(reply.interval);
    writer.text(b")");
}

/// `(window SLOT (DATE DATE))`
fn write_window(window: &Window, writer: &mut Writer) {
    writer.text(b"(window ");
    writer.count(u64::from(window.slot));
    writer.text(b" (");
    writer.date(window.start);
    writer.text(b" ");
    writer.date(window.end);
    writer.text(b"))");
}

/// `(flight PEER (OUT BACK))`
fn write_flight(flight: &Flight, writer: &mut Writer) {
    writer.text(b"(flight ");
    writer.count(u64::from(flight.peer));
    writer.text(b" (");
    writer.count(u64::from(flight.out_time));
    writer.text(b" ");
    writer.count(u64::from(flight.back_time));
    writer.text(b"))");
}
