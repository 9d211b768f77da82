//! The calls as a caller makes them: with a line, or a pass with a number.

use core::array;

use crate::calls::Outcome;
use crate::command::{Command, Reply, Start};
use crate::keeper::Keeper;
use crate::limits::{BOARDS, MAX_PASS, MIN_OUTPUT};
use crate::refusal::Refusal;
use crate::window::{Window, WindowState};
use crate::writer::Writer;

/// What a call returns.
#[derive(Clone, Copy, PartialEq, Eq, Debug)]
pub struct Answered {
    /// 0 for an accepted line, else the number of the refusal.
    pub number: u8,
    /// Length of the answer with its LF.
    pub length: usize,
}

/// Answers one line, given without its LF. The answer is written to the start
/// of `out`. A refused line leaves the keeper as it was.
pub fn answer_line(keeper: &mut Keeper, line: &[u8], out: &mut [u8]) -> Answered {
    let Some(output) = out.first_chunk_mut::<MIN_OUTPUT>() else {
        return Answered {
            number: Refusal::ShortOutput.number(),
            length: 0,
        };
    };
    let mut writer = Writer::new(output);
    let number = match run(keeper, line, &mut writer) {
        Ok(()) => 0,
        Err(refusal) => {
            write_refusal(refusal, &mut writer);
            refusal.number()
        }
    };
    Answered {
        number,
        length: writer.length(),
    }
}

/// The effect of `(pass N)` without its line: returns 0 or the number of the
/// refusal.
pub fn pass(keeper: &mut Keeper, ticks: u64) -> u8 {
    match checked_pass(keeper, ticks) {
        Ok(()) => 0,
        Err(refusal) => refusal.number(),
    }
}

fn checked_pass(keeper: &mut Keeper, ticks: u64) -> Result<(), Refusal> {
    if ticks > MAX_PASS {
        return Err(Refusal::Range);
    }
    if !keeper.counts_as_started() {
        return Err(Refusal::Order);
    }
    keeper.pass(ticks)
}

/// Reads the line and carries it out. Nothing is written before the command
/// is accepted, because a refusal must leave the output after its own, shorter
/// line untouched.
fn run(keeper: &mut Keeper, line: &[u8], writer: &mut Writer) -> Result<(), Refusal> {
    let command = Command::read(line)?;
    // Start asks for a keeper that has not started, the others for one that
    // has.
    let is_start = matches!(command, Command::Start(_));
    if is_start == keeper.counts_as_started() {
        return Err(Refusal::Order);
    }
    match command {
        Command::Start(start) => answer_start(keeper, &start, writer),
        Command::Pass { ticks } => {
            keeper.pass(ticks)?;
            write_pass(keeper, writer);
        }
        Command::Request { peer } => {
            let tag = keeper.request(peer)?;
            write_request(peer, tag, writer);
        }
        Command::Reply(reply) => {
            let outcome = keeper.reply(&reply)?;
            write_reply(keeper, &reply, outcome, writer);
        }
        Command::Drop { peer } => {
            keeper.drop_request(peer)?;
            write_drop(peer, writer);
        }
        Command::Read => write_time(keeper, writer),
        Command::Waiting => write_waiting(keeper, writer),
        Command::Window(window) => write_window(keeper, &window, writer),
        Command::Flight(flight) => {
            keeper.set_flight(&flight)?;
            write_flight(flight.peer, writer);
        }
    }
    Ok(())
}

/// `(no NUMBER)`
fn write_refusal(refusal: Refusal, writer: &mut Writer) {
    writer.text(b"(no ");
    writer.count(u64::from(refusal.number()));
    writer.text(b")\n");
}

/// `(started BOARD)`
fn answer_start(keeper: &mut Keeper, start: &Start, writer: &mut Writer) {
    *keeper = Keeper::started_by(start);
    writer.text(b"(started ");
    writer.count(u64::from(start.board));
    writer.text(b")\n");
}

/// `(at TICKS (LOWER UPPER))`
fn write_pass(keeper: &Keeper, writer: &mut Writer) {
    writer.text(b"(at ");
    writer.count(keeper.ticks);
    writer.text(b" ");
    writer.interval(keeper.interval());
    writer.text(b")\n");
}

/// `(sent PEER TAG)`
fn write_request(peer: u8, tag: u32, writer: &mut Writer) {
    writer.text(b"(sent ");
    writer.count(u64::from(peer));
    writer.text(b" ");
    writer.count(u64::from(tag));
    writer.text(b")\n");
}

/// `(taken PEER (LOWER UPPER))`, or the same with `kept` or `conflict`
fn write_reply(keeper: &Keeper, reply: &Reply, outcome: Outcome, writer: &mut Writer) {
    match outcome {
        Outcome::Taken => writer.text(b"(taken "),
        Outcome::Kept => writer.text(b"(kept "),
        Outcome::Conflict => writer.text(b"(conflict "),
    }
    writer.count(u64::from(reply.peer));
    writer.text(b" ");
    writer.interval(keeper.interval());
    writer.text(b")\n");
}

/// `(dropped PEER)`
fn write_drop(peer: u8, writer: &mut Writer) {
    writer.text(b"(dropped ");
    writer.count(u64::from(peer));
    writer.text(b")\n");
}

/// `(time (LOWER UPPER) (CENTRE ERROR) CONFLICTS WAITING)` with the told edges
fn write_time(keeper: &Keeper, writer: &mut Writer) {
    let told = keeper.told();
    // The sum of the edges is within 8.1 * 10^18 of 0 and fits. With the
    // positive divisor 2, Euclidean division rounds toward minus infinity.
    let centre = (told.lower + told.upper).div_euclid(2);
    let error = told.upper - centre;
    writer.text(b"(time ");
    writer.interval(told);
    writer.text(b" (");
    writer.moment(centre);
    writer.text(b" ");
    writer.moment(error);
    writer.text(b") ");
    writer.count(u64::from(keeper.conflicts));
    writer.text(b" ");
    writer.count(u64::from(keeper.waiting.count_ones()));
    writer.text(b")\n");
}

/// `(waiting (PEER TAG) ...)`: "The list now runs by tag, smallest first."
fn write_waiting(keeper: &Keeper, writer: &mut Writer) {
    writer.text(b"(waiting");
    for peer in waiting_by_tag(keeper) {
        writer.text(b" (");
        writer.count(u64::from(peer));
        writer.text(b" ");
        writer.count(u64::from(keeper.tags[usize::from(peer)]));
        writer.text(b")");
    }
    writer.text(b")\n");
}

/// The waiting peers in ascending order of their tags. No two of these tags
/// are equal in a keeper that counts as started, so there is only one order.
fn waiting_by_tag(keeper: &Keeper) -> impl Iterator<Item = u8> + '_ {
    let mut peers: [u8; BOARDS] = array::from_fn(|peer| peer as u8);
    peers.sort_unstable_by_key(|&peer| keeper.tags[usize::from(peer)]);
    peers.into_iter().filter(|&peer| keeper.waits(peer))
}

/// `(open SLOT)`, or the same with `shut` or `unsure`: "Windows use told
/// edges."
fn write_window(keeper: &Keeper, window: &Window, writer: &mut Writer) {
    match window.state(keeper.told()) {
        WindowState::Open => writer.text(b"(open "),
        WindowState::Shut => writer.text(b"(shut "),
        WindowState::Unsure => writer.text(b"(unsure "),
    }
    writer.count(u64::from(window.slot));
    writer.text(b")\n");
}

/// `(flight PEER)`
fn write_flight(peer: u8, writer: &mut Writer) {
    writer.text(b"(flight ");
    writer.count(u64::from(peer));
    writer.text(b")\n");
}
