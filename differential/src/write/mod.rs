//! Lines that both sides write: from a command, and from a line that was read.

mod command;
mod outcome;
mod tally;

use std::process;

use boardtime::lines as library;

pub use command::Command;
pub use tally::WriteTally;

use crate::lent::Lent;
use crate::limits::SHORTEST_OUTPUT;
use crate::spelling;
use crate::test::{Returned, Test};
use outcome::Outcome;

impl Test {
    /// Has both sides write a command. Its line, if it has one, is then written
    /// back, and returned.
    pub fn write(&mut self, command: Command, out_length: usize) -> Option<String> {
        self.tally.case();
        let before = self.output(out_length);
        let outcome = Outcome::of(
            &before,
            |out| by_library(command, out),
            |out| by_independent(command, out),
        );
        let number = if out_length < SHORTEST_OUTPUT {
            10
        } else {
            command.number()
        };
        let line = command.to_string();
        let found = outcome
            .compare()
            .and_then(|()| outcome.expect(number, line.as_bytes()));
        if let Err(difference) = found {
            self.report_written(difference, &format!("write {command}"), &outcome);
        }
        self.tally.writes.command(&command, number);
        if number != 0 {
            return None;
        }
        self.write_back(line.as_bytes());
        Some(line)
    }

    /// Has both sides write back a line that is a command, in buffers of its own.
    pub fn write_back(&mut self, line: &[u8]) {
        let line = self.holding(line);
        let before = self.output(SHORTEST_OUTPUT);
        self.plain(&line, &before, Some(0));
    }

    /// Has both sides read a line and write it back, in its plain spelling.
    /// `number` is what this has to return, if that is known.
    pub fn plain(&mut self, line: &Lent, before: &Lent, number: Option<u8>) {
        // The independent side is safe code and can't write to its line.
        let lent = line.clone();
        let outcome = Outcome::of(
            before,
            |out| library::plain(lent.bytes(), out).into(),
            |out| independent::plain(line.bytes(), out).into(),
        );
        let number = number.unwrap_or(outcome.number());
        let plain = spelling::plain(line.bytes());
        let mut found = outcome
            .compare()
            .and_then(|()| outcome.expect(number, &plain));
        if lent != *line {
            found = Err("the line was changed");
        }
        if let Err(difference) = found {
            let call = format!("plain `{}`", line.bytes().escape_ascii());
            self.report_written(difference, &call, &outcome);
        }
        let is_plain = plain.len() == line.bytes().len();
        self.tally.writes.plain(number, is_plain);
    }

    fn report_written(&self, difference: &str, call: &str, outcome: &Outcome) -> ! {
        println!("MISMATCH: {difference}");
        println!("{}", self.case_in_words());
        println!("call: {call}");
        outcome.print();
        process::exit(1);
    }
}

fn by_library(command: Command, out: &mut [u8]) -> Returned {
    let returned = match command {
        Command::Start {
            board,
            rule,
            claim,
            lower,
            upper,
        } => library::write_start(out, board, rule, claim, lower, upper),
        Command::Pass { ticks } => library::write_pass(out, ticks),
        Command::Request { peer } => library::write_request(out, peer),
        Command::Reply {
            peer,
            tag,
            trailing,
            leading,
        } => library::write_reply(out, peer, tag, trailing, leading),
        Command::Drop { peer } => library::write_drop(out, peer),
        Command::Read => library::write_read(out),
        Command::Waiting => library::write_waiting(out),
        Command::Window { slot, start, end } => {
            library::write_window(out, slot, &start.to_library(), &end.to_library())
        }
        Command::Flight {
            peer,
            out: out_time,
            back,
        } => library::write_flight(out, peer, out_time, back),
    };
    returned.into()
}

fn by_independent(command: Command, out: &mut [u8]) -> Returned {
    let written = match command {
        Command::Start {
            board,
            rule,
            claim,
            lower,
            upper,
        } => independent::write_start(out, board, rule, claim, lower, upper),
        Command::Pass { ticks } => independent::write_pass(out, ticks),
        Command::Request { peer } => independent::write_request(out, peer),
        Command::Reply {
            peer,
            tag,
            trailing,
            leading,
        } => independent::write_reply(out, peer, tag, trailing, leading),
        Command::Drop { peer } => independent::write_drop(out, peer),
        Command::Read => independent::write_read(out),
        Command::Waiting => independent::write_waiting(out),
        Command::Window { slot, start, end } => {
            independent::write_window(out, slot, start.0, end.0)
        }
        Command::Flight {
            peer,
            out: out_time,
            back,
        } => independent::write_flight(out, peer, out_time, back),
    };
    written.into()
}

impl From<library::Returned> for Returned {
    fn from(returned: library::Returned) -> Returned {
        Returned {
            number: returned.number,
            length: returned.length,
        }
    }
}

impl From<independent::Written> for Returned {
    fn from(written: independent::Written) -> Returned {
        Returned {
            number: written.number,
            length: written.length,
        }
    }
}
