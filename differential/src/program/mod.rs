//! The program `boardtime`, run as a process of its own.

mod delivery;
mod descriptors;
mod expected;
mod failing;
mod run;
mod tally;

use std::fmt::Display;
use std::io;
use std::process;

pub use delivery::{Delivery, LENGTHS};
pub use descriptors::{Sink, Socket, Source};
pub use failing::End;
pub use run::Program;
pub use tally::ProgramTally;

use crate::test::Test;
use run::Ran;

impl Test {
    /// Gives the program this input, and compares all that it writes with what
    /// the independent implementation answers line by line. Then has both sides
    /// write back each line that was accepted.
    pub fn run_program(&mut self, input: &[u8], delivery: &Delivery) {
        self.tally.case();
        let lines = expected::lines(input);
        let (answers, numbers) = expected::answers(&lines);
        let found = match self.program.run(input, delivery) {
            Ok(ran) => {
                let counts = &mut self.tally.program;
                counts.run(input, delivery, ran.stdout.len());
                counts.lines(&lines, &numbers);
                compare(&lines, &answers, &ran)
            }
            Err(error) => Err(format!("the program can't be run: {error}")),
        };
        if let Err(difference) = found {
            self.report_program(&difference, input, delivery);
            process::exit(1);
        }
        for (line, _) in lines
            .iter()
            .zip(&numbers)
            .filter(|(_, &number)| number == 0)
        {
            self.write_back(line);
        }
    }

    fn report_program(&self, difference: &str, input: &[u8], delivery: &dyn Display) {
        println!("MISMATCH of the program: {difference}");
        println!("{}", self.case_in_words());
        println!("standard input: {} bytes, {delivery}", input.len());
        match self.program.store(input) {
            Ok(path) => println!("it is kept in {}", path.display()),
            Err(error) => println!("it can't be kept: {error}"),
        }
    }
}

/// The answers come first: they tell the most about what went wrong.
fn compare(lines: &[&[u8]], answers: &[u8], ran: &Ran) -> Result<(), String> {
    expected::compare(lines, answers, &ran.stdout)?;
    if !ran.stderr.is_empty() {
        let text = ran.stderr.escape_ascii();
        return Err(format!("it wrote to standard error: {text}"));
    }
    match ran.status {
        Some(status) if status.success() => {}
        Some(status) => return Err(format!("it ended with {status}")),
        None => return Err("it did not end, and was stopped".into()),
    }
    match &ran.written {
        Ok(()) => Ok(()),
        // Right answers to a line that was not read to its end.
        Err(error) if error.kind() == io::ErrorKind::BrokenPipe => {
            Err("it ended before the end of its input".into())
        }
        Err(error) => Err(format!("its input can't be written: {error}")),
    }
}
