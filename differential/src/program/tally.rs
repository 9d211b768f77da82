//! What the runs of the program have counted.

use std::fmt;

use super::{Delivery, End};
use crate::tally::{print_numbers, seldom, Numbers};

/// The numbers that a line can be given in a run. The program lends enough
/// output for every line, and a run that spends all tags would be too long.
const NUMBERS: [u8; 11] = [0, 1, 2, 3, 4, 5, 6, 7, 8, 11, 12];
/// The numbers that lines with `_` have to be given: no request or window that is
/// judged further has one, and what leaves the range seldom has. 6 is a flight's.
const SPELLED: [u8; 8] = [0, 1, 2, 3, 4, 6, 7, 8];

pub struct ProgramTally {
    from_a_file: u64,
    through_a_pipe: u64,
    pieces: usize,
    bytes_read: usize,
    bytes_written: usize,
    lines: Numbers,
    /// Those with `_`.
    spelled: Numbers,
    /// Flights that were accepted.
    flights: u64,
    failed_reads: u64,
    failed_writes: u64,
    /// Runs in which a write could have failed, and none did.
    not_failed: u64,
}

impl ProgramTally {
    pub fn new() -> ProgramTally {
        ProgramTally {
            from_a_file: 0,
            through_a_pipe: 0,
            pieces: 0,
            bytes_read: 0,
            bytes_written: 0,
            lines: [0; 256],
            spelled: [0; 256],
            flights: 0,
            failed_reads: 0,
            failed_writes: 0,
            not_failed: 0,
        }
    }

    pub fn run(&mut self, input: &[u8], delivery: &Delivery, written: usize) {
        match delivery {
            Delivery::File => self.from_a_file += 1,
            Delivery::Pipe(pieces) => {
                self.through_a_pipe += 1;
                self.pieces += pieces.len();
            }
        }
        self.bytes_read += input.len();
        self.bytes_written += written;
    }

    /// Counts the lines of a run by the number of each.
    pub fn lines(&mut self, lines: &[&[u8]], numbers: &[u8]) {
        for (line, &number) in lines.iter().zip(numbers) {
            let number = usize::from(number);
            self.lines[number] += 1;
            self.spelled[number] += u64::from(line.contains(&b'_'));
            self.flights += u64::from(number == 0 && line.starts_with(b"(flight "));
        }
    }

    pub fn failing_run(&mut self, end: End) {
        *match end {
            End::Quiet => &mut self.not_failed,
            End::ReadingFailed => &mut self.failed_reads,
            End::WritingFailed => &mut self.failed_writes,
        } += 1;
    }

    /// How many runs had a failed read or write.
    pub fn failed(&self) -> u64 {
        self.failed_reads + self.failed_writes
    }

    pub fn print(&self) {
        println!("the program:");
        println!(
            "  {} runs from a file, {} through a pipe in {} pieces",
            self.from_a_file, self.through_a_pipe, self.pieces
        );
        println!(
            "  {} bytes read, {} written",
            self.bytes_read, self.bytes_written
        );
        print_numbers("lines by number", &self.lines);
        print_numbers("lines with `_` by number", &self.spelled);
        println!("  accepted flights: {}", self.flights);
        println!(
            "  {} runs with a failed read, {} with a failed write, {} that could have one and had none",
            self.failed_reads, self.failed_writes, self.not_failed
        );
    }

    /// The numbers that less than `enough` lines were given.
    pub fn missing(&self, enough: u64) -> Vec<String> {
        let mut missing = seldom(enough, "the program", &NUMBERS, &self.lines);
        let spelled = "the program, for a line with `_`,";
        missing.extend(seldom(enough, spelled, &SPELLED, &self.spelled));
        if self.flights < enough {
            missing.push(format!("the program accepted less than {enough} flights"));
        }
        missing
    }
}

impl fmt::Display for ProgramTally {
    fn fmt(&self, f: &mut fmt::Formatter<'_>) -> fmt::Result {
        let runs = self.from_a_file + self.through_a_pipe;
        let lines: u64 = self.lines.iter().sum();
        write!(f, "program: {runs} runs, {lines} lines")
    }
}
