//! What the calls that write a line have counted.

use super::Command;
use crate::tally::{print_numbers, seldom, Numbers, WIDTHS};

/// The call for each form, with the numbers that it can return.
const FORMS: [(&str, &[u8]); 9] = [
    ("boardtime_write_start", &[0, 2, 10]),
    ("boardtime_write_pass", &[0, 2, 10]),
    ("boardtime_write_request", &[0, 2, 10]),
    ("boardtime_write_reply", &[0, 2, 10]),
    ("boardtime_write_drop", &[0, 2, 10]),
    ("boardtime_write_read", &[0, 10]),
    ("boardtime_write_waiting", &[0, 10]),
    ("boardtime_write_window", &[0, 2, 10, 11, 12]),
    ("boardtime_write_flight", &[0, 2, 10]),
];
const PLAIN_NUMBERS: [u8; 6] = [0, 1, 2, 10, 11, 12];

/// The numbers of a refusal that numbers which are cut would not meet, with what
/// these are numbers of.
const CUT: [(u8, &str); 2] = [(2, "commands"), (11, "dates of windows")];

pub struct WriteTally {
    forms: [Numbers; FORMS.len()],
    plain: Numbers,
    /// Lines with `_` that were written back without it.
    made_plain: u64,
    /// Refused commands whose lower bits alone would be allowed, by the refusal
    /// and the width.
    cut: [[u64; WIDTHS.len()]; CUT.len()],
}

impl WriteTally {
    pub fn new() -> WriteTally {
        WriteTally {
            forms: [[0; 256]; FORMS.len()],
            plain: [0; 256],
            made_plain: 0,
            cut: [[0; WIDTHS.len()]; CUT.len()],
        }
    }

    pub fn command(&mut self, command: &Command, number: u8) {
        self.forms[form(command)][usize::from(number)] += 1;
        for ((refusal, _), counts) in CUT.iter().zip(&mut self.cut) {
            for (width, count) in WIDTHS.iter().zip(counts) {
                if number == *refusal && command.cut(*width).number() == 0 {
                    *count += 1;
                }
            }
        }
    }

    /// The counts of what would be allowed if it were cut, in words.
    fn cut(&self) -> Vec<(String, u64)> {
        let mut cut = Vec::new();
        for ((_, what), counts) in CUT.iter().zip(&self.cut) {
            for (width, &count) in WIDTHS.iter().zip(counts) {
                let words = format!("{what} whose lower {width} bits would be allowed");
                cut.push((words, count));
            }
        }
        cut
    }

    pub fn plain(&mut self, number: u8, is_plain: bool) {
        self.plain[usize::from(number)] += 1;
        self.made_plain += u64::from(number == 0 && !is_plain);
    }

    /// How many commands were given to both sides.
    pub fn command_count(&self) -> u64 {
        self.forms.iter().flatten().sum()
    }

    /// How many lines were written back.
    pub fn plain_count(&self) -> u64 {
        self.plain[0]
    }

    pub fn print(&self) {
        for ((name, _), counts) in FORMS.iter().zip(&self.forms) {
            print_numbers(name, counts);
        }
        for (words, count) in self.cut() {
            println!("  {words}: {count} times");
        }
        print_numbers("boardtime_plain", &self.plain);
        println!(
            "  lines written back without their `_`: {} times",
            self.made_plain
        );
    }

    pub fn missing(&self, enough: u64) -> Vec<String> {
        let mut missing = seldom(enough, "boardtime_plain", &PLAIN_NUMBERS, &self.plain);
        for ((name, numbers), counts) in FORMS.iter().zip(&self.forms) {
            missing.extend(seldom(enough, name, numbers, counts));
        }
        for (words, count) in self.cut() {
            if count < enough {
                missing.push(format!("less than {enough} {words}"));
            }
        }
        if self.made_plain < enough {
            missing.push(format!(
                "less than {enough} lines written back without their `_`"
            ));
        }
        missing
    }
}

/// The place of a command's call in `FORMS`.
fn form(command: &Command) -> usize {
    match command {
        Command::Start { .. } => 0,
        Command::Pass { .. } => 1,
        Command::Request { .. } => 2,
        Command::Reply { .. } => 3,
        Command::Drop { .. } => 4,
        Command::Read => 5,
        Command::Waiting => 6,
        Command::Window { .. } => 7,
        Command::Flight { .. } => 8,
    }
}
