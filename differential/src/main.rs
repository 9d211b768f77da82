//! Gives the proved library and the independent implementation the same calls
//! and compares everything that they return and store. Every line that they
//! answer they also write back. Dates and moments they convert both ways. Gives
//! the program inputs and compares everything that it writes. A share of the
//! numerals is grouped.
//!
//! BOARDTIME_PROGRAM names the program. The optional argument is the seed;
//! without it the run is always the same.

#![forbid(unsafe_code)]

mod answer;
mod bracketing;
mod convert;
mod date;
mod fitting;
mod kinds;
mod lent;
mod limits;
mod listing;
mod program;
mod random;
mod shifting;
mod spelling;
mod tally;
mod test;
mod touching;
mod write;

use std::env;
use std::process::ExitCode;

use crate::program::Program;
use crate::tally::Tally;
use crate::test::Test;

const SEED: u64 = 20_260_101;

fn main() -> ExitCode {
    let seed = match env::args().nth(1).map(|word| word.parse()) {
        None => SEED,
        Some(Ok(seed)) => seed,
        Some(Err(_)) => {
            eprintln!("usage: differential [SEED]");
            return ExitCode::from(2);
        }
    };
    let program = match Program::from_environment() {
        Ok(program) => program,
        Err(message) => {
            eprintln!("differential: {message}");
            return ExitCode::from(2);
        }
    };
    let mut test = Test::new(seed, program);
    // A mismatch ends the test.
    kinds::run_all(&mut test);
    test.tally.print();
    print_totals(&test.tally);
    let missing = test.tally.missing();
    if missing.is_empty() {
        return ExitCode::SUCCESS;
    }
    // After the totals, so that none of them is the last line of a failed run.
    for line in &missing {
        println!("TOO SELDOM: {line}");
    }
    println!("differential: FAILED");
    ExitCode::FAILURE
}

/// One line for each side of the comparison. A mismatch would have ended the test.
fn print_totals(tally: &Tally) {
    println!(
        "writing: {} commands, {} lines written back, 0 mismatches",
        tally.writes.command_count(),
        tally.writes.plain_count()
    );
    println!(
        "dates: {} conversions, 0 mismatches",
        tally.conversions.count()
    );
    let (spelled, accepted) = tally.spellings.counts();
    println!("spellings: {spelled} lines with `_`, {accepted} accepted, 0 mismatches");
    println!("{}, 0 mismatches", tally.program);
    println!(
        "program: {} runs with a failed read or write, 0 mismatches",
        tally.program.failed()
    );
    println!("differential: {} lines, 0 mismatches", tally.line_count());
}
