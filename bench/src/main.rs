//! What `bench/run` needs besides the programs: inputs, calls without a
//! program around them, and the measuring of time.

#![forbid(unsafe_code)]

mod calls;
mod generate;
mod programs;
mod random;

use std::env;
use std::error::Error;
use std::process::ExitCode;

const USAGE: &str = "usage:
  bench generate replies|passes|refused|mix|lists WAITING LINES    writes an input
  bench calls library|image|keeper FILE     makes the calls once, to be counted
  bench time-calls ROUNDS FILE              best times of the three in ns
  bench time-programs ROUNDS FILE PROGRAM...  best time of each in ns";

fn main() -> ExitCode {
    let words: Vec<String> = env::args().skip(1).collect();
    let words: Vec<&str> = words.iter().map(String::as_str).collect();
    match run(&words) {
        Ok(()) => ExitCode::SUCCESS,
        Err(error) => {
            eprintln!("bench: {error}");
            ExitCode::FAILURE
        }
    }
}

fn run(words: &[&str]) -> Result<(), Box<dyn Error>> {
    match words {
        ["generate", kind, waiting, lines] => {
            generate::write(kind, waiting.parse()?, lines.parse()?)
        }
        ["calls", side, file] => calls::once(side, file),
        ["time-calls", rounds, file] => calls::time(rounds.parse()?, file),
        ["time-programs", rounds, file, programs @ ..] => {
            programs::time(rounds.parse()?, file, programs)
        }
        _ => Err(USAGE.into()),
    }
}
