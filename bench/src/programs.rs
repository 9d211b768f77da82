//! The time that whole programs take for an input.

use std::error::Error;
use std::fs::File;
use std::process::{Command, Stdio};
use std::time::{Duration, Instant};

/// Prints the best time of each program in nanoseconds.
pub fn time(rounds: u32, file: &str, programs: &[&str]) -> Result<(), Box<dyn Error>> {
    let mut best = vec![Duration::MAX; programs.len()];
    for _ in 0..rounds {
        // One after the other in each round, so that what else the machine
        // does meanwhile falls on all of them.
        for (program, best) in programs.iter().zip(&mut best) {
            *best = time_once(program, file)?.min(*best);
        }
    }
    let best: Vec<String> = best
        .iter()
        .map(|time| time.as_nanos().to_string())
        .collect();
    println!("{}", best.join(" "));
    Ok(())
}

fn time_once(program: &str, file: &str) -> Result<Duration, Box<dyn Error>> {
    let input = File::open(file)?;
    let begin = Instant::now();
    let status = Command::new(program)
        .stdin(input)
        .stdout(Stdio::null())
        .status()?;
    let time = begin.elapsed();
    if !status.success() {
        return Err(format!("{program}: {status}").into());
    }
    Ok(time)
}
