//! The calls with nothing around them: the input lies in memory, and each of
//! its lines is given to one keeper with one output.

use std::error::Error;
use std::fs;
use std::hint::black_box;
use std::time::{Duration, Instant};

use independent::{answer_image, answer_line, fresh_image, IMAGE_LENGTH};

const OUTPUT_BYTES: usize = 300;

/// Makes the calls and returns something that depends on each of them.
type Side = fn(&[&[u8]]) -> usize;

/// `call_library`, `call_image` and `call_keeper`; callgrind finds the
/// functions by these names.
const SIDES: [(&str, Side); 3] = [
    ("library", call_library),
    ("image", call_image),
    ("keeper", call_keeper),
];

/// The proved library on an image.
#[inline(never)]
fn call_library(lines: &[&[u8]]) -> usize {
    let mut keeper = boardtime::Keeper::fresh();
    let mut out = [0; OUTPUT_BYTES];
    let mut sum = 0;
    for line in lines {
        let answer = keeper.answer(line, &mut out);
        sum += usize::from(answer.number) + answer.bytes.len();
    }
    sum
}

/// The independent implementation on an image.
#[inline(never)]
fn call_image(lines: &[&[u8]]) -> usize {
    let mut image = [0; IMAGE_LENGTH];
    fresh_image(&mut image);
    let mut out = [0; OUTPUT_BYTES];
    let mut sum = 0;
    for line in lines {
        let answered = answer_image(&mut image, line, &mut out);
        sum += usize::from(answered.number) + answered.length;
    }
    sum
}

/// The independent implementation on a keeper in memory.
#[inline(never)]
fn call_keeper(lines: &[&[u8]]) -> usize {
    let mut keeper = independent::Keeper::fresh();
    let mut out = [0; OUTPUT_BYTES];
    let mut sum = 0;
    for line in lines {
        let answered = answer_line(&mut keeper, line, &mut out);
        sum += usize::from(answered.number) + answered.length;
    }
    sum
}

pub fn once(name: &str, file: &str) -> Result<(), Box<dyn Error>> {
    let Some((_, side)) = SIDES.iter().find(|(known, _)| *known == name) else {
        return Err(format!("no side {name}").into());
    };
    let input = fs::read(file)?;
    let lines = lines(&input);
    let sum = black_box(side(&lines));
    // Calls that are all refused, as with an image of another length, would be
    // counted too. A side is not called twice: its calls are counted.
    let other = match name {
        "keeper" => call_image,
        _ => call_keeper,
    };
    if sum != other(&lines) {
        return Err(format!("the side {name} answers {file} differently").into());
    }
    Ok(())
}

/// Prints the best time of each side in nanoseconds.
pub fn time(rounds: u32, file: &str) -> Result<(), Box<dyn Error>> {
    let input = fs::read(file)?;
    let lines = lines(&input);
    let mut best = [Duration::MAX; SIDES.len()];
    let mut sums = [0; SIDES.len()];
    for _ in 0..rounds {
        // One after the other in each round, so that what else the machine
        // does meanwhile falls on all of them.
        for (at, (_, side)) in SIDES.iter().enumerate() {
            let begin = Instant::now();
            sums[at] = side(black_box(&lines));
            best[at] = best[at].min(begin.elapsed());
        }
    }
    if sums.iter().any(|&sum| sum != sums[0]) {
        return Err(format!("the sides answer {file} differently").into());
    }
    println!("{}", best.map(|time| time.as_nanos().to_string()).join(" "));
    Ok(())
}

fn lines(input: &[u8]) -> Vec<&[u8]> {
    let input = input.strip_suffix(b"\n").unwrap_or(input);
    input.split(|&byte| byte == b'\n').collect()
}
