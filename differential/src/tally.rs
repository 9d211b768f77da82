//! What a run has counted, and whether it reached enough of everything.

use crate::answer::word;
use crate::bracketing::BracketTally;
use crate::convert::ConvertTally;
use crate::limits::LAST_PASS;
use crate::listing::ListTally;
use crate::program::ProgramTally;
use crate::shifting::ShiftTally;
use crate::spelling::SpellingTally;
use crate::touching::TouchTally;
use crate::write::WriteTally;

/// Everything that has to occur has to occur this often.
const ENOUGH: u64 = 1000;

/// The numbers that each call can return.
const LINE_NUMBERS: [u8; 14] = [0, 1, 2, 3, 4, 5, 6, 7, 8, 9, 10, 11, 12, 255];
const PASS_NUMBERS: [u8; 5] = [0, 2, 3, 5, 255];
const FRESH_NUMBERS: [u8; 2] = [0, 255];

/// Each command with the numbers, but 10 and 255, that it can be given. A line
/// with number 1 is no command but may begin like one.
const COMMANDS: [(&str, &[u8]); 9] = [
    ("start", &[0, 1, 2, 3]),
    ("pass", &[0, 1, 2, 3, 5]),
    ("request", &[0, 1, 2, 3, 4, 6, 9]),
    ("reply", &[0, 1, 2, 3, 4, 5, 7, 8]),
    ("drop", &[0, 1, 2, 3, 4, 7]),
    ("read", &[0, 1, 3]),
    ("waiting", &[0, 1, 3]),
    ("window", &[0, 1, 2, 3, 11, 12]),
    ("flight", &[0, 1, 2, 3, 4, 6]),
];

/// The words of the answers to accepted lines.
const ANSWERS: [&str; 13] = [
    "started", "at", "sent", "taken", "kept", "conflict", "dropped", "time", "waiting", "open",
    "shut", "unsure", "flight",
];

/// Widths that a number could be cut to.
pub const WIDTHS: [u32; 3] = [8, 16, 32];

/// How often each number was returned.
pub type Numbers = [u64; 256];

pub struct Tally {
    kinds: Vec<(&'static str, u64)>,
    lines: Numbers,
    commands: [Numbers; COMMANDS.len()],
    answers: [u64; ANSWERS.len()],
    passes: Numbers,
    /// Passes whose lower 32 bits alone would meet the limit.
    cut_passes: u64,
    freshes: Numbers,
    pub spellings: SpellingTally,
    pub touching: TouchTally,
    pub bracketing: BracketTally,
    pub listing: ListTally,
    pub shifting: ShiftTally,
    pub conversions: ConvertTally,
    pub writes: WriteTally,
    pub program: ProgramTally,
}

impl Tally {
    pub fn new() -> Tally {
        Tally {
            kinds: Vec::new(),
            lines: [0; 256],
            commands: [[0; 256]; COMMANDS.len()],
            answers: [0; ANSWERS.len()],
            passes: [0; 256],
            cut_passes: 0,
            freshes: [0; 256],
            spellings: SpellingTally::new(),
            touching: TouchTally::default(),
            bracketing: BracketTally::default(),
            listing: ListTally::default(),
            shifting: ShiftTally::default(),
            conversions: ConvertTally::new(),
            writes: WriteTally::new(),
            program: ProgramTally::new(),
        }
    }

    pub fn begin(&mut self, kind: &'static str) {
        self.kinds.push((kind, 0));
    }

    /// The kind that was begun last and its cases so far.
    pub fn kind(&self) -> (&'static str, u64) {
        *self.kinds.last().expect("a kind has begun")
    }

    pub fn kinds_begun(&self) -> u64 {
        self.kinds.len() as u64
    }

    pub fn case(&mut self) {
        self.kinds.last_mut().expect("a kind has begun").1 += 1;
    }

    pub fn line(&mut self, line: &[u8], number: u8, answer: &[u8]) {
        self.spellings.line(line, number);
        let number = usize::from(number);
        self.lines[number] += 1;
        let command = word(line);
        if let Some(at) = COMMANDS
            .iter()
            .position(|(name, _)| command == Some(name.as_bytes()))
        {
            self.commands[at][number] += 1;
        }
        let answer = word(answer);
        if let Some(at) = ANSWERS
            .iter()
            .position(|name| answer == Some(name.as_bytes()))
        {
            self.answers[at] += 1;
        }
    }

    pub fn pass(&mut self, ticks: u64, number: u8) {
        self.passes[usize::from(number)] += 1;
        if ticks > LAST_PASS && u64::from(ticks as u32) <= LAST_PASS {
            self.cut_passes += 1;
        }
    }

    pub fn fresh(&mut self, number: u8) {
        self.freshes[usize::from(number)] += 1;
    }

    /// How many lines were given to both sides as calls.
    pub fn line_count(&self) -> u64 {
        self.lines.iter().sum()
    }

    pub fn print(&self) {
        println!("cases of each kind:");
        for (kind, count) in &self.kinds {
            println!("  {count:>8}  {kind}");
        }
        println!("calls by the number returned:");
        print_numbers("boardtime_line", &self.lines);
        print_numbers("boardtime_pass", &self.passes);
        println!(
            "  ticks whose lower 32 bits would be accepted: {} times",
            self.cut_passes
        );
        print_numbers("boardtime_fresh", &self.freshes);
        self.writes.print();
        self.conversions.print();
        println!("lines by the word that they begin with and the number returned:");
        for ((command, _), counts) in COMMANDS.iter().zip(&self.commands) {
            print_numbers(command, counts);
        }
        println!("accepted lines by the word of the answer:");
        for (answer, count) in ANSWERS.iter().zip(&self.answers) {
            println!("  {count:>8}  {answer}");
        }
        self.spellings.print();
        self.touching.print();
        self.bracketing.print();
        self.listing.print();
        self.shifting.print();
        self.program.print();
    }

    /// What occurred too seldom for the run to say anything of it.
    pub fn missing(&self) -> Vec<String> {
        let mut missing = Vec::new();
        let mut ask = |name: &str, numbers: &[u8], counts: &Numbers| {
            missing.extend(seldom(ENOUGH, name, numbers, counts));
        };
        ask("boardtime_line", &LINE_NUMBERS, &self.lines);
        ask("boardtime_pass", &PASS_NUMBERS, &self.passes);
        ask("boardtime_fresh", &FRESH_NUMBERS, &self.freshes);
        for ((command, numbers), counts) in COMMANDS.iter().zip(&self.commands) {
            ask(command, numbers, counts);
        }
        for (answer, &count) in ANSWERS.iter().zip(&self.answers) {
            if count < ENOUGH {
                missing.push(format!("less than {ENOUGH} answers `{answer}`"));
            }
        }
        if self.cut_passes < ENOUGH {
            missing.push(format!(
                "less than {ENOUGH} passes whose lower 32 bits would be accepted"
            ));
        }
        missing.extend(self.spellings.missing(ENOUGH));
        missing.extend(self.touching.missing(ENOUGH));
        missing.extend(self.bracketing.missing(ENOUGH));
        missing.extend(self.listing.missing(ENOUGH));
        missing.extend(self.shifting.missing(ENOUGH));
        missing.extend(self.conversions.missing(ENOUGH));
        missing.extend(self.writes.missing(ENOUGH));
        missing.extend(self.program.missing(ENOUGH));
        missing
    }
}

/// The numbers that a call returned less than `enough` times.
pub fn seldom(enough: u64, name: &str, numbers: &[u8], counts: &Numbers) -> Vec<String> {
    numbers
        .iter()
        .filter(|&&number| counts[usize::from(number)] < enough)
        .map(|number| format!("{name} returned {number} less than {enough} times"))
        .collect()
}

pub fn print_numbers(name: &str, counts: &[u64]) {
    print!("  {name}:");
    let mut between = " ";
    for (number, count) in counts.iter().enumerate() {
        if *count > 0 {
            print!("{between}{number} {count} times");
            between = ", ";
        }
    }
    println!();
}
