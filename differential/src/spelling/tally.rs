//! How often `_` stood in which part of a line, and what the line was given.

use super::WAYS;
use crate::answer::word;
use crate::tally::{print_numbers, seldom, Numbers};

/// A part of a command, by its place after the word, with the numbers that lines
/// have to be given whose `_` stands there. Of a part without grouped numerals in
/// its range these are 1 and 2, and of a date 1.
const PARTS: [(&str, usize, &str, &[u8]); 17] = [
    ("start", 1, "board", &[1, 2]),
    ("start", 3, "claim", &[0, 1, 2, 3, 10]),
    ("start", 4, "lower edge", &[0, 1, 2, 3, 10]),
    ("start", 5, "upper edge", &[0, 1, 2, 3, 10]),
    ("pass", 1, "ticks", &[0, 1, 2, 3, 5, 10]),
    ("request", 1, "peer", &[1, 2]),
    ("reply", 1, "peer", &[1, 2]),
    ("reply", 2, "tag", &[0, 1, 2, 3, 7, 8, 10]),
    ("reply", 3, "trailing edge", &[0, 1, 2, 3, 4, 5, 7, 8, 10]),
    ("reply", 4, "leading edge", &[0, 1, 2, 3, 4, 5, 7, 8, 10]),
    ("drop", 1, "peer", &[1, 2]),
    ("window", 1, "slot", &[1, 2]),
    ("window", 2, "start", &[1]),
    ("window", 3, "end", &[1]),
    ("flight", 1, "peer", &[1, 2]),
    ("flight", 2, "out time", &[0, 1, 2, 3, 4, 6, 10]),
    ("flight", 3, "back time", &[0, 1, 2, 3, 4, 6, 10]),
];

pub struct SpellingTally {
    parts: [Numbers; PARTS.len()],
    /// Lines refused with 1 for a numeral that is spelled in this way.
    ways: [u64; WAYS.len()],
    /// Lines with `_` by the number returned.
    lines: Numbers,
}

impl SpellingTally {
    pub fn new() -> SpellingTally {
        SpellingTally {
            parts: [[0; 256]; PARTS.len()],
            ways: [0; WAYS.len()],
            lines: [0; 256],
        }
    }

    pub fn line(&mut self, line: &[u8], number: u8) {
        if !line.contains(&b'_') {
            return;
        }
        let number = usize::from(number);
        self.lines[number] += 1;
        let Some(command) = word(line) else {
            return;
        };
        for ((name, at, ..), counts) in PARTS.iter().zip(&mut self.parts) {
            if command == name.as_bytes() && part(line, *at).contains(&b'_') {
                counts[number] += 1;
            }
        }
    }

    pub fn way(&mut self, at: usize) {
        self.ways[at] += 1;
    }

    /// How many lines had `_`, and how many of them were accepted.
    pub fn counts(&self) -> (u64, u64) {
        (self.lines.iter().sum(), self.lines[0])
    }

    pub fn print(&self) {
        println!("lines with `_` by the number returned:");
        print_numbers("all", &self.lines);
        println!("lines by the part in which `_` stands and the number returned:");
        for ((command, _, part, _), counts) in PARTS.iter().zip(&self.parts) {
            print_numbers(&format!("{command}, {part}"), counts);
        }
        println!("lines refused for how a numeral is spelled:");
        for (way, count) in WAYS.iter().zip(&self.ways) {
            println!("  {count:>8}  {}", way.name);
        }
    }

    pub fn missing(&self, enough: u64) -> Vec<String> {
        let mut missing = Vec::new();
        for ((command, _, part, numbers), counts) in PARTS.iter().zip(&self.parts) {
            let name = format!("a {command} with `_` in its {part}");
            missing.extend(seldom(enough, &name, numbers, counts));
        }
        for (way, _) in WAYS.iter().zip(&self.ways).filter(|(_, &n)| n < enough) {
            let name = way.name;
            missing.push(format!("less than {enough} lines refused for {name}"));
        }
        missing
    }
}

/// A part of a line; the word is the first one. Empty if there is none.
fn part(line: &[u8], at: usize) -> &[u8] {
    line.split(|byte| b" ()".contains(byte))
        .filter(|part| !part.is_empty())
        .nth(at)
        .unwrap_or_default()
}

#[cfg(test)]
mod tests {
    use super::{SpellingTally, PARTS, WAYS};

    #[test]
    fn parts_with_an_underscore_are_counted() {
        let mut tally = SpellingTally::new();
        for (line, number) in [
            ("(start 3 im 1_000 (-1_000 1000))", 0),
            ("(reply 4 1 (1000 1_000))", 7),
            ("(window 0 (2000-01-01T00:00:00 2_000-01-01T00:00:00))", 1),
            ("(flight 4 (1000 2_000))", 6),
            ("(pass 1000)", 0),
            ("(read_)", 1),
            ("_", 1),
        ] {
            tally.line(line.as_bytes(), number);
        }
        let counted: Vec<_> = (0..PARTS.len())
            .filter(|&at| tally.parts[at].iter().sum::<u64>() == 1)
            .collect();
        assert_eq!(counted, [1, 2, 9, 13, 16]);
        assert_eq!((tally.parts[1][0], tally.parts[9][7]), (1, 1));
        assert_eq!(tally.counts(), (6, 1));
    }

    /// A run that reaches no spelling fails for every part and every way.
    #[test]
    fn what_was_not_reached_is_missing() {
        let mut tally = SpellingTally::new();
        let numbers: usize = PARTS.iter().map(|(.., numbers)| numbers.len()).sum();
        assert_eq!(tally.missing(1).len(), numbers + WAYS.len());
        tally.way(0);
        tally.line(b"(pass 1_000)", 0);
        assert_eq!(tally.missing(1).len(), numbers + WAYS.len() - 2);
    }
}
