//! One call made on both sides, and everything that may not differ.

use std::fmt;
use std::process;

use boardtime::image as library;

use crate::lent::{Lent, Pattern, PLACES, WHOLE};
use crate::limits::SHORTEST_OUTPUT;
use crate::program::Program;
use crate::random::Random;
use crate::tally::Tally;

/// A call with its arguments, but for the image.
#[derive(Clone, Copy)]
enum Call<'a> {
    Line { line: &'a [u8], out_length: usize },
    Pass { ticks: u64 },
    Fresh,
}

/// What a call returns; only a line has an answer.
#[derive(Clone, Copy, Default, PartialEq, Eq)]
pub struct Returned {
    pub number: u8,
    pub length: usize,
}

/// The buffers that one side is lent.
#[derive(Clone)]
struct Side {
    image: Lent,
    line: Lent,
    out: Lent,
}

/// A call as it went: the buffers before it, and each side after it.
struct Outcome {
    before: Side,
    library: Side,
    library_returned: Returned,
    independent: Side,
    independent_returned: Returned,
}

pub struct Test {
    seed: u64,
    /// For the pattern and the places of the buffers.
    random: Random,
    pub program: Program,
    pub tally: Tally,
}

impl Test {
    pub fn new(seed: u64, program: Program) -> Test {
        Test {
            seed,
            random: Random::new(seed),
            program,
            tally: Tally::new(),
        }
    }

    /// Begins the next kind of cases and gives it a generator of its own, so
    /// that a change of one kind leaves the cases of the others as they are.
    pub fn begin(&mut self, kind: &'static str) -> Random {
        self.tally.begin(kind);
        let seed = Random::new(self.seed ^ self.tally.kinds_begun()).next();
        self.random = Random::new(!seed);
        Random::new(seed)
    }

    /// Gives both sides a line, and the same line to be written back. `image`
    /// becomes what they leave.
    pub fn line(&mut self, image: &mut [u8], line: &[u8], out_length: usize) -> Returned {
        self.line_outcome(image, line, out_length).library_returned
    }

    /// The same with an output of the least length. Its number is returned, and
    /// the answer.
    pub fn answer(&mut self, image: &mut [u8], line: &[u8]) -> (u8, Vec<u8>) {
        let outcome = self.line_outcome(image, line, SHORTEST_OUTPUT);
        let Returned { number, length } = outcome.library_returned;
        (number, outcome.library.out.bytes()[..length].to_vec())
    }

    fn line_outcome(&mut self, image: &mut [u8], line: &[u8], out_length: usize) -> Outcome {
        let outcome = self.call(image, Call::Line { line, out_length });
        let returned = outcome.library_returned;
        let answer = &outcome.library.out.bytes()[..returned.length];
        self.tally.line(line, returned.number, answer);
        let before = &outcome.before;
        self.plain(&before.line, &before.out, written_back(returned.number));
        outcome
    }

    /// Gives both sides a pass by number.
    pub fn pass(&mut self, image: &mut [u8], ticks: u64) -> u8 {
        let Returned { number, .. } = self.call(image, Call::Pass { ticks }).library_returned;
        self.tally.pass(ticks, number);
        number
    }

    /// Asks both sides for the image of a fresh keeper.
    pub fn fresh(&mut self, image: &mut [u8]) -> u8 {
        let Returned { number, .. } = self.call(image, Call::Fresh).library_returned;
        self.tally.fresh(number);
        number
    }

    fn call(&mut self, image: &mut [u8], call: Call) -> Outcome {
        self.tally.case();
        let before = self.lend(image, call);
        let mut outcome = Outcome {
            library: before.clone(),
            library_returned: Returned::default(),
            independent: before.clone(),
            independent_returned: Returned::default(),
            before,
        };
        outcome.library_returned = call_library(&mut outcome.library, call);
        outcome.independent_returned = call_independent(&mut outcome.independent, call);
        if let Err(difference) = outcome.compare() {
            self.report(difference, call, &outcome);
            process::exit(1);
        }
        image.copy_from_slice(outcome.library.image.bytes());
        outcome
    }

    fn pattern(&mut self) -> Pattern {
        let mut pattern = [0; WHOLE];
        self.random.fill(&mut pattern);
        pattern
    }

    /// What a place holds before a call stores in it.
    pub fn word(&mut self) -> u64 {
        self.random.next()
    }

    /// An output of this length.
    pub fn output(&mut self, length: usize) -> Lent {
        Lent::new(&self.pattern(), self.random.place(PLACES), length)
    }

    /// A buffer that holds these bytes.
    pub fn holding(&mut self, bytes: &[u8]) -> Lent {
        Lent::holding(&self.pattern(), self.random.place(PLACES), bytes)
    }

    fn lend(&mut self, image: &[u8], call: Call) -> Side {
        let pattern = self.pattern();
        let (line, out_length) = match call {
            Call::Line { line, out_length } => (line, out_length),
            Call::Pass { .. } | Call::Fresh => (&[][..], 0),
        };
        Side {
            image: Lent::holding(&pattern, self.random.place(PLACES), image),
            line: Lent::holding(&pattern, self.random.place(PLACES), line),
            out: Lent::new(&pattern, self.random.place(PLACES), out_length),
        }
    }

    /// Where in the run a case stands.
    pub fn case_in_words(&self) -> String {
        let (kind, case) = self.tally.kind();
        format!("seed {}, case {case} of kind '{kind}'", self.seed)
    }

    /// Ends the test where both sides do the same with a line, and it is wrong.
    pub fn mismatch(&self, difference: &str, line: &str) -> ! {
        println!("MISMATCH: {difference}");
        println!("{}", self.case_in_words());
        println!("line: `{}`", line.escape_default());
        process::exit(1);
    }

    fn report(&self, difference: &str, call: Call, outcome: &Outcome) {
        println!("MISMATCH: {difference}");
        println!("{}", self.case_in_words());
        println!("call: {call}");
        println!("image before: {}", hex(outcome.before.image.bytes()));
        for (name, side, returned) in [
            ("library", &outcome.library, outcome.library_returned),
            (
                "independent",
                &outcome.independent,
                outcome.independent_returned,
            ),
        ] {
            let length = returned.length.min(side.out.bytes().len());
            println!(
                "{name}: number {}, length {}",
                returned.number, returned.length
            );
            println!("  answer: {}", side.out.bytes()[..length].escape_ascii());
            println!("  output: {}", hex(side.out.bytes()));
            println!("  image:  {}", hex(side.image.bytes()));
        }
    }
}

impl Outcome {
    fn compare(&self) -> Result<(), &'static str> {
        let Returned { number, length } = self.independent_returned;
        if self.library_returned.number != number {
            return Err("the numbers differ");
        }
        if self.library_returned.length != length {
            return Err("the lengths of the answers differ");
        }
        if self.library.out.bytes()[..length] != self.independent.out.bytes()[..length] {
            return Err("the answers differ");
        }
        for side in [&self.library, &self.independent] {
            if !side.out.equals_after(length, &self.before.out) {
                return Err("a byte beside the answer was touched");
            }
            if number != 0 && side.image != self.before.image {
                return Err("a refused call changed the image");
            }
            if side.line != self.before.line {
                return Err("the line was changed");
            }
        }
        if self.library.image != self.independent.image {
            return Err("the images, or the bytes around them, differ");
        }
        Ok(())
    }
}

/// The number of a line that is written back, in an output of the same length,
/// by that of the call with it: what a line means to a keeper does not matter.
/// Where the image has the wrong length, nothing else was tested.
fn written_back(number: u8) -> Option<u8> {
    match number {
        1 | 2 | 10 | 11 | 12 => Some(number),
        library::WRONG_LENGTH => None,
        _ => Some(0),
    }
}

fn call_library(side: &mut Side, call: Call) -> Returned {
    let image = side.image.bytes_mut();
    let number = match call {
        Call::Line { .. } => {
            return library::line(image, side.line.bytes(), side.out.bytes_mut()).into();
        }
        Call::Pass { ticks } => library::pass(image, ticks),
        Call::Fresh => library::fresh(image),
    };
    Returned { number, length: 0 }
}

fn call_independent(side: &mut Side, call: Call) -> Returned {
    let image = side.image.bytes_mut();
    let number = match call {
        Call::Line { .. } => {
            let answered =
                independent::answer_image(image, side.line.bytes(), side.out.bytes_mut());
            return Returned {
                number: answered.number,
                length: answered.length,
            };
        }
        Call::Pass { ticks } => independent::pass_image(image, ticks),
        Call::Fresh => independent::fresh_image(image),
    };
    Returned { number, length: 0 }
}

impl fmt::Display for Call<'_> {
    fn fmt(&self, f: &mut fmt::Formatter<'_>) -> fmt::Result {
        match self {
            Call::Line { line, out_length } => write!(
                f,
                "line `{}` of {} bytes, output of {out_length} bytes",
                line.escape_ascii(),
                line.len()
            ),
            Call::Pass { ticks } => write!(f, "pass {ticks} by number"),
            Call::Fresh => write!(f, "fresh"),
        }
    }
}

pub fn hex(bytes: &[u8]) -> String {
    bytes.iter().map(|byte| format!("{byte:02x}")).collect()
}
