//! Inputs from a fixed seed. An input of more lines begins with the one of
//! fewer lines, so that the difference of two counts is the cost of the lines
//! between them.

use std::error::Error;
use std::io::{self, BufWriter, StdoutLock, Write};

use independent::{answer_line, Keeper};

use crate::random::Random;

const SEED: u64 = 20_260_101;
/// The board of `START`.
const BOARD: u64 = 3;
const PEERS: u64 = 16;
/// One tick by the claim of `START`.
const LONGEST_TICK: i64 = 1_000_200;
/// Edges some 26 years from the epoch, so that numerals are as long as in
/// service.
const START: &str = "(start 3 im 200 (820000000000000000 820000000000002000))";

struct Input {
    random: Random,
    /// Follows the lines, so that the next ones can fit them.
    keeper: Keeper,
    output: BufWriter<StdoutLock<'static>>,
    /// How many lines are still to be written.
    rest: u64,
}

/// Writes an input of this kind: a start, requests to the first `waiting`
/// peers, and the lines of the kind. Where peers are listed, requests go over
/// them in steps of seven, modulo sixteen, so that tags and peers are in
/// different orders.
pub fn write(kind: &str, waiting: u64, lines: u64) -> Result<(), Box<dyn Error>> {
    let mut input = Input {
        random: Random::new(SEED),
        keeper: Keeper::fresh(),
        output: BufWriter::new(io::stdout().lock()),
        rest: lines,
    };
    let step = match kind {
        "replies" => Input::replies,
        "passes" => Input::passes,
        "refused" => Input::refused,
        "mix" => Input::mix,
        "lists" => Input::lists,
        _ => return Err(format!("no kind {kind}").into()),
    };
    input.line(START)?;
    let stride = if kind == "lists" { 7 } else { 1 };
    for peer in (0..PEERS)
        .map(|n| stride * n % PEERS)
        .filter(|&peer| peer != BOARD)
        .take(waiting as usize)
    {
        input.line(&format!("(request {peer})"))?;
    }
    while input.rest > 0 {
        step(&mut input)?;
    }
    input.output.flush()?;
    Ok(())
}

impl Input {
    fn line(&mut self, line: &str) -> io::Result<()> {
        if self.rest == 0 {
            return Ok(());
        }
        self.rest -= 1;
        answer_line(&mut self.keeper, line.as_bytes(), &mut [0; 256]);
        self.output.write_all(line.as_bytes())?;
        self.output.write_all(b"\n")
    }

    /// A request and its reply, or where all peers wait a reply and the next
    /// request, so that as many wait after it as before; now and then a pass.
    fn replies(&mut self) -> io::Result<()> {
        let peer = self.peer();
        if !self.waits(peer) {
            self.line(&format!("(request {peer})"))?;
            self.reply(peer)?;
        } else {
            self.reply(peer)?;
            self.line(&format!("(request {peer})"))?;
        }
        if self.random.below(8) == 0 {
            self.line("(pass 100)")?;
        }
        Ok(())
    }

    fn passes(&mut self) -> io::Result<()> {
        let ticks = 1 + self.random.below(1000);
        self.line(&format!("(pass {ticks})"))
    }

    /// A line that is refused: with 1, 2, 3, 4, 6 or 7.
    fn refused(&mut self) -> io::Result<()> {
        let peer = self.peer();
        let (lower, upper) = (self.keeper.lower, self.keeper.upper);
        let wrong_tag = self.keeper.tags[peer as usize] + 1;
        match self.random.below(10) {
            0 => self.line("(pass 12x7)"),
            1 => self.line("(read))"),
            2 => self.line("what is this"),
            3 => self.line(&format!("(reply {peer} 1 ({lower} {upper}) )")),
            4 => self.line("(pass 86400001)"),
            5 => self.line(&format!("(reply {peer} 1 ({upper} {lower}))")),
            6 => self.line(START),
            7 => self.line(&format!("(request {BOARD})")),
            8 if self.waits(peer) => self.line(&format!("(request {peer})")),
            8 => self.line(&format!("(drop {peer})")),
            _ => self.line(&format!("(reply {peer} {wrong_tag} ({lower} {upper}))")),
        }
    }

    fn mix(&mut self) -> io::Result<()> {
        let peer = self.peer();
        match self.random.below(100) {
            0..=39 => self.passes(),
            40..=79 if self.waits(peer) => self.reply(peer),
            40..=79 => self.line(&format!("(request {peer})")),
            80..=89 => self.line("(read)"),
            90..=92 => self.line("(waiting)"),
            93..=95 => self.line(&format!("(drop {peer})")),
            _ => self.refused(),
        }
    }

    fn lists(&mut self) -> io::Result<()> {
        self.line("(waiting)")
    }

    /// Mostly taken, with a lower edge that moves nothing, so that edges are the
    /// same whether a bracket begins a tick earlier or not; one in ten is a
    /// conflict.
    fn reply(&mut self, peer: u64) -> io::Result<()> {
        let tag = self.keeper.tags[peer as usize];
        let (lower, upper) = (self.keeper.lower, self.keeper.upper);
        let near = self.random.below(1000) as i64;
        let (trailing, leading) = if self.random.below(10) == 0 {
            let end = upper + LONGEST_TICK;
            (end + 1 + near, end + 2000)
        } else {
            (lower - near, (upper - near).max(lower))
        };
        self.line(&format!("(reply {peer} {tag} ({trailing} {leading}))"))
    }

    /// A peer that is not the board itself.
    fn peer(&mut self) -> u64 {
        (BOARD + 1 + self.random.below(PEERS - 1)) % PEERS
    }

    fn waits(&self, peer: u64) -> bool {
        self.keeper.waiting >> peer & 1 == 1
    }
}
