//! Reads command lines from standard input and writes one answer line for
//! each to standard output.

#![forbid(unsafe_code)]

use std::io::{self, ErrorKind, Read, Write};

use independent::limits::{MAX_LINE, MIN_OUTPUT};
use independent::{answer_line, Keeper};

const LF: u8 = b'\n';
const BUFFER_LENGTH: usize = 64 * 1024;

fn main() -> io::Result<()> {
    // Both standard streams pass blocks of this size, the written ones ending
    // in LF, straight to the system without copying them.
    let mut input = io::stdin().lock();
    let mut answers = Answers::new(io::stdout().lock());
    let mut unfinished = UnfinishedLine::new();
    let mut block = [0; BUFFER_LENGTH];
    loop {
        let count = match input.read(&mut block) {
            Ok(count) => count,
            Err(error) if error.kind() == ErrorKind::Interrupted => continue,
            Err(error) => return Err(error),
        };
        if count == 0 {
            break;
        }
        answer_block(&block[..count], &mut unfinished, &mut answers)?;
        // Whoever waits for these answers before sending more must get them.
        answers.flush()?;
    }
    if !unfinished.is_empty() {
        answers.answer(unfinished.bytes())?;
    }
    answers.flush()
}

/// Answers every line that ends in this block, and keeps the start of a line
/// that does not.
fn answer_block<W: Write>(
    block: &[u8],
    unfinished: &mut UnfinishedLine,
    answers: &mut Answers<W>,
) -> io::Result<()> {
    let mut rest = block;
    while let Some(end) = rest.iter().position(|&byte| byte == LF) {
        let line = &rest[..end];
        if unfinished.is_empty() {
            answers.answer(line)?;
        } else {
            unfinished.append(line);
            answers.answer(unfinished.bytes())?;
            unfinished.clear();
        }
        rest = &rest[end + 1..];
    }
    unfinished.append(rest);
    Ok(())
}

/// The start of a line whose LF has not been read. One byte more than a line
/// may have is enough for the line to be refused for its length; the bytes
/// after that are not stored.
struct UnfinishedLine {
    bytes: [u8; MAX_LINE + 1],
    length: usize,
}

impl UnfinishedLine {
    fn new() -> UnfinishedLine {
        UnfinishedLine {
            bytes: [0; MAX_LINE + 1],
            length: 0,
        }
    }

    fn is_empty(&self) -> bool {
        self.length == 0
    }

    fn bytes(&self) -> &[u8] {
        &self.bytes[..self.length]
    }

    fn append(&mut self, bytes: &[u8]) {
        let room = &mut self.bytes[self.length..];
        let count = bytes.len().min(room.len());
        room[..count].copy_from_slice(&bytes[..count]);
        self.length += count;
    }

    fn clear(&mut self) {
        self.length = 0;
    }
}

/// The keeper and its answers that are not written yet.
struct Answers<W: Write> {
    keeper: Keeper,
    output: W,
    buffer: [u8; BUFFER_LENGTH],
    length: usize,
}

impl<W: Write> Answers<W> {
    fn new(output: W) -> Answers<W> {
        Answers {
            keeper: Keeper::fresh(),
            output,
            buffer: [0; BUFFER_LENGTH],
            length: 0,
        }
    }

    /// Answers a line straight into the free part of the buffer.
    fn answer(&mut self, line: &[u8]) -> io::Result<()> {
        if self.buffer.len() - self.length < MIN_OUTPUT {
            self.flush()?;
        }
        let answered = answer_line(&mut self.keeper, line, &mut self.buffer[self.length..]);
        self.length += answered.length;
        Ok(())
    }

    fn flush(&mut self) -> io::Result<()> {
        let answers = &self.buffer[..self.length];
        self.length = 0;
        self.output.write_all(answers)
    }
}
