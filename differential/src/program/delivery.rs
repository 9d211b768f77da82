//! How an input comes to the program.

use std::fmt;

use crate::random::Random;

/// Lengths of pieces about the lengths that a program may treat in a way of
/// their own: one byte, the longest line, a page, a buffer of 64 KiB.
pub const LENGTHS: &[usize] = &[
    1, 2, 3, 7, 61, 118, 119, 120, 121, 159, 160, 161, 162, 163, 255, 256, 257, 4093, 65_535,
    65_536, 65_537,
];

/// About how many pauses a run has, if it has as many pieces. Each takes some
/// 0.1 ms.
const PAUSES: usize = 150;

pub enum Delivery {
    /// Standard input is a file, and every read gets as much as it asks for.
    File,
    /// Standard input is a pipe, and a read gets what has arrived.
    Pipe(Vec<Piece>),
}

/// What is written to the pipe at once.
#[derive(Clone, Copy)]
pub struct Piece {
    pub length: usize,
    /// Whether the writer then waits for the program to read it.
    pub pause: bool,
}

impl Delivery {
    /// Pieces of this length, for an input of `total` bytes.
    pub fn in_equal_pieces(random: &mut Random, total: usize, length: usize) -> Delivery {
        let mut lengths = vec![length; total / length];
        lengths.extend(Some(total % length).filter(|&rest| rest > 0));
        in_pieces(random, &lengths)
    }

    /// Pieces of many lengths.
    pub fn in_mixed_pieces(random: &mut Random, total: usize) -> Delivery {
        let mut lengths = Vec::new();
        let mut rest = total;
        // A run of many short pieces would take too long for a long input.
        let longest = random.pick(&[10, 300, 5000, 100_000]).max(total / 5000);
        while rest > 0 {
            let length = if random.one_in(2) {
                random.pick(LENGTHS)
            } else {
                1 + random.place(longest)
            };
            lengths.push(length.min(rest));
            rest -= length.min(rest);
        }
        in_pieces(random, &lengths)
    }
}

fn in_pieces(random: &mut Random, lengths: &[usize]) -> Delivery {
    let pieces = lengths.iter().map(|&length| Piece {
        length,
        pause: random.place(lengths.len()) < PAUSES,
    });
    Delivery::Pipe(pieces.collect())
}

impl fmt::Display for Delivery {
    fn fmt(&self, f: &mut fmt::Formatter<'_>) -> fmt::Result {
        let pieces = match self {
            Delivery::File => return write!(f, "from a file"),
            Delivery::Pipe(pieces) => pieces,
        };
        write!(f, "through a pipe in {} pieces:", pieces.len())?;
        for piece in pieces.iter().take(20) {
            write!(f, " {}", piece.length)?;
        }
        write!(f, "{}", if pieces.len() > 20 { " ..." } else { "" })
    }
}
