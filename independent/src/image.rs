//! The keeper as an image of 360 bytes, and the calls on an image.
//!
//! | Bytes | Field |
//! |---|---|
//! | 0 | version, 2 |
//! | 1 | started, 0 or 1 |
//! | 2 | board |
//! | 3 | rule, 0 for im and 1 for mm |
//! | 4..6 | claim |
//! | 6..8 | waiting |
//! | 8..16 | lower edge, two's complement |
//! | 16..24 | upper edge, two's complement |
//! | 24..32 | ticks |
//! | 32..36 | requests |
//! | 36..40 | conflicts |
//! | 40..104 | the tags, four bytes for each peer |
//! | 104..232 | the tick counts, eight bytes for each peer |
//! | 232..296 | the out times, four bytes for each peer |
//! | 296..360 | the back times, four bytes for each peer |
//!
//! Every number is little-endian.

use crate::answer::{answer_line, pass, Answered};
use crate::keeper::{Keeper, Rule};
use crate::limits::BOARDS;

pub const IMAGE_LENGTH: usize = 360;

/// The number that a call on an image of another length returns.
pub const WRONG_LENGTH: u8 = 255;

const VERSION: u8 = 2;
const TAGS: usize = 40;
const SENT_AT: usize = 104;
const OUT_TIMES: usize = 232;
const BACK_TIMES: usize = 296;

type Image = [u8; IMAGE_LENGTH];

impl Keeper {
    /// Writes all bytes of the image.
    pub fn to_image(&self, image: &mut Image) {
        image[0] = VERSION;
        image[1] = u8::from(self.started);
        image[2] = self.board;
        image[3] = match self.rule {
            Rule::Im => 0,
            Rule::Mm => 1,
        };
        set(image, 4, self.claim.to_le_bytes());
        set(image, 6, self.waiting.to_le_bytes());
        set(image, 8, self.lower.to_le_bytes());
        set(image, 16, self.upper.to_le_bytes());
        set(image, 24, self.ticks.to_le_bytes());
        set(image, 32, self.requests.to_le_bytes());
        set(image, 36, self.conflicts.to_le_bytes());
        for peer in 0..BOARDS {
            set(image, TAGS + 4 * peer, self.tags[peer].to_le_bytes());
            set(image, SENT_AT + 8 * peer, self.sent_at[peer].to_le_bytes());
            let out_time = self.out_times[peer].to_le_bytes();
            set(image, OUT_TIMES + 4 * peer, out_time);
            let back_time = self.back_times[peer].to_le_bytes();
            set(image, BACK_TIMES + 4 * peer, back_time);
        }
    }

    /// Reads an image; `None` if its version, started flag or rule is unknown.
    /// The numbers are read as they are: whether the keeper counts as started
    /// is tested by the calls.
    pub fn from_image(image: &Image) -> Option<Keeper> {
        if image[0] != VERSION || image[1] > 1 || image[3] > 1 {
            return None;
        }
        let mut keeper = Keeper {
            started: image[1] == 1,
            board: image[2],
            rule: if image[3] == 0 { Rule::Im } else { Rule::Mm },
            claim: u16::from_le_bytes(get(image, 4)),
            waiting: u16::from_le_bytes(get(image, 6)),
            lower: i64::from_le_bytes(get(image, 8)),
            upper: i64::from_le_bytes(get(image, 16)),
            ticks: u64::from_le_bytes(get(image, 24)),
            requests: u32::from_le_bytes(get(image, 32)),
            conflicts: u32::from_le_bytes(get(image, 36)),
            tags: [0; BOARDS],
            sent_at: [0; BOARDS],
            out_times: [0; BOARDS],
            back_times: [0; BOARDS],
        };
        for peer in 0..BOARDS {
            keeper.tags[peer] = u32::from_le_bytes(get(image, TAGS + 4 * peer));
            keeper.sent_at[peer] = u64::from_le_bytes(get(image, SENT_AT + 8 * peer));
            keeper.out_times[peer] = u32::from_le_bytes(get(image, OUT_TIMES + 4 * peer));
            keeper.back_times[peer] = u32::from_le_bytes(get(image, BACK_TIMES + 4 * peer));
        }
        Some(keeper)
    }
}

/// `answer_line` on an image. The image changes only if the line is accepted.
pub fn answer_image(image: &mut [u8], line: &[u8], out: &mut [u8]) -> Answered {
    let Ok(image) = <&mut Image>::try_from(image) else {
        return Answered {
            number: WRONG_LENGTH,
            length: 0,
        };
    };
    let mut keeper = read_or_fresh(image);
    let answered = answer_line(&mut keeper, line, out);
    if answered.number == 0 {
        keeper.to_image(image);
    }
    answered
}

/// `pass` on an image. The image changes only if the pass is accepted.
pub fn pass_image(image: &mut [u8], ticks: u64) -> u8 {
    let Ok(image) = <&mut Image>::try_from(image) else {
        return WRONG_LENGTH;
    };
    let mut keeper = read_or_fresh(image);
    let number = pass(&mut keeper, ticks);
    if number == 0 {
        keeper.to_image(image);
    }
    number
}

/// Stores the image of a fresh keeper.
pub fn fresh_image(image: &mut [u8]) -> u8 {
    let Ok(image) = <&mut Image>::try_from(image) else {
        return WRONG_LENGTH;
    };
    Keeper::fresh().to_image(image);
    0
}

/// An unreadable image stands for a fresh keeper.
fn read_or_fresh(image: &Image) -> Keeper {
    Keeper::from_image(image).unwrap_or_else(Keeper::fresh)
}

fn get<const N: usize>(image: &Image, at: usize) -> [u8; N] {
    let mut bytes = [0; N];
    bytes.copy_from_slice(&image[at..at + N]);
    bytes
}

fn set<const N: usize>(image: &mut Image, at: usize, bytes: [u8; N]) {
    image[at..at + N].copy_from_slice(&bytes);
}
