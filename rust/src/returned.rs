//! What a call returns that has an output.

/// The number and the length that a call returns together.
#[derive(Clone, Copy, PartialEq, Eq, Debug)]
pub struct Returned {
    /// 0 if the call was accepted, the number of the refusal, or
    /// `image::WRONG_LENGTH`.
    pub number: u8,
    /// Length of what was stored at the front of the output: the answer with
    /// its LF, or the line that was written.
    pub length: usize,
}

impl Returned {
    /// Takes the two apart, as BOARDTIME_NUMBER and BOARDTIME_LENGTH do in C.
    pub(crate) fn from_whole(whole: u32) -> Returned {
        let [number, ..] = whole.to_le_bytes();
        Returned {
            number,
            // No bit is lost: a usize has 64 on the one target of the library.
            length: (whole >> 8) as usize,
        }
    }
}
