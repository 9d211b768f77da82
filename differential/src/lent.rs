//! Buffers that are lent to a call, between guard bytes that it must not touch.

/// The most bytes that a test lends in one buffer.
pub const LONGEST: usize = 400;

const GUARD: usize = 64;
/// A buffer may begin at any of this many places, so that calls meet addresses
/// of every alignment.
pub const PLACES: usize = 16;

pub const WHOLE: usize = GUARD + PLACES + LONGEST + GUARD;

/// What all buffers of a case hold before they are set.
pub type Pattern = [u8; WHOLE];

#[derive(Clone, PartialEq, Eq)]
pub struct Lent {
    whole: [u8; WHOLE],
    from: usize,
    length: usize,
}

impl Lent {
    /// A buffer that holds the pattern, guards and all. `place` is below
    /// `PLACES`.
    pub fn new(pattern: &Pattern, place: usize, length: usize) -> Lent {
        assert!(place < PLACES && length <= LONGEST);
        Lent {
            whole: *pattern,
            from: GUARD + place,
            length,
        }
    }

    /// A buffer that holds these bytes.
    pub fn holding(pattern: &Pattern, place: usize, bytes: &[u8]) -> Lent {
        let mut lent = Lent::new(pattern, place, bytes.len());
        lent.bytes_mut().copy_from_slice(bytes);
        lent
    }

    pub fn bytes(&self) -> &[u8] {
        &self.whole[self.from..self.from + self.length]
    }

    pub fn bytes_mut(&mut self) -> &mut [u8] {
        &mut self.whole[self.from..self.from + self.length]
    }

    /// Whether every byte but the first `count` of the buffer, the guards
    /// among them, is as in `before`.
    pub fn equals_after(&self, count: usize, before: &Lent) -> bool {
        let after = self.from + count;
        self.whole[..self.from] == before.whole[..self.from]
            && self.whole[after..] == before.whole[after..]
    }
}
