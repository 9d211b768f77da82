//! A place that a call stores in, between words that it must not touch.

const GUARD: usize = 8;

/// In this order in memory.
#[repr(C)]
pub struct Guarded<T> {
    before: [u64; GUARD],
    pub place: T,
    after: [u64; GUARD],
}

impl<T> Guarded<T> {
    /// The guards hold this word again and again.
    pub fn new(word: u64, place: T) -> Guarded<T> {
        Guarded {
            before: [word; GUARD],
            place,
            after: [word; GUARD],
        }
    }

    pub fn untouched(&self, word: u64) -> Result<(), String> {
        if self.before == [word; GUARD] && self.after == [word; GUARD] {
            return Ok(());
        }
        Err("a byte beside what is stored was touched".into())
    }
}

#[cfg(test)]
mod tests {
    use super::Guarded;

    #[test]
    fn only_the_place_may_change() {
        let mut right = Guarded::new(7, 7_i64);
        right.place = 0;
        assert!(right.untouched(7).is_ok());
        let mut early = Guarded::new(7, 7_i64);
        early.before[7] = 0;
        assert!(early.untouched(7).is_err());
        let mut late = Guarded::new(7, 7_i64);
        late.after[0] = 0;
        assert!(late.untouched(7).is_err());
    }
}
