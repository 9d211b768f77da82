//! Reading the parts of a line from left to right.

use crate::interval::Interval;
use crate::numeral;
use crate::refusal::Refusal;

/// The part of a line that is not read yet.
pub struct Reader<'a> {
    rest: &'a [u8],
}

impl<'a> Reader<'a> {
    pub fn new(rest: &'a [u8]) -> Reader<'a> {
        Reader { rest }
    }

    /// Takes `text` if the rest begins with it.
    pub fn take<const N: usize>(&mut self, text: &[u8; N]) -> bool {
        match self.rest.strip_prefix(text) {
            Some(rest) => {
                self.rest = rest;
                true
            }
            None => false,
        }
    }

    /// Takes `text`; a line that has anything else here has no command shape.
    pub fn expect<const N: usize>(&mut self, text: &[u8; N]) -> Result<(), Refusal> {
        if self.take(text) {
            Ok(())
        } else {
            Err(Refusal::Shape)
        }
    }

    /// Takes `text`, which must end the line.
    pub fn finish<const N: usize>(self, text: &[u8; N]) -> Result<(), Refusal> {
        if self.rest == text {
            Ok(())
        } else {
            Err(Refusal::Shape)
        }
    }

    /// Takes a numeral without a sign.
    pub fn count(&mut self) -> Result<u64, Refusal> {
        numeral::unsigned(self.word()).ok_or(Refusal::Shape)
    }

    /// Takes a numeral that may be negative: "Only edges may be negative".
    fn edge(&mut self) -> Result<i64, Refusal> {
        numeral::signed(self.word()).ok_or(Refusal::Shape)
    }

    /// Takes the bytes up to the next space or closing bracket. In every shape
    /// one of the two follows a numeral. All bytes before it are judged
    /// together, so that no numeral ends where a stranger begins.
    fn word(&mut self) -> &'a [u8] {
        let end = self
            .rest
            .iter()
            .position(|&byte| byte == b' ' || byte == b')');
        let (word, rest) = self.rest.split_at(end.unwrap_or(self.rest.len()));
        self.rest = rest;
        word
    }

    /// Takes `YYYY-MM-DDTHH:MM:SS` and returns the six fields in this order.
    ///
    /// Any digits make the shape. Whether they are a date is tested later,
    /// because that comes after a numeral outside its range.
    pub fn date(&mut self) -> Result<[u64; 6], Refusal> {
        let year = self.field::<4>()?;
        self.expect(b"-")?;
        let month = self.field::<2>()?;
        self.expect(b"-")?;
        let day = self.field::<2>()?;
        self.expect(b"T")?;
        let hour = self.field::<2>()?;
        self.expect(b":")?;
        let minute = self.field::<2>()?;
        self.expect(b":")?;
        let second = self.field::<2>()?;
        Ok([year, month, day, hour, minute, second])
    }

    /// Takes a field of a date, which has `N` digits, "with every field at full
    /// width". It is no numeral: it may begin with a zero, and "dates take no
    /// `_`".
    fn field<const N: usize>(&mut self) -> Result<u64, Refusal> {
        let Some((digits, rest)) = self.rest.split_first_chunk::<N>() else {
            return Err(Refusal::Shape);
        };
        let mut value = 0;
        for &byte in digits {
            if !byte.is_ascii_digit() {
                return Err(Refusal::Shape);
            }
            value = value * 10 + u64::from(byte - b'0');
        }
        self.rest = rest;
        Ok(value)
    }

    /// Takes ` (LOWER UPPER))`, which must end the line.
    pub fn finish_with_interval(mut self) -> Result<Interval, Refusal> {
        self.expect(b" (")?;
        let lower = self.edge()?;
        self.expect(b" ")?;
        let upper = self.edge()?;
        self.finish(b"))")?;
        Ok(Interval { lower, upper })
    }
}
