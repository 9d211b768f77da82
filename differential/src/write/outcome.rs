//! A call that writes a line, made on both sides, and everything that may not
//! differ.

use crate::lent::Lent;
use crate::test::{hex, Returned};

/// What a side returned, and its output after the call.
struct Side {
    returned: Returned,
    out: Lent,
}

impl Side {
    fn lent(before: &Lent) -> Side {
        Side {
            returned: Returned::default(),
            out: before.clone(),
        }
    }

    fn call(&mut self, call: impl FnOnce(&mut [u8]) -> Returned) {
        self.returned = call(self.out.bytes_mut());
    }
}

pub struct Outcome<'a> {
    before: &'a Lent,
    library: Side,
    independent: Side,
}

impl Outcome<'_> {
    /// Lends each side an output of its own that is as `before`.
    pub fn of(
        before: &Lent,
        library: impl FnOnce(&mut [u8]) -> Returned,
        independent: impl FnOnce(&mut [u8]) -> Returned,
    ) -> Outcome<'_> {
        let mut outcome = Outcome {
            before,
            library: Side::lent(before),
            independent: Side::lent(before),
        };
        outcome.library.call(library);
        outcome.independent.call(independent);
        outcome
    }

    pub fn compare(&self) -> Result<(), &'static str> {
        let Returned { number, length } = self.independent.returned;
        if self.library.returned.number != number {
            return Err("the numbers differ");
        }
        if self.library.returned.length != length {
            return Err("the lengths of the lines differ");
        }
        if number != 0 && length != 0 {
            return Err("a refused call returned a length");
        }
        if length > self.before.bytes().len() {
            return Err("the line is longer than the output");
        }
        // Looked at once if both sides hold the same.
        let same = self.library.out == self.independent.out;
        if !self.library.out.equals_after(length, self.before)
            || !same && !self.independent.out.equals_after(length, self.before)
        {
            return Err("a byte beside the line was touched");
        }
        if !same {
            return Err("the lines differ");
        }
        Ok(())
    }

    /// Compares with what the call has to return, where that is known without
    /// either side: the number, and if it is 0 the line.
    pub fn expect(&self, number: u8, line: &[u8]) -> Result<(), &'static str> {
        if self.number() != number {
            return Err("the number is another one than expected");
        }
        if number == 0 && self.line() != line {
            return Err("the line is another one than expected");
        }
        Ok(())
    }

    pub fn number(&self) -> u8 {
        self.library.returned.number
    }

    /// What the library wrote, once the outcome has been compared.
    pub fn line(&self) -> &[u8] {
        &self.library.out.bytes()[..self.library.returned.length]
    }

    pub fn print(&self) {
        let before = self.before.bytes();
        println!("output before, {} bytes: {}", before.len(), hex(before));
        for (name, side) in [
            ("library", &self.library),
            ("independent", &self.independent),
        ] {
            let Returned { number, length } = side.returned;
            let front = length.min(side.out.bytes().len());
            println!("{name}: number {number}, length {length}");
            println!("  line:   {}", side.out.bytes()[..front].escape_ascii());
            println!("  output: {}", hex(side.out.bytes()));
        }
    }
}

#[cfg(test)]
mod tests {
    use super::Outcome;
    use crate::lent::{Lent, WHOLE};
    use crate::test::Returned;

    const LINE: &[u8] = b"(read)";

    /// A call that returns these and stores these bytes.
    fn call(number: u8, length: usize, bytes: &[u8]) -> impl FnOnce(&mut [u8]) -> Returned + '_ {
        move |out| {
            out[..bytes.len()].copy_from_slice(bytes);
            Returned { number, length }
        }
    }

    fn output() -> Lent {
        Lent::new(&[0xA5; WHOLE], 3, 256)
    }

    #[test]
    fn the_same_lines_are_no_difference() {
        let before = output();
        let outcome = Outcome::of(&before, call(0, 6, LINE), call(0, 6, LINE));
        assert_eq!(outcome.compare(), Ok(()));
        assert_eq!(outcome.expect(0, LINE), Ok(()));
        assert!(outcome.expect(2, b"").is_err());
        assert!(outcome.expect(0, b"(reap)").is_err());
        let refused = Outcome::of(&before, call(2, 0, b""), call(2, 0, b""));
        assert_eq!(refused.compare(), Ok(()));
        assert_eq!(refused.expect(2, b""), Ok(()));
    }

    #[test]
    fn every_difference_is_found() {
        let before = output();
        for (number, length, bytes) in [
            (2, 6, LINE),
            (0, 5, LINE),
            (0, 6, b"(reap)"),
            (0, 6, b"(read)\n"),
            (0, 6, b""),
        ] {
            let outcome = Outcome::of(&before, call(number, length, bytes), call(0, 6, LINE));
            assert!(outcome.compare().is_err(), "{number} {length} {bytes:?}");
        }
    }

    /// What is wrong on both sides is no difference between them.
    #[test]
    fn what_no_call_may_do_is_found() {
        let before = output();
        for (number, length, bytes) in [
            (0, 6, &b"(read)\n"[..]),
            (2, 6, LINE),
            (2, 0, b"("),
            (0, 257, LINE),
        ] {
            let wrong = || call(number, length, bytes);
            let outcome = Outcome::of(&before, wrong(), wrong());
            assert!(outcome.compare().is_err(), "{number} {length} {bytes:?}");
        }
    }
}
