//! Writing an answer or a command into the output that a caller lends.

use crate::date::Date;
use crate::interval::Interval;
use crate::limits::MIN_OUTPUT;

/// The lent output and how much of it is written. No byte after the written
/// ones is touched.
pub struct Writer<'a> {
    output: &'a mut [u8; MIN_OUTPUT],
    length: usize,
}

impl<'a> Writer<'a> {
    pub fn new(output: &'a mut [u8; MIN_OUTPUT]) -> Writer<'a> {
        Writer { output, length: 0 }
    }

    /// Number of bytes written.
    pub fn length(&self) -> usize {
        self.length
    }

    pub fn text<const N: usize>(&mut self, text: &[u8; N]) {
        self.next(N).copy_from_slice(text);
    }

    /// A numeral in its plain spelling. No answer and no written command has
    /// another.
    pub fn count(&mut self, value: u64) {
        let width = value.checked_ilog10().unwrap_or(0) as usize + 1;
        self.digits(value, width);
    }

    pub fn moment(&mut self, value: i64) {
        if value < 0 {
            self.text(b"-");
        }
        self.count(value.unsigned_abs());
    }

    /// `(LOWER UPPER)`
    pub fn interval(&mut self, interval: Interval) {
        self.text(b"(");
        self.moment(interval.lower);
        self.text(b" ");
        self.moment(interval.upper);
        self.text(b")");
    }

    /// `YYYY-MM-DDTHH:MM:SS`, "with every field at full width"
    pub fn date(&mut self, date: Date) {
        self.digits(date.year, 4);
        self.text(b"-");
        self.digits(date.month, 2);
        self.text(b"-");
        self.digits(date.day, 2);
        self.text(b"T");
        self.digits(date.hour, 2);
        self.text(b":");
        self.digits(date.minute, 2);
        self.text(b":");
        self.digits(date.second, 2);
    }

    /// The last `width` digits of the value, with zeros before a shorter one.
    fn digits(&mut self, value: u64, width: usize) {
        let mut rest = value;
        for place in self.next(width).iter_mut().rev() {
            *place = b'0' + (rest % 10) as u8;
            rest /= 10;
        }
    }

    /// The next `count` bytes of the output. The longest answer has 211 bytes
    /// and the longest command 63, so they are always there.
    fn next(&mut self, count: usize) -> &mut [u8] {
        let from = self.length;
        self.length += count;
        &mut self.output[from..self.length]
    }
}
