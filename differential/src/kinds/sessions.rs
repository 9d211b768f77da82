//! Long runs of lines as a board meets them, from a fresh keeper on.

use crate::fitting;
use crate::limits::IMAGE_LENGTH;
use crate::test::Test;

const SESSIONS: u64 = 13_000;
const LINES: u64 = 400;

pub fn run(test: &mut Test) {
    let mut random = test.begin("lines of a session");
    for _ in 0..SESSIONS {
        let mut image = [0; IMAGE_LENGTH];
        test.fresh(&mut image);
        for _ in 0..LINES {
            let line = fitting::line(&mut random, &image);
            let out_length = fitting::out_length(&mut random);
            test.line(&mut image, &line, out_length);
        }
    }
}
