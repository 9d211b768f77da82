//! Lines of random bytes, and of parts of commands in random order.

use super::states;
use crate::fitting;
use crate::lent::LONGEST;
use crate::random::Random;
use crate::test::Test;

const LINES_OF_EACH: u64 = 100_000;

const ALPHABET: &[u8] = b"()- 0123456789abcdefghijklmnopqrstuvwxyz\n\r\t\0_xT:";

const PARTS: &[&str] = &[
    "(",
    ")",
    "))",
    " ",
    " (",
    "-",
    "start",
    "pass",
    "request",
    "reply",
    "drop",
    "read",
    "waiting",
    "im",
    "mm",
    "0",
    "1",
    "4",
    "15",
    "200",
    "86400000",
    "-1000",
    "1000",
    "(read)",
    "(waiting)",
    "(pass ",
    "(request ",
    "(reply ",
    "(drop ",
    "(start ",
    "window",
    "(window ",
    "2000-01-01T00:00:00",
    "(1999-12-31T23:59:59 ",
    "flight",
    "(flight ",
    "(1000 2000))",
    "1000000000",
    "4000000000000000000",
    "_",
    "_000",
    "1_000",
    "-1_000",
    "86_400_000",
    "\n",
];

pub fn run(test: &mut Test) {
    let mut random = test.begin("random lines");
    let states = states::all(test);
    for _ in 0..LINES_OF_EACH {
        for line in [
            random_bytes(&mut random),
            random_letters(&mut random),
            random_parts(&mut random),
        ] {
            let mut image = random.pick(&states);
            let out_length = fitting::out_length(&mut random);
            test.line(&mut image, &line, out_length);
        }
    }
}

fn random_bytes(random: &mut Random) -> Vec<u8> {
    let mut line = vec![0; random.place(LONGEST + 1)];
    random.fill(&mut line);
    line
}

fn random_letters(random: &mut Random) -> Vec<u8> {
    let length = random.place(40);
    (0..length).map(|_| random.pick(ALPHABET)).collect()
}

fn random_parts(random: &mut Random) -> Vec<u8> {
    let mut line = Vec::new();
    for _ in 0..random.below(9) {
        line.extend_from_slice(random.pick(PARTS).as_bytes());
    }
    line
}
