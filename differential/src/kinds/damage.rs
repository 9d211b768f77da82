//! Good lines with one byte changed, inserted or deleted, at every place.

use super::states;
use crate::limits::{Image, SHORTEST_OUTPUT};
use crate::test::Test;

/// Each would be accepted by one of the states.
const LINES: &[&str] = &[
    "(start 3 im 200 (-1000 1000))",
    "(start 15 mm 50000 (-4000000000000000000 4000000000000000000))",
    "(start 15 mm 50_000 (-4_000_000_000_000_000_000 4_000_000_000_000_000_000))",
    "(pass 10)",
    "(pass 0)",
    "(pass 86400000)",
    "(pass 86_400_000)",
    "(request 4)",
    "(request 12)",
    "(reply 4 1 (9999000 10001000))",
    "(reply 15 2 (-5 2))",
    "(reply 4 1 (9_999_000 10_001_000))",
    "(drop 4)",
    "(drop 15)",
    "(read)",
    "(waiting)",
    "(window 3 (1999-12-31T23:59:59 2000-02-29T00:00:00))",
    "(window 15 (1900-01-01T00:00:00 2099-12-31T23:59:59))",
    "(flight 7 (1000 2000))",
    "(flight 12 (1000000000 0))",
    "(flight 0 (1_000_000 1_000_000_000))",
];

pub fn run(test: &mut Test) {
    test.begin("lines with one byte damaged");
    let states = [
        states::after(test, &[]),
        states::after(
            test,
            &[
                "(start 3 im 200 (-1000 1000))",
                "(request 4)",
                "(request 15)",
                "(pass 9)",
            ],
        ),
    ];
    for line in LINES {
        // A start is accepted by a fresh keeper, the others by the started.
        let state = states[usize::from(!line.starts_with("(start"))];
        change(test, state, line.as_bytes());
        insert(test, state, line.as_bytes());
        delete(test, state, line.as_bytes());
    }
}

fn change(test: &mut Test, state: Image, line: &[u8]) {
    for at in 0..line.len() {
        for byte in 0..=u8::MAX {
            let mut damaged = line.to_vec();
            damaged[at] = byte;
            give(test, state, &damaged);
        }
    }
}

fn insert(test: &mut Test, state: Image, line: &[u8]) {
    for at in 0..=line.len() {
        for byte in 0..=u8::MAX {
            let mut damaged = line.to_vec();
            damaged.insert(at, byte);
            give(test, state, &damaged);
        }
    }
}

/// Deletes one byte, exchanges it with the next, or cuts the line there.
fn delete(test: &mut Test, state: Image, line: &[u8]) {
    for at in 0..line.len() {
        let mut damaged = line.to_vec();
        damaged.remove(at);
        give(test, state, &damaged);
        let mut damaged = line.to_vec();
        damaged.swap(at, (at + 1) % line.len());
        give(test, state, &damaged);
        give(test, state, &line[..at]);
    }
}

fn give(test: &mut Test, mut state: Image, line: &[u8]) {
    test.line(&mut state, line, SHORTEST_OUTPUT);
}
