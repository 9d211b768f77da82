//! Inputs for the program.

mod ends;
mod failures;
mod input;
mod lines;
mod outputs;
mod reads;
mod sessions;
mod spellings;

use crate::program::Delivery;
use crate::random::Random;
use crate::test::Test;

pub fn run(test: &mut Test) {
    sessions::run(test);
    lines::run(test);
    spellings::run(test);
    ends::run(test);
    reads::run(test);
    outputs::run(test);
    failures::run(test);
}

/// Runs the program on the input as a file, and again through a pipe.
fn both_ways(test: &mut Test, random: &mut Random, input: &[u8]) {
    test.run_program(input, &Delivery::File);
    test.run_program(input, &Delivery::in_mixed_pieces(random, input.len()));
}
