//! Answers that fill an output of 64 KiB, which then has each number of bytes
//! left for the next answer.

use super::both_ways;
use super::input::Input;
use crate::program::Delivery;
use crate::random::Random;
use crate::test::Test;

/// What a program may write at once.
const OUTPUT: usize = 65_536;

/// The most that is left of it: more than two of the longest answers.
const MOST_LEFT: usize = 520;

pub fn run(test: &mut Test) {
    filled_to_the_byte(test);
    filled_often(test);
}

fn filled_to_the_byte(test: &mut Test) {
    let mut random = test.begin("program: outputs filled to the byte");
    for left in 0..=MOST_LEFT {
        let mut input = Input::new();
        let written = input.line("(start 3 im 200 (-1000 1000))") + input.ask_all();
        fill(&mut input, OUTPUT - left - written);
        // The keeper has to be the same on both sides of the write.
        for line in ["(pass 7)", "(drop 4)", "(request 4)", "(read)", "(waiting)"] {
            input.line(line);
        }
        input.move_and_show(&mut random);
        test.run_program(input.bytes(), &Delivery::File);
    }
}

/// Adds lines with answers of so many bytes, which move nothing.
fn fill(input: &mut Input, bytes: usize) {
    let mut rest = bytes;
    // Lines with the longest answers, as long as there is room for the others.
    while rest > MOST_LEFT {
        rest -= input.line("(waiting)");
    }
    // The answer to an empty line has 7 bytes, and that to a read has 44, which
    // is no multiple of 7: at most six reads leave one.
    for _ in 0..6 {
        if rest % 7 != 0 {
            rest -= input.line("(read)");
        }
    }
    assert_eq!(rest % 7, 0);
    for _ in 0..rest / 7 {
        input.line("");
    }
}

/// Short lines with long answers, and lines that move the keeper.
fn filled_often(test: &mut Test) {
    let mut random = test.begin("program: outputs filled often");
    for _ in 0..4 {
        let mut input = Input::started(&mut random, "im");
        while input.len() < 50_000 {
            input.ask_all();
            for _ in 0..random.place(200) {
                let line = random.pick(&["(waiting)", "(read)", "", "(pass 1)", "(pass 0)"]);
                input.line(line);
            }
            for _ in 0..20 {
                answer_a_peer(&mut random, &mut input);
            }
        }
        both_ways(test, &mut random, input.bytes());
    }
}

fn answer_a_peer(random: &mut Random, input: &mut Input) {
    match input.reply() {
        Some(reply) if random.one_in(2) => input.line(reply),
        _ => input.line("(read)"),
    };
}
