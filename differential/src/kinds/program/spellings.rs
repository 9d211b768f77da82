//! Inputs of lines whose numerals are spelled in every way, between lines that
//! move the keeper.

use super::both_ways;
use super::input::Input;
use crate::kinds::spellings;
use crate::test::Test;

const RUNS: usize = 4;
const LENGTH: usize = 300_000;

pub fn run(test: &mut Test) {
    let mut random = test.begin("program: numerals spelled in every way");
    for _ in 0..RUNS {
        let rule = random.pick(&["im", "mm"]);
        let mut input = Input::started(&mut random, rule);
        while input.len() < LENGTH {
            input.line(spellings::line(&mut random));
            if random.one_in(4) {
                input.move_and_show(&mut random);
            }
        }
        both_ways(test, &mut random, input.bytes());
    }
}
