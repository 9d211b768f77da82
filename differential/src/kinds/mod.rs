//! The kinds of cases.

mod adoptions;
mod brackets;
mod bytes;
mod damage;
mod dates;
mod flights;
mod handmade;
mod images;
mod lengths;
mod limits;
mod lists;
mod passes;
mod program;
mod sessions;
mod spellings;
mod states;
mod waits;
mod windows;
mod writes;

use crate::test::Test;

pub fn run_all(test: &mut Test) {
    sessions::run(test);
    limits::run(test);
    spellings::run(test);
    waits::run(test);
    adoptions::run(test);
    damage::run(test);
    bytes::run(test);
    lengths::run(test);
    handmade::run(test);
    images::run(test);
    passes::run(test);
    program::run(test);
    writes::run(test);
    windows::run(test);
    dates::run(test);
    brackets::run(test);
    lists::run(test);
    flights::run(test);
}
