//! A command across the end of a read of 64 KiB, with the end at each of its
//! bytes.

use super::input::Input;
use crate::program::Delivery;
use crate::spelling::all_grouped;
use crate::test::Test;

/// What a program may read at once.
const READ: usize = 65_536;

/// What is left before the end of the first read: for the lines that ask all
/// peers, one that sets the command's place, and the command.
const ROOM: usize = 600;

pub fn run(test: &mut Test) {
    let mut random = test.begin("program: commands across the end of a read");
    let mut base = Input::started(&mut random, "im");
    base.lines_up_to(&mut random, READ - ROOM);
    base.ask_all();
    for before in 0..=80 {
        let mut input = with_command_at(&base, READ - before);
        // What was read of the command moves the end of the next read.
        input.lines_up_to(&mut random, 2 * READ + ROOM);
        input.move_and_show(&mut random);
        test.run_program(input.bytes(), &Delivery::File);
        let delivery = Delivery::in_equal_pieces(&mut random, input.len(), READ);
        test.run_program(input.bytes(), &delivery);
    }
}

/// The input with a reply, a long command if it is grouped, at this place.
fn with_command_at(base: &Input, place: usize) -> Input {
    let mut input = base.clone();
    let free = place.checked_sub(input.len() + 1).expect("room is left");
    input.line(vec![b' '; free]);
    assert_eq!(input.len(), place);
    let reply = input.reply().expect("all peers wait");
    input.line(all_grouped(&reply));
    input.line("(read)");
    input.line("(waiting)");
    input
}
