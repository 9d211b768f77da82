//! A board that asks peer 4 for the time, is reset while it waits, and goes on
//! with the image that it kept. Prints each line and, below it, the number
//! returned and the answer. `examples/c/board.c` is the same in C.

use boardtime::{Command, Keeper, Refusal, Rule, IMAGE_BYTES, OUTPUT_BYTES};

const START: Command = Command::Start {
    board: 3,
    rule: Rule::Im,
    claim: 200,
    lower: -1000,
    upper: 1000,
};

const FIRST_REPLY: Command = Command::Reply {
    peer: 4,
    tag: 1,
    trailing: 9_999_000,
    leading: 10_001_000,
};

const SECOND_REPLY: Command = Command::Reply {
    peer: 4,
    tag: 2,
    trailing: 16_002_201,
    leading: 16_002_201,
};

fn answer_line(keeper: &mut Keeper, line: &[u8]) {
    let mut out = [0; OUTPUT_BYTES];
    let answer = keeper.answer(line, &mut out);
    println!("{}", String::from_utf8_lossy(line));
    // The answer brings its own LF.
    print!(
        "{} {}",
        answer.number,
        String::from_utf8_lossy(answer.bytes)
    );
}

fn answer(keeper: &mut Keeper, command: Command) -> Result<(), Refusal> {
    let mut line = [0; OUTPUT_BYTES];
    answer_line(keeper, command.write(&mut line)?);
    Ok(())
}

fn pass_by_number(keeper: &mut Keeper, ticks: u64) {
    let number = match keeper.pass(ticks) {
        Ok(()) => 0,
        Err(refusal) => refusal.number(),
    };
    println!("pass by number: {ticks}");
    println!("{number}");
}

/// Everything but the kept image is lost.
fn reset(keeper: &mut Keeper) -> Result<(), Refusal> {
    let kept = *keeper.image();
    *keeper = Keeper::from_image([0xFF; IMAGE_BYTES]);
    answer(keeper, Command::Read)?;
    *keeper = Keeper::from_image(kept);
    println!("the kept image is back");
    Ok(())
}

/// Ends with a refusal only if a command can't be written.
fn main() -> Result<(), Refusal> {
    let mut keeper = Keeper::fresh();
    answer(&mut keeper, START)?;
    answer(&mut keeper, Command::Pass { ticks: 10 })?;
    answer(&mut keeper, Command::Request { peer: 4 })?;
    reset(&mut keeper)?;
    pass_by_number(&mut keeper, 5);
    answer(&mut keeper, FIRST_REPLY)?;
    answer(&mut keeper, FIRST_REPLY)?;
    answer(&mut keeper, Command::Request { peer: 4 })?;
    answer(&mut keeper, Command::Waiting)?;
    answer(&mut keeper, SECOND_REPLY)?;
    answer(&mut keeper, Command::Read)?;
    // No command has this line: it came from outside, damaged.
    answer_line(&mut keeper, b"(pass 12x7)");
    pass_by_number(&mut keeper, 86_400_001);
    pass_by_number(&mut keeper, 4_294_967_301);
    Ok(())
}
