//! A board that asks its keeper each second whether a heater's window is open.
//! The start and the window are planned in dates. Prints the second, as the
//! board counts it, and the answer. `examples/c/heater.c` is the same in C.

use boardtime::{Command, Date, Keeper, Refusal, Rule, OUTPUT_BYTES};

const SECOND: i64 = 1_000_000_000;

const PLANNED: Date = Date {
    year: 2028,
    month: 2,
    day: 28,
    hour: 23,
    minute: 59,
    second: 59,
};

/// Whether slot 5 is open from 2028-02-29T00:00:00 up to two seconds later.
const WINDOW: Command = Command::Window {
    slot: 5,
    start: second_of_the_29th(0),
    end: second_of_the_29th(2),
};

const fn second_of_the_29th(second: u64) -> Date {
    Date {
        year: 2028,
        month: 2,
        day: 29,
        hour: 0,
        minute: 0,
        second,
    }
}

/// Writes the answer to a command and tells whether it was refused.
fn answer(keeper: &mut Keeper, command: Command) -> Result<(), Refusal> {
    let mut line = [0; OUTPUT_BYTES];
    let mut out = [0; OUTPUT_BYTES];
    let answer = keeper.answer(command.write(&mut line)?, &mut out);
    print!("{}", String::from_utf8_lossy(answer.bytes));
    answer.result()
}

/// Prints the date in whose second a moment falls.
fn print_date(moment: i64) -> Result<(), Refusal> {
    let date = Date::of(moment)?;
    print!("{:04}-{:02}-{:02}T", date.year, date.month, date.day);
    print!("{:02}:{:02}:{:02} ", date.hour, date.minute, date.second);
    Ok(())
}

fn main() -> Result<(), Refusal> {
    let moment = PLANNED.moment()?;
    let start = Command::Start {
        board: 3,
        rule: Rule::Im,
        claim: 200,
        lower: moment,
        upper: moment + 1000,
    };
    let mut keeper = Keeper::fresh();
    answer(&mut keeper, start)?;
    for second in 0..5 {
        print_date(moment + second * SECOND)?;
        answer(&mut keeper, WINDOW)?;
        keeper.pass(1000)?;
    }
    Ok(())
}
