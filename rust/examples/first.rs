use boardtime::{Command, Keeper, Refusal, Rule, OUTPUT_BYTES};

/// Writes the answer to a command and tells whether it was refused.
fn answer(keeper: &mut Keeper, command: Command) -> Result<(), Refusal> {
    let mut line = [0; OUTPUT_BYTES];
    let mut out = [0; OUTPUT_BYTES];
    let answer = keeper.answer(command.write(&mut line)?, &mut out);
    print!("{}", String::from_utf8_lossy(answer.bytes));
    answer.result()
}

fn main() -> Result<(), Refusal> {
    let start = Command::Start {
        board: 3,
        rule: Rule::Im,
        claim: 200,
        lower: -1000,
        upper: 1000,
    };
    let reply = |tag| Command::Reply {
        peer: 4,
        tag,
        trailing: 9_999_000,
        leading: 10_001_000,
    };
    let mut keeper = Keeper::fresh();
    answer(&mut keeper, start)?;
    keeper.pass(10)?;
    answer(&mut keeper, Command::Request { peer: 4 })?;
    if answer(&mut keeper, reply(2)) == Err(Refusal::NotWaiting) {
        println!("another tag");
    }
    answer(&mut keeper, reply(1))?;
    answer(&mut keeper, Command::Read)
}
