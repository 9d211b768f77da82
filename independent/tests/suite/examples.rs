//! The thirteen marked examples, "at claim 200 where it names none".

use independent::Keeper;

use crate::caller::{after, ask, expect};

#[test]
fn the_whole_run() {
    expect(
        &mut Keeper::fresh(),
        &[
            ("(start 3 im 200 (-1000 1000))", "(started 3)"),
            ("(pass 10)", "(at 10 (9997000 10003000))"),
            ("(request 4)", "(sent 4 1)"),
            ("(pass 5)", "(at 15 (14996000 15004000))"),
            (
                "(reply 4 1 (9999000 10001000))",
                "(taken 4 (14996000 15002000))",
            ),
            ("(reply 4 1 (9999000 10001000))", "(no 7)"),
            ("(request 4)", "(sent 4 2)"),
            (
                "(reply 4 2 (15002001 15002001))",
                "(taken 4 (14996000 15002000))",
            ),
            ("(read)", "(time (14996000 16002200) (15499100 503100) 0 0)"),
            ("(pass 12x7)", "(no 1)"),
        ],
    );
}

#[test]
fn halving_toward_minus_infinity() {
    // The told edges are -5 and 1000202, and half their sum is 500098.5.
    let mut keeper = after(&["(start 0 im 200 (-5 2))"]);
    let answer = ask(&mut keeper, "(read)");
    assert_eq!(answer, "(time (-5 1000202) (500098 500104) 0 0)");
}

#[test]
fn equal_widths_without_the_tick_are_kept_under_mm() {
    // Both widths are 8000, and one tick at either edge adds 2000400 to that of
    // the reply.
    let mut keeper = after(&["(start 3 mm 200 (14996000 15004000))", "(request 4)"]);
    let answer = ask(&mut keeper, "(reply 4 1 (14997000 15005000))");
    assert_eq!(answer, "(kept 4 (14996000 15004000))");
}

#[test]
fn a_wider_reply_is_kept_under_mm() {
    let mut keeper = after(&["(start 3 mm 200 (14996000 15004000))", "(request 4)"]);
    let answer = ask(&mut keeper, "(reply 4 1 (14997000 15005001))");
    assert_eq!(answer, "(kept 4 (14996000 15004000))");
}
