//! Each cause of a refusal, and the order in which the causes are tried.

use independent::{answer_line, Answered, Keeper};

use crate::caller::{after, ask, expect, UNTOUCHED};

#[test]
fn number_3() {
    let mut keeper = Keeper::fresh();
    for line in [
        "(pass 1)",
        "(request 0)",
        "(reply 0 1 (0 0))",
        "(drop 0)",
        "(read)",
        "(waiting)",
        "(window 0 (1999-12-31T00:00:00 2000-01-02T00:00:00))",
        "(flight 0 (0 0))",
        "(flight 1 (1000000000 1000000000))",
    ] {
        assert_eq!(ask(&mut keeper, line), "(no 3)", "{line}");
    }
    assert_eq!(ask(&mut keeper, "(start 1 im 0 (0 0))"), "(started 1)");
    assert_eq!(ask(&mut keeper, "(start 1 im 0 (0 0))"), "(no 3)");
    // Number 2 comes first.
    assert_eq!(ask(&mut keeper, "(start 1 im 0 (1 0))"), "(no 2)");
}

#[test]
fn number_4() {
    let mut keeper = after(&["(start 7 im 0 (0 0))"]);
    expect(
        &mut keeper,
        &[
            ("(request 7)", "(no 4)"),
            ("(reply 7 1 (0 0))", "(no 4)"),
            ("(drop 7)", "(no 4)"),
            ("(flight 7 (0 0))", "(no 4)"),
            ("(reply 7 0 (0 0))", "(no 2)"),
            ("(flight 7 (0 1000000001))", "(no 2)"),
        ],
    );
    // Number 4 comes before number 9.
    keeper.requests = 16_777_215;
    assert_eq!(ask(&mut keeper, "(request 7)"), "(no 4)");
}

#[test]
fn number_6() {
    let mut keeper = after(&["(start 7 im 0 (0 0))", "(request 1)"]);
    expect(
        &mut keeper,
        &[
            ("(request 1)", "(no 6)"),
            ("(flight 1 (0 0))", "(no 6)"),
            ("(flight 2 (5 6))", "(flight 2)"),
            ("(request 2)", "(sent 2 2)"),
            ("(flight 2 (5 6))", "(no 6)"),
            ("(waiting)", "(waiting (1 1) (2 2))"),
        ],
    );
}

#[test]
fn number_7() {
    let mut keeper = after(&["(start 7 im 0 (0 0))", "(request 1)", "(request 2)"]);
    expect(
        &mut keeper,
        &[
            ("(reply 3 1 (0 0))", "(no 7)"),
            ("(reply 1 2 (0 0))", "(no 7)"),
            ("(reply 2 1 (0 0))", "(no 7)"),
            ("(drop 3)", "(no 7)"),
            ("(drop 1)", "(dropped 1)"),
            ("(drop 1)", "(no 7)"),
            ("(reply 1 1 (0 0))", "(no 7)"),
        ],
    );
}

#[test]
fn number_8_between_7_and_the_conflict_test() {
    let mut keeper = after(&["(start 7 im 0 (0 0))", "(request 1)", "(pass 3600001)"]);
    expect(
        &mut keeper,
        &[
            ("(reply 1 2 (0 0))", "(no 7)"),
            // This bracket would be in conflict.
            ("(reply 1 1 (-9 -9))", "(no 8)"),
            (
                "(read)",
                "(time (3600001000000 3600002000000) (3600001500000 500000) 0 1)",
            ),
            // A late reply does not keep the request from being dropped.
            ("(drop 1)", "(dropped 1)"),
        ],
    );
}

#[test]
fn conflict_comes_before_5() {
    // Adoption would leave the range, but the bracket shares no moment.
    let start = "(start 0 mm 0 (-3999999999990000000 -3999999999980000000))";
    let mut keeper = after(&[start, "(request 1)", "(pass 1)"]);
    let reply = "(reply 1 1 (-4000000000000000000 -4000000000000000000))";
    let answer = "(conflict 1 (-3999999999989000000 -3999999999979000000))";
    assert_eq!(ask(&mut keeper, reply), answer);
}

#[test]
fn kept_is_no_adoption() {
    // The widened interval leaves the range, but is too wide to be adopted.
    let start = "(start 0 mm 0 (-4000000000000000000 -4000000000000000000))";
    let mut keeper = after(&[start, "(request 1)", "(pass 1)"]);
    let reply = "(reply 1 1 (-4000000000000000000 -4000000000000000000))";
    let answer = "(kept 1 (-3999999999999000000 -3999999999999000000))";
    assert_eq!(ask(&mut keeper, reply), answer);
    assert_eq!(ask(&mut keeper, "(waiting)"), "(waiting)");
}

#[test]
fn number_10() {
    let started = after(&["(start 0 im 0 (0 0))"]);
    let too_long = [b'x'; 200];
    for line in [
        &b"(pass 1)"[..],
        b"(pass 86400001)",
        b"",
        b"(start 0 im 0 (0 0))",
        b"(window 16 (2000-00-00T00:00:00 2000-00-00T00:00:00))",
        b"(window 0 (2000-00-00T00:00:00 2000-00-00T00:00:00))",
        b"(window 0 (2000-01-01T00:00:00 2000-01-01T00:00:00))",
        b"(window 0 (2000-01-01T00:00:00 2000-01-02T00:00:00))",
        b"(flight 1 (1 2))",
        b"(flight 1 (-1 2))",
        b"(flight 1 (1 1000000001))",
        b"(flight 0 (1 2))",
        &too_long,
    ] {
        for length in [0, 1, 100, 255] {
            let mut keeper = started.clone();
            let mut out = vec![UNTOUCHED; length];
            let answered = answer_line(&mut keeper, line, &mut out);
            assert_eq!(
                answered,
                Answered {
                    number: 10,
                    length: 0
                }
            );
            assert_eq!(keeper, started);
            assert!(out.iter().all(|&byte| byte == UNTOUCHED));
        }
    }
}

#[test]
fn shortest_output() {
    let mut keeper = after(&["(start 0 im 0 (0 0))"]);
    let mut out = [UNTOUCHED; 256];
    let answered = answer_line(&mut keeper, b"(pass 1)", &mut out);
    assert_eq!(
        answered,
        Answered {
            number: 0,
            length: 25
        }
    );
    assert_eq!(&out[..25], b"(at 1 (1000000 1000000))\n");
    assert!(out[25..].iter().all(|&byte| byte == UNTOUCHED));
}

#[test]
fn conflicts_end_the_request_and_are_counted() {
    let start = "(start 0 mm 0 (0 2000000))";
    let mut keeper = after(&[start, "(request 1)", "(request 2)"]);
    expect(
        &mut keeper,
        &[
            ("(reply 1 1 (3000001 3000001))", "(conflict 1 (0 2000000))"),
            ("(read)", "(time (0 3000000) (1500000 1500000) 1 1)"),
            ("(reply 1 1 (3000001 3000001))", "(no 7)"),
            ("(reply 2 2 (-1 -1))", "(conflict 2 (0 2000000))"),
            ("(read)", "(time (0 3000000) (1500000 1500000) 2 0)"),
            ("(pass 1)", "(at 1 (1000000 3000000))"),
            ("(request 1)", "(sent 1 3)"),
            ("(reply 1 3 (1000000 1000000))", "(taken 1 (0 2000000))"),
        ],
    );
}
