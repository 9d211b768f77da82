//! The mistakes already met.

use crate::caller::{after, ask, expect};

#[test]
fn digits_read_up_to_the_first_stranger() {
    let mut keeper = after(&["(start 0 im 0 (0 0))"]);
    for line in ["(pass 12x7)", "(pass 5) ", "(read))"] {
        assert_eq!(ask(&mut keeper, line), "(no 1)");
    }
}

#[test]
fn the_wait_is_added_with_the_longest_tick_to_the_leading_edge() {
    // After 10 ticks of at most 1050000 ns, 10500000 ns are added to 1000.
    let lines = [
        "(start 0 im 50000 (0 20000000))",
        "(request 1)",
        "(pass 10)",
    ];
    let answer = ask(&mut after(&lines), "(reply 1 1 (1000 1000))");
    assert_eq!(answer, "(taken 1 (9500000 10501000))");

    // The trailing edge moves by one tick under im, and not by the wait.
    let answer = ask(&mut after(&lines), "(reply 1 1 (10650000 10750000))");
    assert_eq!(answer, "(taken 1 (9600000 21250000))");

    // Under mm both edges move outward, by 11 ticks.
    let lines = [
        "(start 0 mm 50000 (0 30000000))",
        "(request 1)",
        "(pass 10)",
    ];
    let answer = ask(&mut after(&lines), "(reply 1 1 (9600000 9700000))");
    assert_eq!(answer, "(taken 1 (-1950000 21250000))");
}

#[test]
fn the_widths_compared_under_mm_contain_the_wait_twice() {
    // The own width is 22100000 + 10 * 100000, and the wait with one tick more
    // adds 2 * 11550000 to the peer's: the same.
    let lines = [
        "(start 0 mm 50000 (0 22100000))",
        "(request 1)",
        "(pass 10)",
    ];
    let answer = ask(&mut after(&lines), "(reply 1 1 (10000000 10000000))");
    assert_eq!(answer, "(taken 1 (-1550000 21550000))");
    let answer = ask(&mut after(&lines), "(reply 1 1 (10000000 10000001))");
    assert_eq!(answer, "(kept 1 (9500000 32600000))");
}

#[test]
fn a_late_copy_of_a_dropped_requests_reply() {
    let mut keeper = after(&[
        "(start 0 im 0 (0 100))",
        "(request 1)",
        "(drop 1)",
        "(request 1)",
    ]);
    expect(
        &mut keeper,
        &[
            ("(reply 1 1 (10 20))", "(no 7)"),
            ("(waiting)", "(waiting (1 2))"),
            ("(reply 1 2 (10 20))", "(taken 1 (0 20))"),
        ],
    );
}

#[test]
fn halving_toward_zero() {
    // The told edges have the sums -3, -7, -1, 1, 3, 0 and -1000007.
    for (edges, answer) in [
        ("-1000005 2", "(time (-1000005 1000002) (-2 1000004) 0 0)"),
        ("-1000005 -2", "(time (-1000005 999998) (-4 1000002) 0 0)"),
        ("-1000001 0", "(time (-1000001 1000000) (-1 1000001) 0 0)"),
        ("-1000000 1", "(time (-1000000 1000001) (0 1000001) 0 0)"),
        ("-1000002 5", "(time (-1000002 1000005) (1 1000004) 0 0)"),
        ("-1000003 3", "(time (-1000003 1000003) (0 1000003) 0 0)"),
        (
            "-1000005 -1000002",
            "(time (-1000005 -2) (-500004 500002) 0 0)",
        ),
    ] {
        let start = format!("(start 0 im 0 ({edges}))");
        assert_eq!(ask(&mut after(&[&start]), "(read)"), answer);
    }
}
