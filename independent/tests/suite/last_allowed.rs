//! Last allowed and first refused values.

use independent::{Keeper, Rule};

use crate::caller::{after, ask, expect};

#[test]
fn claim() {
    let mut keeper = Keeper::fresh();
    expect(
        &mut keeper,
        &[
            ("(start 0 im 50001 (0 0))", "(no 2)"),
            ("(start 0 im 50000 (0 0))", "(started 0)"),
            ("(pass 1)", "(at 1 (950000 1050000))"),
        ],
    );
}

#[test]
fn board_and_peer() {
    let mut keeper = Keeper::fresh();
    expect(
        &mut keeper,
        &[
            ("(start 16 im 0 (0 0))", "(no 2)"),
            ("(start 15 im 0 (0 0))", "(started 15)"),
            ("(request 16)", "(no 2)"),
            ("(request 14)", "(sent 14 1)"),
            ("(request 0)", "(sent 0 2)"),
            ("(drop 16)", "(no 2)"),
            ("(reply 16 1 (0 0))", "(no 2)"),
            ("(flight 16 (0 0))", "(no 2)"),
            ("(flight 13 (0 0))", "(flight 13)"),
        ],
    );
}

#[test]
fn flight_times() {
    let mut keeper = after(&["(start 0 im 0 (0 0))"]);
    expect(
        &mut keeper,
        &[
            ("(flight 1 (1000000001 0))", "(no 2)"),
            ("(flight 1 (0 1000000001))", "(no 2)"),
            ("(flight 1 (1000000001 1000000001))", "(no 2)"),
            ("(flight 1 (1_000_000_001 0))", "(no 2)"),
            ("(flight 1 (0 1_000_000_001))", "(no 2)"),
            // 2 to the power 32, which must not count as 0, and the same plus 1.
            ("(flight 1 (4294967296 0))", "(no 2)"),
            ("(flight 1 (0 4294967297))", "(no 2)"),
            ("(flight 1 (9999999999999999999 0))", "(no 2)"),
            ("(flight 1 (0 9999999999999999999))", "(no 2)"),
            ("(flight 1 (1000000000 0))", "(flight 1)"),
            ("(flight 2 (0 1000000000))", "(flight 2)"),
            ("(flight 3 (1_000_000_000 1_000_000_000))", "(flight 3)"),
            ("(flight 4 (0 0))", "(flight 4)"),
        ],
    );
    let limit = 1_000_000_000;
    assert_eq!(keeper.out_times[..5], [0, limit, 0, limit, 0]);
    assert_eq!(keeper.back_times[..5], [0, 0, limit, limit, 0]);
}

#[test]
fn pass() {
    let mut keeper = after(&["(start 0 im 0 (0 0))"]);
    expect(
        &mut keeper,
        &[
            ("(pass 86400001)", "(no 2)"),
            (
                "(pass 86400000)",
                "(at 86400000 (86400000000000 86400000000000))",
            ),
            ("(pass 0)", "(at 86400000 (86400000000000 86400000000000))"),
        ],
    );
}

#[test]
fn wait() {
    let mut keeper = after(&["(start 0 im 0 (0 0))", "(request 1)", "(pass 3600001)"]);
    assert_eq!(ask(&mut keeper, "(reply 1 1 (0 0))"), "(no 8)");
    // The request still waits.
    assert_eq!(ask(&mut keeper, "(waiting)"), "(waiting (1 1))");

    let mut keeper = after(&["(start 0 im 0 (0 0))", "(request 1)", "(pass 3600000)"]);
    let answer = ask(&mut keeper, "(reply 1 1 (0 0))");
    assert_eq!(answer, "(taken 1 (3600000000000 3600000000000))");
}

#[test]
fn edges_of_start() {
    let mut keeper = Keeper::fresh();
    expect(
        &mut keeper,
        &[
            ("(start 0 im 0 (0 4000000000000000001))", "(no 2)"),
            (
                "(start 0 im 0 (4000000000000000001 4000000000000000001))",
                "(no 2)",
            ),
            ("(start 0 im 0 (-4000000000000000001 0))", "(no 2)"),
            ("(start 0 im 0 (1 0))", "(no 2)"),
            (
                "(start 0 im 0 (-4000000000000000000 4000000000000000000))",
                "(started 0)",
            ),
            (
                "(read)",
                "(time (-4000000000000000000 4000000000001000000) \
                (500000 4000000000000500000) 0 0)",
            ),
        ],
    );
}

#[test]
fn edges_of_reply() {
    let mut keeper = after(&["(start 0 im 0 (0 0))", "(request 1)", "(request 2)"]);
    expect(
        &mut keeper,
        &[
            ("(reply 1 1 (0 4000000000000000001))", "(no 2)"),
            ("(reply 1 1 (-4000000000000000001 0))", "(no 2)"),
            ("(reply 1 1 (1 0))", "(no 2)"),
            (
                "(reply 1 1 (-4000000000000000000 4000000000000000000))",
                "(taken 1 (0 0))",
            ),
            (
                "(reply 2 2 (4000000000000000000 4000000000000000000))",
                "(conflict 2 (0 0))",
            ),
        ],
    );
}

#[test]
fn digits() {
    let mut keeper = Keeper::fresh();
    expect(
        &mut keeper,
        &[
            ("(pass 9999999999999999999)", "(no 2)"),
            ("(pass 10000000000000000000)", "(no 1)"),
            ("(request 99999999999999999999)", "(no 1)"),
            ("(start 0 im 0 (-9999999999999999999 0))", "(no 2)"),
            ("(start 0 im 0 (-10000000000000000000 0))", "(no 1)"),
            ("(start 0 im 0 (0 9999999999999999999))", "(no 2)"),
            ("(start 0 im 0 (0 10000000000000000000))", "(no 1)"),
            // 2 to the power 64 plus 5 has 20 digits and must not count as 5.
            ("(pass 18446744073709551621)", "(no 1)"),
            // The limit counts digits only.
            ("(pass 9_999_999_999_999_999_999)", "(no 2)"),
            ("(pass 10_000_000_000_000_000_000)", "(no 1)"),
            ("(pass 18_446_744_073_709_551_621)", "(no 1)"),
        ],
    );
}

#[test]
fn tag() {
    let mut keeper = after(&["(start 0 im 0 (0 0))", "(request 1)"]);
    expect(
        &mut keeper,
        &[
            ("(reply 1 0 (0 0))", "(no 2)"),
            ("(reply 1 16777216 (0 0))", "(no 2)"),
            ("(reply 1 16777215 (0 0))", "(no 7)"),
            // 2 to the power 32 plus 1 must not count as 1.
            ("(reply 1 4294967297 (0 0))", "(no 2)"),
            ("(reply 1 1 (0 0))", "(taken 1 (0 0))"),
        ],
    );
}

#[test]
fn last_tag_by_a_hand_made_keeper() {
    let mut keeper = after(&["(start 0 im 0 (0 0))"]);
    keeper.requests = 16_777_214;
    expect(
        &mut keeper,
        &[
            ("(request 1)", "(sent 1 16777215)"),
            ("(request 1)", "(no 6)"),
            ("(request 2)", "(no 9)"),
            ("(reply 1 16777215 (0 0))", "(taken 1 (0 0))"),
            ("(request 1)", "(no 9)"),
        ],
    );
}

#[test]
fn upper_edge_in_pass() {
    let mut keeper = after(&["(start 0 im 1 (0 3999999999998999999))"]);
    let answer = ask(&mut keeper, "(pass 1)");
    assert_eq!(answer, "(at 1 (999999 4000000000000000000))");
    assert_eq!(ask(&mut keeper, "(pass 1)"), "(no 5)");
    assert_eq!(
        ask(&mut keeper, "(pass 0)"),
        "(at 1 (999999 4000000000000000000))"
    );
    let mut keeper = after(&["(start 0 im 1 (0 3999999999999000000))"]);
    assert_eq!(ask(&mut keeper, "(pass 1)"), "(no 5)");
}

#[test]
fn ticks_by_a_hand_made_keeper() {
    let mut keeper = after(&["(start 0 im 0 (0 0))"]);
    keeper.ticks = 3_999_999_999_999_999_999;
    assert_eq!(ask(&mut keeper, "(pass 2)"), "(no 5)");
    let answer = ask(&mut keeper, "(pass 1)");
    assert_eq!(answer, "(at 4000000000000000000 (1000000 1000000))");
    assert_eq!(ask(&mut keeper, "(pass 1)"), "(no 5)");
    // At the limit the other calls go on.
    assert_eq!(ask(&mut keeper, "(request 1)"), "(sent 1 1)");
    assert_eq!(
        ask(&mut keeper, "(reply 1 1 (0 1000000))"),
        "(taken 1 (1000000 1000000))"
    );
}

#[test]
fn adoption_at_the_upper_end_of_the_range() {
    let lines = [
        "(start 0 mm 0 (3999999999990000000 3999999999999000000))",
        "(request 1)",
        "(pass 1)",
    ];
    let mut keeper = after(&lines);
    // Each edge moves outward by two ticks.
    let reply = "(reply 1 1 (3999999999998000000 3999999999998000001))";
    assert_eq!(ask(&mut keeper, reply), "(no 5)");
    assert_eq!(ask(&mut keeper, "(waiting)"), "(waiting (1 1))");
    let reply = "(reply 1 1 (3999999999997999999 3999999999998000000))";
    let answer = "(taken 1 (3999999999995999999 4000000000000000000))";
    assert_eq!(ask(&mut keeper, reply), answer);
}

#[test]
fn adoption_at_the_lower_end_of_the_range() {
    let lines = [
        "(start 0 mm 0 (-4000000000000000000 -3999999999990000000))",
        "(request 1)",
        "(pass 1)",
    ];
    let mut keeper = after(&lines);
    // Each edge moves outward by two ticks.
    let reply = "(reply 1 1 (-3999999999998000001 -3999999999998000001))";
    assert_eq!(ask(&mut keeper, reply), "(no 5)");
    let reply = "(reply 1 1 (-3999999999998000000 -3999999999998000000))";
    let answer = "(taken 1 (-4000000000000000000 -3999999999996000000))";
    assert_eq!(ask(&mut keeper, reply), answer);
}

#[test]
fn the_bracket_may_end_above_the_range_under_im() {
    let lines = [
        "(start 0 im 0 (3999999999990000000 3999999999999000000))",
        "(request 1)",
        "(pass 1)",
    ];
    let mut keeper = after(&lines);
    let reply = "(reply 1 1 (3999999999995000000 4000000000000000000))";
    let answer = "(taken 1 (3999999999994000000 4000000000000000000))";
    assert_eq!(ask(&mut keeper, reply), answer);
}

#[test]
fn one_shared_moment_at_either_end() {
    let start = ["(start 0 im 0 (10 20))", "(request 1)"];
    for (reply, answer) in [
        ("(reply 1 1 (1000020 1000030))", "(taken 1 (20 20))"),
        ("(reply 1 1 (1000021 1000030))", "(conflict 1 (10 20))"),
        ("(reply 1 1 (0 10))", "(taken 1 (10 10))"),
        ("(reply 1 1 (0 9))", "(conflict 1 (10 20))"),
    ] {
        assert_eq!(ask(&mut after(&start), reply), answer, "{reply}");
    }
}

#[test]
fn the_widest_keeper_under_mm() {
    let start = "(start 0 mm 50000 (-4000000000000000000 4000000000000000000))";
    let taken = "(taken 1 (-4000000000000000000 4000000000000000000))";
    let kept = "(kept 1 (-4000000000000000000 4000000000000000000))";
    for (reply, answer) in [
        // One tick less at either edge than the keeper has.
        (
            "(reply 1 1 (-3999999999998950000 3999999999998950000))",
            taken,
        ),
        (
            "(reply 1 1 (-3999999999998950000 3999999999998950001))",
            kept,
        ),
        (
            "(reply 1 1 (-4000000000000000000 4000000000000000000))",
            kept,
        ),
    ] {
        let mut keeper = after(&[start, "(request 1)"]);
        assert_eq!(ask(&mut keeper, reply), answer, "{reply}");
    }

    // With the longest wait the peer's width is the largest that can occur.
    let mut keeper = after(&[start, "(request 1)"]);
    keeper.ticks = 3_600_000;
    assert_eq!(keeper.rule, Rule::Mm);
    let answer = ask(
        &mut keeper,
        "(reply 1 1 (-4000000000000000000 4000000000000000000))",
    );
    assert_eq!(answer, kept);
}

#[test]
fn the_longest_answers() {
    let mut keeper = after(&["(start 5 mm 0 (-3999999999999999999 -3999999999999999998))"]);
    keeper.requests = 16_777_200;
    for peer in (0..16).rev().filter(|&peer| peer != 5) {
        let sent = format!("(sent {peer} {})", keeper.requests + 1);
        assert_eq!(ask(&mut keeper, format!("(request {peer})")), sent);
    }
    let waiting = ask(&mut keeper, "(waiting)");
    assert_eq!(waiting.len() + 1, 211);
    let answer = "(waiting (15 16777201) (14 16777202) (13 16777203) (12 16777204) \
        (11 16777205) (10 16777206) (9 16777207) (8 16777208) (7 16777209) (6 16777210) \
        (4 16777211) (3 16777212) (2 16777213) (1 16777214) (0 16777215))";
    assert_eq!(waiting, answer);

    keeper.conflicts = 16_777_200;
    let answer = "(time (-3999999999999999999 -3999999999998999998) \
        (-3999999999999499999 500001) 16777200 15)";
    assert_eq!(ask(&mut keeper, "(read)"), answer);
}
