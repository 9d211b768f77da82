//! Readings that leave, and replies that arrive, up to a tick after the last
//! count. The longest tick is 1000000 ns at claim 0, 1000200 ns at claim 200
//! and 1050000 ns at claim 50000.

use crate::caller::{after, ask, expect};

/// Starts a keeper for each line on the left and asks it for the time.
fn expect_times(table: &[(&str, &str)]) {
    for (start, answer) in table {
        assert_eq!(ask(&mut after(&[start]), "(read)"), *answer, "{start}");
    }
}

/// Hands each reply on the left to a keeper after these lines.
fn expect_replies(lines: &[&str], table: &[(&str, &str)]) {
    for (reply, answer) in table {
        assert_eq!(ask(&mut after(lines), reply), *answer, "{lines:?} {reply}");
    }
}

#[test]
fn the_told_upper_edge() {
    expect_times(&[
        (
            "(start 3 im 0 (10 20))",
            "(time (10 1000020) (500015 500005) 0 0)",
        ),
        (
            "(start 3 im 200 (10 20))",
            "(time (10 1000220) (500115 500105) 0 0)",
        ),
        (
            "(start 3 im 50000 (10 20))",
            "(time (10 1050020) (525015 525005) 0 0)",
        ),
        // The rule makes no difference.
        (
            "(start 3 mm 200 (10 20))",
            "(time (10 1000220) (500115 500105) 0 0)",
        ),
    ]);
}

#[test]
fn the_keepers_edges_stay_those_at_the_last_tick() {
    expect(
        &mut after(&["(start 3 im 50000 (10 20))", "(request 4)", "(request 5)"]),
        &[
            ("(read)", "(time (10 1050020) (525015 525005) 0 2)"),
            ("(read)", "(time (10 1050020) (525015 525005) 0 2)"),
            ("(pass 2)", "(at 2 (1900010 2100020))"),
            ("(read)", "(time (1900010 3150020) (2525015 625005) 0 2)"),
            ("(pass 0)", "(at 2 (1900010 2100020))"),
            (
                "(reply 4 1 (3000000 3000000))",
                "(taken 4 (1950000 2100020))",
            ),
            ("(read)", "(time (1950000 3150020) (2550010 600010) 0 1)"),
            (
                "(reply 5 2 (4000000 4000000))",
                "(conflict 5 (1950000 2100020))",
            ),
            ("(read)", "(time (1950000 3150020) (2550010 600010) 1 0)"),
            ("(pass 1)", "(at 3 (2900000 3150020))"),
        ],
    );
}

#[test]
fn a_reading_and_a_window_move_nothing() {
    let before = after(&["(start 3 mm 200 (-5 2))", "(request 4)", "(pass 7)"]);
    let mut keeper = before.clone();
    for line in [
        "(read)",
        "(window 1 (2000-01-01T00:00:00 2000-01-01T00:00:01))",
        "(read)",
    ] {
        ask(&mut keeper, line);
        assert_eq!(keeper, before);
    }
}

#[test]
#[rustfmt::skip]
fn a_told_edge_may_pass_the_range() {
    expect_times(&[
        // The last that does not, and the first that does.
        (
            "(start 3 im 0 (0 3999999999999000000))",
            "(time (0 4000000000000000000) (2000000000000000000 2000000000000000000) 0 0)",
        ),
        (
            "(start 3 im 0 (0 3999999999999000001))",
            "(time (0 4000000000000000001) (2000000000000000000 2000000000000000001) 0 0)",
        ),
        (
            "(start 3 im 0 (0 4000000000000000000))",
            "(time (0 4000000000001000000) (2000000000000500000 2000000000000500000) 0 0)",
        ),
        (
            "(start 3 im 200 (4000000000000000000 4000000000000000000))",
            "(time (4000000000000000000 4000000000001000200) (4000000000000500100 500100) 0 0)",
        ),
        (
            "(start 3 mm 50000 (4000000000000000000 4000000000000000000))",
            "(time (4000000000000000000 4000000000001050000) (4000000000000525000 525000) 0 0)",
        ),
        (
            "(start 3 im 50000 (-4000000000000000000 4000000000000000000))",
            "(time (-4000000000000000000 4000000000001050000) (525000 4000000000000525000) 0 0)",
        ),
        // The lower edge is told as it is, so it never leaves the range.
        (
            "(start 3 im 50000 (-4000000000000000000 -4000000000000000000))",
            "(time (-4000000000000000000 -3999999999998950000) (-3999999999999475000 525000) 0 0)",
        ),
    ]);
}

#[test]
fn the_keeper_itself_does_not_pass_the_range() {
    let edge = "4000000000000000000";
    let mut keeper = after(&[&format!("(start 3 im 0 ({edge} {edge}))")]);
    let answer = format!("(time ({edge} 4000000000001000000) (4000000000000500000 500000) 0 0)");
    assert_eq!(ask(&mut keeper, "(pass 1)"), "(no 5)");
    assert_eq!(ask(&mut keeper, "(read)"), answer);
    let answer = format!("(at 0 ({edge} {edge}))");
    assert_eq!(ask(&mut keeper, "(pass 0)"), answer);
}

#[test]
fn halving_of_the_told_edges() {
    expect_times(&[
        // Odd sums above 0: 1000197, 1000001 and 999999.
        (
            "(start 3 im 200 (-5 2))",
            "(time (-5 1000202) (500098 500104) 0 0)",
        ),
        (
            "(start 3 im 0 (0 1))",
            "(time (0 1000001) (500000 500001) 0 0)",
        ),
        (
            "(start 3 im 1 (-1 -1))",
            "(time (-1 1000000) (499999 500001) 0 0)",
        ),
        // The keeper's sum is odd, and so is the tick; the told sum is even.
        (
            "(start 3 im 1 (-5 2))",
            "(time (-5 1000003) (499999 500004) 0 0)",
        ),
        // The sums 0, -1, -2 and -3.
        (
            "(start 3 im 200 (-1000202 2))",
            "(time (-1000202 1000202) (0 1000202) 0 0)",
        ),
        (
            "(start 3 im 200 (-1000203 2))",
            "(time (-1000203 1000202) (-1 1000203) 0 0)",
        ),
        (
            "(start 3 im 200 (-1000204 2))",
            "(time (-1000204 1000202) (-1 1000203) 0 0)",
        ),
        (
            "(start 3 im 200 (-1000205 2))",
            "(time (-1000205 1000202) (-2 1000204) 0 0)",
        ),
        // Both told edges below 0: the sums -1000002 and -1000003.
        (
            "(start 3 im 0 (-1000001 -1000001))",
            "(time (-1000001 -1) (-500001 500000) 0 0)",
        ),
        (
            "(start 3 im 0 (-1000002 -1000001))",
            "(time (-1000002 -1) (-500002 500001) 0 0)",
        ),
    ]);
}

#[test]
fn the_lower_end_of_the_bracket() {
    // One longest tick above the upper edge, which is 20, and one ns more.
    for (claim, shared, conflict) in [
        (0, 1_000_020, 1_000_021),
        (200, 1_000_220, 1_000_221),
        (50_000, 1_050_020, 1_050_021),
    ] {
        let shared = format!("(reply 4 1 ({shared} {shared}))");
        let conflict = format!("(reply 4 1 ({conflict} {conflict}))");
        for (rule, answer) in [("im", "(taken 4 (20 20))"), ("mm", "(kept 4 (10 20))")] {
            let start = format!("(start 3 {rule} {claim} (10 20))");
            let table = [
                (shared.as_str(), answer),
                (conflict.as_str(), "(conflict 4 (10 20))"),
            ];
            expect_replies(&[&start, "(request 4)"], &table);
        }
    }
}

#[test]
fn the_lower_end_is_one_tick_whatever_the_wait() {
    // The keeper's edges are 2999410 and 3000620 after three ticks.
    for (rule, answer) in [
        ("im", "(taken 4 (3000620 3000620))"),
        ("mm", "(kept 4 (2999410 3000620))"),
    ] {
        let start = format!("(start 3 {rule} 200 (10 20))");
        expect_replies(
            &[&start, "(request 4)", "(pass 3)"],
            &[
                ("(reply 4 1 (4000820 4000820))", answer),
                (
                    "(reply 4 1 (4000821 4000821))",
                    "(conflict 4 (2999410 3000620))",
                ),
            ],
        );
    }
}

#[test]
fn the_upper_end_of_the_bracket_is_unchanged() {
    // Without a wait it is the leading edge.
    for (rule, answer) in [("im", "(taken 4 (10 10))"), ("mm", "(kept 4 (10 20))")] {
        for claim in [0, 200, 50_000] {
            let start = format!("(start 3 {rule} {claim} (10 20))");
            expect_replies(
                &[&start, "(request 4)"],
                &[
                    ("(reply 4 1 (0 10))", answer),
                    ("(reply 4 1 (0 9))", "(conflict 4 (10 20))"),
                ],
            );
        }
    }
    // Three ticks of 1000200 ns above -1190 is the lower edge, 2999410.
    for (rule, answer) in [
        ("im", "(taken 4 (2999410 2999410))"),
        ("mm", "(kept 4 (2999410 3000620))"),
    ] {
        let start = format!("(start 3 {rule} 200 (10 20))");
        expect_replies(
            &[&start, "(request 4)", "(pass 3)"],
            &[
                ("(reply 4 1 (-2000 -1190))", answer),
                (
                    "(reply 4 1 (-2000 -1191))",
                    "(conflict 4 (2999410 3000620))",
                ),
            ],
        );
    }
}

#[test]
fn one_shared_moment_is_enough_for_an_adoption() {
    // The own width is twice the longest tick, as is that of a single moment
    // moved outward.
    expect_replies(
        &["(start 3 mm 200 (0 2000400))", "(request 4)"],
        &[
            (
                "(reply 4 1 (3000600 3000600))",
                "(taken 4 (2000400 4000800))",
            ),
            ("(reply 4 1 (3000601 3000601))", "(conflict 4 (0 2000400))"),
            ("(reply 4 1 (0 0))", "(taken 4 (-1000200 1000200))"),
            ("(reply 4 1 (-1 -1))", "(conflict 4 (0 2000400))"),
        ],
    );
}

#[test]
fn both_ends_of_the_bracket_inside_the_edges() {
    expect_replies(
        &["(start 3 im 200 (0 2000000))", "(request 4)"],
        &[
            (
                "(reply 4 1 (1500200 1600000))",
                "(taken 4 (500000 1600000))",
            ),
            // A reply within a tick of the lower edge does not raise it.
            ("(reply 4 1 (1000200 1600000))", "(taken 4 (0 1600000))"),
            ("(reply 4 1 (1000201 1600000))", "(taken 4 (1 1600000))"),
        ],
    );
}

#[test]
#[rustfmt::skip]
fn a_bracket_that_begins_below_the_range() {
    let low = "(taken 4 (-4000000000000000000 -3999999999995000000))";
    let raised = "(taken 4 (-3999999999999999999 -3999999999995000000))";
    expect_replies(
        &["(start 3 im 0 (-4000000000000000000 -3999999999990000000))", "(request 4)"],
        &[
            ("(reply 4 1 (-4000000000000000000 -3999999999995000000))", low),
            ("(reply 4 1 (-3999999999999000000 -3999999999995000000))", low),
            ("(reply 4 1 (-3999999999998999999 -3999999999995000000))", raised),
            (
                "(reply 4 1 (-4000000000000000000 -4000000000000000000))",
                "(taken 4 (-4000000000000000000 -4000000000000000000))",
            ),
        ],
    );
    expect_replies(
        &["(start 3 im 50000 (-4000000000000000000 -3999999999990000000))", "(request 4)"],
        &[
            ("(reply 4 1 (-4000000000000000000 -3999999999995000000))", low),
            ("(reply 4 1 (-3999999999998950000 -3999999999995000000))", low),
            ("(reply 4 1 (-3999999999998949999 -3999999999995000000))", raised),
        ],
    );
}

#[test]
fn widths_under_mm_without_a_wait() {
    for (start, taken, kept) in [
        (
            "(start 3 mm 0 (0 2008000))",
            "(taken 4 (-999000 1009000))",
            "(kept 4 (0 2008000))",
        ),
        (
            "(start 3 mm 200 (0 2008400))",
            "(taken 4 (-999200 1009200))",
            "(kept 4 (0 2008400))",
        ),
        (
            "(start 3 mm 50000 (0 2108000))",
            "(taken 4 (-1049000 1059000))",
            "(kept 4 (0 2108000))",
        ),
    ] {
        expect_replies(
            &[start, "(request 4)"],
            &[
                ("(reply 4 1 (1000 9000))", taken),
                ("(reply 4 1 (1000 9001))", kept),
                ("(reply 4 1 (999 9000))", kept),
            ],
        );
    }
}

#[test]
fn widths_under_mm_after_a_wait() {
    for (start, pass, taken, kept) in [
        // Two ticks outward: 8000 and 4 * 1000000.
        (
            "(start 3 mm 0 (0 4008000))",
            "(pass 1)",
            "(taken 4 (-1999000 2009000))",
            "(kept 4 (1000000 5008000))",
        ),
        // Three ticks outward: 8000 and 6 * 1000200, which is 6008400 and twice
        // the 400 that a tick adds to the own width.
        (
            "(start 3 mm 200 (0 6008400))",
            "(pass 2)",
            "(taken 4 (-2999600 3009600))",
            "(kept 4 (1999600 8008800))",
        ),
    ] {
        expect_replies(
            &[start, "(request 4)", pass],
            &[
                ("(reply 4 1 (1000 9000))", taken),
                ("(reply 4 1 (1000 9001))", kept),
                ("(reply 4 1 (999 9000))", kept),
            ],
        );
    }
}

#[test]
fn the_width_test_does_not_use_the_told_edges() {
    // The told width would be enough.
    expect_replies(
        &["(start 3 mm 200 (0 2008399))", "(request 4)"],
        &[("(reply 4 1 (1000 9000))", "(kept 4 (0 2008399))")],
    );
}

#[test]
#[rustfmt::skip]
fn an_adoption_leaves_the_range_by_the_added_tick() {
    for (start, refused, last, taken) in [
        (
            "(start 3 mm 0 (3999999999990000000 4000000000000000000))",
            "(reply 4 1 (3999999999998000000 3999999999999000001))",
            "(reply 4 1 (3999999999998000000 3999999999999000000))",
            "(taken 4 (3999999999997000000 4000000000000000000))",
        ),
        (
            "(start 3 mm 50000 (3999999999990000000 4000000000000000000))",
            "(reply 4 1 (3999999999998000000 3999999999998950001))",
            "(reply 4 1 (3999999999998000000 3999999999998950000))",
            "(taken 4 (3999999999996950000 4000000000000000000))",
        ),
        (
            "(start 3 mm 0 (-4000000000000000000 -3999999999990000000))",
            "(reply 4 1 (-3999999999999000001 -3999999999998000000))",
            "(reply 4 1 (-3999999999999000000 -3999999999998000000))",
            "(taken 4 (-4000000000000000000 -3999999999997000000))",
        ),
        (
            "(start 3 mm 50000 (-4000000000000000000 -3999999999990000000))",
            "(reply 4 1 (-3999999999998950001 -3999999999998000000))",
            "(reply 4 1 (-3999999999998950000 -3999999999998000000))",
            "(taken 4 (-4000000000000000000 -3999999999996950000))",
        ),
    ] {
        // The refused reply leaves its request waiting.
        expect(
            &mut after(&[start, "(request 4)"]),
            &[(refused, "(no 5)"), ("(waiting)", "(waiting (4 1))"), (last, taken)],
        );
    }
}

#[test]
#[rustfmt::skip]
fn a_conflict_and_a_greater_width_come_before_5() {
    let reply = "(reply 4 1 (-4000000000000000000 -4000000000000000000))";
    for (start, answer) in [
        (
            "(start 3 mm 0 (-3999999999999999999 -3999999999990000000))",
            "(conflict 4 (-3999999999999999999 -3999999999990000000))",
        ),
        // One ns narrower than what would be adopted, and as wide.
        (
            "(start 3 mm 0 (-4000000000000000000 -3999999999998000001))",
            "(kept 4 (-4000000000000000000 -3999999999998000001))",
        ),
        ("(start 3 mm 0 (-4000000000000000000 -3999999999998000000))", "(no 5)"),
    ] {
        expect_replies(&[start, "(request 4)"], &[(reply, answer)]);
    }
}

#[test]
#[rustfmt::skip]
fn the_limit_of_the_wait_is_on_w() {
    let reply = "(reply 4 1 (5000000000000 5000000000000))";
    let wider = "(reply 4 1 (5000000000000 5000000000001))";
    for (start, taken, kept) in [
        // Outward by 3600001 * 1000000 ns. The own width is twice that.
        (
            "(start 3 mm 0 (0 7200002000000))",
            "(taken 4 (1399999000000 8600001000000))",
            "(kept 4 (3600000000000 10800002000000))",
        ),
        // Outward by 3600001 * 1050000 ns. The own width becomes twice that.
        (
            "(start 3 mm 50000 (0 7200002100000))",
            "(taken 4 (1219998950000 8780001050000))",
            "(kept 4 (3420000000000 10980002100000))",
        ),
    ] {
        let table = [(reply, taken), (wider, kept)];
        expect_replies(&[start, "(request 4)", "(pass 3600000)"], &table);
        let table = [(reply, "(no 8)"), (wider, "(no 8)")];
        expect_replies(&[start, "(request 4)", "(pass 3600001)"], &table);
    }
    let start = "(start 3 im 0 (0 0))";
    expect_replies(
        &[start, "(request 4)", "(pass 3600000)"],
        &[("(reply 4 1 (0 0))", "(taken 4 (3600000000000 3600000000000))")],
    );
    expect_replies(
        &[start, "(request 4)", "(pass 3600001)"],
        &[("(reply 4 1 (0 0))", "(no 8)")],
    );
}

/// What a keeper with this claim and these edges answers to the window whose
/// first moment is 0 and whose end is 1000000000.
fn first_second(claim: u32, lower: i64, upper: i64) -> String {
    let start = format!("(start 3 im {claim} ({lower} {upper}))");
    let line = "(window 4 (2000-01-01T00:00:00 2000-01-01T00:00:01))";
    ask(&mut after(&[&start]), line)
}

#[test]
fn the_told_upper_edge_and_the_end_of_a_window() {
    // The told upper edge is 999999999 with the first, and the window's end
    // with the second.
    for (claim, before_the_end, at_the_end) in [
        (0, 998_999_999, 999_000_000),
        (200, 998_999_799, 998_999_800),
        (50_000, 998_949_999, 998_950_000),
    ] {
        assert_eq!(first_second(claim, 0, before_the_end), "(open 4)");
        assert_eq!(first_second(claim, 0, at_the_end), "(unsure 4)");
        assert_eq!(first_second(claim, -1, before_the_end), "(unsure 4)");
    }
    // The lower edge is told as it is.
    assert_eq!(first_second(200, 999_999_999, 999_999_999), "(unsure 4)");
    assert_eq!(first_second(200, 1_000_000_000, 1_000_000_000), "(shut 4)");
}

#[test]
fn the_told_upper_edge_and_the_beginning_of_a_window() {
    // The told upper edge is -1 with the first, and the window's beginning with
    // the second.
    for (claim, before_it, at_it) in [
        (0, -1_000_001, -1_000_000),
        (200, -1_000_201, -1_000_200),
        (50_000, -1_050_001, -1_050_000),
    ] {
        assert_eq!(first_second(claim, -2_000_000, before_it), "(shut 4)");
        assert_eq!(first_second(claim, -2_000_000, at_it), "(unsure 4)");
        assert_eq!(first_second(claim, before_it, before_it), "(shut 4)");
        assert_eq!(first_second(claim, at_it, at_it), "(unsure 4)");
    }
    assert_eq!(first_second(200, -1, -1), "(unsure 4)");
    assert_eq!(first_second(200, 0, 0), "(open 4)");
}

#[test]
fn a_window_and_told_edges_above_the_range() {
    let end = 4_000_000_000_000_000_000;
    assert_eq!(first_second(50_000, end, end), "(shut 4)");
    assert_eq!(first_second(50_000, -end, end), "(unsure 4)");
    assert_eq!(first_second(50_000, 0, end), "(unsure 4)");
}
