//! The bracket of a reply from a peer with known flight times. "A bracket's
//! lower end gains BACK and its upper end loses OUT". The longest tick is
//! 1000200 ns at claim 200.

use crate::caller::{after, ask, expect};
use crate::order::END;

/// Hands each reply on the left to a keeper after these lines.
fn expect_replies(lines: &[&str], table: &[(&str, &str)]) {
    for (reply, answer) in table {
        assert_eq!(ask(&mut after(lines), reply), *answer, "{lines:?} {reply}");
    }
}

/// Sets the flight times on the left, and then makes the same exchange.
fn expect_flights(start: &str, reply: &str, table: &[(&str, &str)]) {
    for (flight, answer) in table {
        let mut keeper = after(&[start, flight, "(request 4)"]);
        assert_eq!(ask(&mut keeper, reply), *answer, "{flight}");
    }
}

#[test]
fn both_ends_without_a_wait() {
    expect_flights(
        "(start 3 im 200 (0 10000000))",
        "(reply 4 1 (5000000 6000000))",
        &[
            // From 5000000 - 1000200 through 6000000.
            ("(flight 4 (0 0))", "(taken 4 (3999800 6000000))"),
            // The lower end gains 250000 and the upper one loses 1000.
            ("(flight 4 (1000 250000))", "(taken 4 (4249800 5999000))"),
            // Not interchanged.
            ("(flight 4 (250000 1000))", "(taken 4 (4000800 5750000))"),
            // One of the two.
            ("(flight 4 (1000 0))", "(taken 4 (3999800 5999000))"),
            ("(flight 4 (0 250000))", "(taken 4 (4249800 6000000))"),
            // Those of other peers make no difference.
            ("(flight 5 (1000 250000))", "(taken 4 (3999800 6000000))"),
            ("(flight 0 (1000 250000))", "(taken 4 (3999800 6000000))"),
        ],
    );
}

#[test]
fn both_ends_after_a_wait() {
    // The keeper's edges are 2999400 and 13000600 after three ticks, which add
    // 3000600 to the upper end.
    for (flight, answer) in [
        ("(flight 4 (0 0))", "(taken 4 (3999800 9000600))"),
        ("(flight 4 (1000 250000))", "(taken 4 (4249800 8999600))"),
        ("(flight 4 (250000 1000))", "(taken 4 (4000800 8750600))"),
        // More than a tick: the lower end is above TRAILING.
        (
            "(flight 4 (1500000 1200200))",
            "(taken 4 (5200000 7500600))",
        ),
    ] {
        let start = "(start 3 im 200 (0 10000000))";
        expect_replies(
            &[start, flight, "(request 4)", "(pass 3)"],
            &[("(reply 4 1 (5000000 6000000))", answer)],
        );
    }
}

#[test]
fn each_peer_has_its_own_times() {
    expect(
        &mut after(&[
            "(start 3 im 200 (0 10000000))",
            "(flight 4 (1000 250000))",
            "(flight 5 (40 900000))",
            "(request 5)",
            "(request 4)",
            "(request 6)",
        ]),
        &[
            // From 3000000 - 1000200 through 9000000.
            (
                "(reply 6 3 (3000000 9000000))",
                "(taken 6 (1999800 9000000))",
            ),
            (
                "(reply 4 2 (3000000 9000000))",
                "(taken 4 (2249800 8999000))",
            ),
            (
                "(reply 5 1 (3000000 8000000))",
                "(taken 5 (2899800 7999960))",
            ),
        ],
    );
}

#[test]
fn times_hold_for_every_later_reply() {
    expect(
        &mut after(&["(start 3 im 200 (0 10000000))", "(flight 4 (1000 250000))"]),
        &[
            ("(request 4)", "(sent 4 1)"),
            (
                "(reply 4 1 (3000000 9000000))",
                "(taken 4 (2249800 8999000))",
            ),
            ("(request 4)", "(sent 4 2)"),
            ("(drop 4)", "(dropped 4)"),
            ("(request 4)", "(sent 4 3)"),
            (
                "(reply 4 3 (3000001 8999999))",
                "(taken 4 (2249801 8998999))",
            ),
            ("(flight 4 (0 0))", "(flight 4)"),
            ("(request 4)", "(sent 4 4)"),
            (
                "(reply 4 4 (3500000 8500000))",
                "(taken 4 (2499800 8500000))",
            ),
        ],
    );
}

#[test]
fn one_shared_moment_at_either_end() {
    for (rule, at_upper, at_lower) in [
        ("im", "(taken 4 (20 20))", "(taken 4 (10 10))"),
        ("mm", "(kept 4 (10 20))", "(kept 4 (10 20))"),
    ] {
        let start = format!("(start 3 {rule} 200 (10 20))");
        expect_replies(
            &[&start, "(flight 4 (7 30))", "(request 4)"],
            &[
                // 1000190 - 1000200 + 30 is the upper edge.
                ("(reply 4 1 (1000190 2000000))", at_upper),
                ("(reply 4 1 (1000191 2000000))", "(conflict 4 (10 20))"),
                // 17 - 7 is the lower edge.
                ("(reply 4 1 (0 17))", at_lower),
                ("(reply 4 1 (0 16))", "(conflict 4 (10 20))"),
            ],
        );
    }
}

/// A bracket whose ends are equal: OUT and BACK together are as long as one
/// tick, and the peer's edges are equal too.
#[test]
fn a_bracket_of_one_moment() {
    // From 5000000 - 1000200 + 500200 through 5000000 - 500000.
    let flight = "(flight 4 (500000 500200))";
    for (start, answer) in [
        (
            "(start 3 im 200 (0 10000000))",
            "(taken 4 (4500000 4500000))",
        ),
        (
            "(start 3 im 200 (4500000 4500000))",
            "(taken 4 (4500000 4500000))",
        ),
        ("(start 3 im 200 (0 4499999))", "(conflict 4 (0 4499999))"),
        (
            "(start 3 im 200 (4500001 10000000))",
            "(conflict 4 (4500001 10000000))",
        ),
        // Outward by one tick, without flight times.
        (
            "(start 3 mm 200 (0 10000000))",
            "(taken 4 (3999800 6000200))",
        ),
        (
            "(start 3 mm 200 (4500000 4500000))",
            "(kept 4 (4500000 4500000))",
        ),
        ("(start 3 mm 200 (0 4499999))", "(conflict 4 (0 4499999))"),
        (
            "(start 3 mm 200 (4500001 10000000))",
            "(conflict 4 (4500001 10000000))",
        ),
    ] {
        expect_replies(
            &[start, flight, "(request 4)"],
            &[("(reply 4 1 (5000000 5000000))", answer)],
        );
    }
}

/// "A bracket left empty is a conflict": whatever the keeper's own edges are,
/// also if they hold both ends.
#[test]
fn an_empty_bracket() {
    // Each begins one ns after its end.
    for (flight, ends) in [
        ("(flight 4 (500001 500200))", [4_500_000, 4_499_999]),
        ("(flight 4 (500000 500201))", [4_500_001, 4_500_000]),
        ("(flight 4 (1000201 0))", [3_999_800, 3_999_799]),
        ("(flight 4 (0 1000201))", [5_000_001, 5_000_000]),
    ] {
        let [begin, end] = ends;
        for rule in ["im", "mm"] {
            for (lower, upper) in [
                (0, 10_000_000),
                (-END, END),
                (begin, begin),
                (end, end),
                (end, begin),
                (0, end),
                (begin, 10_000_000),
                (5_000_000, 5_000_000),
            ] {
                let start = format!("(start 3 {rule} 200 ({lower} {upper}))");
                let answer = format!("(conflict 4 ({lower} {upper}))");
                expect_replies(
                    &[&start, flight, "(request 4)"],
                    &[("(reply 4 1 (5000000 5000000))", &answer)],
                );
            }
        }
    }
}

#[test]
fn an_empty_bracket_is_counted_and_ends_the_request() {
    for rule in ["im", "mm"] {
        let start = format!("(start 3 {rule} 200 (0 10000000))");
        expect(
            &mut after(&[&start, "(flight 4 (500001 500200))", "(request 4)"]),
            &[
                ("(reply 4 1 (5000000 5000000))", "(conflict 4 (0 10000000))"),
                ("(read)", "(time (0 11000200) (5500100 5500100) 1 0)"),
                ("(waiting)", "(waiting)"),
                ("(reply 4 1 (5000000 5000000))", "(no 7)"),
                ("(request 4)", "(sent 4 2)"),
                ("(reply 4 2 (5000000 5000000))", "(conflict 4 (0 10000000))"),
                ("(read)", "(time (0 11000200) (5500100 5500100) 2 0)"),
            ],
        );
    }
}

/// A bracket is empty if OUT and BACK together are more than the peer's width,
/// the wait and one tick.
#[test]
fn the_first_empty_bracket() {
    // Three ticks of the wait and one more: 4000800, and 200 of the peer.
    let reply = "(reply 4 1 (5000000 5000200))";
    for (rule, flight, answer) in [
        // 5000000 - 1000200 + 1000000 and 5000200 + 3000600 - 3001000.
        (
            "im",
            "(flight 4 (3001000 1000000))",
            "(taken 4 (4999800 4999800))",
        ),
        (
            "im",
            "(flight 4 (3001001 1000000))",
            "(conflict 4 (2999400 13000600))",
        ),
        (
            "im",
            "(flight 4 (3001000 1000001))",
            "(conflict 4 (2999400 13000600))",
        ),
        // Outward by four ticks: 200 + 8 * 1000200 is at most 10001200.
        (
            "mm",
            "(flight 4 (3001000 1000000))",
            "(taken 4 (999200 9001000))",
        ),
        (
            "mm",
            "(flight 4 (3001001 1000000))",
            "(conflict 4 (2999400 13000600))",
        ),
        (
            "mm",
            "(flight 4 (3001000 1000001))",
            "(conflict 4 (2999400 13000600))",
        ),
    ] {
        let start = format!("(start 3 {rule} 200 (0 10000000))");
        expect_replies(
            &[&start, flight, "(request 4)", "(pass 3)"],
            &[(reply, answer)],
        );
    }
}

/// "The mm adoption is unchanged": the edges that are adopted and the width
/// test do not use flight times.
#[test]
fn the_mm_adoption() {
    for flight in [
        "(flight 4 (0 0))",
        "(flight 4 (5000 400000))",
        "(flight 4 (9000 0))",
        "(flight 4 (0 1000000))",
    ] {
        // The width 8000 and two ticks are 2008400.
        expect_replies(
            &["(start 3 mm 200 (0 2008400))", flight, "(request 4)"],
            &[
                ("(reply 4 1 (1000 9000))", "(taken 4 (-999200 1009200))"),
                ("(reply 4 1 (1000 9001))", "(kept 4 (0 2008400))"),
                ("(reply 4 1 (999 9000))", "(kept 4 (0 2008400))"),
            ],
        );
    }
}

/// The conflict test of rule mm uses the shifted bracket.
#[test]
fn the_conflict_test_under_mm() {
    expect_replies(
        &[
            "(start 3 mm 200 (0 2000400))",
            "(flight 4 (7 30))",
            "(request 4)",
        ],
        &[
            // 3000570 - 1000200 + 30 is the upper edge.
            (
                "(reply 4 1 (3000570 3000570))",
                "(taken 4 (2000370 4000770))",
            ),
            ("(reply 4 1 (3000571 3000571))", "(conflict 4 (0 2000400))"),
            ("(reply 4 1 (7 7))", "(taken 4 (-1000193 1000207))"),
            ("(reply 4 1 (6 6))", "(conflict 4 (0 2000400))"),
        ],
    );
}

/// Number 5 is about the edges that are adopted.
#[test]
#[rustfmt::skip]
fn number_5_does_not_use_flight_times() {
    for (start, flight, refused, last, taken) in [
        (
            "(start 3 mm 0 (3999999999990000000 4000000000000000000))",
            "(flight 4 (500000 0))",
            "(reply 4 1 (3999999999998000000 3999999999999000001))",
            "(reply 4 1 (3999999999998000000 3999999999999000000))",
            "(taken 4 (3999999999997000000 4000000000000000000))",
        ),
        (
            "(start 3 mm 0 (-4000000000000000000 -3999999999990000000))",
            "(flight 4 (0 500000))",
            "(reply 4 1 (-3999999999999000001 -3999999999998000000))",
            "(reply 4 1 (-3999999999999000000 -3999999999998000000))",
            "(taken 4 (-4000000000000000000 -3999999999997000000))",
        ),
    ] {
        // The refused reply leaves its request waiting.
        expect(
            &mut after(&[start, flight, "(request 4)"]),
            &[(refused, "(no 5)"), ("(flight 4 (0 0))", "(no 6)"), (last, taken)],
        );
    }
    // An empty bracket comes before number 5.
    expect_replies(
        &[
            "(start 3 mm 0 (3999999999990000000 4000000000000000000))",
            "(flight 4 (2000002 0))",
            "(request 4)",
        ],
        &[(
            "(reply 4 1 (3999999999998000000 3999999999999000001))",
            "(conflict 4 (3999999999990000000 4000000000000000000))",
        )],
    );
}

/// The largest times at both ends of the range.
#[test]
#[rustfmt::skip]
fn the_largest_times() {
    let lines = [
        "(start 3 im 0 (-4000000000000000000 4000000000000000000))",
        "(flight 4 (1000000000 1000000000))",
        "(request 4)",
    ];
    let conflict = "(conflict 4 (-4000000000000000000 4000000000000000000))";
    expect_replies(
        &lines,
        &[
            (
                "(reply 4 1 (-4000000000000000000 4000000000000000000))",
                "(taken 4 (-3999999999001000000 3999999999000000000))",
            ),
            ("(reply 4 1 (-4000000000000000000 -4000000000000000000))", conflict),
            ("(reply 4 1 (4000000000000000000 4000000000000000000))", conflict),
            ("(reply 4 1 (0 0))", conflict),
            // 2000000000 less a tick is the least width that leaves a moment.
            ("(reply 4 1 (0 1999000000))", "(taken 4 (999000000 999000000))"),
            ("(reply 4 1 (0 1998999999))", conflict),
        ],
    );
}

/// The limit of the wait comes before the conflict test.
#[test]
fn number_8_comes_before_an_empty_bracket() {
    let start = "(start 3 im 0 (0 0))";
    let flight = "(flight 4 (1000000000 1000000000))";
    expect_replies(
        &[start, flight, "(request 4)", "(pass 3600001)"],
        &[("(reply 4 1 (0 0))", "(no 8)")],
    );
    // The upper end is 3600000000000 - 1000000000.
    expect_replies(
        &[start, flight, "(request 4)", "(pass 3600000)"],
        &[
            (
                "(reply 4 1 (0 1000000000))",
                "(taken 4 (3600000000000 3600000000000))",
            ),
            (
                "(reply 4 1 (0 999999999))",
                "(conflict 4 (3600000000000 3600000000000))",
            ),
        ],
    );
}

/// A reading and a window use the told edges, and no flight time.
#[test]
fn readings_and_windows() {
    expect(
        &mut after(&["(start 3 im 200 (10 20))", "(flight 4 (1000 250000))"]),
        &[
            ("(read)", "(time (10 1000220) (500115 500105) 0 0)"),
            (
                "(window 1 (2000-01-01T00:00:00 2000-01-01T00:00:01))",
                "(open 1)",
            ),
            ("(pass 1)", "(at 1 (999810 1000220))"),
        ],
    );
}
