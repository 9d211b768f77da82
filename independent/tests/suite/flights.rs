//! The flight command: its answer, its refusals in order, and how long the
//! times of a peer are kept.

use independent::{answer_line, Answered, Keeper};

use crate::caller::{after, ask, expect, UNTOUCHED};
use crate::random::Random;

/// The out times and back times that are not 0, each with its peer.
fn times(keeper: &Keeper) -> Vec<(usize, u32, u32)> {
    (0..16)
        .map(|peer| (peer, keeper.out_times[peer], keeper.back_times[peer]))
        .filter(|&(_, out_time, back_time)| (out_time, back_time) != (0, 0))
        .collect()
}

#[test]
fn the_answer() {
    let mut keeper = after(&["(start 3 im 0 (0 0))"]);
    for peer in (0..16).filter(|&peer| peer != 3) {
        let line = format!("(flight {peer} (1 2))");
        assert_eq!(ask(&mut keeper, line), format!("(flight {peer})"));
    }
    assert_eq!(ask(&mut keeper, "(flight 3 (1 2))"), "(no 4)");
}

#[test]
fn both_times_of_that_peer_are_set() {
    let before = after(&["(start 3 mm 7 (5 6))", "(request 5)", "(pass 9)"]);
    for peer in [0, 1, 2, 4, 6, 7, 8, 9, 10, 11, 12, 13, 14, 15] {
        let mut keeper = before.clone();
        ask(&mut keeper, format!("(flight {peer} (70 4000))"));
        // Nothing else moves.
        let mut expected = before.clone();
        expected.out_times[peer] = 70;
        expected.back_times[peer] = 4000;
        assert_eq!(keeper, expected);
    }
}

/// "Here the pair need not be in order."
#[test]
fn times_in_either_order() {
    for (out_time, back_time) in [
        (7, 30),
        (30, 7),
        (7, 7),
        (0, 7),
        (7, 0),
        (0, 1_000_000_000),
        (1_000_000_000, 0),
        (1_000_000_000, 999_999_999),
    ] {
        let mut keeper = after(&["(start 3 im 0 (0 0))"]);
        let line = format!("(flight 4 ({out_time} {back_time}))");
        assert_eq!(ask(&mut keeper, line), "(flight 4)");
        assert_eq!(times(&keeper), [(4, out_time, back_time)]);
    }
}

#[test]
fn grouped_times() {
    let mut keeper = after(&["(start 3 im 0 (0 0))"]);
    for line in [
        "(flight 4 (1_000 12_345_678))",
        "(flight 4 (1000 12_345_678))",
        "(flight 4 (1_000 12345678))",
    ] {
        assert_eq!(ask(&mut keeper, "(flight 4 (0 0))"), "(flight 4)");
        assert_eq!(ask(&mut keeper, line), "(flight 4)", "{line}");
        assert_eq!(times(&keeper), [(4, 1000, 12_345_678)]);
    }
}

#[test]
fn times_are_replaced() {
    let mut keeper = after(&["(start 3 im 0 (0 0))", "(flight 4 (1 2))"]);
    expect(&mut keeper, &[("(flight 5 (3 4))", "(flight 5)")]);
    assert_eq!(times(&keeper), [(4, 1, 2), (5, 3, 4)]);
    expect(&mut keeper, &[("(flight 4 (0 9))", "(flight 4)")]);
    assert_eq!(times(&keeper), [(4, 0, 9), (5, 3, 4)]);
    expect(&mut keeper, &[("(flight 4 (0 0))", "(flight 4)")]);
    assert_eq!(times(&keeper), [(5, 3, 4)]);
}

#[test]
fn refusals_in_order() {
    // Each line has one fault less than the one before it.
    let lines = [
        ("(flight 16 (1000000001 -1))", 1),
        ("(flight 16 (1000000001 1000000001))", 2),
        ("(flight 15 (1000000001 1000000001))", 2),
        ("(flight 15 (1000000000 1000000001))", 2),
        ("(flight 15 (1000000000 1000000000))", 3),
    ];
    for (line, number) in lines {
        let answer = ask(&mut Keeper::fresh(), line);
        assert_eq!(answer, format!("(no {number})"), "{line}");
        // Number 10 comes before each.
        let mut out = [UNTOUCHED; 255];
        let answered = answer_line(&mut Keeper::fresh(), line.as_bytes(), &mut out);
        let refused = Answered {
            number: 10,
            length: 0,
        };
        assert_eq!(answered, refused);
        assert_eq!(out, [UNTOUCHED; 255]);
    }
    // At board 15 the last of them is refused with 4, and at another board
    // with 6 while a request waits.
    let (line, _) = lines[4];
    assert_eq!(ask(&mut after(&["(start 15 im 0 (0 0))"]), line), "(no 4)");
    let start = "(start 0 im 0 (0 0))";
    assert_eq!(ask(&mut after(&[start, "(request 15)"]), line), "(no 6)");
    assert_eq!(ask(&mut after(&[start]), line), "(flight 15)");
}

/// "It is refused with 6 while that peer has a request waiting, after 4."
#[test]
fn while_a_request_waits() {
    let mut keeper = after(&["(start 3 im 0 (0 0))", "(flight 4 (1 2))", "(request 4)"]);
    expect(
        &mut keeper,
        &[
            ("(flight 4 (5 6))", "(no 6)"),
            ("(flight 4 (1 2))", "(no 6)"),
            ("(flight 4 (1000000001 6))", "(no 2)"),
            ("(flight 3 (5 6))", "(no 4)"),
            // Another peer has none waiting.
            ("(flight 5 (5 6))", "(flight 5)"),
            (
                "(pass 3600001)",
                "(at 3600001 (3600001000000 3600001000000))",
            ),
            // A reply that comes too late leaves the request waiting.
            ("(reply 4 1 (0 0))", "(no 8)"),
            ("(flight 4 (5 6))", "(no 6)"),
            ("(drop 4)", "(dropped 4)"),
            ("(flight 4 (5 6))", "(flight 4)"),
            ("(request 4)", "(sent 4 2)"),
            ("(flight 4 (0 0))", "(no 6)"),
        ],
    );
    assert_eq!(times(&keeper), [(4, 5, 6), (5, 5, 6)]);
}

/// A request is then refused with 9. Flight times take no tag.
#[test]
fn after_the_last_tag() {
    let mut keeper = after(&["(start 3 im 0 (0 0))"]);
    keeper.requests = 16_777_215;
    expect(
        &mut keeper,
        &[
            ("(request 4)", "(no 9)"),
            ("(flight 4 (5 6))", "(flight 4)"),
        ],
    );
}

#[test]
fn times_stay_when_a_request_ends() {
    let mut keeper = after(&["(start 3 mm 0 (0 2000000))", "(flight 4 (7 30))"]);
    for (line, answer) in [
        ("(request 4)", "(sent 4 1)"),
        ("(drop 4)", "(dropped 4)"),
        ("(request 4)", "(sent 4 2)"),
        // The width is 2000001 when it is moved outward.
        ("(reply 4 2 (1000 1001))", "(kept 4 (0 2000000))"),
        ("(request 4)", "(sent 4 3)"),
        // The bracket ends at -1.
        ("(reply 4 3 (6 6))", "(conflict 4 (0 2000000))"),
        ("(request 4)", "(sent 4 4)"),
        ("(reply 4 4 (7 7))", "(taken 4 (-999993 1000007))"),
        ("(reply 4 4 (7 7))", "(no 7)"),
        ("(pass 1)", "(at 1 (7 2000007))"),
        ("(read)", "(time (7 3000007) (1500007 1500000) 1 0)"),
        ("(waiting)", "(waiting)"),
        (
            "(window 1 (2000-01-01T00:00:00 2000-01-01T00:00:01))",
            "(open 1)",
        ),
    ] {
        assert_eq!(ask(&mut keeper, line), answer, "{line}");
        assert_eq!(times(&keeper), [(4, 7, 30)], "{line}");
    }
}

/// "Both 0 at the start."
#[test]
fn times_at_a_start() {
    assert_eq!(times(&Keeper::fresh()), []);
    let start = "(start 3 im 0 (0 0))";
    assert_eq!(times(&after(&[start])), []);

    // A keeper that counts as not started may be handed in with any times.
    for time in [1, 1_000_000_000, 1_000_000_001, u32::MAX] {
        let mut keeper = Keeper::fresh();
        keeper.out_times = [time; 16];
        keeper.back_times = [time; 16];
        assert_eq!(ask(&mut keeper, "(flight 4 (5 6))"), "(no 3)");
        assert_eq!(ask(&mut keeper, start), "(started 3)");
        assert_eq!(keeper, after(&[start]));
    }
    // A refused start leaves them.
    let mut keeper = after(&[start, "(flight 4 (5 6))"]);
    assert_eq!(ask(&mut keeper, start), "(no 3)");
    assert_eq!(times(&keeper), [(4, 5, 6)]);
}

/// Random commands, and the times in a list of their own.
#[test]
fn random_flights() {
    let mut random = Random(0xF116_4701_0000_0007);
    let mut refused = [0; 7];
    for _ in 0..300 {
        let board = random.below(16);
        let mut keeper = after(&[&format!("(start {board} im 0 (0 0))")]);
        let (mut known, mut waiting) = ([[0; 2]; 16], [0; 16]);
        for _ in 0..200 {
            let peer = random.below(16);
            let waits = &mut waiting[peer as usize];
            match random.below(4) {
                0 if *waits == 0 && peer != board => {
                    ask(&mut keeper, format!("(request {peer})"));
                    *waits = keeper.requests;
                }
                1 if *waits != 0 => {
                    ask(&mut keeper, format!("(drop {peer})"));
                    *waits = 0;
                }
                2 if *waits != 0 => {
                    ask(&mut keeper, format!("(reply {peer} {waits} (0 0))"));
                    *waits = 0;
                }
                _ => {
                    let limit = 1_000_000_000;
                    let choices = [0, 1, 2, limit - 1, limit, limit + 1];
                    let pair = [random.pick(&choices), random.pick(&choices)];
                    let number = if pair.iter().any(|&time| time > limit) {
                        2
                    } else if peer == board {
                        4
                    } else if *waits != 0 {
                        6
                    } else {
                        known[peer as usize] = pair;
                        0
                    };
                    refused[number] += 1;
                    let answer = if number == 0 {
                        format!("(flight {peer})")
                    } else {
                        format!("(no {number})")
                    };
                    let line = format!("(flight {peer} ({} {}))", pair[0], pair[1]);
                    assert_eq!(ask(&mut keeper, line), answer);
                }
            }
            assert_eq!(keeper.out_times, known.map(|[out_time, _]| out_time));
            assert_eq!(keeper.back_times, known.map(|[_, back_time]| back_time));
        }
    }
    for number in [0, 2, 4, 6] {
        assert!(refused[number] > 500, "{refused:?}");
    }
}
