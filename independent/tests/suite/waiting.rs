//! The list of the waiting peers: "The list now runs by tag, smallest first."

use independent::Keeper;

use crate::caller::{after, ask, expect};
use crate::random::Random;

/// Board 0 after all requests, with these peers waiting and these tags.
fn handed_in(requests: &[(usize, u32)]) -> Keeper {
    let mut keeper = after(&["(start 0 im 0 (0 0))"]);
    keeper.requests = 16_777_215;
    for &(peer, tag) in requests {
        keeper.waiting |= 1 << peer;
        keeper.tags[peer] = tag;
    }
    keeper
}

/// The answer that lists these peers and tags, as they are given.
fn list(requests: &[(u64, u64)]) -> String {
    let parts: Vec<String> = requests
        .iter()
        .map(|(peer, tag)| format!(" ({peer} {tag})"))
        .collect();
    format!("(waiting{})", parts.concat())
}

#[test]
fn a_later_request_to_a_smaller_peer() {
    expect(
        &mut after(&["(start 3 im 0 (0 0))"]),
        &[
            ("(request 9)", "(sent 9 1)"),
            ("(request 4)", "(sent 4 2)"),
            ("(waiting)", "(waiting (9 1) (4 2))"),
        ],
    );
}

#[test]
fn none_waiting() {
    assert_eq!(ask(&mut Keeper::fresh(), "(waiting)"), "(no 3)");
    expect(
        &mut after(&["(start 3 im 0 (0 0))"]),
        &[
            ("(waiting)", "(waiting)"),
            ("(request 9)", "(sent 9 1)"),
            ("(drop 9)", "(dropped 9)"),
            ("(waiting)", "(waiting)"),
            ("(request 4)", "(sent 4 2)"),
            ("(reply 4 2 (0 0))", "(taken 4 (0 0))"),
            ("(waiting)", "(waiting)"),
        ],
    );
}

#[test]
fn one_waiting() {
    for peer in 0..15 {
        let request = format!("(request {peer})");
        let mut keeper = after(&["(start 15 im 0 (0 0))", &request]);
        assert_eq!(
            ask(&mut keeper, "(waiting)"),
            format!("(waiting ({peer} 1))")
        );
    }
    let mut keeper = handed_in(&[(15, 16_777_215)]);
    assert_eq!(ask(&mut keeper, "(waiting)"), "(waiting (15 16777215))");
}

#[test]
fn two_waiting() {
    for first in 0..15 {
        for second in (0..15).filter(|&second| second != first) {
            let requests = [first, second].map(|peer| format!("(request {peer})"));
            let mut keeper = after(&["(start 15 im 0 (0 0))", &requests[0], &requests[1]]);
            let answer = format!("(waiting ({first} 1) ({second} 2))");
            assert_eq!(ask(&mut keeper, "(waiting)"), answer);
        }
    }
}

#[test]
fn fifteen_waiting() {
    let mut keeper = after(&["(start 7 im 0 (0 0))"]);
    for peer in [15, 0, 14, 1, 13, 2, 12, 3, 11, 4, 10, 5, 9, 6, 8] {
        ask(&mut keeper, format!("(request {peer})"));
    }
    let answer = "(waiting (15 1) (0 2) (14 3) (1 4) (13 5) (2 6) (12 7) (3 8) \
        (11 9) (4 10) (10 11) (5 12) (9 13) (6 14) (8 15))";
    assert_eq!(ask(&mut keeper, "(waiting)"), answer);

    for peer in 8..16 {
        ask(&mut keeper, format!("(drop {peer})"));
    }
    let answer = "(waiting (0 2) (1 4) (2 6) (3 8) (4 10) (5 12) (6 14))";
    assert_eq!(ask(&mut keeper, "(waiting)"), answer);

    for peer in [8, 15, 12, 9, 14, 10, 13, 11] {
        ask(&mut keeper, format!("(request {peer})"));
    }
    let answer = "(waiting (0 2) (1 4) (2 6) (3 8) (4 10) (5 12) (6 14) (8 16) \
        (15 17) (12 18) (9 19) (14 20) (10 21) (13 22) (11 23))";
    assert_eq!(ask(&mut keeper, "(waiting)"), answer);
}

#[test]
fn fifteen_waiting_at_every_board() {
    for board in 0..16 {
        let rising: Vec<u64> = (0..16).filter(|&peer| peer != board).collect();
        let falling: Vec<u64> = rising.iter().copied().rev().collect();
        for peers in [rising, falling] {
            let mut keeper = after(&[&format!("(start {board} im 0 (0 0))")]);
            for peer in &peers {
                ask(&mut keeper, format!("(request {peer})"));
            }
            let requests: Vec<(u64, u64)> = peers.into_iter().zip(1..).collect();
            assert_eq!(requests.len(), 15);
            assert_eq!(ask(&mut keeper, "(waiting)"), list(&requests));
        }
    }
}

#[test]
fn after_drops_and_new_requests() {
    expect(
        &mut after(&["(start 0 im 0 (0 0))"]),
        &[
            ("(request 5)", "(sent 5 1)"),
            ("(request 3)", "(sent 3 2)"),
            ("(request 9)", "(sent 9 3)"),
            ("(waiting)", "(waiting (5 1) (3 2) (9 3))"),
            // A peer that is asked again goes to the end.
            ("(drop 3)", "(dropped 3)"),
            ("(waiting)", "(waiting (5 1) (9 3))"),
            ("(request 3)", "(sent 3 4)"),
            ("(waiting)", "(waiting (5 1) (9 3) (3 4))"),
            ("(drop 5)", "(dropped 5)"),
            ("(request 1)", "(sent 1 5)"),
            ("(request 5)", "(sent 5 6)"),
            ("(waiting)", "(waiting (9 3) (3 4) (1 5) (5 6))"),
            // Refused requests and drops change nothing and take no tag.
            ("(request 9)", "(no 6)"),
            ("(request 0)", "(no 4)"),
            ("(drop 2)", "(no 7)"),
            ("(waiting)", "(waiting (9 3) (3 4) (1 5) (5 6))"),
            ("(drop 9)", "(dropped 9)"),
            ("(drop 1)", "(dropped 1)"),
            ("(request 2)", "(sent 2 7)"),
            ("(waiting)", "(waiting (3 4) (5 6) (2 7))"),
            ("(drop 3)", "(dropped 3)"),
            ("(drop 2)", "(dropped 2)"),
            ("(waiting)", "(waiting (5 6))"),
            ("(drop 5)", "(dropped 5)"),
            ("(waiting)", "(waiting)"),
        ],
    );
}

/// "Taken, kept and conflict all end the request."
#[test]
fn after_replies() {
    expect(
        &mut after(&["(start 0 mm 0 (0 2000000))"]),
        &[
            ("(request 8)", "(sent 8 1)"),
            ("(request 7)", "(sent 7 2)"),
            ("(request 6)", "(sent 6 3)"),
            ("(request 5)", "(sent 5 4)"),
            ("(waiting)", "(waiting (8 1) (7 2) (6 3) (5 4))"),
            // The bracket begins at 2000001.
            ("(reply 7 2 (3000001 3000001))", "(conflict 7 (0 2000000))"),
            ("(waiting)", "(waiting (8 1) (6 3) (5 4))"),
            // Moved outward by one tick, it is 2000001 wide.
            ("(reply 8 1 (1000 1001))", "(kept 8 (0 2000000))"),
            ("(waiting)", "(waiting (6 3) (5 4))"),
            ("(request 7)", "(sent 7 5)"),
            ("(waiting)", "(waiting (6 3) (5 4) (7 5))"),
            // And here 2000000.
            ("(reply 5 4 (1000 1000))", "(taken 5 (-999000 1001000))"),
            ("(waiting)", "(waiting (6 3) (7 5))"),
            ("(request 8)", "(sent 8 6)"),
            ("(request 5)", "(sent 5 7)"),
            ("(waiting)", "(waiting (6 3) (7 5) (8 6) (5 7))"),
        ],
    );
}

/// "A refused reply leaves its request waiting."
#[test]
fn after_refused_replies() {
    expect(
        &mut after(&[
            "(start 0 im 0 (0 0))",
            "(request 6)",
            "(request 2)",
            "(pass 3600001)",
            "(request 4)",
        ]),
        &[
            ("(reply 6 3 (0 0))", "(no 7)"),
            ("(reply 2 1 (0 0))", "(no 7)"),
            ("(reply 9 1 (0 0))", "(no 7)"),
            ("(reply 6 1 (0 0))", "(no 8)"),
            ("(reply 2 2 (0 0))", "(no 8)"),
            ("(waiting)", "(waiting (6 1) (2 2) (4 3))"),
        ],
    );
}

#[test]
fn tags_are_compared_as_numbers() {
    // Neither as digits nor by their lowest bytes.
    let mut keeper = handed_in(&[
        (1, 16_777_215),
        (2, 10),
        (3, 9),
        (4, 256),
        (5, 255),
        (6, 100_000),
        (7, 99_999),
        (8, 65_536),
        (9, 1),
    ]);
    let answer = "(waiting (9 1) (3 9) (2 10) (5 255) (4 256) (8 65536) \
        (7 99999) (6 100000) (1 16777215))";
    assert_eq!(ask(&mut keeper, "(waiting)"), answer);
}

/// A keeper handed in may have tick counts that fall while the tags rise.
#[test]
fn tick_counts_do_not_matter() {
    let mut keeper = handed_in(&[(1, 2), (2, 1), (3, 3)]);
    keeper.ticks = 20;
    (keeper.sent_at[1], keeper.sent_at[2], keeper.sent_at[3]) = (0, 20, 10);
    assert_eq!(ask(&mut keeper, "(waiting)"), "(waiting (2 1) (1 2) (3 3))");
}

#[test]
fn equal_tags_do_not_count_as_started() {
    let mut keeper = handed_in(&[(1, 7), (2, 7)]);
    assert_eq!(ask(&mut keeper, "(waiting)"), "(no 3)");
    let mut keeper = handed_in(&[(1, 7), (2, 6)]);
    assert_eq!(ask(&mut keeper, "(waiting)"), "(waiting (2 6) (1 7))");
}

#[test]
fn nothing_moves() {
    let before = handed_in(&[(1, 7), (2, 6), (9, 1)]);
    let mut keeper = before.clone();
    for _ in 0..2 {
        let answer = ask(&mut keeper, "(waiting)");
        assert_eq!(answer, "(waiting (9 1) (2 6) (1 7))");
        assert_eq!(keeper, before);
    }
}

/// The tags fall from peer 1 through peer 15.
#[test]
fn every_set_of_waiting_peers() {
    for set in 0..1 << 15 {
        let (mut requests, mut expected) = (Vec::new(), Vec::new());
        for peer in (1..16).rev().filter(|peer| set >> (peer - 1) & 1 == 1) {
            let tag = 100 - 6 * peer;
            requests.push((peer as usize, tag as u32));
            expected.push((peer, tag));
        }
        let answer = ask(&mut handed_in(&requests), "(waiting)");
        assert_eq!(answer, list(&expected));
    }
}

/// Each request is put at the end of a list, and each that ends is taken out of
/// it: so the list is always in the order of the tags.
#[test]
fn random_requests() {
    let mut random = Random(0x0A6E_0F7A_6500_0006);
    let mut seen = [0; 16];
    for _ in 0..400 {
        let board = random.below(16);
        let mut keeper = after(&[&format!("(start {board} im 0 (0 0))")]);
        let (mut requests, mut sent) = (Vec::new(), 0);
        // One of so many lines for a waiting peer ends its request.
        let share = 1 + random.below(20);
        for _ in 0..200 {
            assert_eq!(ask(&mut keeper, "(waiting)"), list(&requests));
            seen[requests.len()] += 1;
            let peer = random.below(16);
            let place = requests.iter().position(|&(other, _)| other == peer);
            let (line, answer) = match place {
                _ if peer == board => (format!("(request {peer})"), "(no 4)".into()),
                None => {
                    sent += 1;
                    requests.push((peer, sent));
                    (format!("(request {peer})"), format!("(sent {peer} {sent})"))
                }
                Some(_) if random.below(share) > 0 => {
                    (format!("(request {peer})"), "(no 6)".into())
                }
                Some(place) if random.below(2) == 0 => {
                    requests.remove(place);
                    (format!("(drop {peer})"), format!("(dropped {peer})"))
                }
                Some(place) => {
                    let (_, tag) = requests.remove(place);
                    let line = format!("(reply {peer} {tag} (0 0))");
                    (line, format!("(taken {peer} (0 0))"))
                }
            };
            assert_eq!(ask(&mut keeper, line), answer);
        }
    }
    assert!(seen.iter().all(|&count| count > 100), "{seen:?}");
}
