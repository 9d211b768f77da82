//! The test of a keeper that a caller hands in, clause by clause.

use independent::{Keeper, Rule};

use crate::caller::{after, ask};

/// Board 3, with requests 1 and 3 waiting at peers 5 and 8, and one conflict.
fn sample() -> Keeper {
    after(&[
        "(start 3 mm 200 (-1000 1000))",
        "(request 5)",
        "(pass 10)",
        "(request 6)",
        "(request 8)",
        "(reply 6 2 (1 1))",
        "(pass 10)",
    ])
}

/// The changed sample counts as started, or not; the calls agree.
fn check(valid: bool, change: impl Fn(&mut Keeper)) {
    let mut keeper = sample();
    change(&mut keeper);
    assert_eq!(keeper.counts_as_started(), valid, "{keeper:?}");

    for line in [
        "(pass 1)",
        "(request 9)",
        "(read)",
        "(waiting)",
        "(drop 5)",
        "(window 0 (1900-01-01T00:00:00 2099-12-31T23:59:59))",
        "(flight 9 (1 2))",
        "(flight 5 (1 2))",
        "(flight 3 (1 2))",
    ] {
        if !valid {
            assert_eq!(ask(&mut keeper, line), "(no 3)", "{line}");
        }
    }
    let start = ask(&mut keeper, "(start 4 im 9 (5 6))");
    if valid {
        assert_eq!(start, "(no 3)");
    } else {
        assert_eq!(start, "(started 4)");
        assert_eq!(keeper, after(&["(start 4 im 9 (5 6))"]));
    }
}

#[test]
fn the_sample_is_valid() {
    let keeper = sample();
    assert_eq!(
        (keeper.requests, keeper.conflicts, keeper.waiting),
        (3, 1, 1 << 5 | 1 << 8)
    );
    assert_eq!((keeper.tags[5], keeper.sent_at[5]), (1, 0));
    assert_eq!((keeper.tags[8], keeper.sent_at[8]), (3, 10));
    check(true, |_| {});
}

#[test]
fn not_started() {
    check(false, |keeper| keeper.started = false);
    assert!(!Keeper::fresh().counts_as_started());
}

#[test]
fn board() {
    check(true, |keeper| keeper.board = 15);
    check(false, |keeper| keeper.board = 16);
    check(false, |keeper| keeper.board = 255);
}

#[test]
fn the_board_itself_waits() {
    check(false, |keeper| keeper.board = 5);
    check(false, |keeper| {
        keeper.requests = 4;
        keeper.waiting |= 1 << 3;
        keeper.tags[3] = 4;
    });
}

#[test]
fn claim_and_rule() {
    check(true, |keeper| keeper.claim = 50_000);
    check(false, |keeper| keeper.claim = 50_001);
    check(true, |keeper| keeper.rule = Rule::Im);
}

#[test]
fn edges() {
    const MAX: i64 = 4_000_000_000_000_000_000;
    check(true, |keeper| (keeper.lower, keeper.upper) = (-MAX, MAX));
    check(true, |keeper| (keeper.lower, keeper.upper) = (MAX, MAX));
    check(true, |keeper| (keeper.lower, keeper.upper) = (-MAX, -MAX));
    check(false, |keeper| keeper.lower = -MAX - 1);
    check(false, |keeper| keeper.upper = MAX + 1);
    check(false, |keeper| keeper.lower = i64::MIN);
    check(false, |keeper| keeper.upper = i64::MAX);
    check(false, |keeper| (keeper.lower, keeper.upper) = (1, 0));
}

#[test]
fn ticks() {
    check(true, |keeper| keeper.ticks = 4_000_000_000_000_000_000);
    check(false, |keeper| keeper.ticks = 4_000_000_000_000_000_001);
    check(false, |keeper| keeper.ticks = u64::MAX);
    // The request to peer 8 was sent at tick 10.
    check(true, |keeper| keeper.ticks = 10);
    check(false, |keeper| keeper.ticks = 9);
}

#[test]
fn requests_and_conflicts() {
    check(true, |keeper| keeper.requests = 16_777_215);
    check(false, |keeper| keeper.requests = 16_777_216);
    check(false, |keeper| keeper.requests = u32::MAX);
    check(false, |keeper| keeper.requests = 2);
    check(true, |keeper| keeper.conflicts = 0);
    check(false, |keeper| keeper.conflicts = 2);
    check(false, |keeper| keeper.conflicts = u32::MAX);
    check(false, |keeper| keeper.conflicts = u32::MAX - 1);
}

#[test]
fn waiting_tags() {
    check(false, |keeper| keeper.tags[5] = 0);
    check(true, |keeper| keeper.tags[5] = 2);
    check(false, |keeper| keeper.tags[5] = 3);
    check(false, |keeper| keeper.tags[5] = 4);
    check(false, |keeper| keeper.tags[8] = 1);
    check(false, |keeper| keeper.tags[8] = u32::MAX);
}

#[test]
fn waiting_tick_counts() {
    check(true, |keeper| keeper.sent_at[8] = 20);
    check(false, |keeper| keeper.sent_at[8] = 21);
    check(false, |keeper| keeper.sent_at[5] = u64::MAX);
}

#[test]
fn peers_without_a_request() {
    for peer in (0..16).filter(|&peer| peer != 5 && peer != 8) {
        check(false, |keeper| keeper.tags[peer] = 2);
        check(false, |keeper| keeper.sent_at[peer] = 1);
    }
    check(false, |keeper| keeper.waiting = 1 << 8);
    check(false, |keeper| keeper.waiting |= 1 << 9);
}

/// At every place: waiting peers, others and the board itself.
#[test]
fn flight_times() {
    for peer in 0..16 {
        check(true, |keeper| keeper.out_times[peer] = 1_000_000_000);
        check(true, |keeper| keeper.back_times[peer] = 1_000_000_000);
        for time in [1_000_000_001, 1 << 31, u32::MAX] {
            check(false, |keeper| keeper.out_times[peer] = time);
            check(false, |keeper| keeper.back_times[peer] = time);
        }
    }
    check(true, |keeper| {
        keeper.out_times = [1_000_000_000; 16];
        keeper.back_times = [1_000_000_000; 16];
    });
}

#[test]
fn equal_tags_at_every_pair_of_peers() {
    for first in 0..15 {
        for second in first + 1..15 {
            let mut keeper = after(&["(start 15 im 0 (0 0))"]);
            keeper.requests = 15;
            keeper.waiting = 0x7FFF;
            for peer in 0..15 {
                keeper.tags[peer] = 15 - peer as u32;
            }
            assert!(keeper.counts_as_started());
            keeper.tags[second] = keeper.tags[first];
            assert!(!keeper.counts_as_started());
        }
    }
}
