//! The pass with a number instead of a line.

use independent::{pass, Keeper};

use crate::caller::{after, ask};

#[test]
fn the_same_effect_as_the_line() {
    let start = after(&["(start 3 im 200 (-1000 1000))"]);
    for ticks in [0, 1, 10, 86_400_000] {
        let (mut by_number, mut by_line) = (start.clone(), start.clone());
        assert_eq!(pass(&mut by_number, ticks), 0);
        ask(&mut by_line, format!("(pass {ticks})"));
        assert_eq!(by_number, by_line);
        assert_eq!(by_number.ticks, ticks);
    }
}

#[test]
fn refusals_in_order() {
    let mut fresh = Keeper::fresh();
    assert_eq!(pass(&mut fresh, 86_400_001), 2);
    assert_eq!(pass(&mut fresh, u64::MAX), 2);
    assert_eq!(pass(&mut fresh, 86_400_000), 3);
    assert_eq!(fresh, Keeper::fresh());

    let full = after(&["(start 3 im 0 (0 4000000000000000000))"]);
    let mut keeper = full.clone();
    assert_eq!(pass(&mut keeper, 86_400_001), 2);
    assert_eq!(pass(&mut keeper, 1), 5);
    assert_eq!(keeper, full);
    assert_eq!(pass(&mut keeper, 0), 0);
    assert_eq!(keeper, full);

    keeper.tags[0] = 1;
    assert_eq!(pass(&mut keeper, 0), 3);
}

#[test]
fn every_number_above_the_limit_is_refused() {
    let started = after(&["(start 3 im 200 (-1000 1000))"]);
    let end = 1_u64 << 32;
    for ticks in [
        86_400_001,
        end - 1,
        // The lower 32 bits of these would be accepted.
        end,
        end + 1,
        end + 86_400_000,
        86_400_000 << 32,
        1 << 63,
        // Negative numbers near 0, if the bits were read with a sign.
        u64::MAX - 1,
        u64::MAX,
    ] {
        for before in [Keeper::fresh(), started.clone()] {
            let mut keeper = before.clone();
            assert_eq!(pass(&mut keeper, ticks), 2, "{ticks}");
            assert_eq!(keeper, before);
        }
    }
}

#[test]
fn the_limit_of_the_ticks() {
    let mut keeper = after(&["(start 3 im 0 (0 0))"]);
    keeper.ticks = 4_000_000_000_000_000_000 - 1;
    assert_eq!(pass(&mut keeper, 2), 5);
    assert_eq!(pass(&mut keeper, 1), 0);
    assert_eq!(pass(&mut keeper, 1), 5);
    assert_eq!(pass(&mut keeper, 0), 0);
}
