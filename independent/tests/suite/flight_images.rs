//! The flight times in the image of a keeper.

use independent::{pass_image, Keeper};

use crate::caller::after;
use crate::images::{check_line, image_of};

const START: &str = "(start 7 mm 1 (2 3))";

/// One time at its limit, and one ns above it, at every place.
#[test]
fn times_at_their_limit() {
    let valid = image_of(&after(&["(start 3 im 0 (0 0))", "(request 4)"]));
    for place in (232..360).step_by(4) {
        let mut image = valid;
        for time in [0, 1, 999_999_999, 1_000_000_000_u32] {
            image[place..place + 4].copy_from_slice(&time.to_le_bytes());
            assert_eq!(check_line(&mut image, "(read)"), 0);
            assert_eq!(check_line(&mut image, START), 3);
            assert_eq!(pass_image(&mut image, 0), 0);
        }
        for time in [1_000_000_001, 1 << 31, u32::MAX] {
            let mut image = valid;
            image[place..place + 4].copy_from_slice(&time.to_le_bytes());
            assert_eq!(check_line(&mut image, "(read)"), 3);
            assert_eq!(check_line(&mut image, "(flight 5 (0 0))"), 3);
            assert_eq!(pass_image(&mut image, 0), 3);
            assert_eq!(check_line(&mut image, START), 0);
            assert_eq!(image, image_of(&after(&[START])));
        }
    }
}

/// A flight changes eight bytes of an image.
#[test]
fn a_flight_on_an_image() {
    for peer in (0..16).filter(|&peer| peer != 3) {
        let mut image = image_of(&after(&["(start 3 im 0 (0 0))"]));
        let mut expected = image;
        let line = format!("(flight {peer} (1000000000 258))");
        assert_eq!(check_line(&mut image, &line), 0);
        let (out_time, back_time) = (232 + 4 * peer, 296 + 4 * peer);
        // 1000000000 is 0x3B9ACA00.
        expected[out_time..out_time + 4].copy_from_slice(&[0x00, 0xCA, 0x9A, 0x3B]);
        expected[back_time..back_time + 4].copy_from_slice(&[2, 1, 0, 0]);
        assert_eq!(image, expected);
    }
}

/// What the calls on an image leave is read again as the same keeper.
#[test]
fn times_over_a_run() {
    let lines = [
        "(start 3 im 200 (0 10000000))",
        "(flight 4 (1000 250000))",
        "(flight 5 (0 1000000000))",
        "(request 4)",
        "(pass 3)",
        "(reply 4 1 (5000000 6000000))",
        "(request 4)",
        "(drop 4)",
    ];
    let mut image = image_of(&Keeper::fresh());
    for (place, line) in lines.iter().enumerate() {
        assert_eq!(check_line(&mut image, line), 0, "{line}");
        let keeper = after(&lines[..=place]);
        assert_eq!(Keeper::from_image(&image), Some(keeper), "{line}");
    }
    let keeper = Keeper::from_image(&image).expect("an image");
    assert_eq!((keeper.out_times[4], keeper.back_times[4]), (1000, 250_000));
    assert_eq!(
        (keeper.out_times[5], keeper.back_times[5]),
        (0, 1_000_000_000)
    );
    assert_eq!((keeper.lower, keeper.upper), (4_249_800, 8_999_600));
}
