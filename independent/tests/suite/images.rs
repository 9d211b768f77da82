//! The image of a keeper and the calls on an image.

use independent::{
    answer_image, answer_line, fresh_image, pass, pass_image, Answered, Keeper, Rule,
};

use crate::caller::{after, UNTOUCHED};

pub fn image_of(keeper: &Keeper) -> [u8; 360] {
    let mut image = [UNTOUCHED; 360];
    keeper.to_image(&mut image);
    image
}

/// A keeper in which every byte of the image differs from its neighbours.
fn distinct() -> Keeper {
    let mut keeper = Keeper {
        started: true,
        board: 0x02,
        rule: Rule::Mm,
        claim: 0x0504,
        lower: i64::from_le_bytes([8, 9, 10, 11, 12, 13, 14, 15]),
        upper: -2,
        ticks: 0x1F1E_1D1C_1B1A_1918,
        requests: 0x2322_2120,
        conflicts: 0x2726_2524,
        waiting: 0x0706,
        tags: [0; 16],
        sent_at: [0; 16],
        out_times: [0; 16],
        back_times: [0; 16],
    };
    for peer in 0..16_u32 {
        keeper.tags[peer as usize] = 0x0101_0101 * peer + 0x2B2A_2928;
        keeper.sent_at[peer as usize] = 0x0102_0304_0506_0708 * u64::from(peer);
        keeper.out_times[peer as usize] = 0x0101_0101 * peer + 0xA3A2_A1A0;
        keeper.back_times[peer as usize] = 0x0101_0101 * peer + 0xC3C2_C1C0;
    }
    keeper
}

#[test]
fn layout() {
    let image = image_of(&distinct());
    assert_eq!(
        image[..16],
        [2, 1, 2, 1, 4, 5, 6, 7, 8, 9, 10, 11, 12, 13, 14, 15]
    );
    assert_eq!(
        image[16..24],
        [0xFE, 0xFF, 0xFF, 0xFF, 0xFF, 0xFF, 0xFF, 0xFF]
    );
    let counting: Vec<u8> = (0x18..0x2C).collect();
    assert_eq!(image[24..44], counting);
    assert_eq!(image[44..48], [0x29, 0x2A, 0x2B, 0x2C]);
    assert_eq!(image[104..112], [0; 8]);
    assert_eq!(image[112..120], [8, 7, 6, 5, 4, 3, 2, 1]);
    assert_eq!(image[224..232], [120, 105, 90, 75, 60, 45, 30, 15]);
    assert_eq!(image[232..236], [0xA0, 0xA1, 0xA2, 0xA3]);
    assert_eq!(image[236..240], [0xA1, 0xA2, 0xA3, 0xA4]);
    assert_eq!(image[292..296], [0xAF, 0xB0, 0xB1, 0xB2]);
    assert_eq!(image[296..300], [0xC0, 0xC1, 0xC2, 0xC3]);
    assert_eq!(image[300..304], [0xC1, 0xC2, 0xC3, 0xC4]);
    assert_eq!(image[356..360], [0xCF, 0xD0, 0xD1, 0xD2]);
}

#[test]
fn round_trip() {
    for keeper in [
        Keeper::fresh(),
        distinct(),
        after(&[
            "(start 9 im 50000 (-4000000000000000000 -1))",
            "(request 1)",
            "(pass 7)",
        ]),
        after(&[
            "(start 9 mm 0 (0 0))",
            "(flight 0 (1 2))",
            "(flight 15 (1000000000 0))",
            "(flight 8 (0 1000000000))",
            "(request 8)",
        ]),
    ] {
        assert_eq!(Keeper::from_image(&image_of(&keeper)), Some(keeper));
    }
}

#[test]
fn readable_images_are_read_byte_by_byte() {
    let base = image_of(&distinct());
    for place in 0..360 {
        for byte in 0..=255 {
            let mut image = base;
            image[place] = byte;
            let readable = image[0] == 2 && image[1] <= 1 && image[3] <= 1;
            match Keeper::from_image(&image) {
                Some(keeper) => {
                    assert!(readable);
                    assert_eq!(image_of(&keeper), image);
                }
                None => assert!(!readable),
            }
        }
    }
}

#[test]
fn fresh() {
    let mut image = [UNTOUCHED; 360];
    assert_eq!(fresh_image(&mut image), 0);
    let mut expected = [0; 360];
    expected[0] = 2;
    assert_eq!(image, expected);
    assert_eq!(Keeper::from_image(&image), Some(Keeper::fresh()));
}

#[test]
fn other_lengths() {
    for length in [0, 1, 231, 232, 233, 296, 359, 361, 500] {
        let mut image = vec![UNTOUCHED; length];
        let mut out = [UNTOUCHED; 256];
        let answered = answer_image(&mut image, b"(start 0 im 0 (0 0))", &mut out);
        assert_eq!(
            answered,
            Answered {
                number: 255,
                length: 0
            }
        );
        assert_eq!(pass_image(&mut image, 1), 255);
        assert_eq!(pass_image(&mut image, u64::MAX), 255);
        assert_eq!(fresh_image(&mut image), 255);
        // The length of the image comes before the length of the output.
        let answered = answer_image(&mut image, b"(read)", &mut []);
        assert_eq!(
            answered,
            Answered {
                number: 255,
                length: 0
            }
        );
        assert!(image.iter().chain(&out).all(|&byte| byte == UNTOUCHED));
    }
}

/// Runs a line on the image and on the keeper that it stands for.
pub fn check_line(image: &mut [u8; 360], line: &str) -> u8 {
    let before = *image;
    let mut keeper = Keeper::from_image(image).unwrap_or(Keeper::fresh());
    let (mut out, mut out_by_keeper) = ([UNTOUCHED; 256], [UNTOUCHED; 256]);
    let answered = answer_image(image, line.as_bytes(), &mut out);
    let by_keeper = answer_line(&mut keeper, line.as_bytes(), &mut out_by_keeper);
    assert_eq!((answered, out), (by_keeper, out_by_keeper), "{line}");
    let expected = if answered.number == 0 {
        image_of(&keeper)
    } else {
        before
    };
    assert_eq!(*image, expected, "{line}");
    answered.number
}

#[test]
fn a_run_on_an_image() {
    let mut image = [0; 360];
    fresh_image(&mut image);
    for (line, number) in [
        ("(read)", 3),
        ("(start 3 im 200 (-1000 1000))", 0),
        ("(pass 10)", 0),
        ("(flight 4 (1_000 250000))", 0),
        ("(flight 4 (-1 0))", 1),
        ("(flight 4 (0 1000000001))", 2),
        ("(flight 3 (1 2))", 4),
        ("(request 4)", 0),
        ("(flight 4 (0 0))", 6),
        ("(request 4)", 6),
        ("(request 3)", 4),
        ("(pass 5)", 0),
        ("(pass 12_7)", 1),
        ("(reply 4 2 (9_999_000 10_001_000))", 7),
        ("(reply 4 1 (9_999_000 10001000))", 0),
        ("(pass 1_000)", 0),
        ("(drop 4)", 7),
        ("(request 4)", 0),
        ("(waiting)", 0),
        ("(drop 4)", 0),
        ("(read)", 0),
        ("(window 0 (2000-01-01T00:00:00 2000-01-01T00:00:01))", 0),
        ("(window 0 (2000-01-01T00:00:00 2000-01-01T00:00:60))", 11),
        ("(window 0 (2000-01-01T00:00:01 2000-01-01T00:00:01))", 12),
        ("(pass 12x7)", 1),
        ("(pass 86400001)", 2),
        ("(pass 86_400_001)", 2),
    ] {
        assert_eq!(check_line(&mut image, line), number, "{line}");
    }
}

#[test]
fn damaged_images() {
    let valid = image_of(&after(&["(start 3 im 0 (0 0))", "(request 4)"]));
    let mut damages: Vec<(usize, u8)> =
        vec![(0, 0), (0, 1), (0, 3), (0, 255), (1, 2), (3, 2), (3, 255)];
    // Readable, but not counting as started.
    damages.extend([
        (1, 0),
        (2, 16),
        (2, 4),
        (5, 0xFF),
        (6, 0),
        (15, 0x7F),
        (40, 1),
        (104, 1),
    ]);
    damages.extend([(32, 0), (36, 1), (31, 0xFF), (56, 2), (136, 1), (231, 1)]);
    // The highest byte of every out time and back time, which is then 1006632960.
    damages.extend((232..360).skip(3).step_by(4).map(|place| (place, 0x3C)));
    for (place, byte) in damages {
        let mut image = valid;
        image[place] = byte;
        assert_eq!(check_line(&mut image, "(read)"), 3);
        assert_eq!(check_line(&mut image, "(reads)"), 1);
        let before = image;
        assert_eq!(pass_image(&mut image, 86_400_001), 2);
        assert_eq!(pass_image(&mut image, 1), 3);
        assert_eq!(image, before);
        assert_eq!(check_line(&mut image, "(start 7 mm 1 (2 3))"), 0);
        assert_eq!(image, image_of(&after(&["(start 7 mm 1 (2 3))"])));
    }
    assert_eq!(check_line(&mut valid.clone(), "(start 7 mm 1 (2 3))"), 3);
}

#[test]
fn short_output_on_an_image() {
    let valid = image_of(&after(&["(start 3 im 0 (0 0))"]));
    let mut image = valid;
    let mut out = [UNTOUCHED; 255];
    let answered = answer_image(&mut image, b"(pass 1)", &mut out);
    assert_eq!(
        answered,
        Answered {
            number: 10,
            length: 0
        }
    );
    assert_eq!(image, valid);
    assert!(out.iter().all(|&byte| byte == UNTOUCHED));
}

#[test]
fn passes_on_an_image() {
    let mut keeper = after(&["(start 3 im 200 (-1000 3999999999000000000))"]);
    let mut image = image_of(&keeper);
    for ticks in [0, 1, 10, 86_400_001, u64::MAX, 1 << 32, 1000, 500, 500] {
        let number = pass(&mut keeper, ticks);
        assert_eq!(pass_image(&mut image, ticks), number);
        assert_eq!(image, image_of(&keeper));
    }
    assert_eq!(keeper.ticks, 511);
}
