//! The wrapper's own duties: what it hands to the library and what it hands
//! back. The package `differential` tests the library.

use boardtime::{image, Keeper, Refusal, IMAGE_BYTES, OUTPUT_BYTES};

const UNTOUCHED: u8 = 0xA5;

/// The length and the version of an image before flight times.
const OLDER_BYTES: usize = 232;
const OLDER_VERSION: u8 = 1;

/// Where the out times and the back times begin in an image.
const OUT_TIMES: usize = 232;
const BACK_TIMES: usize = 296;
const LAST_FLIGHT: u32 = 1_000_000_000;

fn answered(keeper: &mut Keeper, line: &str) -> (u8, String) {
    let mut out = [UNTOUCHED; OUTPUT_BYTES];
    let answer = keeper.answer(line.as_bytes(), &mut out);
    let text = String::from_utf8(answer.bytes.to_vec()).expect("an answer is ASCII");
    (answer.number, text)
}

fn started() -> Keeper {
    let mut keeper = Keeper::fresh();
    assert_eq!(
        answered(&mut keeper, "(start 3 im 200 (-1000 1000))"),
        (0, "(started 3)\n".into())
    );
    keeper
}

#[test]
fn fresh_image() {
    let mut image = [0; IMAGE_BYTES];
    image[0] = 2;
    assert_eq!(*Keeper::fresh().image(), image);
    assert_eq!(Keeper::default(), Keeper::fresh());
}

#[test]
fn started_image() {
    let mut image = [0; IMAGE_BYTES];
    image[..4].copy_from_slice(&[2, 1, 3, 0]);
    image[4..6].copy_from_slice(&200_u16.to_le_bytes());
    image[8..16].copy_from_slice(&(-1000_i64).to_le_bytes());
    image[16..24].copy_from_slice(&1000_i64.to_le_bytes());
    assert_eq!(*started().image(), image);
}

#[test]
fn whole_run_of_the_specification() {
    let mut keeper = Keeper::fresh();
    for (line, number, answer) in [
        ("(start 3 im 200 (-1000 1000))", 0, "(started 3)\n"),
        ("(pass 10)", 0, "(at 10 (9997000 10003000))\n"),
        ("(request 4)", 0, "(sent 4 1)\n"),
        ("(pass 5)", 0, "(at 15 (14996000 15004000))\n"),
        (
            "(reply 4 1 (9999000 10001000))",
            0,
            "(taken 4 (14996000 15002000))\n",
        ),
        ("(reply 4 1 (9999000 10001000))", 7, "(no 7)\n"),
        ("(request 4)", 0, "(sent 4 2)\n"),
        (
            "(reply 4 2 (15002001 15002001))",
            0,
            "(taken 4 (14996000 15002000))\n",
        ),
        (
            "(read)",
            0,
            "(time (14996000 16002200) (15499100 503100) 0 0)\n",
        ),
        ("(pass 12x7)", 1, "(no 1)\n"),
    ] {
        assert_eq!(answered(&mut keeper, line), (number, answer.into()));
    }
}

/// Two keepers are given each line, one of them with its numerals grouped.
#[test]
fn grouped_numerals_are_answered_as_plain_ones() {
    let (mut grouped, mut plain) = (Keeper::fresh(), Keeper::fresh());
    for (line, number, answer) in [
        ("(start 3 im 1_000 (-1_000 1_000))", 0, "(started 3)\n"),
        ("(pass 12_345)", 0, "(at 12345 (12332654000 12357346000))\n"),
        ("(request 4)", 0, "(sent 4 1)\n"),
        (
            "(reply 4 1_000 (12_340_000_000 12350000000))",
            7,
            "(no 7)\n",
        ),
        (
            "(reply 4 1 (12_340_000_000 12350000000))",
            0,
            "(taken 4 (12338999000 12350000000))\n",
        ),
        ("(flight 4 (1_000 1_000_000_000))", 0, "(flight 4)\n"),
        ("(flight 4 (1_000 1_000_000_001))", 2, "(no 2)\n"),
    ] {
        let expected = (number, answer.into());
        assert_eq!(answered(&mut grouped, line), expected);
        assert_eq!(answered(&mut plain, &line.replace('_', "")), expected);
        assert_eq!(grouped, plain);
    }
}

#[test]
fn waiting_peers_are_listed_by_tag() {
    let mut keeper = started();
    for (line, answer) in [
        ("(waiting)", "(waiting)\n"),
        ("(request 9)", "(sent 9 1)\n"),
        ("(request 4)", "(sent 4 2)\n"),
        ("(waiting)", "(waiting (9 1) (4 2))\n"),
        ("(drop 9)", "(dropped 9)\n"),
        ("(request 9)", "(sent 9 3)\n"),
        ("(waiting)", "(waiting (4 2) (9 3))\n"),
    ] {
        assert_eq!(answered(&mut keeper, line), (0, answer.into()));
    }
}

/// The bracket of peer 4 begins at TRAILING - 1000200 + 2000 and ends at
/// LEADING + 1000200 w - 1000. Its times stay when a request ends, and the other
/// peers have none.
#[test]
fn flight_times_narrow_a_bracket() {
    let mut keeper = started();
    for (line, number, answer) in [
        ("(pass 10)", 0, "(at 10 (9997000 10003000))\n"),
        ("(flight 4 (1000 2000))", 0, "(flight 4)\n"),
        ("(request 4)", 0, "(sent 4 1)\n"),
        ("(flight 4 (0 0))", 6, "(no 6)\n"),
        ("(pass 5)", 0, "(at 15 (14996000 15004000))\n"),
        // From 9000800 through 15001000.
        (
            "(reply 4 1 (9999000 10001000))",
            0,
            "(taken 4 (14996000 15001000))\n",
        ),
        ("(request 4)", 0, "(sent 4 2)\n"),
        // From 14997000 through 15994200.
        (
            "(reply 4 2 (15995200 15995200))",
            0,
            "(taken 4 (14997000 15001000))\n",
        ),
        ("(request 9)", 0, "(sent 9 3)\n"),
        // From 14997300 through 15997500.
        (
            "(reply 9 3 (15997500 15997500))",
            0,
            "(taken 9 (14997300 15001000))\n",
        ),
        ("(request 4)", 0, "(sent 4 4)\n"),
        ("(drop 4)", 0, "(dropped 4)\n"),
        ("(request 4)", 0, "(sent 4 5)\n"),
        // From 14002799 through 14999999.
        (
            "(reply 4 5 (15000999 15000999))",
            0,
            "(taken 4 (14997300 14999999))\n",
        ),
    ] {
        assert_eq!(answered(&mut keeper, line), (number, answer.into()));
    }
}

/// A reply of 1000200 alone has a bracket from BACK through 1000200 - OUT: with
/// the first times it holds the moment 0 and no other, with the second none.
#[test]
fn an_empty_bracket_is_a_conflict() {
    for (start, first) in [
        ("(start 3 im 200 (-1000 1000))", "(taken 4 (0 0))\n"),
        ("(start 3 mm 200 (-1000 1000))", "(kept 4 (-1000 1000))\n"),
    ] {
        for (flight, expected) in [
            ("(flight 4 (1000200 0))", first),
            ("(flight 4 (1000200 1))", "(conflict 4 (-1000 1000))\n"),
        ] {
            let mut keeper = Keeper::fresh();
            for line in [start, flight, "(request 4)"] {
                assert_eq!(answered(&mut keeper, line).0, 0);
            }
            let answer = answered(&mut keeper, "(reply 4 1 (1000200 1000200))");
            assert_eq!(answer, (0, expected.into()), "{start} {flight}");
        }
    }
}

/// Under mm a reply moves outward by 1000200, whatever the flight times are.
#[test]
fn flight_times_leave_an_adoption_as_it_is() {
    for flight in ["(flight 4 (0 0))", "(flight 4 (1000 2000))"] {
        let mut keeper = Keeper::fresh();
        for line in ["(start 3 mm 200 (-2000000 2000000))", flight, "(request 4)"] {
            assert_eq!(answered(&mut keeper, line).0, 0);
        }
        assert_eq!(
            answered(&mut keeper, "(reply 4 1 (-500 500))"),
            (0, "(taken 4 (-1000700 1000700))\n".into())
        );
    }
}

#[test]
fn flight_times_have_their_places_in_the_image() {
    let mut keeper = started();
    let mut image = *keeper.image();
    for (peer, out, back) in [(4, 1000, 2000), (0, LAST_FLIGHT, 7), (15, 8, LAST_FLIGHT)] {
        let line = format!("(flight {peer} ({out} {back}))");
        let answer = format!("(flight {peer})\n");
        assert_eq!(answered(&mut keeper, &line), (0, answer));
        put(&mut image, OUT_TIMES + 4 * peer, out);
        put(&mut image, BACK_TIMES + 4 * peer, back);
        assert_eq!(*keeper.image(), image);
    }
}

fn put(image: &mut [u8; IMAGE_BYTES], at: usize, number: u32) {
    image[at..at + 4].copy_from_slice(&number.to_le_bytes());
}

/// Each of the 32 times, the board's own too.
#[test]
fn keepers_with_longer_flight_times_are_not_started() {
    for peer in 0..16 {
        for at in [OUT_TIMES + 4 * peer, BACK_TIMES + 4 * peer] {
            let mut image = *started().image();
            put(&mut image, at, LAST_FLIGHT);
            assert_eq!(Keeper::from_image(image).pass(1), Ok(()), "{at}");
            put(&mut image, at, LAST_FLIGHT + 1);
            let refused = Keeper::from_image(image).pass(1);
            assert_eq!(refused, Err(Refusal::WrongOrder), "{at}");
        }
    }
}

/// A number outside its range comes before a missing start and before a request
/// that waits.
#[test]
fn refused_flights_leave_the_keeper_as_it_was() {
    let mut waiting = started();
    assert_eq!(answered(&mut waiting, "(flight 4 (5 6))").0, 0);
    assert_eq!(answered(&mut waiting, "(request 4)").0, 0);
    for (mut keeper, line, number) in [
        (Keeper::fresh(), "(flight 16 (-1 0))", 1),
        (Keeper::fresh(), "(flight 16 (0 0))", 2),
        (Keeper::fresh(), "(flight 4 (0 1000000001))", 2),
        (Keeper::fresh(), "(flight 4 (1000000000 0))", 3),
        (waiting.clone(), "(flight 4 (1000000001 0))", 2),
        (waiting.clone(), "(flight 3 (0 0))", 4),
        (waiting.clone(), "(flight 4 (0 0))", 6),
    ] {
        let before = keeper.clone();
        let answer = format!("(no {number})\n");
        assert_eq!(answered(&mut keeper, line), (number, answer), "{line}");
        assert_eq!(keeper, before, "{line}");
    }
}

/// Whatever is in the bytes of a keeper that has not started: also where its
/// version, started flag and rule can be read.
#[test]
fn a_start_sets_every_byte() {
    for byte in [0, 1, UNTOUCHED, 0xFF] {
        for front in [[byte; 4], [2, 0, 5, 1]] {
            let mut image = [byte; IMAGE_BYTES];
            image[..4].copy_from_slice(&front);
            let mut keeper = Keeper::from_image(image);
            let start = "(start 3 im 200 (-1000 1000))";
            assert_eq!(answered(&mut keeper, start), (0, "(started 3)\n".into()));
            assert_eq!(keeper, started());
        }
    }
}

#[test]
fn what_is_no_numeral_is_not_answered() {
    let mut keeper = started();
    let before = keeper.clone();
    for line in [
        "(pass 12_7)",
        "(pass 1000_000)",
        "(pass _100)",
        "(pass 100_)",
        "(pass 1__000)",
        "(pass 0_000)",
        "(request _4)",
        "(reply 4 1_ (0 0))",
        "(reply 4 1 (-_100 0))",
        "(window 0 (2_000-01-01T00:00:00 2001-01-01T00:00:00))",
        "(flight 4 (100_ 0))",
        "(flight 4 (0 -1))",
    ] {
        assert_eq!(answered(&mut keeper, line), (1, "(no 1)\n".into()));
        assert_eq!(keeper, before);
    }
}

#[test]
fn kept_image_goes_on() {
    let mut keeper = started();
    answered(&mut keeper, "(request 4)");
    let mut other = Keeper::from_image(*keeper.image());
    assert_eq!(other, keeper.clone());
    assert_eq!(answered(&mut other, "(drop 4)").0, 0);
    assert_ne!(other, keeper);
}

#[test]
fn any_bytes_are_a_keeper() {
    for byte in [0, 1, 2, 0xFF] {
        let mut keeper = Keeper::from_image([byte; IMAGE_BYTES]);
        assert_eq!(keeper.pass(1), Err(Refusal::WrongOrder));
        assert_eq!(*keeper.image(), [byte; IMAGE_BYTES]);
    }
}

#[test]
fn passes_by_number() {
    let mut keeper = Keeper::fresh();
    assert_eq!(keeper.pass(1), Err(Refusal::WrongOrder));
    assert_eq!(keeper.pass(86_400_001), Err(Refusal::OutsideRange));
    let mut keeper = started();
    let mut by_line = keeper.clone();
    assert_eq!(keeper.pass(86_400_000), Ok(()));
    answered(&mut by_line, "(pass 86400000)");
    assert_eq!(keeper, by_line);
}

/// Of some of these the lowest 32 bits alone would be accepted.
#[test]
fn ticks_are_not_cut_short() {
    for mut keeper in [Keeper::fresh(), started()] {
        let before = keeper.clone();
        for ticks in [1 << 32, (1 << 32) + 5, 1 << 63, u64::MAX] {
            assert_eq!(keeper.pass(ticks), Err(Refusal::OutsideRange), "{ticks}");
            assert_eq!(keeper, before, "{ticks}");
        }
    }
}

#[test]
fn overflow_by_number() {
    let mut keeper = Keeper::fresh();
    answered(
        &mut keeper,
        "(start 0 im 0 (3999999999999000000 3999999999999000000))",
    );
    let before = keeper.clone();
    assert_eq!(keeper.pass(2), Err(Refusal::Overflow));
    assert_eq!(keeper, before);
    assert_eq!(keeper.pass(1), Ok(()));
}

#[test]
fn only_the_answer_is_written() {
    let mut keeper = started();
    let mut out = [UNTOUCHED; OUTPUT_BYTES + 9];
    let length = keeper.answer(b"(request 4)", &mut out).bytes.len();
    assert_eq!(&out[..length], b"(sent 4 1)\n");
    assert!(out[length..].iter().all(|&byte| byte == UNTOUCHED));
}

#[test]
fn short_outputs_are_refused() {
    let mut keeper = started();
    let before = keeper.clone();
    for length in [0, 1, OUTPUT_BYTES - 1] {
        let mut out = vec![UNTOUCHED; length];
        let answer = keeper.answer(b"(pass 1)", &mut out);
        assert_eq!(answer.result(), Err(Refusal::ShortOutput));
        assert_eq!(answer.bytes, b"");
        assert!(out.iter().all(|&byte| byte == UNTOUCHED));
        assert_eq!(keeper, before);
    }
}

#[test]
fn results_have_the_numbers_of_their_refusals() {
    let mut keeper = started();
    let mut out = [0; OUTPUT_BYTES];
    assert_eq!(keeper.answer(b"(read)", &mut out).result(), Ok(()));
    for (line, refusal) in [
        ("", Refusal::NoShape),
        ("(pass 86400001)", Refusal::OutsideRange),
        ("(start 3 im 200 (-1000 1000))", Refusal::WrongOrder),
        ("(request 3)", Refusal::OwnBoard),
        ("(drop 4)", Refusal::NotWaiting),
        (
            "(window 0 (2001-02-29T00:00:00 2002-01-01T00:00:00))",
            Refusal::NoDate,
        ),
        (
            "(window 0 (2002-01-01T00:00:00 2001-01-01T00:00:00))",
            Refusal::NoWindow,
        ),
    ] {
        let answer = keeper.answer(line.as_bytes(), &mut out);
        assert_eq!(answer.result(), Err(refusal));
        assert_eq!(answer.number, refusal.number());
        assert_eq!(
            answer.bytes,
            format!("(no {})\n", refusal.number()).as_bytes()
        );
    }
}

/// The keeper's edges are 1000 ns before and after 2000-01-01T00:00:00.
#[test]
fn windows_leave_the_keeper_as_it_was() {
    let mut keeper = started();
    let before = keeper.clone();
    for (line, number, answer) in [
        (
            "(window 0 (1999-12-31T23:59:59 2000-01-01T00:00:01))",
            0,
            "(open 0)\n",
        ),
        (
            "(window 15 (2000-01-01T00:00:01 2000-01-01T00:00:02))",
            0,
            "(shut 15)\n",
        ),
        (
            "(window 9 (2000-01-01T00:00:00 2000-01-01T00:00:01))",
            0,
            "(unsure 9)\n",
        ),
        (
            "(window 0 (1900-02-29T00:00:00 2000-01-01T00:00:00))",
            11,
            "(no 11)\n",
        ),
        (
            "(window 0 (2000-01-01T00:00:00 2000-01-01T00:00:00))",
            12,
            "(no 12)\n",
        ),
    ] {
        assert_eq!(answered(&mut keeper, line), (number, answer.into()));
        assert_eq!(keeper, before);
    }
}

/// It is refused for its length, and with more bytes behind it, it counts as not
/// started.
#[test]
fn images_of_an_older_library() {
    let mut older: [u8; OLDER_BYTES] = started().image()[..OLDER_BYTES]
        .try_into()
        .expect("a part of this length");
    older[0] = OLDER_VERSION;
    let mut bytes = older;
    let mut out = [UNTOUCHED; OUTPUT_BYTES];
    assert_eq!(image::pass(&mut bytes, 1), image::WRONG_LENGTH);
    let returned = image::line(&mut bytes, b"(read)", &mut out);
    assert_eq!(returned.number, image::WRONG_LENGTH);
    assert_eq!((bytes, out), (older, [UNTOUCHED; OUTPUT_BYTES]));

    let mut image = [0; IMAGE_BYTES];
    image[..OLDER_BYTES].copy_from_slice(&older);
    let mut keeper = Keeper::from_image(image);
    assert_eq!(keeper.pass(1), Err(Refusal::WrongOrder));
    assert_eq!(answered(&mut keeper, "(read)"), (3, "(no 3)\n".into()));
    assert_eq!(*keeper.image(), image);
    // By its version alone.
    image[0] = 2;
    assert_eq!(Keeper::from_image(image).pass(1), Ok(()));
}

#[test]
fn images_of_other_lengths() {
    let mut out = [UNTOUCHED; OUTPUT_BYTES];
    for length in [0, 1, OLDER_BYTES, IMAGE_BYTES - 1, IMAGE_BYTES + 1] {
        let mut bytes = vec![UNTOUCHED; length];
        assert_eq!(image::fresh(&mut bytes), image::WRONG_LENGTH);
        assert_eq!(image::pass(&mut bytes, 1), image::WRONG_LENGTH);
        let returned = image::line(&mut bytes, b"(read)", &mut out);
        assert_eq!(returned.number, image::WRONG_LENGTH);
        assert_eq!(returned.length, 0);
        assert!(bytes.iter().all(|&byte| byte == UNTOUCHED));
    }
    assert!(out.iter().all(|&byte| byte == UNTOUCHED));
}
