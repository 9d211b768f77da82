//! Lines that have no command shape.

use independent::Keeper;

use crate::caller::{after, ask, expect};

#[test]
#[rustfmt::skip]
fn lines_that_are_no_command() {
    let lines = [
        "", " ", "(", ")", "()", "( )", "read", "(read", "read)", "( read)", "(read )", "(Read)",
        "(READ)", "(reads)", "(rea)", "(read) ", " (read)", "(read))", "((read))", "(read)\n",
        "(read)\r", "(read)\0", "(read 1)", "(waiting", "(waiting) ", "(waiting )", "(waiting 1)",
        "(pass)", "(pass )", "(pass  5)", "(pass 5", "(pass 5) ", "(pass 5 )", "(pass 5))",
        "(pass 5 5)", "(pass5)", "(passs 5)", "(pass\t5)", "(pass +5)", "(pass -5)", "(pass -0)",
        "(pass -)", "(pass 05)", "(pass 00)", "(pass 0x5)", "(pass 5.0)", "(pass 1e3)",
        "(pass 12x7)", "(pass 12_7)", "(pass _)", "(pass (5))", "(request)", "(request )", "(request 1 2)", "(request -1)",
        "(request 01)", "(drop)", "(drop 1 1)", "(drop -1)", "(drop x)", "(stop 1)", "(x)",
    ];
    let mut started = after(&["(start 0 im 0 (0 0))"]);
    for line in lines {
        assert_eq!(ask(&mut started, line), "(no 1)", "{line:?}");
        assert_eq!(ask(&mut Keeper::fresh(), line), "(no 1)", "{line:?}");
    }
}

#[test]
#[rustfmt::skip]
fn starts_that_are_no_command() {
    for line in [
        "(start)", "(start 3)", "(start 3 im)", "(start 3 im 0)", "(start 3 im 0 )",
        "(start 3 im 0 ())", "(start 3 im 0 (0))", "(start 3 im 0 (0 0)", "(start 3 im 0 (0 0)))",
        "(start 3 im 0 (0 0)) ", "(start 3 im 0 (0 0) )", "(start 3 im 0 (0 0 ))",
        "(start 3 im 0 ( 0 0))", "(start 3 im 0 (0  0))", "(start 3 im 0(0 0))",
        "(start 3 im 0  (0 0))", "(start 3 im 0 0 0)", "(start 3 im 0 (0 0 0))",
        "(start 3 IM 0 (0 0))", "(start 3 i 0 (0 0))", "(start 3 imm 0 (0 0))",
        "(start 3 nn 0 (0 0))", "(start 3  im 0 (0 0))", "(start 3 im  0 (0 0))",
        "(start -3 im 0 (0 0))", "(start 3 im -1 (0 0))", "(start 3 im 0 (-0 0))",
        "(start 3 im 0 (0 -0))", "(start 3 im 0 (--1 0))", "(start 3 im 0 (- 0))",
        "(start 3 im 0 (-01 0))", "(start 3 im 0 (00 0))", "(start 3 im 0 (+1 2))",
        "(start 03 im 0 (0 0))", "(start 3 im 00 (0 0))", "(start 3 im 0 (0 0x))",
    ] {
        assert_eq!(ask(&mut Keeper::fresh(), line), "(no 1)", "{line:?}");
    }
}

#[test]
#[rustfmt::skip]
fn replies_that_are_no_command() {
    let mut keeper = after(&["(start 0 im 0 (0 0))", "(request 1)"]);
    for line in [
        "(reply)", "(reply 1)", "(reply 1 1)", "(reply 1 1 (0))", "(reply 1 1 (0 0)",
        "(reply 1 1 (0 0)) ", "(reply 1 1 (0 0)))", "(reply 1 (0 0))", "(reply 1 -1 (0 0))",
        "(reply -1 1 (0 0))", "(reply 1 01 (0 0))", "(reply 1 1 (-0 0))", "(reply 1 1 0 0)",
        "(reply 1  1 (0 0))", "(reply 1 1(0 0))", "(reply 1 1 (0 0 0))", "(reply 1 1 (0, 0))",
    ] {
        assert_eq!(ask(&mut keeper, line), "(no 1)", "{line:?}");
    }
}

#[test]
#[rustfmt::skip]
fn flights_that_are_no_command() {
    let mut keeper = after(&["(start 0 im 0 (0 0))"]);
    for line in [
        "(flight)", "(flight )", "(flight 1)", "(flight 1 )", "(flight 1 ())", "(flight 1 (2))",
        "(flight 1 (2 ))", "(flight 1 2 3)", "(flight 1 (2 3)", "(flight 1 (2 3)) ",
        "(flight 1 (2 3)))", "(flight 1 (2 3) )", "(flight 1 (2 3 ))", "(flight 1 ( 2 3))",
        "(flight 1 (2  3))", "(flight 1(2 3))", "(flight 1  (2 3))", "(flight  1 (2 3))",
        "(flight 1 (2 3 4))", "(flight 1 2 (3 4))", "(flight (2 3))", "(flight 1 (2, 3))",
        "(flight1 (2 3))", "(flights 1 (2 3))", "(Flight 1 (2 3))", "(fligh 1 (2 3))",
        "(flight 01 (2 3))", "(flight 1 (02 3))", "(flight 1 (2 03))", "(flight 1 (+2 3))",
        "(flight 1 (2 3x))", "(flight 1 (2x 3))", "(flight 1 (2 3))\n", "(flight 1 (2\t3))",
        // A time is no edge.
        "(flight -1 (2 3))", "(flight 1 (-2 3))", "(flight 1 (2 -3))", "(flight 1 (-2 -3))",
        "(flight 1 (-0 3))", "(flight 1 (2 -0))", "(flight 1 (-1000000001 3))",
        "(flight 1 (2 -1_000))",
        // "12_7, 1000_000 and _100 are 1", and so are 20 digits.
        "(flight 1 (12_7 3))", "(flight 1 (2 1000_000))", "(flight 1 (_100 3))",
        "(flight 1 (2 1_000000000))", "(flight 1 (10000000000000000000 3))",
        "(flight 1 (2 10_000_000_000_000_000_000))",
    ] {
        assert_eq!(ask(&mut keeper, line), "(no 1)", "{line:?}");
        assert_eq!(ask(&mut Keeper::fresh(), line), "(no 1)", "{line:?}");
    }
}

#[test]
fn every_cut_of_a_command_and_every_added_byte() {
    let base = after(&["(start 3 mm 7 (-5 6))", "(request 1)"]);
    for line in [
        "(pass 10)",
        "(request 2)",
        "(reply 1 1 (-5 6))",
        "(drop 1)",
        "(read)",
        "(waiting)",
        "(window 1 (1999-12-31T23:59:59 2000-01-01T00:00:00))",
        "(flight 2 (10 9))",
    ] {
        let bytes = line.as_bytes();
        assert!(!ask(&mut base.clone(), bytes).starts_with("(no"));
        for length in 0..bytes.len() {
            assert_eq!(ask(&mut base.clone(), &bytes[..length]), "(no 1)");
        }
        for added in 0..=255 {
            let mut longer = bytes.to_vec();
            longer.push(added);
            assert_eq!(ask(&mut base.clone(), longer), "(no 1)");
        }
    }
}

#[test]
fn line_length() {
    let mut keeper = after(&["(start 0 im 0 (0 0))"]);
    for length in [118, 119, 120, 121, 159, 160, 161, 162, 1000, 100_000] {
        let mut line = b"(pass 1)".to_vec();
        line.resize(length, b' ');
        assert_eq!(ask(&mut keeper, line), "(no 1)");
    }
}

#[test]
fn shape_comes_before_range_and_range_before_order() {
    expect(
        &mut Keeper::fresh(),
        &[
            ("(pass 86400001x)", "(no 1)"),
            ("(start 16 xx 0 (0 0))", "(no 1)"),
            ("(start 16 im 50001 (2 1)))", "(no 1)"),
            ("(reply 16 0 (2 1) )", "(no 1)"),
            ("(flight 16 (1000000001 -1))", "(no 1)"),
            ("(pass 86400001)", "(no 2)"),
            ("(reply 16 0 (2 1))", "(no 2)"),
            ("(flight 16 (1000000001 1))", "(no 2)"),
            ("(pass 5)", "(no 3)"),
            ("(flight 15 (1000000000 1))", "(no 3)"),
        ],
    );
}
