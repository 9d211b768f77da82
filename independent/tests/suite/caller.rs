//! A caller that checks, at every call, what must hold for all of them.

use independent::{answer_line, Keeper};

/// A byte that no answer contains.
pub const UNTOUCHED: u8 = 0xEE;

/// Answers a line and returns the answer without its LF. Also checks the
/// number, the LF, the untouched rest of the output and that a refusal leaves
/// the keeper as it was.
pub fn ask(keeper: &mut Keeper, line: impl AsRef<[u8]>) -> String {
    let before = keeper.clone();
    let mut out = [UNTOUCHED; 300];
    let answered = answer_line(keeper, line.as_ref(), &mut out);
    assert!(out[answered.length..].iter().all(|&byte| byte == UNTOUCHED));

    let (last, text) = out[..answered.length].split_last().expect("an answer");
    assert_eq!(*last, b'\n');
    let text = String::from_utf8(text.to_vec()).expect("ASCII");
    assert!(!text.contains('\n'));
    if answered.number == 0 {
        assert!(!text.starts_with("(no "));
        assert!(keeper.counts_as_started());
    } else {
        assert_eq!(text, format!("(no {})", answered.number));
        assert_eq!(*keeper, before);
    }
    text
}

/// A keeper after the given lines, which must all be accepted.
pub fn after(lines: &[&str]) -> Keeper {
    let mut keeper = Keeper::fresh();
    for line in lines {
        let answer = ask(&mut keeper, line);
        assert!(!answer.starts_with("(no "), "{line}: {answer}");
    }
    keeper
}

/// Asks the lines on the left and expects the answers on the right.
pub fn expect(keeper: &mut Keeper, table: &[(&str, &str)]) {
    for (line, answer) in table {
        assert_eq!(ask(keeper, line), *answer, "{line}");
    }
}
