//! What the program has to write.

use independent::{answer_line, Keeper};

use crate::limits::SHORTEST_OUTPUT;

const LF: u8 = b'\n';

/// The lines of an input: it is split at LF, and what follows the last LF is a
/// line only if it is not empty.
pub fn lines(input: &[u8]) -> Vec<&[u8]> {
    let mut lines: Vec<&[u8]> = input.split(|&byte| byte == LF).collect();
    if lines.last().is_some_and(|last| last.is_empty()) {
        lines.pop();
    }
    lines
}

/// The answers to these lines, one after the other, and the number of each.
pub fn answers(lines: &[&[u8]]) -> (Vec<u8>, Vec<u8>) {
    let mut keeper = Keeper::fresh();
    let mut answers = Vec::new();
    let mut numbers = Vec::with_capacity(lines.len());
    for line in lines {
        let mut out = [0; SHORTEST_OUTPUT];
        let answered = answer_line(&mut keeper, line, &mut out);
        answers.extend_from_slice(&out[..answered.length]);
        numbers.push(answered.number);
    }
    (answers, numbers)
}

/// Compares what the program wrote with the answers to these lines.
pub fn compare(lines: &[&[u8]], answers: &[u8], output: &[u8]) -> Result<(), String> {
    if answers == output {
        return Ok(());
    }
    let expected: Vec<&[u8]> = answers.split_inclusive(|&byte| byte == LF).collect();
    let written: Vec<&[u8]> = output.split_inclusive(|&byte| byte == LF).collect();
    let same = expected
        .iter()
        .zip(&written)
        .take_while(|(expected, written)| expected == written)
        .count();
    Err(format!(
        "answer {} differs\n  line:     {}\n  expected: {}\n  written:  {}\n\
         {} lines, {} answers in {} bytes expected, {} in {} bytes written",
        same + 1,
        shown(lines.get(same)),
        shown(expected.get(same)),
        shown(written.get(same)),
        lines.len(),
        expected.len(),
        answers.len(),
        written.len(),
        output.len(),
    ))
}

/// A line or an answer in a report: its front, if it is long.
fn shown(bytes: Option<&&[u8]>) -> String {
    const FRONT: usize = 250;
    match bytes {
        None => "none".into(),
        Some(bytes) if bytes.len() <= FRONT => format!("`{}`", bytes.escape_ascii()),
        Some(bytes) => format!(
            "`{}...`, {} bytes",
            bytes[..FRONT].escape_ascii(),
            bytes.len()
        ),
    }
}

#[cfg(test)]
mod tests {
    use super::{compare, lines};

    #[test]
    fn a_last_line_without_lf_counts_if_not_empty() {
        let none: [&[u8]; 0] = [];
        assert_eq!(lines(b""), none);
        assert_eq!(lines(b"\n"), [b""]);
        assert_eq!(lines(b"a"), [b"a"]);
        assert_eq!(lines(b"a\n"), [b"a"]);
        assert_eq!(lines(b"\n\na\n\n"), [&b""[..], b"", b"a", b""]);
        assert_eq!(lines(b"a\r\0 \n "), [&b"a\r\0 "[..], b" "]);
    }

    #[test]
    fn every_byte_is_compared() {
        let lines = [&b"(waiting)"[..], b"(read)"];
        let answers = b"(waiting (2 4) (1 5))\n(no 1)\n";
        assert_eq!(compare(&lines, answers, answers), Ok(()));
        for wrong in [
            &b""[..],
            b"(waiting (1 5) (2 4))\n(no 1)\n",
            b"(waiting (2 4) (1 5))\n",
            b"(waiting (2 4) (1 5))\n(no 1)",
            b"(waiting (2 4) (1 5))\n(no 1)\n\n",
            b"(waiting (2 4) (1 5))\n(no 1)\n(no 1)\n",
            b"(waiting (2 4))\n(no 1)\n",
            b"(no 1)\n(waiting (1 5) (2 4))\n",
        ] {
            assert!(compare(&lines, answers, wrong).is_err());
        }
    }
}
