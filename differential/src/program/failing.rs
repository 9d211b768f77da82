//! Runs in which a read or a write fails.

use std::process;

use super::descriptors::{Sink, Source};
use super::expected;
use super::run::Ran;
use crate::test::Test;

/// How a run has to end.
#[derive(Clone, Copy, PartialEq, Eq)]
pub enum End {
    /// All lines are answered, and nothing is said.
    Quiet,
    ReadingFailed,
    WritingFailed,
}

impl End {
    /// What is said on standard error.
    fn message(self) -> &'static [u8] {
        match self {
            End::ReadingFailed => b"boardtime: reading failed\n",
            End::WritingFailed => b"boardtime: writing failed\n",
            End::Quiet => b"",
        }
    }
}

impl Test {
    /// Gives the program this input and output, of which one may fail, and
    /// compares all that it writes with what the independent implementation
    /// answers.
    pub fn run_failing(&mut self, input: &[u8], source: Source, sink: Sink, end: End) {
        self.tally.case();
        let found = match self.program.run_failing(input, source, sink) {
            Ok(ran) => {
                self.tally.program.failing_run(end);
                compare(input, sink, end, &ran)
            }
            Err(error) => Err(format!("the program can't be run: {error}")),
        };
        if let Err(difference) = found {
            let how = format!("{source}; standard output: {sink}");
            self.report_program(&difference, input, &how);
            process::exit(1);
        }
    }
}

fn compare(input: &[u8], sink: Sink, end: End, ran: &Ran) -> Result<(), String> {
    let Some(status) = ran.status else {
        return Err("it did not end, and was stopped".into());
    };
    compare_answers(answered(input, end), sink, end, &ran.stdout)?;
    if ran.stderr != end.message() {
        return Err(format!(
            "standard error differs\n  expected: `{}`\n  written:  `{}`",
            end.message().escape_ascii(),
            ran.stderr.escape_ascii()
        ));
    }
    if !status.success() {
        return Err(format!("it ended with {status}"));
    }
    let socket = matches!(sink, Sink::NonBlocking { .. });
    if socket && end == End::WritingFailed && !ran.full {
        return Err("it stopped writing before its output was full".into());
    }
    Ok(())
}

/// What has to be answered of an input: all of it, or all up to the last LF.
fn answered(input: &[u8], end: End) -> &[u8] {
    if end != End::ReadingFailed {
        return input;
    }
    let last = input.iter().rposition(|&byte| byte == b'\n');
    &input[..last.map_or(0, |last| last + 1)]
}

/// Compares what can be read of the output with the answers to this input.
fn compare_answers(input: &[u8], sink: Sink, end: End, output: &[u8]) -> Result<(), String> {
    let lines = expected::lines(input);
    let (answers, _) = expected::answers(&lines);
    match sink {
        Sink::NonBlocking { .. } if end == End::WritingFailed => {
            compare_beginning(&answers, output)
        }
        Sink::Pipe | Sink::NonBlocking { .. } => expected::compare(&lines, &answers, output),
        // Of the others nothing can be read.
        _ => Ok(()),
    }
}

fn compare_beginning(answers: &[u8], output: &[u8]) -> Result<(), String> {
    if answers.starts_with(output) {
        return Ok(());
    }
    let same = answers.iter().zip(output).take_while(|(a, b)| a == b);
    Err(format!(
        "the output, of {} bytes, is no beginning of the answers: byte {} differs",
        output.len(),
        same.count() + 1
    ))
}

#[cfg(test)]
mod tests {
    use super::{answered, compare_beginning, End};

    #[test]
    fn an_unfinished_line_counts_only_at_the_end_of_an_input() {
        for (input, whole) in [
            (&b""[..], &b""[..]),
            (b"a", b""),
            (b"\n", b"\n"),
            (b"a\n", b"a\n"),
            (b"a\n\nb", b"a\n\n"),
        ] {
            assert_eq!(answered(input, End::ReadingFailed), whole);
            assert_eq!(answered(input, End::Quiet), input);
            assert_eq!(answered(input, End::WritingFailed), input);
        }
    }

    #[test]
    fn a_full_output_holds_a_beginning_of_the_answers() {
        let answers = b"(no 3)\n(no 1)\n";
        for right in [&b""[..], b"(no 3)", b"(no 3)\n", answers] {
            assert_eq!(compare_beginning(answers, right), Ok(()));
        }
        for wrong in [&b"x"[..], b"(no 3)(no 1)\n", b"(no 3)\n(no 1)\n\n"] {
            assert!(compare_beginning(answers, wrong).is_err());
        }
    }
}
