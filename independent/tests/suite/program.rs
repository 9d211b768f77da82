//! The program: how it splits its input and what it writes.

use std::io::{Read, Write};
use std::process::{Child, Command, Stdio};
use std::thread;

fn spawn() -> Child {
    Command::new(env!("CARGO_BIN_EXE_independent"))
        .stdin(Stdio::piped())
        .stdout(Stdio::piped())
        .stderr(Stdio::piped())
        .spawn()
        .expect("the program starts")
}

/// Runs the program on the whole input and returns its output.
fn run(input: &[u8]) -> Vec<u8> {
    let mut child = spawn();
    let mut stdin = child.stdin.take().expect("a pipe");
    let input = input.to_vec();
    let writer = thread::spawn(move || stdin.write_all(&input));
    let output = child.wait_with_output().expect("the program ends");
    writer.join().expect("no panic").expect("all input is read");
    assert!(output.status.success());
    assert!(output.stderr.is_empty());
    output.stdout
}

fn assert_run(input: &[u8], expected: &str) {
    let output = String::from_utf8(run(input)).expect("ASCII");
    assert_eq!(output, expected);
}

#[test]
fn the_whole_run() {
    assert_run(
        b"(start 3 im 200 (-1000 1000))\n(pass 10)\n(request 4)\n(pass 5)\n\
        (reply 4 1 (9999000 10001000))\n(reply 4 1 (9999000 10001000))\n(request 4)\n\
        (reply 4 2 (15002001 15002001))\n(read)\n(pass 12x7)\n",
        "(started 3)\n(at 10 (9997000 10003000))\n(sent 4 1)\n(at 15 (14996000 15004000))\n\
        (taken 4 (14996000 15002000))\n(no 7)\n(sent 4 2)\n\
        (taken 4 (14996000 15002000))\n(time (14996000 16002200) (15499100 503100) 0 0)\n\
        (no 1)\n",
    );
}

#[test]
fn grouped_digits() {
    assert_run(
        b"(start 3 im 200 (-1_000 1000))\n(pass 1_000)\n(pass 12_7)\n(pass 86_400_001)\n\
        (request 1_000)\n(pass 1000_000)\n(pass _100)\n(read)\n",
        "(started 3)\n(at 1000 (999799000 1000201000))\n(no 1)\n(no 2)\n(no 2)\n(no 1)\n\
        (no 1)\n(time (999799000 1001201200) (1000500100 701100) 0 0)\n",
    );
}

#[test]
fn windows() {
    assert_run(
        b"(window 4 (2000-01-01T00:00:00 2000-01-01T00:00:01))\n\
        (start 3 im 0 (0 0))\n\
        (window 4 (2000-01-01T00:00:00 2000-01-01T00:00:01))\n\
        (window 4 (1999-12-31T23:59:59 2000-01-01T00:00:00))\n\
        (window 4 (2000-02-30T00:00:00 2000-03-01T00:00:00))\n\
        (window 4 (2000-03-01T00:00:00 2000-03-01T00:00:00))\n\
        (window 16 (2000-03-01T00:00:00 2000-03-01T00:00:00))\n",
        "(no 3)\n(started 3)\n(open 4)\n(shut 4)\n(no 11)\n(no 12)\n(no 2)\n",
    );
}

#[test]
fn the_oldest_request_first() {
    assert_run(
        b"(waiting)\n(start 3 im 0 (0 0))\n(waiting)\n(request 9)\n(request 4)\n(waiting)\n\
        (drop 9)\n(waiting)\n(request 9)\n(waiting)\n",
        "(no 3)\n(started 3)\n(waiting)\n(sent 9 1)\n(sent 4 2)\n(waiting (9 1) (4 2))\n\
        (dropped 9)\n(waiting (4 2))\n(sent 9 3)\n(waiting (4 2) (9 3))\n",
    );
}

#[test]
fn flights() {
    assert_run(
        b"(flight 4 (1000 250000))\n(start 3 im 200 (0 10000000))\n(flight 4 (1000 250000))\n\
        (flight 3 (1000 250000))\n(flight 4 (1000 1_000_000_001))\n(flight 4 (1000 -1))\n\
        (request 4)\n(flight 4 (0 0))\n(reply 4 1 (5_000_000 6_000_000))\n\
        (flight 4 (600_000 400_201))\n(request 4)\n(reply 4 2 (5500000 5500000))\n(read)\n",
        "(no 3)\n(started 3)\n(flight 4)\n(no 4)\n(no 2)\n(no 1)\n(sent 4 1)\n(no 6)\n\
        (taken 4 (4249800 5999000))\n(flight 4)\n(sent 4 2)\n\
        (conflict 4 (4249800 5999000))\n(time (4249800 6999200) (5624500 1374700) 1 0)\n",
    );
}

#[test]
fn empty_and_unfinished_lines() {
    assert_run(b"", "");
    assert_run(b"\n", "(no 1)\n");
    assert_run(b"\n\n(read)\n", "(no 1)\n(no 1)\n(no 3)\n");
    assert_run(b"(read)", "(no 3)\n");
    assert_run(
        b"(start 1 im 0 (0 0))\n(read)",
        "(started 1)\n(time (0 1000000) (500000 500000) 0 0)\n",
    );
    assert_run(b"(read)\r\n", "(no 1)\n");
}

#[test]
fn long_lines_are_refused_once() {
    for length in [159, 160, 161, 162, 65_535, 65_536, 65_537, 200_000] {
        let mut line = b"(pass 1)".to_vec();
        line.resize(length, b' ');
        let input = [b"(start 1 im 0 (0 0))\n", &line[..], b"\n(pass 2)\n"].concat();
        let expected = "(started 1)\n(no 1)\n(at 2 (2000000 2000000))\n";
        assert_run(&input, expected);
    }
    // A last line without LF.
    assert_run(&vec![b'x'; 300_000], "(no 1)\n");
}

#[test]
fn lines_across_blocks() {
    // A first line of every length around the block places the next line
    // across the end of the block in every way.
    for length in 65_500..65_540 {
        let mut input = vec![b'x'; length];
        input.extend_from_slice(b"\n(start 1 im 0 (0 0))\n(read)\n");
        let read = "(time (0 1000000) (500000 500000) 0 0)";
        assert_run(&input, &format!("(no 1)\n(started 1)\n{read}\n"));
    }
}

#[test]
fn the_longest_lines_across_blocks() {
    // The first of the two has the longest shape, the second is the longest
    // line that a keeper accepts.
    let nines = "9_999_999_999_999_999_999";
    let edge = "-4_000_000_000_000_000_000";
    let refused = format!("(start {nines} mm {nines} (-{nines} -{nines}))");
    let accepted = format!("(start 15 mm 50_000 ({edge} {edge}))");
    assert_eq!((refused.len(), accepted.len()), (118, 76));
    for length in 65_330..65_540 {
        let mut input = vec![b'x'; length];
        input.extend_from_slice(format!("\n{refused}\n{accepted}\n").as_bytes());
        assert_run(&input, "(no 1)\n(no 2)\n(started 15)\n");
    }
}

#[test]
fn many_answers_of_every_size() {
    let mut input = b"(start 1 im 0 (0 0))\n".to_vec();
    let mut expected = String::from("(started 1)\n");
    for ticks in 1..=20_000 {
        input.extend_from_slice(b"\n(pass 1)\n");
        let edge = ticks * 1_000_000_i64;
        expected.push_str(&format!("(no 1)\n(at {ticks} ({edge} {edge}))\n"));
    }
    assert_run(&input, &expected);
    // One block of empty lines has more answers than the buffer holds.
    assert_run(&vec![b'\n'; 200_000], &"(no 1)\n".repeat(200_000));
}

#[test]
fn answers_are_written_before_the_next_read() {
    let mut child = spawn();
    let mut stdin = child.stdin.take().expect("a pipe");
    let mut stdout = child.stdout.take().expect("a pipe");
    for (input, answer) in [
        (&b"(start 1 im 0 (0 0))\n"[..], "(started 1)\n"),
        (b"(pass 1)\n(re", "(at 1 (1000000 1000000))\n"),
        (b"ad)\n", "(time (1000000 2000000) (1500000 500000) 0 0)\n"),
    ] {
        stdin.write_all(input).expect("the program reads");
        let mut bytes = vec![0; answer.len()];
        stdout.read_exact(&mut bytes).expect("the program answers");
        assert_eq!(String::from_utf8_lossy(&bytes), answer);
    }
    drop(stdin);
    let mut rest = Vec::new();
    stdout.read_to_end(&mut rest).expect("the output ends");
    assert!(rest.is_empty());
    assert!(child.wait().expect("the program ends").success());
}
