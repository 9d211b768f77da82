//! One run of the program.

use std::env;
use std::fs::{self, File};
use std::io::{self, Read, Write};
use std::path::{Path, PathBuf};
use std::process::{self, Child, ChildStdin, Command, ExitStatus, Stdio};
use std::thread;
use std::time::{Duration, Instant};

use super::delivery::{Delivery, Piece};
use super::descriptors::{Sink, Source};

const VARIABLE: &str = "BOARDTIME_PROGRAM";

/// A run takes less than a second; one that takes this long will not end.
const LONGEST_RUN: Duration = Duration::from_secs(60);

/// A run with a failure takes some milliseconds.
const LONGEST_FAILING_RUN: Duration = Duration::from_secs(10);

/// Long enough for the program to begin its first read, mostly. What is
/// written before that arrives as one piece.
const FIRST_PAUSE: Duration = Duration::from_millis(2);

/// Long enough for the program to read what was written, mostly.
const PAUSE: Duration = Duration::from_micros(50);

pub struct Program {
    path: PathBuf,
    /// Holds the input of the last run from a file.
    stored: PathBuf,
}

/// What a run left.
pub struct Ran {
    pub stdout: Vec<u8>,
    pub stderr: Vec<u8>,
    /// `None` if the program did not end.
    pub status: Option<ExitStatus>,
    /// Whether the program took all that was written to the pipe.
    pub written: io::Result<()>,
    /// Whether standard output is a socket that takes nothing more.
    pub full: bool,
}

impl Program {
    /// The program that the environment names.
    pub fn from_environment() -> Result<Program, String> {
        let Some(name) = env::var_os(VARIABLE) else {
            return Err(format!(
                "{VARIABLE} is not set; it names the program boardtime, such as \
                 crates/boardtime/out/boardtime"
            ));
        };
        // A full path, because a bare name would be looked for elsewhere.
        let path = fs::canonicalize(&name)
            .map_err(|error| format!("{VARIABLE} is {}: {error}", Path::new(&name).display()))?;
        if !path.is_file() {
            return Err(format!("{VARIABLE} is {}: not a file", path.display()));
        }
        let file = format!("boardtime-differential-{}.stdin", process::id());
        Ok(Program {
            path,
            stored: env::temp_dir().join(file),
        })
    }

    /// Stores an input in a file, which goes when the test ends as it should.
    pub fn store(&self, input: &[u8]) -> io::Result<&Path> {
        fs::write(&self.stored, input)?;
        Ok(&self.stored)
    }

    pub fn run(&self, input: &[u8], delivery: &Delivery) -> io::Result<Ran> {
        let mut child = self.spawn(input, delivery)?;
        let stdin = child.stdin.take();
        watch(child, LONGEST_RUN, || write(stdin, input, delivery))
    }

    /// Runs the program with an input or an output that may fail.
    pub fn run_failing(&self, input: &[u8], source: Source, sink: Sink) -> io::Result<Ran> {
        let (stdin, kept) = source.open(self, input)?;
        let (stdout, socket) = sink.open()?;
        let child = self
            .command(source, sink)
            .stdin(stdin)
            .stdout(stdout)
            .stderr(Stdio::piped())
            .spawn()?;
        let mut ran = watch(child, LONGEST_FAILING_RUN, || Ok(()))?;
        drop(kept);
        if let Some(socket) = socket {
            (ran.full, ran.stdout) = socket.read()?;
        }
        Ok(ran)
    }

    /// The program, begun by a shell if that has to prepare something.
    fn command(&self, source: Source, sink: Sink) -> Command {
        let (before, stdout) = sink.in_shell();
        let script = format!("{before}exec \"$0\"{}{stdout}", source.in_shell());
        if script == "exec \"$0\"" {
            return Command::new(&self.path);
        }
        let mut shell = Command::new("/bin/sh");
        shell.arg("-c").arg(script).arg(&self.path);
        shell
    }

    fn spawn(&self, input: &[u8], delivery: &Delivery) -> io::Result<Child> {
        let stdin = match delivery {
            Delivery::File => Stdio::from(File::open(self.store(input)?)?),
            Delivery::Pipe(_) => Stdio::piped(),
        };
        Command::new(&self.path)
            .stdin(stdin)
            .stdout(Stdio::piped())
            .stderr(Stdio::piped())
            .spawn()
    }
}

impl Drop for Program {
    fn drop(&mut self) {
        // There is none if no run was from a file.
        let _ = fs::remove_file(&self.stored);
    }
}

/// Writes to the program and reads from it until it ends.
fn watch<F>(mut child: Child, longest: Duration, write: F) -> io::Result<Ran>
where
    F: FnOnce() -> io::Result<()> + Send,
{
    let stdout = child.stdout.take();
    let stderr = child.stderr.take();
    // Each pipe has a thread of its own: if one were served after another, the
    // program and the test could each wait for the other.
    thread::scope(|scope| {
        let written = scope.spawn(write);
        let stdout = scope.spawn(|| all_of(stdout));
        let stderr = scope.spawn(|| all_of(stderr));
        let status = wait(&mut child, longest)?;
        Ok(Ran {
            stdout: stdout.join().expect("no panic")?,
            stderr: stderr.join().expect("no panic")?,
            status,
            written: written.join().expect("no panic"),
            full: false,
        })
    })
}

/// Writes the input to the pipe piece by piece and closes it.
fn write(pipe: Option<ChildStdin>, input: &[u8], delivery: &Delivery) -> io::Result<()> {
    let (Some(mut pipe), Delivery::Pipe(pieces)) = (pipe, delivery) else {
        return Ok(());
    };
    let mut rest = input;
    for (at, &Piece { length, pause }) in pieces.iter().enumerate() {
        let (piece, after) = rest.split_at(length);
        pipe.write_all(piece)?;
        rest = after;
        if at == 0 && !rest.is_empty() {
            thread::sleep(FIRST_PAUSE);
        } else if pause {
            thread::sleep(PAUSE);
        }
    }
    assert!(rest.is_empty(), "the pieces make up the input");
    Ok(())
}

/// All that comes out of a pipe, and nothing if there is none.
fn all_of(pipe: Option<impl Read>) -> io::Result<Vec<u8>> {
    let mut bytes = Vec::new();
    if let Some(mut pipe) = pipe {
        pipe.read_to_end(&mut bytes)?;
    }
    Ok(bytes)
}

/// Waits for the end of the program, and stops it if it does not come.
fn wait(child: &mut Child, longest: Duration) -> io::Result<Option<ExitStatus>> {
    let begin = Instant::now();
    while begin.elapsed() < longest {
        if let Some(status) = child.try_wait()? {
            return Ok(Some(status));
        }
        thread::sleep(Duration::from_micros(200));
    }
    child.kill()?;
    child.wait()?;
    Ok(None)
}
