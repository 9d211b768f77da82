//! Standard inputs and outputs that fail.

use std::fmt;
use std::fs::File;
use std::io::{self, Read, Write};
use std::os::fd::OwnedFd;
use std::os::unix::net::UnixStream;
use std::process::Stdio;

use super::Program;

/// What standard input is.
#[derive(Clone, Copy, PartialEq, Eq)]
pub enum Source {
    /// A file with the input. No read fails.
    File,
    /// A socket with the input. After it a read waits, and does not fail.
    Open,
    /// A socket with the input. After it every read fails.
    NonBlocking,
    /// A socket with the input. After it one read fails, and the next finds the
    /// end.
    Reset,
    Closed,
    Directory,
    WriteOnly,
}

/// What standard output is.
#[derive(Clone, Copy, PartialEq, Eq)]
pub enum Sink {
    /// A pipe that is read. No write fails.
    Pipe,
    /// A socket that is not read until the program has ended. At first it holds
    /// so many bytes, or as many as it can; a write fails when it is full.
    NonBlocking {
        held: usize,
    },
    /// A socket that no one can read any more. The signal of such a write is as
    /// the system has it; the program ignores it, so that the write fails.
    Gone,
    /// The same, but the signal is ignored before the program starts.
    GoneUnsignalled,
    Closed,
    Full,
    ReadOnly,
}

impl Source {
    /// Standard input, and what has to be kept until the program has ended.
    pub fn open(self, program: &Program, input: &[u8]) -> io::Result<(Stdio, Option<UnixStream>)> {
        let file = match self {
            Source::File => File::open(program.store(input)?)?,
            Source::Directory => File::open("/")?,
            Source::WriteOnly => File::options().write(true).open("/dev/null")?,
            Source::Closed => return Ok((Stdio::null(), None)),
            Source::Open | Source::NonBlocking | Source::Reset => return self.socket(input),
        };
        Ok((file.into(), None))
    }

    fn socket(self, input: &[u8]) -> io::Result<(Stdio, Option<UnixStream>)> {
        let (mut ours, mut theirs) = UnixStream::pair()?;
        // So that an input that does not fit is an error.
        ours.set_nonblocking(true)?;
        theirs.set_nonblocking(self == Source::NonBlocking)?;
        ours.write_all(input)?;
        let kept = if self == Source::Reset {
            // An end that is closed before it is read resets the other.
            theirs.write_all(b"unread")?;
            None
        } else {
            Some(ours)
        };
        Ok((OwnedFd::from(theirs).into(), kept))
    }

    /// What a shell has to do so that standard input is this.
    pub fn in_shell(self) -> &'static str {
        match self {
            Source::Closed => " <&-",
            _ => "",
        }
    }
}

impl Sink {
    /// Standard output, and where to read it when the program has ended.
    pub fn open(self) -> io::Result<(Stdio, Option<Socket>)> {
        let file = match self {
            Sink::Pipe => return Ok((Stdio::piped(), None)),
            Sink::NonBlocking { held } => {
                let socket = Socket::holding(held)?;
                let stdout = OwnedFd::from(socket.theirs.try_clone()?);
                return Ok((stdout.into(), Some(socket)));
            }
            Sink::Gone | Sink::GoneUnsignalled => {
                let (_, theirs) = UnixStream::pair()?;
                return Ok((OwnedFd::from(theirs).into(), None));
            }
            Sink::Closed => return Ok((Stdio::null(), None)),
            Sink::Full => File::options().write(true).open("/dev/full")?,
            Sink::ReadOnly => File::open("/dev/null")?,
        };
        Ok((file.into(), None))
    }

    /// What a shell has to do before the program and so that standard output is
    /// this.
    pub fn in_shell(self) -> (&'static str, &'static str) {
        match self {
            Sink::Closed => ("", " >&-"),
            Sink::GoneUnsignalled => ("trap '' PIPE; ", ""),
            _ => ("", ""),
        }
    }
}

impl fmt::Display for Source {
    fn fmt(&self, f: &mut fmt::Formatter<'_>) -> fmt::Result {
        f.write_str(match self {
            Source::File => "from a file",
            Source::Open => "from a socket that stays open",
            Source::NonBlocking => "from a socket that does not wait",
            Source::Reset => "from a socket that is reset",
            Source::Closed => "closed",
            Source::Directory => "from a directory",
            Source::WriteOnly => "not open for reading",
        })
    }
}

impl fmt::Display for Sink {
    fn fmt(&self, f: &mut fmt::Formatter<'_>) -> fmt::Result {
        f.write_str(match self {
            Sink::Pipe => "a pipe",
            Sink::NonBlocking { held: usize::MAX } => "a full socket",
            Sink::NonBlocking { held } => return write!(f, "a socket that holds {held} bytes"),
            Sink::Gone => "a socket without a reader",
            Sink::GoneUnsignalled => "a socket without a reader, the signal ignored",
            Sink::Closed => "closed",
            Sink::Full => "/dev/full",
            Sink::ReadOnly => "not open for writing",
        })
    }
}

/// A socket that does not wait, and its reading end.
pub struct Socket {
    ours: UnixStream,
    theirs: UnixStream,
    held: usize,
}

impl Socket {
    /// A socket that holds so many bytes, or as many as it can.
    fn holding(bytes: usize) -> io::Result<Socket> {
        let (ours, mut theirs) = UnixStream::pair()?;
        theirs.set_nonblocking(true)?;
        let filling = [b'x'; 65_536];
        let mut held = 0;
        while held < bytes {
            match theirs.write(&filling[..filling.len().min(bytes - held)]) {
                Ok(written) => held += written,
                Err(error) if error.kind() == io::ErrorKind::WouldBlock => break,
                Err(error) => return Err(error),
            }
        }
        Ok(Socket { ours, theirs, held })
    }

    /// About the most that a socket holds.
    pub fn capacity() -> io::Result<usize> {
        Ok(Socket::holding(usize::MAX)?.held)
    }

    /// Whether it is full, and what the program has written to it.
    pub fn read(mut self) -> io::Result<(bool, Vec<u8>)> {
        let full = match self.theirs.write(b"x") {
            Ok(_) => false,
            Err(error) if error.kind() == io::ErrorKind::WouldBlock => true,
            Err(error) => return Err(error),
        };
        // The program has ended, and this was the last writer.
        drop(self.theirs);
        let mut bytes = Vec::new();
        self.ours.read_to_end(&mut bytes)?;
        bytes.drain(..self.held);
        bytes.truncate(bytes.len() - usize::from(!full));
        Ok((full, bytes))
    }
}
