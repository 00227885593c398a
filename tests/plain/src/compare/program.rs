//! A program that answers the script on its standard input.

use super::Subject;
use std::fs::File;
use std::io::{self, BufRead, BufReader, Read, Write};
use std::net::Shutdown;
use std::os::fd::OwnedFd;
use std::os::unix::net::{UnixDatagram, UnixStream};
use std::path::PathBuf;
use std::process::{ChildStdout, Command, Stdio};
use std::thread;

/// Seconds after which a program that has not ended is taken to hang: it is
/// stopped, and its run has failed.
const LIMIT: &str = "20";

pub struct Program {
    pub path: PathBuf,
    pub feed: Feed,
}

/// How the script comes to the program.
pub enum Feed {
    /// As fast as it goes.
    Pipe,
    /// Each read gets one packet, of these many bytes in turn: no more than the
    /// program asks for at once, since what it does not take of one is lost.
    Packets(&'static [usize]),
    /// By pipe, each line when the line before it is answered.
    Lines,
    /// In packets, each when all whole lines before it are answered.
    Awaited(&'static [usize]),
    /// The read after the last byte fails.
    Broken,
    /// No read succeeds.
    Unreadable,
}

impl Subject for Program {
    fn name(&self) -> String {
        match self.feed {
            Feed::Pipe => "by pipe".into(),
            Feed::Packets(sizes) => format!("in packets of {sizes:?} bytes"),
            Feed::Lines => "by a client that waits for each answer".into(),
            Feed::Awaited(sizes) => {
                format!("by a client that waits, in packets of {sizes:?} bytes")
            }
            Feed::Broken => "from an input that fails at its end".into(),
            Feed::Unreadable => "from a directory".into(),
        }
    }

    fn answers(&self, script: &[u8]) -> io::Result<Vec<u8>> {
        match self.feed {
            Feed::Pipe => {
                let (read, mut write) = io::pipe()?;
                self.run(read.into(), beside(move || drop(write.write_all(script))))
            }
            Feed::Packets(sizes) => {
                let (read, write) = UnixDatagram::pair()?;
                self.run(read.into(), beside(move || drop(send_all(&write, script, sizes))))
            }
            Feed::Lines => {
                let (read, mut write) = io::pipe()?;
                let lines = script.split_inclusive(|&byte| byte == b'\n');
                self.run(read.into(), |from| {
                    let answers = converse(&mut *from, lines, |line| write.write_all(line));
                    drop(write);
                    rest(answers?, from)
                })
            }
            Feed::Awaited(sizes) => {
                let (read, write) = UnixDatagram::pair()?;
                self.run(read.into(), |from| {
                    let sent = |packet: &[u8]| write.send(packet).map(drop);
                    let answers = converse(&mut *from, packets(script, sizes), sent)?;
                    drop(end(&write));
                    rest(answers, from)
                })
            }
            Feed::Broken => {
                let (mut read, mut write) = UnixStream::pair()?;
                // Unread when its other end is closed, it makes the read after the last byte fail.
                read.write_all(b"!")?;
                self.run(read.into(), beside(move || drop(write.write_all(script))))
            }
            Feed::Unreadable => self.run(File::open("/")?.into(), |from| rest(Vec::new(), from)),
        }
    }

    /// Where the input has no end, the line that comes at its end is not due.
    fn due(&self, mut answers: Vec<u8>) -> Vec<u8> {
        match self.feed {
            Feed::Broken => {
                let before = answers.strip_suffix(b"\n").unwrap_or(&answers);
                answers.truncate(
                    before.iter().rposition(|&byte| byte == b'\n').map_or(0, |at| at + 1),
                );
            }
            Feed::Unreadable => answers.clear(),
            _ => {}
        }
        answers
    }
}

type Answers = BufReader<ChildStdout>;

impl Program {
    /// All that it writes, as the client collects it.
    fn run(
        &self,
        input: OwnedFd,
        client: impl FnOnce(&mut Answers) -> io::Result<Vec<u8>>,
    ) -> io::Result<Vec<u8>> {
        let mut command = Command::new("timeout");
        command.arg(LIMIT).arg(&self.path);
        let mut child = command.stdin(input).stdout(Stdio::piped()).spawn()?;
        // The parent's copy of the input's other end goes, so that a write to it fails.
        drop(command);
        let answers = client(&mut BufReader::new(child.stdout.take().expect("it is piped")))?;
        let status = child.wait()?;
        if status.success() {
            Ok(answers)
        } else {
            Err(io::Error::other(status.to_string()))
        }
    }
}

/// A client that feeds the program on a thread of its own, since it writes as it
/// reads. It may stop reading early: what it then leaves is no error.
fn beside<'a>(
    feed: impl FnOnce() + Send + 'a,
) -> impl FnOnce(&mut Answers) -> io::Result<Vec<u8>> + 'a {
    |from| {
        thread::scope(|scope| {
            scope.spawn(feed);
            rest(Vec::new(), from)
        })
    }
}

fn rest(mut answers: Vec<u8>, from: &mut Answers) -> io::Result<Vec<u8>> {
    from.read_to_end(&mut answers)?;
    Ok(answers)
}

/// Sends piece by piece, each when all lines that are whole so far are answered.
/// It ends early if the program does.
fn converse<'a>(
    from: &mut Answers,
    pieces: impl Iterator<Item = &'a [u8]>,
    mut send: impl FnMut(&[u8]) -> io::Result<()>,
) -> io::Result<Vec<u8>> {
    let mut answers = Vec::new();
    for piece in pieces {
        if send(piece).is_err() {
            break;
        }
        for _ in piece.iter().filter(|&&byte| byte == b'\n') {
            if from.read_until(b'\n', &mut answers)? == 0 {
                return Ok(answers);
            }
        }
    }
    Ok(answers)
}

fn packets<'a>(mut script: &'a [u8], sizes: &'a [usize]) -> impl Iterator<Item = &'a [u8]> {
    sizes.iter().cycle().map_while(move |&size| {
        let (packet, rest) = script.split_at(size.min(script.len()));
        script = rest;
        (!packet.is_empty()).then_some(packet)
    })
}

fn send_all(to: &UnixDatagram, script: &[u8], sizes: &[usize]) -> io::Result<()> {
    packets(script, sizes).try_for_each(|packet| to.send(packet).map(drop))?;
    end(to)
}

/// An empty packet is the end of the input.
fn end(to: &UnixDatagram) -> io::Result<()> {
    to.send(&[])?;
    to.shutdown(Shutdown::Write)
}
