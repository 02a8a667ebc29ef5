//! Compares a listing program with the second program's listing:
//! `listings PROGRAM ARGUMENT ..`, a process for each input.

use compare::harness::listings::{self, FLOOR, Feed, Input};
use compare::harness::verdict;
use std::fs::File;
use std::io::{self, Read};
use std::os::fd::OwnedFd;
use std::os::unix::net::UnixDatagram;
use std::path::PathBuf;
use std::process::{Command, ExitCode, Stdio};
use std::time::Instant;

fn main() -> ExitCode {
    let command: Vec<String> = std::env::args().skip(1).collect();
    if command.is_empty() {
        eprintln!("usage: listings PROGRAM ARGUMENT ..");
        return ExitCode::from(2);
    }
    let start = Instant::now();
    let threads = std::thread::available_parallelism().map_or(1, |number| number.get() as u64);
    let came = listings::all(&|input: &Input| run(&command, input), threads)
        .map(|counts| (counts.table(), counts.failures()));
    verdict::tell(came, FLOOR, start)
}

/// What the program writes for the input.
fn run(command: &[String], input: &Input) -> io::Result<Vec<u8>> {
    match &input.feed {
        Feed::File => {
            let path = scratch(input);
            std::fs::write(&path, &input.bytes)?;
            let file = File::open(&path)?;
            std::fs::remove_file(&path)?;
            written(command, file.into(), || ())
        }
        Feed::Pieces(pieces) => {
            let (ours, theirs) = UnixDatagram::pair()?;
            written(command, theirs.into(), || feed(ours, pieces, &input.bytes))
        }
    }
}

fn scratch(input: &Input) -> PathBuf {
    let name = format!("listings-{}-{}", std::process::id(), input.number);
    std::env::temp_dir().join(name)
}

/// A read takes one datagram, and an empty one ends the input. A program that has met a fault may be gone before.
fn feed(ours: UnixDatagram, pieces: &[usize], bytes: &[u8]) {
    let mut left = bytes;
    for length in pieces {
        let (piece, rest) = left.split_at(*length);
        if ours.send(piece).is_err() {
            return;
        }
        left = rest;
    }
    // the program ends without it where a fault stops the listing
    ours.send(&[]).ok();
}

/// Starts the program, feeds it, and takes all that it writes.
fn written(command: &[String], stdin: OwnedFd, feed: impl FnOnce() + Send) -> io::Result<Vec<u8>> {
    let mut child = Command::new(&command[0])
        .args(&command[1..])
        .stdin(Stdio::from(stdin))
        .stdout(Stdio::piped())
        .spawn()?;
    let mut stdout = child.stdout.take().expect("standard output is piped");
    let mut text = Vec::new();
    let read = std::thread::scope(|scope| {
        scope.spawn(feed);
        stdout.read_to_end(&mut text)
    });
    let status = child.wait()?;
    read?;
    if status.success() {
        Ok(text)
    } else {
        Err(io::Error::other(format!("the program ended with {status}")))
    }
}
