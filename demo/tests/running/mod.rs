//! A host as a program of its own: started, listened to, signalled.

mod ends;
mod reset;

use crate::hall::{Log, Peer, until};
use crate::wire::{self, get, lock};
use demo::restart::Key;
use std::io::{self, ErrorKind, Read, Write};
use std::net::{Ipv4Addr, SocketAddr};
use std::process::{Child, ChildStderr, Command, Stdio};
use std::sync::Once;
use std::thread::{self, JoinHandle};
use std::time::Duration;
use std::{env, fs};

const KEY: Key = *b"\x00front desk key\xFF";

/// Names the program; without it there is nothing to run.
const VARIABLE: &str = "MELORWYTH_HOST";

pub fn pause(milliseconds: u64) {
    thread::sleep(Duration::from_millis(milliseconds));
}

/// Says what is not tested, and not by the test's own output, which is shown only where it fails.
pub fn skipped(why: &str) {
    let mut shown = io::stderr();
    writeln!(shown, "SKIPPED: {why}").unwrap();
}

/// The program with its words, emulated where its processor is another; nothing where none is named.
pub fn program(words: &[&str]) -> Option<Command> {
    static SAID: Once = Once::new();
    let Some(path) = env::var_os(VARIABLE) else {
        SAID.call_once(|| skipped(&format!("{VARIABLE} names no program; examples/run does")));
        return None;
    };
    let emulator = env::var("MELORWYTH_RUN").unwrap_or_default();
    let mut command = match emulator.as_str() {
        "" => Command::new(path),
        emulator => {
            let mut command = Command::new(emulator);
            command.arg(path);
            command
        }
    };
    command.args(words);
    Some(command)
}

/// A running host. Whatever a test comes to, the program does not outlive it.
#[derive(Debug)]
pub struct Host {
    pub address: SocketAddr,
    child: Child,
    lines: Log,
    reader: Option<JoinHandle<io::Result<u64>>>,
    complaints: ChildStderr,
}

impl Drop for Host {
    fn drop(&mut self) {
        // one that has ended already needs no more
        let _ = self.child.kill();
        let _ = self.child.wait();
    }
}

impl Host {
    /// On any free port; nothing where no program is named.
    pub fn start() -> Option<Host> {
        Host::start_as(&["0"])
    }

    pub fn start_as(words: &[&str]) -> Option<Host> {
        let mut command = program(words)?;
        command.stdout(Stdio::piped()).stderr(Stdio::piped());
        let mut child = command.spawn().unwrap();
        let mut output = child.stdout.take().unwrap();
        let lines = Log::default();
        let mut kept = lines.clone();
        let mut host = Host {
            address: (Ipv4Addr::UNSPECIFIED, 0).into(),
            complaints: child.stderr.take().unwrap(),
            child,
            lines,
            reader: Some(thread::spawn(move || io::copy(&mut output, &mut kept))),
        };
        host.address = host.told_address();
        Some(host)
    }

    /// What its first line says.
    fn told_address(&self) -> SocketAddr {
        let ended = || self.reader.as_ref().is_none_or(JoinHandle::is_finished);
        until("its first line", || {
            !self.lines.text().is_empty() || ended()
        });
        let text = self.lines.text();
        let first = text.lines().next().unwrap_or_default();
        let address = first.strip_prefix("listening on ");
        let address = address.and_then(|address| address.parse().ok());
        address.unwrap_or_else(|| panic!("its first line is '{first}'"))
    }

    pub fn connect(&self) -> Peer {
        Peer::connect(self.address)
    }

    /// How many lines are this one.
    pub fn count(&self, line: &str) -> usize {
        let text = self.lines.text();
        text.lines().filter(|told| *told == line).count()
    }

    /// How many lines are one of these.
    pub fn count_all(&self, lines: &[String]) -> usize {
        lines.iter().map(|line| self.count(line)).sum()
    }

    /// Waits until so many lines are this one.
    pub fn wait_for(&self, line: &str, count: usize) {
        until(line, || self.count(line) >= count);
        assert_eq!(self.count(line), count, "{line}");
    }

    /// How many files and sockets it has open.
    pub fn descriptors(&self) -> usize {
        let folder = format!("/proc/{}/fd", self.child.id());
        fs::read_dir(folder).unwrap().count()
    }

    /// Asks for the end and waits for it; answers all that was printed.
    pub fn end(self) -> String {
        self.end_by("TERM")
    }

    /// It has to end by itself, without a complaint and with code 0.
    pub fn end_by(mut self, signal: &str) -> String {
        let killing = ["-c", "kill -\"$1\" \"$2\"", "kill", signal];
        let id = self.child.id().to_string();
        let killed = Command::new("sh").args(killing).arg(id).status();
        assert!(killed.unwrap().success());
        until("its end", || self.child.try_wait().unwrap().is_some());
        let mut complaint = String::new();
        self.complaints.read_to_string(&mut complaint).unwrap();
        let code = self.child.wait().unwrap().code();
        assert_eq!((code, complaint.as_str()), (Some(0), ""));
        self.reader.take().unwrap().join().unwrap().unwrap();
        let text = self.lines.text();
        assert!(text.ends_with("ended\n"), "{text}");
        text
    }
}

/// Sends one command; answers the status of its reply, which has to be the next that comes.
pub fn status(peer: &mut Peer, command: &[u8]) -> u8 {
    peer.send(&wire::asked(command));
    let handle = u32::from_be_bytes(command[4..8].try_into().unwrap());
    let mut bytes = wire::reply(handle, 0, 0, &[]);
    let expected = bytes.clone();
    peer.stream.read_exact(&mut bytes).unwrap();
    let place = bytes.len() - 2;
    let status = std::mem::take(&mut bytes[place]);
    assert_eq!(bytes, expected);
    status
}

/// All that comes until the host closes the connection, which it has to.
pub fn rest(peer: &mut Peer) -> Vec<u8> {
    let mut bytes = Vec::new();
    if let Err(error) = peer.stream.read_to_end(&mut bytes) {
        // so it is where the host closed with bytes unread
        assert_eq!(error.kind(), ErrorKind::ConnectionReset);
    }
    bytes
}

/// The value of a channel: 1 muted, 2 unmuted.
pub fn ask_value(peer: &mut Peer, handle: u32, channel: u32, value: u8) {
    peer.send(&wire::asked(&get(handle, channel)));
    peer.expect(&wire::reply(handle, 0, 1, &[value]));
}

/// All that there can be, each with the lock of a channel.
pub fn eight(host: &Host) -> Vec<Peer> {
    let mut peers: Vec<Peer> = (0..8).map(|_| host.connect()).collect();
    for (channel, peer) in (1..).zip(&mut peers) {
        peer.ask(&lock(1, channel), 0);
    }
    peers
}
