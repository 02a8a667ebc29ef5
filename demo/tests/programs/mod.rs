//! The programs themselves, and where they say that their page is.

use crate::hall::{Log, PATIENCE, program, until};
use crate::visit::{Stream, ask};
use std::fs;
use std::io::{self, Write};
use std::net::{Ipv4Addr, SocketAddr, TcpListener, TcpStream};
use std::process::{Child, Command, Output, Stdio};
use std::thread::{self, JoinHandle};
use std::time::Duration;

/// A program that runs, and what it prints. It does not outlive its test.
#[derive(Debug)]
struct Running {
    child: Child,
    lines: Log,
    reader: JoinHandle<io::Result<u64>>,
}

impl Drop for Running {
    fn drop(&mut self) {
        // one that has ended already needs no more
        let _ = self.child.kill();
        let _ = self.child.wait();
    }
}

impl Running {
    fn start(path: &str, words: &[&str]) -> Running {
        let mut command = program(path);
        command.args(words).stdout(Stdio::piped());
        let mut child = command.spawn().unwrap();
        let mut output = child.stdout.take().unwrap();
        let lines = Log::default();
        let mut kept = lines.clone();
        Running {
            child,
            lines,
            reader: thread::spawn(move || io::copy(&mut output, &mut kept)),
        }
    }

    /// The address behind these words, once a line has them.
    fn address(&self, words: &str) -> SocketAddr {
        until(words, || self.lines.has(words));
        let text = self.lines.text();
        let (_, rest) = text.split_once(words).unwrap();
        let (address, _) = rest.split_once(['/', '\n']).unwrap();
        address.parse().unwrap()
    }

    /// All that it printed, and its code.
    fn interrupt(&mut self) -> (Option<i32>, String) {
        let id = self.child.id().to_string();
        let killing = ["-c", "kill -INT \"$1\"", "kill", &id];
        assert!(Command::new("sh").args(killing).status().unwrap().success());
        self.ended()
    }

    fn ended(&mut self) -> (Option<i32>, String) {
        until("its end", || self.reader.is_finished());
        let code = self.child.wait().unwrap().code();
        (code, self.lines.text())
    }
}

const AMPLIFIER: &str = env!("CARGO_BIN_EXE_amplifier");
const AT: &str = "the page is at http://";

fn answers(page: SocketAddr) -> bool {
    let request = format!("GET / HTTP/1.1\r\nHost: {page}\r\n\r\n");
    ask(page, request.as_bytes()).status == 200
}

fn output(words: &[&str]) -> (Option<i32>, String) {
    let Output { status, stderr, .. } = program(AMPLIFIER).args(words).output().unwrap();
    (status.code(), String::from_utf8(stderr).unwrap())
}

/// Both ports stand at the start; an interrupt ends it with a browser at its page.
#[test]
fn both_ports_are_said_first() {
    let mut amplifier = Running::start(AMPLIFIER, &["0", "page", "0"]);
    let address = amplifier.address(" ms  listening on ");
    let page = amplifier.address(AT);
    assert!(address.ip().is_loopback() && page.ip().is_loopback());
    assert!(answers(page));
    let mut stream = Stream::open(page);
    let message = stream.message();
    assert_eq!(message.at("address").as_str(), address.to_string());
    assert_eq!(amplifier.interrupt().0, Some(0));
    assert!(TcpStream::connect(page).is_err());
    while stream.next_message().is_some() {}
}

/// Where nobody names a port for the page, another is found.
#[test]
fn two_amplifiers_have_two_pages() {
    let mut both = [0, 1].map(|_| Running::start(AMPLIFIER, &["0", "no-reset"]));
    let [one, other] = both.each_ref().map(|amplifier| amplifier.address(AT));
    assert_ne!(one, other);
    assert!(answers(one) && answers(other));
    for amplifier in &mut both {
        assert_eq!(amplifier.interrupt().0, Some(0));
    }
}

#[test]
fn a_page_is_not_had_to_be() {
    let mut amplifier = Running::start(AMPLIFIER, &["0", "no-page"]);
    amplifier.address("listening on ");
    let (code, text) = amplifier.interrupt();
    assert_eq!((code, text.lines().count()), (Some(0), 2), "{text}");
    assert!(text.ends_with("ended\n") && !text.contains(AT));
}

/// A port that was named and is taken ends the program, and wrong words do.
#[test]
fn wrong_words_are_told() {
    let taken = TcpListener::bind((Ipv4Addr::LOCALHOST, 0)).unwrap();
    let port = taken.local_addr().unwrap().port().to_string();
    let (code, told) = output(&["0", "page", &port]);
    assert_eq!(code, Some(1));
    assert!(told.starts_with("amplifier: "), "{told}");
    for words in [
        &["page"][..],
        &["page", "65536"],
        &["page", "x"],
        &["0", "page", "0", "no-page"],
        &["no-page", "no-reset"],
        &["65536"],
        &["show"],
    ] {
        let (code, told) = output(words);
        assert_eq!(code, Some(2), "{words:?}");
        assert!(told.starts_with("usage: amplifier [PORT]"), "{told}");
    }
}

/// Every way to visit, again and again: no socket and no thread stays.
#[test]
fn visits_leave_nothing_behind() {
    let mut amplifier = Running::start(AMPLIFIER, &["0", "page", "0"]);
    let page = amplifier.address(AT);
    assert!(answers(page));
    let folder = format!("/proc/{}", amplifier.child.id());
    let count = |what: &str| fs::read_dir(format!("{folder}/{what}")).unwrap().count();
    let open = || (count("fd"), count("task"));
    // the answer comes before its thread has ended
    thread::sleep(Duration::from_secs(1));
    let before = open();
    for _ in 0..20 {
        assert!(answers(page));
        assert_eq!(ask(page, b"GET / HTTP/1.1\r\n\r\n").status, 400);
        let mut half = TcpStream::connect(page).unwrap();
        half.write_all(b"GET / HT").unwrap();
        let mut stream = Stream::open(page);
        stream.message();
    }
    until("what was before", || open() == before);
    assert_eq!(amplifier.interrupt().0, Some(0));
}

/// The show says where to look, and there it is to be seen.
#[test]
fn the_show_says_where_to_look() {
    let mut show = Running::start(env!("CARGO_BIN_EXE_show"), &["restart"]);
    let page = show.address("look at http://");
    let mut stream = Stream::open(page);
    let message = stream.until("the restart", |message| !message.at("restart").is_null());
    let lost = message.at("restart").at("lost");
    assert_eq!(lost.index(0).as_str(), "closed connections 0, 1, 2, 3");
    let start = std::time::Instant::now();
    while stream.next_message().is_some() {
        assert!(start.elapsed() < PATIENCE);
    }
    assert_eq!(show.ended().0, Some(0));
}
