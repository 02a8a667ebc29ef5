//! An amplifier with its page, and visitors that ask by bytes of their own.

use crate::hall::{Hall, Log, PATIENCE};
use crate::json::{self, Json};
use demo::desk::Desk;
use demo::page::{PACE, Page};
use demo::witness::Unwatched;
use std::io::{ErrorKind, Read, Write};
use std::net::{Ipv4Addr, Shutdown, SocketAddr, TcpListener, TcpStream};
use std::sync::Arc;
use std::time::{Duration, Instant};

/// A desk whose lines are kept.
type Kept = Desk<Log, Unwatched>;

#[derive(Debug)]
pub struct Shown {
    pub hall: Hall,
    pub page: Page,
    /// The page's address.
    pub at: SocketAddr,
}

impl Shown {
    pub fn open() -> Shown {
        Shown::paced(PACE)
    }

    /// With another least time between two messages of a stream.
    pub fn paced(pace: Duration) -> Shown {
        Shown::on(served(pace), 0, |desk| desk)
    }

    /// An amplifier made so, whose clock starts at this reading, on this page.
    pub fn on(page: Page, reading: u32, made: fn(Kept) -> Kept) -> Shown {
        let board = Arc::clone(&page.board);
        let hall = Hall::open_as(reading, Unwatched, |desk| made(desk).shown_on(board));
        let at = page.board.page;
        Shown { hall, page, at }
    }

    /// A request as a browser would make it.
    pub fn get(&self, path: &str) -> Answer {
        self.ask(&format!("GET {path} HTTP/1.1\r\nHost: {}\r\n\r\n", self.at))
    }

    pub fn post(&self, body: &str) -> Answer {
        let length = body.len();
        let host = format!("Host: {}\r\nContent-Length: {length}\r\n", self.at);
        self.ask(&format!("POST /restart HTTP/1.1\r\n{host}\r\n{body}"))
    }

    pub fn ask(&self, request: &str) -> Answer {
        ask(self.at, request.as_bytes())
    }

    pub fn watch(&self) -> Stream {
        Stream::open(self.at)
    }

    /// Both end, and in time.
    pub fn end(self) -> String {
        let text = self.hall.end();
        let start = Instant::now();
        self.page.end().unwrap();
        assert!(start.elapsed() < PATIENCE);
        text
    }
}

pub fn served(pace: Duration) -> Page {
    let listener = TcpListener::bind((Ipv4Addr::LOCALHOST, 0)).unwrap();
    Page::on(listener, pace).unwrap()
}

#[derive(Debug)]
pub struct Answer {
    pub status: u16,
    pub head: String,
    pub body: String,
}

impl Answer {
    pub fn header(&self, name: &str) -> Option<&str> {
        let mut lines = self.head.lines();
        lines.find_map(|line| line.strip_prefix(name)?.strip_prefix(": "))
    }
}

/// Sends these bytes and no more, and reads to the end, which has to come.
pub fn ask(to: SocketAddr, bytes: &[u8]) -> Answer {
    let mut stream = TcpStream::connect(to).unwrap();
    stream.set_read_timeout(Some(PATIENCE)).unwrap();
    // a long request may be refused before all of it is sent
    let _ = stream.write_all(bytes);
    let _ = stream.shutdown(Shutdown::Write);
    rest(&mut stream)
}

pub fn rest(stream: &mut TcpStream) -> Answer {
    let mut bytes = Vec::new();
    if let Err(error) = stream.read_to_end(&mut bytes) {
        assert_eq!(error.kind(), ErrorKind::ConnectionReset, "{error}");
    }
    let text = String::from_utf8(bytes).unwrap();
    let (head, body) = text.split_once("\r\n\r\n").expect("no whole answer");
    let status = head.split(' ').nth(1).unwrap().parse().unwrap();
    let length: usize = head
        .split_once("Content-Length: ")
        .map(|(_, rest)| rest.lines().next().unwrap().parse().unwrap())
        .expect("an answer says its length");
    assert_eq!(body.len(), length);
    Answer {
        status,
        head: head.to_string(),
        body: body.to_string(),
    }
}

/// A stream of events that is read.
#[derive(Debug)]
pub struct Stream {
    pub stream: TcpStream,
    pub text: String,
}

impl Stream {
    pub fn open(at: SocketAddr) -> Stream {
        let mut stream = TcpStream::connect(at).unwrap();
        stream.set_read_timeout(Some(PATIENCE)).unwrap();
        let request = format!("GET /events HTTP/1.1\r\nHost: {at}\r\n\r\n");
        stream.write_all(request.as_bytes()).unwrap();
        let text = String::new();
        let mut opened = Stream { stream, text };
        let head = opened.block("\r\n\r\n");
        assert!(head.starts_with("HTTP/1.1 200 OK\r\n"), "{head}");
        assert!(head.contains("Content-Type: text/event-stream;"));
        assert_eq!(opened.block("\n\n"), "retry: 1000");
        opened
    }

    /// The next message, which has to come.
    pub fn message(&mut self) -> Json {
        self.next_message().expect("the stream ended")
    }

    /// The next message, or nothing at the stream's end.
    pub fn next_message(&mut self) -> Option<Json> {
        let block = self.block("\n\n");
        if block.is_empty() {
            return None;
        }
        let data = block.strip_prefix("event: rack\ndata: ").unwrap();
        Some(json::read(data).unwrap())
    }

    /// Reads messages until one is so.
    pub fn until(&mut self, what: &str, so: impl Fn(&Json) -> bool) -> Json {
        let start = Instant::now();
        loop {
            let message = self.message();
            if so(&message) {
                return message;
            }
            assert!(start.elapsed() < PATIENCE, "waited for: {what}");
        }
    }

    /// What comes before the next mark; nothing at the end.
    fn block(&mut self, mark: &str) -> String {
        let mut piece = [0; 65_536];
        let place = loop {
            match self.text.find(mark) {
                Some(place) => break place,
                None => match self.stream.read(&mut piece).unwrap() {
                    0 => return String::new(),
                    length => self.text += std::str::from_utf8(&piece[..length]).unwrap(),
                },
            }
        };
        let rest = self.text.split_off(place + mark.len());
        let mut block = std::mem::replace(&mut self.text, rest);
        block.truncate(place);
        block
    }
}
