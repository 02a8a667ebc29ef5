//! One request, read within limits of length and time.

use super::refused::Refused;
use crate::board::Board;
use std::io::{ErrorKind, Read};
use std::net::{SocketAddr, TcpStream};
use std::time::{Duration, Instant};

/// The longest first line, and the longest line behind it: a browser may bring cookies of other pages of this machine.
pub const FIRST: usize = 1_024;
pub const LINE: usize = 16_384;
/// How many lines there may be behind the first.
pub const LINES: usize = 64;
/// The longest body.
pub const BODY: usize = 1_024;
/// How long a whole request may take.
pub const PATIENCE: Duration = Duration::from_secs(3);
/// How long one read waits before it looks whether to go on.
const SLICE: Duration = Duration::from_millis(50);

/// The first line, and what is looked at of the others.
#[derive(Debug, Default, PartialEq, Eq)]
pub struct Request {
    pub method: String,
    pub path: String,
    pub origin: Option<String>,
    pub length: Option<usize>,
    host: Option<String>,
}

impl Request {
    /// The first line: a method, a path and a version.
    fn begun(line: &str) -> Result<Request, Refused> {
        let words: Vec<&str> = line.split(' ').collect();
        let [method, path, version] = words.as_slice() else {
            return Err(Refused::Malformed("the first line is not of three words"));
        };
        match *version {
            "HTTP/1.0" | "HTTP/1.1" => {}
            other if other.starts_with("HTTP/") => return Err(Refused::Version),
            _ => return Err(Refused::Malformed("the first line names no version")),
        }
        Ok(Request {
            method: method.to_string(),
            path: path.to_string(),
            ..Request::default()
        })
    }

    /// A line behind the first; what is not looked at is let be.
    fn header(&mut self, line: &str) -> Result<(), Refused> {
        let Some((name, value)) = line.split_once(':') else {
            return Err(Refused::Malformed("a line has no colon"));
        };
        let value = value.trim();
        match name.to_ascii_lowercase().as_str() {
            "host" => once(&mut self.host, value.to_string()),
            "origin" => once(&mut self.origin, value.to_string()),
            "content-length" => once(&mut self.length, length(value)?),
            "transfer-encoding" => Err(Refused::Length),
            _ => Ok(()),
        }
    }

    /// Whether it was meant for this page: another name for this address may be somebody else's page.
    fn at(&self, address: SocketAddr) -> Result<(), Refused> {
        match &self.host {
            None => Err(Refused::Malformed("it names no Host")),
            Some(host) if names(address).contains(&host.to_ascii_lowercase()) => Ok(()),
            Some(_) => Err(Refused::Host),
        }
    }

    /// Whether no page of another's asks: a browser says whose does.
    pub fn from(&self, address: SocketAddr) -> Result<(), Refused> {
        let own = names(address).map(|name| format!("http://{name}"));
        match &self.origin {
            Some(origin) if !own.contains(origin) => Err(Refused::Origin),
            _ => Ok(()),
        }
    }
}

/// What a browser may call an address of this machine.
fn names(address: SocketAddr) -> [String; 2] {
    [address.to_string(), format!("localhost:{}", address.port())]
}

fn once<T>(place: &mut Option<T>, value: T) -> Result<(), Refused> {
    match place.replace(value) {
        None => Ok(()),
        Some(_) => Err(Refused::Malformed("a line stands twice")),
    }
}

fn length(value: &str) -> Result<usize, Refused> {
    let digits = !value.is_empty() && value.bytes().all(|byte| byte.is_ascii_digit());
    match value.parse() {
        Ok(length) if digits && length <= BODY => Ok(length),
        _ if digits => Err(Refused::Body),
        _ => Err(Refused::Malformed("its length is no number")),
    }
}

/// What comes in, line by line.
#[derive(Debug)]
pub struct Incoming<'a> {
    stream: &'a TcpStream,
    board: &'a Board,
    deadline: Instant,
    buffer: Vec<u8>,
}

impl<'a> Incoming<'a> {
    pub fn new(stream: &'a TcpStream, board: &'a Board) -> Incoming<'a> {
        Incoming {
            stream,
            board,
            deadline: Instant::now() + PATIENCE,
            buffer: Vec::new(),
        }
    }

    /// The request but for its body, meant for this address.
    pub fn request(&mut self, address: SocketAddr) -> Result<Request, Refused> {
        let mut request = Request::begun(&self.line(FIRST, Refused::FirstLine)?)?;
        for _ in 0..=LINES {
            let line = self.line(LINE, Refused::Line)?;
            if line.is_empty() {
                return request.at(address).map(|()| request);
            }
            request.header(&line)?;
        }
        Err(Refused::Line)
    }

    pub fn body(&mut self, length: usize) -> Result<String, Refused> {
        while self.buffer.len() < length {
            self.more()?;
        }
        self.buffer.truncate(length);
        let body = String::from_utf8(std::mem::take(&mut self.buffer));
        body.map_err(|_| Refused::Malformed("its body is no text"))
    }

    fn line(&mut self, limit: usize, long: Refused) -> Result<String, Refused> {
        let end = loop {
            match self.buffer.iter().position(|byte| *byte == b'\n') {
                Some(end) if end <= limit => break end,
                None if self.buffer.len() <= limit => self.more()?,
                _ => return Err(long),
            }
        };
        let mut line: Vec<u8> = self.buffer.drain(..=end).collect();
        line.pop();
        line.pop_if(|last| *last == b'\r');
        let line = String::from_utf8(line).ok();
        let plain = |line: &String| !line.contains(|c: char| c.is_control() && c != '\t');
        line.filter(plain)
            .ok_or(Refused::Malformed("a line is no plain text"))
    }

    /// Reads once more; a read that brings nothing is tried again until it has taken too long, or all ends.
    fn more(&mut self) -> Result<(), Refused> {
        let mut piece = [0; 1_024];
        let mut stream = self.stream;
        let late = Instant::now() >= self.deadline || self.board.ended();
        if late || stream.set_read_timeout(Some(SLICE)).is_err() {
            return Err(Refused::Slow);
        }
        match stream.read(&mut piece) {
            Ok(0) => Err(Refused::Malformed("it ends too early")),
            Ok(length) => {
                self.buffer.extend_from_slice(&piece[..length]);
                Ok(())
            }
            Err(error) => match error.kind() {
                ErrorKind::WouldBlock | ErrorKind::TimedOut | ErrorKind::Interrupted => Ok(()),
                _ => Err(Refused::Malformed("it ends too early")),
            },
        }
    }
}
