//! What the page's server sends back, and how.

use super::refused::Refused;
use std::io::{self, Read, Write};
use std::net::{Shutdown, TcpStream};
use std::time::{Duration, Instant};

/// How long an answer, or one message of a stream, may take to be taken.
const STALL: Duration = Duration::from_secs(1);
/// How long, and for how many reads, the rest of a refused request is taken before its connection is closed.
const LINGER: Duration = Duration::from_millis(250);
const LINGERING: usize = 256;

/// Nothing is taken from elsewhere, kept, or shown within another page.
const HEADERS: &str = "Connection: close\r\n\
    Cache-Control: no-store\r\n\
    X-Content-Type-Options: nosniff\r\n\
    Referrer-Policy: no-referrer\r\n\
    Content-Security-Policy: default-src 'none'; script-src 'self'; style-src 'self'; \
    connect-src 'self'; img-src data:; form-action 'self'; base-uri 'none'; frame-ancestors 'none'\r\n";

pub const PLAIN: &str = "text/plain; charset=utf-8";

/// An answer that is whole.
#[derive(Debug, PartialEq, Eq)]
pub struct Answer {
    pub status: &'static str,
    pub kind: &'static str,
    pub body: String,
    allow: Option<&'static str>,
}

impl Answer {
    pub fn new(status: &'static str, kind: &'static str, body: impl Into<String>) -> Answer {
        Answer {
            status,
            kind,
            body: body.into(),
            allow: None,
        }
    }

    /// A line to be shown as it is.
    pub fn said(status: &'static str, line: impl Into<String>) -> Answer {
        let line: String = line.into();
        Answer::new(status, PLAIN, line + "\n")
    }

    /// Without its body, as HEAD is answered.
    pub fn bare(mut self) -> Answer {
        self.body.clear();
        self
    }

    pub fn send(&self, stream: &TcpStream) -> io::Result<()> {
        let front = front(self.status, self.kind);
        let allow = self.allow.map(|allow| format!("Allow: {allow}\r\n"));
        let length = format!("Content-Length: {}\r\n\r\n", self.body.len());
        let whole = [&front, &allow.unwrap_or_default(), &length, &self.body];
        send(stream, whole.map(String::as_str).concat().as_bytes())
    }
}

impl From<Refused> for Answer {
    fn from(refused: Refused) -> Answer {
        let allow = match refused {
            Refused::Method(allow) => Some(allow),
            _ => None,
        };
        let answer = Answer::said(refused.status(), refused.to_string());
        Answer { allow, ..answer }
    }
}

/// The first line and what every answer has; an empty line has to follow.
pub fn front(status: &str, kind: &str) -> String {
    format!("HTTP/1.1 {status}\r\nContent-Type: {kind}\r\n{HEADERS}")
}

/// Sends all of it, or fails: whoever does not take it in time is left.
pub fn send(mut stream: &TcpStream, bytes: &[u8]) -> io::Result<()> {
    let deadline = Instant::now() + STALL;
    let mut rest = bytes;
    while !rest.is_empty() {
        // where no time is left this fails, and that is the end of it
        let left = deadline.saturating_duration_since(Instant::now());
        stream.set_write_timeout(Some(left))?;
        let length = stream.write(rest)?;
        rest = &rest[length..];
    }
    Ok(())
}

/// Closes so that what was sent arrives: a close with bytes unread would take it back.
pub fn close(mut stream: &TcpStream) {
    let deadline = Instant::now() + LINGER;
    let closing = stream.shutdown(Shutdown::Write);
    let timed = stream.set_read_timeout(Some(LINGER));
    if closing.and(timed).is_err() {
        return;
    }
    let mut piece = [0; 4_096];
    for _ in 0..LINGERING {
        let more = matches!(stream.read(&mut piece), Ok(1..));
        if !more || Instant::now() >= deadline {
            return;
        }
    }
}
