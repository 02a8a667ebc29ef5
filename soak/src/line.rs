//! A controller's end of a connection: whole messages out of its bytes.

use melorwyth::Refusal;
use melorwyth::record::CONNECTIONS;
use std::io::{self, ErrorKind, Read, Write};
use std::net::{SocketAddr, TcpStream};
use std::time::{Duration, Instant};

/// The longest that one read waits: the time that is left is looked at after it.
const TURN: Duration = Duration::from_millis(20);

/// What came on a line.
#[derive(Clone, Debug, PartialEq, Eq)]
pub enum Came {
    /// A whole message.
    Message(Vec<u8>),
    /// The amplifier hung up.
    Closed,
    /// Nothing in all that time.
    Nothing,
    /// Bytes that are no message.
    Unsound(Refusal),
}

#[derive(Debug)]
pub struct Line {
    stream: TcpStream,
    bytes: Vec<u8>,
    /// The contexts that were given here, each with its emitter: no other may come back.
    pub contexts: Vec<(u32, Vec<u8>)>,
}

impl Line {
    pub fn connect(address: SocketAddr) -> io::Result<Line> {
        let stream = TcpStream::connect(address)?;
        stream.set_nodelay(true)?;
        stream.set_read_timeout(Some(TURN))?;
        Ok(Line {
            stream,
            bytes: Vec::new(),
            contexts: Vec::with_capacity(CONNECTIONS),
        })
    }

    /// Sends bytes as one piece; one that is gone is soon heard to be.
    pub fn send(&mut self, bytes: &[u8]) {
        let _ = self.stream.write_all(bytes);
    }

    /// The next whole message, waited for.
    pub fn next(&mut self, patience: Duration) -> Came {
        let until = Instant::now() + patience;
        loop {
            match melorwyth::read_message(&self.bytes) {
                Ok(message) => {
                    let rest = self.bytes.split_off(message.length);
                    return Came::Message(std::mem::replace(&mut self.bytes, rest));
                }
                Err(Refusal::Short) => {}
                Err(refusal) => return Came::Unsound(refusal),
            }
            if !self.read() {
                return Came::Closed;
            }
            if Instant::now() >= until {
                return Came::Nothing;
            }
        }
    }

    /// Reads what is there, or waits a moment; false once the amplifier has hung up.
    fn read(&mut self) -> bool {
        let mut piece = [0; 4_096];
        match self.stream.read(&mut piece) {
            Ok(0) => false,
            Ok(length) => {
                self.bytes.extend_from_slice(&piece[..length]);
                true
            }
            Err(error) => matches!(
                error.kind(),
                ErrorKind::WouldBlock | ErrorKind::TimedOut | ErrorKind::Interrupted
            ),
        }
    }
}
