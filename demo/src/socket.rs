//! A connection's socket: a thread of its own reads it, its owner writes it.

use crate::events::Why;
use std::io::{self, ErrorKind, Read, Write};
use std::net::{Shutdown, TcpStream};
use std::sync::mpsc::SyncSender;
use std::thread::{self, JoinHandle};
use std::time::Duration;

/// The most bytes of one piece.
const PIECE: usize = 2_048;
/// How long a socket may take no bytes: so long, and no longer, it holds up the others.
const STALL: Duration = Duration::from_millis(50);

/// What a reading thread hands over.
#[derive(Debug)]
pub struct Heard {
    /// Numbers of connections are given again, serials are not.
    pub serial: u64,
    pub what: What,
}

#[derive(Debug)]
pub enum What {
    Piece(Vec<u8>),
    /// The last that comes of a socket.
    Gone(Why),
}

#[derive(Debug)]
pub struct Socket {
    pub serial: u64,
    stream: TcpStream,
    reader: JoinHandle<()>,
}

impl Socket {
    /// Starts to read; a full inbox makes the reader wait, and TCP the sender behind it.
    pub fn start(stream: TcpStream, serial: u64, inbox: SyncSender<Heard>) -> io::Result<Socket> {
        stream.set_nonblocking(false)?;
        stream.set_nodelay(true)?;
        stream.set_write_timeout(Some(STALL))?;
        let own = stream.try_clone()?;
        let reader = thread::Builder::new().spawn(move || read(own, serial, &inbox))?;
        Ok(Socket {
            serial,
            stream,
            reader,
        })
    }

    /// Sends a whole message, by one write, so that the time limit holds for all of it.
    pub fn send(&mut self, bytes: &[u8]) -> Result<(), Why> {
        match self.stream.write(bytes) {
            Ok(length) if length == bytes.len() => Ok(()),
            Ok(_) => Err(Why::Stalled),
            Err(error) if error.kind() == ErrorKind::WouldBlock => Err(Why::Stalled),
            Err(_) => Err(Why::Broken),
        }
    }

    /// Closes the socket; its reader ends by itself.
    pub fn hang_up(self) -> JoinHandle<()> {
        // a socket that the other side closed already needs no more
        let _ = self.stream.shutdown(Shutdown::Both);
        self.reader
    }
}

fn read(mut stream: TcpStream, serial: u64, inbox: &SyncSender<Heard>) {
    let mut buffer = [0; PIECE];
    loop {
        let what = match stream.read(&mut buffer) {
            Ok(0) => What::Gone(Why::HungUp),
            Ok(length) => What::Piece(buffer[..length].to_vec()),
            Err(error) if error.kind() == ErrorKind::Interrupted => continue,
            Err(_) => What::Gone(Why::Broken),
        };
        let last = matches!(what, What::Gone(_));
        if inbox.send(Heard { serial, what }).is_err() || last {
            return;
        }
    }
}
