//! The owner of the amplifier: one thread that holds record, area and clock,
//! and makes every call.

use crate::amplifier::Amplifier;
use crate::board::Board;
use crate::clock::Clock;
use crate::datagrams::Datagrams;
use crate::events::{Event, Why};
use crate::rack::{Arrival, Arrivals, Rack};
use crate::socket::{Heard, Socket, What};
use crate::witness::{Unwatched, Witness};
use melorwyth::record::CONNECTIONS;
use std::fmt::Display;
use std::io::{self, Write};
use std::net::{SocketAddr, TcpListener, TcpStream};
use std::sync::Arc;
use std::sync::atomic::{AtomicBool, Ordering};
use std::sync::mpsc::{self, Receiver, SyncSender};
use std::thread::JoinHandle;
use std::time::Duration;

/// The longest wait: an interrupt and an arrival are seen after it.
const TURN: Duration = Duration::from_millis(50);
/// How many pieces may wait for the owner.
const WAITING: usize = 16;

/// An amplifier on the desk. Its lines are written to `lines`, its calls are shown to a witness.
#[derive(Debug)]
pub struct Desk<W, S = Unwatched> {
    listener: TcpListener,
    clock: Clock,
    amplifier: Amplifier<S>,
    sockets: [Option<Socket>; CONNECTIONS],
    datagrams: Datagrams,
    /// Readers of closed sockets that have not ended yet.
    ending: Vec<JoinHandle<()>>,
    serial: u64,
    inbox: Receiver<Heard>,
    outside: SyncSender<Heard>,
    lines: W,
    address: SocketAddr,
    /// Who had each number last.
    arrivals: Arrivals,
    board: Option<Arc<Board>>,
}

impl<W: Write> Desk<W> {
    pub fn new(listener: TcpListener, clock: Clock, lines: W) -> io::Result<Desk<W>> {
        Desk::watched(listener, clock, lines, Unwatched)
    }
}

impl<W: Write, S: Witness> Desk<W, S> {
    pub fn watched(
        listener: TcpListener,
        clock: Clock,
        lines: W,
        witness: S,
    ) -> io::Result<Desk<W, S>> {
        listener.set_nonblocking(true)?;
        let address = listener.local_addr()?;
        let (outside, inbox) = mpsc::sync_channel(WAITING);
        Ok(Desk {
            listener,
            clock,
            amplifier: Amplifier::fresh(clock.reading(), witness),
            sockets: Default::default(),
            datagrams: Datagrams::switched(true),
            ending: Vec::new(),
            serial: 0,
            inbox,
            outside,
            lines,
            address,
            arrivals: Default::default(),
            board: None,
        })
    }

    /// The same with its reset switch off: it listens for no datagram, whatever key is set.
    pub fn without_reset(mut self) -> Desk<W, S> {
        self.datagrams = Datagrams::switched(false);
        self
    }

    /// The same, put up on a board for whoever looks.
    pub fn shown_on(mut self, board: Arc<Board>) -> Desk<W, S> {
        self.board = Some(board);
        self
    }

    /// Runs until the stop is set, and then ends everything that it started.
    pub fn run(mut self, stop: &AtomicBool) -> io::Result<()> {
        let turned = self.turns(stop);
        let closed = self.close_all();
        let Desk { inbox, ending, .. } = self;
        // readers that wait to hand over find nobody, and end
        drop(inbox);
        let joined = ending.into_iter().map(JoinHandle::join);
        let joined = joined.fold(Ok(()), Result::and);
        turned.and(closed)?;
        joined.map_err(|_| io::Error::other("a reading thread panicked"))
    }

    fn turns(&mut self, stop: &AtomicBool) -> io::Result<()> {
        let address = self.address;
        self.say(format_args!("listening on {address}"))?;
        if let Some(page) = self.board.as_ref().map(|board| board.page) {
            self.say(format_args!("the page is at http://{page}/"))?;
        }
        while !stop.load(Ordering::Relaxed) {
            self.turn()?;
        }
        Ok(())
    }

    /// Time comes before what was heard, so that silence ends where it was heard.
    fn turn(&mut self) -> io::Result<()> {
        let arrived = self.admit()? | self.attend()?;
        let wait = if arrived { Duration::ZERO } else { self.wait() };
        let heard = self.inbox.recv_timeout(wait);
        self.tick()?;
        if let Ok(heard) = heard {
            self.hear(heard)?;
        }
        self.show();
        Ok(())
    }

    /// Until something is due, but no longer than a turn.
    fn wait(&self) -> Duration {
        let due = self.amplifier.next_due().map(Duration::from_millis);
        due.map_or(TURN, |due| due.min(TURN))
    }

    /// Takes one arrival, if there is one.
    fn admit(&mut self) -> io::Result<bool> {
        self.ending.retain(|reader| !reader.is_finished());
        // no more threads than twice the connections
        if self.ending.len() >= CONNECTIONS {
            return Ok(false);
        }
        match self.listener.accept() {
            Ok((stream, from)) => self.open(stream, from).map(|()| true),
            // nobody is there, or left again before the door was opened
            Err(_) => Ok(false),
        }
    }

    /// Takes one datagram, if there is one.
    fn attend(&mut self) -> io::Result<bool> {
        let received = self.datagrams.received();
        let Some((bytes, from)) = received.map(|(bytes, from)| (bytes.to_vec(), from)) else {
            return Ok(false);
        };
        self.tick()?;
        let event = self.amplifier.datagram(&bytes)?;
        self.tell(std::slice::from_ref(&event))?;
        self.follow()?;
        if let Some(board) = &self.board {
            board.datagram(from, &event);
        }
        Ok(true)
    }

    /// Listens where the record says; what cannot be had is told, and the amplifier goes on.
    fn follow(&mut self) -> io::Result<()> {
        let mechanism = &self.amplifier.record().device.mechanism;
        for line in self.datagrams.follow(mechanism) {
            self.say(line)?;
        }
        Ok(())
    }

    /// Leaving the stream closes it: that is how a ninth is refused.
    fn open(&mut self, stream: TcpStream, from: SocketAddr) -> io::Result<()> {
        self.tick()?;
        let Some(n) = self.amplifier.open()? else {
            return self.say(Event::Full);
        };
        let at = self.amplifier.record().device.reading;
        self.arrivals[usize::from(n)] = Some(Arrival { from, at });
        self.say(Event::Opened { n, from })?;
        self.serial += 1;
        match Socket::start(stream, self.serial, self.outside.clone()) {
            Ok(socket) => self.sockets[usize::from(n)] = Some(socket),
            Err(_) => self.close(n, Why::Broken)?,
        }
        Ok(())
    }

    fn tick(&mut self) -> io::Result<()> {
        let events = self.amplifier.tick(self.clock.reading())?;
        self.tell(&events)?;
        self.send_all()
    }

    fn hear(&mut self, heard: Heard) -> io::Result<()> {
        let of = |socket: &Option<Socket>| {
            let serial = socket.as_ref().map(|socket| socket.serial);
            serial == Some(heard.serial)
        };
        // what comes late from a closed socket belongs to nobody
        let Some(n) = self.sockets.iter().position(of) else {
            return Ok(());
        };
        match heard.what {
            What::Piece(bytes) => self.deliver(n as u8, &bytes),
            What::Gone(why) => self.close(n as u8, why),
        }
    }

    /// Offers the rest again until all is taken or the connection is closed.
    fn deliver(&mut self, n: u8, bytes: &[u8]) -> io::Result<()> {
        let mut rest = bytes;
        while !rest.is_empty() && self.sockets[usize::from(n)].is_some() {
            let delivery = self.amplifier.deliver(n, rest)?;
            rest = &rest[delivery.taken..];
            self.tell(&delivery.events)?;
            // before the reply, so that whoever is told that it is armed can send the datagram
            self.follow()?;
            if !delivery.closed {
                self.send(n, delivery.reply)?;
            }
            self.send_all()?;
        }
        Ok(())
    }

    /// Takes until nothing is left to send.
    fn send_all(&mut self) -> io::Result<()> {
        while let Some(sending) = self.amplifier.take()? {
            if self.send(sending.n, sending.length)? {
                self.tell(sending.event.as_slice())?;
            }
        }
        Ok(())
    }

    /// Sends the front of the output; a socket that does not take it is closed.
    fn send(&mut self, n: u8, length: usize) -> io::Result<bool> {
        let socket = &mut self.sockets[usize::from(n)];
        let bytes = self.amplifier.output(length);
        match socket.as_mut().map_or(Ok(()), |socket| match bytes {
            [] => Ok(()),
            _ => socket.send(bytes),
        }) {
            Ok(()) => Ok(true),
            Err(why) => self.close(n, why).map(|()| false),
        }
    }

    fn close(&mut self, n: u8, why: Why) -> io::Result<()> {
        let event = self.amplifier.close(n, why)?;
        self.tell(&[event])
    }

    fn close_all(&mut self) -> io::Result<()> {
        for n in 0..CONNECTIONS {
            if self.sockets[n].is_some() {
                self.close(n as u8, Why::Ending)?;
            }
        }
        self.say("ended")
    }

    /// A line for each event; a closure also hangs up, and a reset hangs up on all.
    fn tell(&mut self, events: &[Event]) -> io::Result<()> {
        for event in events {
            match event {
                Event::Closed { n, .. } => self.hang_up(usize::from(*n)),
                Event::Reset(_) => (0..CONNECTIONS).for_each(|n| self.hang_up(n)),
                _ => {}
            }
            self.say(event)?;
        }
        Ok(())
    }

    fn hang_up(&mut self, n: usize) {
        let socket = self.sockets[n].take();
        self.ending.extend(socket.map(Socket::hang_up));
    }

    /// The time is the amplifier's: the reading of its last tick. A line goes out in one piece, so that none is seen torn.
    fn say(&mut self, what: impl Display) -> io::Result<()> {
        let reading = self.amplifier.record().device.reading;
        let line = format!("{reading:>8} ms  {what}\n");
        if let Some(board) = &self.board {
            board.say(self.rack(), what.to_string());
        }
        self.lines.write_all(line.as_bytes())?;
        self.lines.flush()
    }

    fn show(&self) {
        if let Some(board) = &self.board {
            board.show(self.rack());
        }
    }

    fn rack(&self) -> Rack {
        let record = self.amplifier.record();
        let reset = self.datagrams.reset(&record.device.mechanism);
        Rack::of(record, self.address, &self.arrivals, reset)
    }
}

#[cfg(test)]
mod tests {
    use super::*;
    use crate::message::{self, Arm, Asking};
    use crate::restart::Restart;
    use melorwyth::Heartbeat;
    use std::net::{Ipv4Addr, SocketAddrV4, UdpSocket};
    use std::thread;
    use std::time::Instant;

    fn desk() -> Desk<Vec<u8>> {
        let listener = TcpListener::bind((Ipv4Addr::LOCALHOST, 0)).unwrap();
        Desk::new(listener, Clock::starting_at(0), Vec::new()).unwrap()
    }

    fn arrive(desk: &mut Desk<Vec<u8>>) -> TcpStream {
        let address = desk.listener.local_addr().unwrap();
        let stream = TcpStream::connect(address).unwrap();
        while !desk.admit().unwrap() {}
        stream
    }

    fn piece(serial: u64, bytes: &[u8]) -> Heard {
        let what = What::Piece(bytes.to_vec());
        Heard { serial, what }
    }

    fn keep_alive(milliseconds: u32) -> Vec<u8> {
        message::keep_alive(Heartbeat::Milliseconds(milliseconds)).unwrap()
    }

    /// What the first socket still says locks nothing and closes nothing of the one that has its number now.
    fn late_pieces_belong_to_nobody(desk: &mut Desk<Vec<u8>>, lock: &[u8]) {
        desk.hear(piece(1, lock)).unwrap();
        let what = What::Gone(Why::HungUp);
        desk.hear(Heard { serial: 1, what }).unwrap();
        assert_eq!(desk.amplifier.record().device.holders[4], 0);
        assert!(desk.amplifier.record().device.connections[0].live);
    }

    /// A number is given again while pieces of its last connection still wait.
    #[test]
    fn late_pieces_of_a_closed_connection_belong_to_nobody() {
        let mut desk = desk();
        let _first = arrive(&mut desk);
        let lock = message::command(7, Asking::Lock, 5).unwrap();
        desk.hear(piece(1, &[0])).unwrap();
        let _second = arrive(&mut desk);
        late_pieces_belong_to_nobody(&mut desk, &lock);
        desk.hear(piece(2, &lock)).unwrap();
        assert_eq!(desk.amplifier.record().device.holders[4], 1);
    }

    /// A reset gives all numbers free while pieces of the connections before it still wait.
    #[test]
    fn late_pieces_from_before_a_reset_belong_to_nobody() {
        let mut desk = desk();
        let _first = arrive(&mut desk);
        let lock = message::command(7, Asking::Lock, 5).unwrap();
        let probe = UdpSocket::bind((Ipv4Addr::LOCALHOST, 0)).unwrap();
        let port = probe.local_addr().unwrap().port();
        drop(probe);
        let arm = Arm {
            key: [0x5A; 16],
            port,
            address: String::new(),
        };
        desk.hear(piece(1, &message::arming(8, &arm).unwrap()))
            .unwrap();
        let to = SocketAddrV4::new(Ipv4Addr::LOCALHOST, port);
        Restart { key: arm.key, to }.send().unwrap();
        while !desk.attend().unwrap() {}
        assert!(desk.sockets.iter().all(Option::is_none));
        let _second = arrive(&mut desk);
        late_pieces_belong_to_nobody(&mut desk, &lock);
    }

    /// A pause before a message is not counted as silence after it.
    #[test]
    fn silence_begins_where_it_was_heard() {
        let mut desk = desk();
        let _stream = arrive(&mut desk);
        thread::sleep(Duration::from_millis(100));
        let heard = piece(1, &keep_alive(20));
        desk.outside.send(heard).unwrap();
        desk.turn().unwrap();
        assert_eq!(desk.amplifier.record().device.connections[0].silence, 0);
        assert!(desk.sockets[0].is_some());
    }

    /// It waits for what is due, and does not turn round and round before.
    #[test]
    fn a_turn_waits() {
        let mut desk = desk();
        assert_eq!(desk.wait(), TURN);
        let _stream = arrive(&mut desk);
        let start = Instant::now();
        desk.tick().unwrap();
        desk.hear(piece(1, &keep_alive(20))).unwrap();
        assert_eq!(desk.wait(), Duration::from_millis(20));
        let mut turns = 0;
        while desk.sockets[0].is_some() && turns < 100 {
            desk.turn().unwrap();
            turns += 1;
        }
        assert!(start.elapsed() >= Duration::from_millis(59));
        assert!(turns <= 8, "{turns}");
    }
}
