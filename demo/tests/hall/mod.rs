//! An amplifier in a thread, controllers on real sockets, and the lines that it prints.

use super::wire::{self, asked, reply};
use demo::clock::Clock;
use demo::desk::Desk;
use demo::restart::Restart;
use demo::script;
use demo::session::{Next, Session};
use demo::witness::{Unwatched, Witness};
use melorwyth::{Fault, Status};
use std::env;
use std::io::{self, ErrorKind, Read, Write};
use std::net::{Ipv4Addr, SocketAddr, SocketAddrV4, TcpListener, TcpStream, UdpSocket};
use std::process::Command;
use std::sync::atomic::{AtomicBool, Ordering};
use std::sync::{Arc, Mutex};
use std::thread::{self, JoinHandle};
use std::time::{Duration, Instant};

/// Long enough where the processor is busy.
pub const PATIENCE: Duration = Duration::from_secs(20);

/// Waits for what comes soon.
pub fn until(what: &str, mut done: impl FnMut() -> bool) {
    let start = Instant::now();
    while !done() {
        assert!(start.elapsed() < PATIENCE, "waited for: {what}");
        thread::sleep(Duration::from_millis(5));
    }
}

/// A UDP port that is free now.
pub fn free_port() -> u16 {
    let socket = UdpSocket::bind((Ipv4Addr::LOCALHOST, 0)).unwrap();
    socket.local_addr().unwrap().port()
}

/// A program of this package, emulated where the tests are.
pub fn program(path: &str) -> Command {
    match env::var("CARGO_TARGET_X86_64_UNKNOWN_LINUX_GNU_RUNNER") {
        Ok(emulator) if cfg!(target_arch = "x86_64") && !emulator.is_empty() => {
            let mut command = Command::new(emulator);
            command.arg(path);
            command
        }
        _ => Command::new(path),
    }
}

/// What a connection is closed for by an entry that is not well formed.
pub fn bad_data() -> String {
    let fault = Fault::Data.to_string();
    assert!(fault.ends_with(" (fault 6)"));
    fault
}

/// What a context, a text or a port is answered that is not taken.
pub fn bad_value() -> String {
    let status = Status::BadValue.to_string();
    assert!(status.ends_with(" (status 7)"));
    status
}

/// Whether this machine carries a group's datagrams on its loopback address, to a socket bound so.
pub fn group_works(bound: Ipv4Addr, group: Ipv4Addr) -> io::Result<()> {
    let member = UdpSocket::bind((bound, 0))?;
    member.join_multicast_v4(&group, &Ipv4Addr::LOCALHOST)?;
    member.set_read_timeout(Some(Duration::from_secs(1)))?;
    let to = SocketAddrV4::new(group, member.local_addr()?.port());
    Restart { key: [0; 16], to }.send()?;
    member.recv(&mut [0; 64]).map(drop)
}

/// What was printed so far.
#[derive(Clone, Debug, Default)]
pub struct Log(Arc<Mutex<Vec<u8>>>);

impl Write for Log {
    fn write(&mut self, bytes: &[u8]) -> io::Result<usize> {
        self.0.lock().unwrap().write(bytes)
    }

    fn flush(&mut self) -> io::Result<()> {
        Ok(())
    }
}

impl Log {
    /// The lines that are whole.
    pub fn text(&self) -> String {
        let mut text = String::from_utf8(self.0.lock().unwrap().clone()).unwrap();
        text.truncate(text.rfind('\n').map_or(0, |end| end + 1));
        text
    }

    /// Waits for the first line with these words; answers its time and the line.
    pub fn line(&self, words: &str) -> (u32, String) {
        let start = Instant::now();
        loop {
            let text = self.text();
            if let Some(line) = text.lines().find(|line| line.contains(words)) {
                let (time, rest) = line.split_once(" ms  ").unwrap();
                return (time.trim().parse().unwrap(), rest.to_string());
            }
            assert!(start.elapsed() < PATIENCE, "no line '{words}' in\n{text}");
            thread::sleep(Duration::from_millis(5));
        }
    }

    pub fn time(&self, words: &str) -> u32 {
        self.line(words).0
    }

    pub fn has(&self, words: &str) -> bool {
        self.text().contains(words)
    }
}

#[derive(Debug)]
pub struct Hall {
    pub address: SocketAddr,
    pub log: Log,
    stop: Arc<AtomicBool>,
    thread: JoinHandle<io::Result<()>>,
}

impl Hall {
    pub fn open() -> Hall {
        Hall::open_at(0)
    }

    /// The amplifier's clock starts at this reading.
    pub fn open_at(reading: u32) -> Hall {
        Hall::open_as(reading, Unwatched, |desk| desk)
    }

    /// The amplifier's reset switch is off.
    pub fn open_without_reset() -> Hall {
        Hall::open_as(0, Unwatched, Desk::without_reset)
    }

    /// The amplifier's calls are shown to a witness.
    pub fn open_watched(witness: impl Witness + Send + 'static) -> Hall {
        Hall::open_as(0, witness, |desk| desk)
    }

    pub fn open_as<S: Witness + Send + 'static>(
        reading: u32,
        witness: S,
        made: impl FnOnce(Desk<Log, S>) -> Desk<Log, S>,
    ) -> Hall {
        let listener = TcpListener::bind((Ipv4Addr::LOCALHOST, 0)).unwrap();
        let address = listener.local_addr().unwrap();
        let log = Log::default();
        let stop = Arc::new(AtomicBool::new(false));
        let clock = Clock::starting_at(reading);
        let desk = Desk::watched(listener, clock, log.clone(), witness).unwrap();
        let desk = made(desk);
        let stopped = Arc::clone(&stop);
        let thread = thread::spawn(move || desk.run(&stopped));
        Hall {
            address,
            log,
            stop,
            thread,
        }
    }

    /// Connects, and waits until the connection has its number.
    pub fn connect(&self, n: u8) -> Peer {
        let count = || self.log.text().matches("opened connection").count();
        let before = count();
        let peer = Peer::connect(self.address);
        until("its number", || count() != before);
        let text = self.log.text();
        let last = text
            .lines()
            .rfind(|line| line.contains("opened connection"));
        let from = peer.stream.local_addr().unwrap();
        let opened = format!("opened connection {n} for {from}");
        assert!(last.is_some_and(|line| line.ends_with(&opened)), "{text}");
        peer
    }

    /// Asks for the end and waits for it; answers all that was printed.
    pub fn end(self) -> String {
        self.stop.store(true, Ordering::Relaxed);
        until("its end", || self.thread.is_finished());
        self.thread.join().unwrap().unwrap();
        self.log.text()
    }
}

/// A controller that is told what to do, and the lines that it prints.
#[derive(Debug)]
pub struct Controller {
    session: Session<Log>,
    pub lines: Log,
}

impl Controller {
    pub fn new(address: SocketAddr) -> Controller {
        let lines = Log::default();
        let session = Session::new(address, lines.clone());
        Controller { session, lines }
    }

    pub fn obey(&mut self, text: &str) {
        let next = self.session.obey(script::parse(text).unwrap()).unwrap();
        assert_eq!(next, Next::More);
    }

    /// Listens until a line has these words.
    pub fn hear(&mut self, words: &str) {
        let start = Instant::now();
        while !self.lines.has(words) {
            assert!(start.elapsed() < PATIENCE, "{}", self.lines.text());
            self.obey("wait 5");
        }
    }

    /// The lines without their times, of this name alone.
    pub fn said(&self, name: &str) -> Vec<String> {
        let text = self.lines.text();
        let said = text.lines().map(|line| line.split_once(" ms  ").unwrap().1);
        let named = said.filter_map(|line| line.strip_prefix(&format!("{name}: ")));
        named.map(str::to_string).collect()
    }
}

#[derive(Debug)]
pub struct Peer {
    pub stream: TcpStream,
}

impl Peer {
    pub fn connect(address: SocketAddr) -> Peer {
        let stream = TcpStream::connect(address).unwrap();
        stream.set_nodelay(true).unwrap();
        stream.set_read_timeout(Some(PATIENCE)).unwrap();
        Peer { stream }
    }

    pub fn send(&mut self, bytes: &[u8]) {
        self.stream.write_all(bytes).unwrap();
    }

    /// The bytes that come next have to be these.
    pub fn expect(&mut self, expected: &[u8]) {
        let mut bytes = vec![0; expected.len()];
        self.stream.read_exact(&mut bytes).unwrap();
        assert_eq!(bytes, expected);
    }

    /// Sends a command and wants this status, and no parameters.
    pub fn ask(&mut self, entry: &[u8], status: u8) {
        self.send(&asked(entry));
        self.expect(&reply(handle(entry), status, 0, &[]));
    }

    pub fn beat(&mut self, milliseconds: u32) {
        let beat = wire::milliseconds(milliseconds);
        self.send(&beat);
        self.expect(&beat);
    }

    /// Nothing more comes but the end.
    pub fn is_closed(&mut self) -> bool {
        let mut byte = [0];
        match self.stream.read(&mut byte) {
            Ok(length) => length == 0,
            Err(error) => error.kind() == ErrorKind::ConnectionReset,
        }
    }
}

fn handle(entry: &[u8]) -> u32 {
    u32::from_be_bytes(entry[4..8].try_into().unwrap())
}
