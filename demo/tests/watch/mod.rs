//! A witness of every call that the amplifier makes on its endpoint.

use super::hall::{Hall, Peer, free_port};
use super::reset::{KEY, OTHER, restart};
use super::wire::{arm, asked, lock, message, set, subscribe};
use demo::witness::{Call, Came, Delivered, Witness};
use melorwyth::record::{AREA, OUTPUT, Record};
use melorwyth::{Closures, Endpoint, SendingKind, call, number};
use std::collections::BTreeMap;
use std::sync::{Arc, Mutex};

/// How often each call was seen.
type Counts = Arc<Mutex<BTreeMap<&'static str, usize>>>;

/// Another program on the same inputs, with a record, an area and an output of its own. Here it is the library's own
/// functions, so that it differs only where it is told of something else than what was done.
#[derive(Debug)]
struct Second {
    record: Record,
    area: Vec<u8>,
    output: Vec<u8>,
    counts: Counts,
}

impl Witness for Second {
    fn saw(&mut self, call: Call, endpoint: &Endpoint, output: &[u8]) {
        let name = self.answer(call);
        assert_eq!(self.record, *endpoint.record(), "{name}");
        assert!(self.area == *endpoint.area(), "{name}");
        assert!(self.output == output, "{name}");
        *self.counts.lock().unwrap().entry(name).or_default() += 1;
    }
}

impl Second {
    /// Makes the call and compares the answer; gives its name.
    fn answer(&mut self, call: Call) -> &'static str {
        match call {
            Call::Fresh { reading } => {
                self.record = call::fresh(reading);
                call::clear(&mut self.area).done().unwrap();
                "fresh"
            }
            Call::Open { answer } => {
                let own = call::open(self.record);
                self.record = own.record;
                assert_eq!(own.done().map(|own| own.connection), answer);
                if answer.is_ok() { "open" } else { "full" }
            }
            Call::Close { n, answer } => {
                let own = call::close(self.record, &mut self.area, n);
                self.record = own.record;
                assert_eq!(own.done().map(drop), answer);
                "close"
            }
            Call::Tick { reading, answer } => {
                let own = call::tick(self.record, &mut self.area, reading);
                self.record = own.record;
                assert_eq!(own.done().map(|own| own.closed), answer.map(Closures::mask));
                "tick"
            }
            other => self.answer_bytes(other),
        }
    }

    /// The calls that bytes go in or out by.
    fn answer_bytes(&mut self, call: Call) -> &'static str {
        match call {
            Call::Deliver { n, piece, answer } => {
                let (area, output) = (&mut self.area, &mut self.output);
                let own = call::deliver(self.record, area, n, piece, output);
                self.record = own.record;
                let own = own.done();
                let own = own.map(|own| (own.taken, own.kind, own.fault, own.length));
                assert_eq!(own, answer.map(numbers));
                "deliver"
            }
            Call::Take { answer } => {
                let own = call::take(self.record, &mut self.output);
                self.record = own.record;
                let own = own.done().map(|own| (own.kind, own.connection, own.length));
                let told = answer.unwrap().map_or((0, 0, 0), |taken| match taken.kind {
                    SendingKind::Notification => (1, taken.n, taken.length),
                    SendingKind::KeepAlive => (2, taken.n, taken.length),
                });
                assert_eq!(own, Ok(told));
                ["nothing", "notification", "keep-alive"][usize::from(told.0)]
            }
            Call::Datagram { datagram, answer } => {
                let own = call::datagram(self.record, &mut self.area, datagram);
                self.record = own.record;
                assert_eq!(own.done().map(|own| own.reset == 1), answer);
                if answer == Ok(true) {
                    "reset"
                } else {
                    "ignored"
                }
            }
            other => panic!("{other:?}"),
        }
    }
}

/// A delivery's answer as the boundary tells it.
fn numbers(delivered: Delivered) -> (usize, u8, u8, usize) {
    let (kind, fault, length) = match delivered.came {
        Came::More => (number::DELIVER_MORE, 0, 0),
        Came::Message { reply } => (number::DELIVER_MESSAGE, 0, reply),
        Came::Closed(fault) => (number::DELIVER_CLOSED, fault.number(), 0),
    };
    (delivered.taken, kind, fault, length)
}

/// Locks, a subscription, half messages, a fault, a ninth connection, silence, and a reset while others wait.
fn evening(hall: &Hall) {
    let port = free_port();
    let mut peers: Vec<Peer> = (0..8).map(|n| hall.connect(n)).collect();
    assert!(Peer::connect(hall.address).is_closed());
    peers[0].ask(&arm(1, KEY, "", port), 0);
    peers[1].ask(&subscribe(2, 5, b"foyer"), 0);
    peers[2].send(&message(1, &[lock(3, 5), set(4, 5, 1)]));
    hall.log.line("notified connection 1: channel 5 is muted");
    peers[3].ask(&lock(5, 5), 3);
    peers[4].beat(200);
    hall.log.line("closed connection 4");
    peers[5].send(&asked(&lock(6, 6))[..13]);
    peers[6].send(&[0x3A]);
    assert!(peers[6].is_closed());
    drop(peers.remove(7));
    hall.log.line("closed connection 7");
    restart(OTHER, port).send().unwrap();
    hall.log.line("a datagram of 24 bytes changed nothing");
    restart(KEY, port).send().unwrap();
    hall.log.line("reset by key");
    hall.connect(0).ask(&lock(7, 5), 0);
}

/// What it is told is enough: after every call record, area, output and answer are the same.
#[test]
fn another_program_runs_on_the_same_inputs() {
    let counts = Counts::default();
    let hall = Hall::open_watched(Second {
        record: call::fresh(0),
        area: vec![0xFF; AREA],
        output: vec![0; OUTPUT],
        counts: Arc::clone(&counts),
    });
    evening(&hall);
    hall.end();
    let counts = counts.lock().unwrap();
    let count = |name: &str| counts.get(name).copied().unwrap_or_default();
    for (name, times) in [
        ("fresh", 1),
        ("open", 9),
        ("full", 1),
        ("close", 2),
        ("notification", 1),
        ("ignored", 1),
        ("reset", 1),
    ] {
        assert_eq!(count(name), times, "{name}: {counts:?}");
    }
    for (name, times) in [
        ("deliver", 8),
        ("tick", 8),
        ("nothing", 8),
        ("keep-alive", 1),
    ] {
        assert!(count(name) >= times, "{name}: {counts:?}");
    }
}
