//! The boundary's layout is compared too: each program below takes the record
//! or hands back the answer with two fields, or bytes of one, changed over, as a
//! caller with a wrong layout would see it, and the gate's runs have to find it.

use compare::answer::{
    Cleared, Closed, Delivered, Entry, Opened, Part, Reading, Reset, Taken, Ticked, Written,
};
use compare::engine::Engine;
use compare::harness::gate;
use compare::record::{Connection, Mechanism, Record, Subscription};
use compare::second::Second;
use std::mem::swap;

/// The library where it is linked, so that its own answers are misread.
#[cfg(feature = "ours")]
const RIGHT: compare::ours::Ours = compare::ours::Ours;
#[cfg(not(feature = "ours"))]
const RIGHT: Second = Second;

/// What a caller gets wrong; changing over twice gives what was there.
#[derive(Clone, Copy)]
enum Wrong {
    Record(fn(&mut Record)),
    Connection(fn(&mut Connection)),
    Subscription(fn(&mut Subscription)),
    Mechanism(fn(&mut Mechanism)),
    Opened(fn(&mut Opened)),
    Ticked(fn(&mut Ticked)),
    Delivered(fn(&mut Delivered)),
    Taken(fn(&mut Taken)),
    Reset(fn(&mut Reset)),
    Reading(fn(&mut Reading)),
    Entry(fn(&mut Entry)),
    Part(fn(&mut Part)),
    Context(fn(&mut Part)),
    Written(fn(&mut Written)),
}

const WRONG: [(&str, Wrong); 52] = [
    ("held", Wrong::Record(|r| r.held.reverse())),
    (
        "connections",
        Wrong::Record(|r| r.device.connections.reverse()),
    ),
    (
        "entries",
        Wrong::Record(|r| r.device.subscriptions.reverse()),
    ),
    ("mutes", Wrong::Record(|r| r.device.mutes.reverse())),
    ("holders", Wrong::Record(|r| r.device.holders.reverse())),
    (
        "mutes, holders",
        Wrong::Record(|r| swap(&mut r.device.mutes, &mut r.device.holders)),
    ),
    (
        "reading",
        Wrong::Record(|r| r.device.reading = r.device.reading.swap_bytes()),
    ),
    (
        "live, due",
        Wrong::Connection(|c| swap(&mut c.live, &mut c.due)),
    ),
    (
        "beat, silence",
        Wrong::Connection(|c| swap(&mut c.beat, &mut c.silence)),
    ),
    (
        "silence, quiet",
        Wrong::Connection(|c| swap(&mut c.silence, &mut c.quiet)),
    ),
    (
        "form",
        Wrong::Connection(|c| c.form = [0, 2, 1][usize::from(c.form.min(2))]),
    ),
    (
        "used, waiting",
        Wrong::Subscription(|e| swap(&mut e.used, &mut e.waiting)),
    ),
    (
        "emitter, event",
        Wrong::Subscription(|e| swap(&mut e.emitter, &mut e.event)),
    ),
    (
        "event, object",
        Wrong::Subscription(|e| swap(&mut e.event, &mut e.object)),
    ),
    (
        "object, method",
        Wrong::Subscription(|e| swap(&mut e.object, &mut e.method)),
    ),
    (
        "method, context",
        Wrong::Subscription(|e| {
            let method = e.method.to_ne_bytes();
            let front: [u8; 4] = e.context[..4].try_into().expect("four bytes");
            e.method = u32::from_ne_bytes(front);
            e.context[..4].copy_from_slice(&method);
        }),
    ),
    ("context", Wrong::Subscription(|e| e.context.reverse())),
    (
        "connection, context count",
        Wrong::Subscription(|e| swap(&mut e.connection, &mut e.context_count)),
    ),
    (
        "waiting, context count",
        Wrong::Subscription(|e| {
            // Only 0 and 1 can stand in both places.
            if e.context_count < 2 {
                (e.waiting, e.context_count) = (e.context_count == 1, u8::from(e.waiting));
            }
        }),
    ),
    (
        "context count, context",
        Wrong::Subscription(|e| swap(&mut e.context_count, &mut e.context[0])),
    ),
    (
        "holders, key",
        Wrong::Record(|r| swap(&mut r.device.holders[0], &mut r.device.mechanism.key[0])),
    ),
    (
        "armed, key",
        Wrong::Mechanism(|m| {
            // Only 0 and 1 can stand in both places.
            if m.key[0] < 2 {
                (m.armed, m.key[0]) = (m.key[0] == 1, u8::from(m.armed));
            }
        }),
    ),
    ("key", Wrong::Mechanism(|m| m.key.reverse())),
    (
        "key, address",
        Wrong::Mechanism(|m| m.key[12..].swap_with_slice(&mut m.address)),
    ),
    ("address", Wrong::Mechanism(|m| m.address.reverse())),
    (
        "address, port",
        Wrong::Mechanism(|m| {
            let [a, b, c, d] = m.address;
            let [high, low] = m.port.to_be_bytes();
            m.address = [a, b, high, low];
            m.port = u16::from_be_bytes([c, d]);
        }),
    ),
    ("port", Wrong::Mechanism(|m| m.port = m.port.swap_bytes())),
    ("reset", Wrong::Reset(|a| swap(&mut a.number, &mut a.reset))),
    (
        "opened",
        Wrong::Opened(|a| swap(&mut a.number, &mut a.connection)),
    ),
    (
        "ticked",
        Wrong::Ticked(|a| swap(&mut a.number, &mut a.closed)),
    ),
    (
        "delivered number, kind",
        Wrong::Delivered(|a| swap(&mut a.number, &mut a.kind)),
    ),
    (
        "delivered kind, fault",
        Wrong::Delivered(|a| swap(&mut a.kind, &mut a.fault)),
    ),
    (
        "delivered taken, length",
        Wrong::Delivered(|a| swap(&mut a.taken, &mut a.length)),
    ),
    (
        "taken number, kind",
        Wrong::Taken(|a| swap(&mut a.number, &mut a.kind)),
    ),
    (
        "taken kind, connection",
        Wrong::Taken(|a| swap(&mut a.kind, &mut a.connection)),
    ),
    (
        "reading number, fault",
        Wrong::Reading(|a| swap(&mut a.number, &mut a.fault)),
    ),
    (
        "reading fault, kind",
        Wrong::Reading(|a| swap(&mut a.fault, &mut a.kind)),
    ),
    (
        "reading kind, form",
        Wrong::Reading(|a| swap(&mut a.kind, &mut a.form)),
    ),
    (
        "entry number, fault",
        Wrong::Entry(|a| swap(&mut a.number, &mut a.fault)),
    ),
    (
        "entry handle, target",
        Wrong::Entry(|a| swap(&mut a.handle, &mut a.target)),
    ),
    (
        "entry level, index",
        Wrong::Entry(|a| swap(&mut a.level, &mut a.index)),
    ),
    (
        "entry count, status",
        Wrong::Entry(|a| swap(&mut a.count, &mut a.status)),
    ),
    (
        "entry status, context count",
        Wrong::Entry(|a| {
            let status = u16::from(a.status);
            (a.status, a.context_count) = (a.context_count as u8, status);
        }),
    ),
    (
        "entry context count",
        Wrong::Entry(|a| a.context_count = a.context_count.swap_bytes()),
    ),
    (
        "entry context count, emitter",
        Wrong::Entry(|a| {
            let count = u32::from(a.context_count);
            (a.context_count, a.emitter) = (a.emitter as u16, count);
        }),
    ),
    (
        "entry index, context count",
        Wrong::Entry(|a| swap(&mut a.index, &mut a.context_count)),
    ),
    (
        "entry context count, event level",
        Wrong::Entry(|a| swap(&mut a.context_count, &mut a.event_level)),
    ),
    (
        "event level, index",
        Wrong::Entry(|a| swap(&mut a.event_level, &mut a.event_index)),
    ),
    (
        "index, event level",
        Wrong::Entry(|a| swap(&mut a.index, &mut a.event_level)),
    ),
    ("part", Wrong::Part(|a| swap(&mut a.start, &mut a.length))),
    (
        "context's part",
        Wrong::Context(|a| swap(&mut a.start, &mut a.length)),
    ),
    (
        "written",
        Wrong::Written(|a| swap(&mut a.number, &mut a.fault)),
    ),
];

#[test]
fn every_wrong_layout_is_found() {
    for (name, wrong) in WRONG {
        match gate::gate(&Misread(wrong), &Second) {
            Ok(_) => panic!("{name} was not found"),
            Err(difference) => {
                let text = difference.to_string();
                println!("{name}: {}", text.lines().next().unwrap_or_default());
            }
        }
    }
}

/// The program behind a boundary with a wrong layout.
struct Misread(Wrong);

impl Misread {
    fn record(&self, mut record: Record) -> Record {
        match self.0 {
            Wrong::Record(edit) => edit(&mut record),
            Wrong::Connection(edit) => record.device.connections.iter_mut().for_each(edit),
            Wrong::Subscription(edit) => record.device.subscriptions.iter_mut().for_each(edit),
            Wrong::Mechanism(edit) => edit(&mut record.device.mechanism),
            _ => {}
        }
        record
    }

    fn written(&self, mut answer: Written) -> Written {
        if let Wrong::Written(edit) = self.0 {
            edit(&mut answer);
        }
        answer
    }
}

impl Engine for Misread {
    fn fresh(&self, reading: u32) -> Record {
        self.record(RIGHT.fresh(reading))
    }

    fn clear(&self, area: &mut [u8]) -> Cleared {
        RIGHT.clear(area)
    }

    fn open(&self, record: Record) -> Opened {
        let mut answer = RIGHT.open(self.record(record));
        answer.record = self.record(answer.record);
        if let Wrong::Opened(edit) = self.0 {
            edit(&mut answer);
        }
        answer
    }

    fn close(&self, record: Record, area: &mut [u8], n: u8) -> Closed {
        let mut answer = RIGHT.close(self.record(record), area, n);
        answer.record = self.record(answer.record);
        answer
    }

    fn tick(&self, record: Record, area: &mut [u8], reading: u32) -> Ticked {
        let mut answer = RIGHT.tick(self.record(record), area, reading);
        answer.record = self.record(answer.record);
        if let Wrong::Ticked(edit) = self.0 {
            edit(&mut answer);
        }
        answer
    }

    fn deliver(
        &self,
        record: Record,
        area: &mut [u8],
        n: u8,
        piece: &[u8],
        output: &mut [u8],
    ) -> Delivered {
        let mut answer = RIGHT.deliver(self.record(record), area, n, piece, output);
        answer.record = self.record(answer.record);
        if let Wrong::Delivered(edit) = self.0 {
            edit(&mut answer);
        }
        answer
    }

    fn take(&self, record: Record, output: &mut [u8]) -> Taken {
        let mut answer = RIGHT.take(self.record(record), output);
        answer.record = self.record(answer.record);
        if let Wrong::Taken(edit) = self.0 {
            edit(&mut answer);
        }
        answer
    }

    fn datagram(&self, record: Record, area: &mut [u8], datagram: &[u8]) -> Reset {
        let mut answer = RIGHT.datagram(self.record(record), area, datagram);
        answer.record = self.record(answer.record);
        if let Wrong::Reset(edit) = self.0 {
            edit(&mut answer);
        }
        answer
    }

    fn read_message(&self, bytes: &[u8]) -> Reading {
        let mut answer = RIGHT.read_message(bytes);
        if let Wrong::Reading(edit) = self.0 {
            edit(&mut answer);
        }
        answer
    }

    fn read_entry(&self, bytes: &[u8], index: usize) -> Entry {
        let mut answer = RIGHT.read_entry(bytes, index);
        if let Wrong::Entry(edit) = self.0 {
            edit(&mut answer);
        }
        answer
    }

    fn entry_part(&self, bytes: &[u8], index: usize) -> Part {
        let mut answer = RIGHT.entry_part(bytes, index);
        if let Wrong::Part(edit) = self.0 {
            edit(&mut answer);
        }
        answer
    }

    fn entry_context(&self, bytes: &[u8], index: usize) -> Part {
        let mut answer = RIGHT.entry_context(bytes, index);
        if let Wrong::Context(edit) = self.0 {
            edit(&mut answer);
        }
        answer
    }

    fn start(&self, buffer: &mut [u8], kind: u8, entry: &[u8]) -> Written {
        self.written(RIGHT.start(buffer, kind, entry))
    }

    fn append(&self, buffer: &mut [u8], kind: u8, entry: &[u8]) -> Written {
        self.written(RIGHT.append(buffer, kind, entry))
    }

    fn keep_alive(&self, buffer: &mut [u8], form: u8, value: u32) -> Written {
        self.written(RIGHT.keep_alive(buffer, form, value))
    }
}
