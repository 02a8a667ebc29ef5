//! The second program, close to the scope paper's own sentences.
//!
//! Every call first looks for a refusal and touches nothing until it knows
//! there is none; so 'on refusal everything stays as it was' needs no undoing.

pub mod address;
pub mod device;
pub mod endpoint;
pub mod listing;
pub mod reader;
pub mod reset;
pub mod rules;
pub mod wire;
pub mod writer;

use crate::answer::{
    CLOSED, Cleared, Closed, Delivered, Entry, KEEP_ALIVE, MESSAGE, MORE, NOTIFICATION, Opened,
    Part, Reading, Reset, Taken, Ticked, Written,
};
use crate::engine::Engine;
use crate::record::Record;
use endpoint::{Delivery, Taking};
use std::ops::Range;
use wire::Heartbeat;

/// Why a call is refused; the numbers are the scope paper's, of which 7 is given up.
#[derive(Clone, Copy, Debug, PartialEq, Eq)]
pub enum Refusal {
    BadRecord,
    BadArea,
    NoConnection,
    NoRoom,
    TableFull,
    ClockBack,
    /// A fault from 1 to 6.
    Fault(u8),
    Short,
    TooLong,
    BadEntry,
    NoEntry,
}

impl Refusal {
    /// The refusal's number.
    pub fn number(self) -> u8 {
        match self {
            Refusal::BadRecord => 1,
            Refusal::BadArea => 2,
            Refusal::NoConnection => 3,
            Refusal::NoRoom => 4,
            Refusal::TableFull => 5,
            Refusal::ClockBack => 6,
            Refusal::Fault(_) => 8,
            Refusal::Short => 9,
            Refusal::TooLong => 10,
            Refusal::BadEntry => 11,
            Refusal::NoEntry => 12,
        }
    }

    /// The fault that goes with refusal 8, else 0.
    pub fn fault(self) -> u8 {
        match self {
            Refusal::Fault(fault) => fault,
            _ => 0,
        }
    }
}

/// The second program behind the common calls.
#[derive(Clone, Copy, Debug, Default)]
pub struct Second;

impl Engine for Second {
    fn fresh(&self, reading: u32) -> Record {
        endpoint::fresh(reading)
    }

    fn clear(&self, area: &mut [u8]) -> Cleared {
        let number = endpoint::clear(area).err().map_or(0, Refusal::number);
        Cleared { number }
    }

    fn open(&self, record: Record) -> Opened {
        match endpoint::open(&record) {
            Ok((record, connection)) => Opened {
                record,
                number: 0,
                connection,
            },
            Err(refusal) => Opened {
                record,
                number: refusal.number(),
                connection: 0,
            },
        }
    }

    fn close(&self, record: Record, area: &mut [u8], n: u8) -> Closed {
        match endpoint::close(&record, area, n) {
            Ok(record) => Closed { record, number: 0 },
            Err(refusal) => Closed {
                record,
                number: refusal.number(),
            },
        }
    }

    fn tick(&self, record: Record, area: &mut [u8], reading: u32) -> Ticked {
        match endpoint::tick(&record, area, reading) {
            Ok((record, closed)) => Ticked {
                record,
                number: 0,
                closed,
            },
            Err(refusal) => Ticked {
                record,
                number: refusal.number(),
                closed: 0,
            },
        }
    }

    fn deliver(
        &self,
        record: Record,
        area: &mut [u8],
        n: u8,
        piece: &[u8],
        output: &mut [u8],
    ) -> Delivered {
        match endpoint::deliver(&record, area, n, piece, output) {
            Ok((record, taken, delivery)) => delivered(record, taken, delivery),
            Err(refusal) => Delivered {
                record,
                number: refusal.number(),
                ..Delivered::default()
            },
        }
    }

    fn take(&self, record: Record, output: &mut [u8]) -> Taken {
        match endpoint::take(&record, output) {
            Ok((record, taking)) => taken(record, taking),
            Err(refusal) => Taken {
                record,
                number: refusal.number(),
                ..Taken::default()
            },
        }
    }

    fn datagram(&self, record: Record, area: &mut [u8], datagram: &[u8]) -> Reset {
        match endpoint::datagram(&record, area, datagram) {
            Ok((record, reset)) => Reset {
                record,
                number: 0,
                reset: u8::from(reset),
            },
            Err(refusal) => Reset {
                record,
                number: refusal.number(),
                reset: 0,
            },
        }
    }

    fn read_message(&self, bytes: &[u8]) -> Reading {
        match reader::read_message(bytes) {
            Ok(message) => reading(&message),
            Err(refusal) => Reading {
                number: refusal.number(),
                fault: refusal.fault(),
                ..Reading::default()
            },
        }
    }

    fn read_entry(&self, bytes: &[u8], index: usize) -> Entry {
        match reader::read_entry(bytes, index) {
            Ok(found) => entry(&found),
            Err(refusal) => Entry {
                number: refusal.number(),
                fault: refusal.fault(),
                ..Entry::default()
            },
        }
    }

    fn entry_part(&self, bytes: &[u8], index: usize) -> Part {
        part(reader::entry_part(bytes, index))
    }

    fn entry_context(&self, bytes: &[u8], index: usize) -> Part {
        part(reader::entry_context(bytes, index))
    }

    fn start(&self, buffer: &mut [u8], kind: u8, entry: &[u8]) -> Written {
        written(writer::start(buffer, kind, entry))
    }

    fn append(&self, buffer: &mut [u8], kind: u8, entry: &[u8]) -> Written {
        written(writer::append(buffer, kind, entry))
    }

    fn keep_alive(&self, buffer: &mut [u8], form: u8, value: u32) -> Written {
        written(writer::keep_alive(buffer, form, value))
    }
}

fn delivered(record: Record, taken: usize, delivery: Delivery) -> Delivered {
    let (kind, fault, length) = match delivery {
        Delivery::More => (MORE, 0, 0),
        Delivery::Message { reply } => (MESSAGE, 0, reply),
        Delivery::Closed { fault } => (CLOSED, fault, 0),
    };
    Delivered {
        record,
        number: 0,
        kind,
        fault,
        taken,
        length,
    }
}

fn taken(record: Record, taking: Taking) -> Taken {
    let (kind, connection, length) = match taking {
        Taking::Nothing => (0, 0, 0),
        Taking::Notification { connection, length } => (NOTIFICATION, connection, length),
        Taking::KeepAlive { connection, length } => (KEEP_ALIVE, connection, length),
    };
    Taken {
        record,
        number: 0,
        kind,
        connection,
        length,
    }
}

fn reading(message: &reader::Message) -> Reading {
    let (form, value) = match message.heartbeat {
        None => (0, 0),
        Some(Heartbeat::Seconds(value)) => (1, u32::from(value)),
        Some(Heartbeat::Milliseconds(value)) => (2, value),
    };
    Reading {
        number: 0,
        fault: 0,
        kind: message.kind,
        count: message.count,
        form,
        value,
        length: message.length,
    }
}

fn entry(found: &reader::Entry) -> Entry {
    match found {
        reader::Entry::Command(command) => Entry {
            kind: 0,
            handle: command.handle,
            target: command.target,
            level: command.level,
            index: command.index,
            count: command.count,
            ..Entry::default()
        },
        reader::Entry::Notification(notification) => Entry {
            kind: 2,
            target: notification.target,
            level: notification.level,
            index: notification.index,
            count: notification.count,
            context_count: notification.context_count,
            emitter: notification.emitter,
            event_level: notification.event_level,
            event_index: notification.event_index,
            ..Entry::default()
        },
        reader::Entry::Response(response) => Entry {
            kind: 3,
            handle: response.handle,
            status: response.status,
            count: response.count,
            ..Entry::default()
        },
    }
}

fn part(place: Option<Range<usize>>) -> Part {
    match place {
        Some(place) => Part {
            start: place.start,
            length: place.len(),
        },
        None => Part::default(),
    }
}

fn written(answer: Result<usize, Refusal>) -> Written {
    match answer {
        Ok(length) => Written {
            number: 0,
            fault: 0,
            length,
        },
        Err(refusal) => Written {
            number: refusal.number(),
            fault: refusal.fault(),
            length: 0,
        },
    }
}
