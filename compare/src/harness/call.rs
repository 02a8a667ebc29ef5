//! A call with all it is given, and all that comes back.

use crate::answer::{
    Cleared, Closed, Delivered, Entry, Opened, Part, Reading, Reset, Taken, Ticked, Written,
};
use crate::engine::Engine;
use crate::record::Record;
use std::fmt::Write;

/// One call; buffers are given with the bytes they hold beforehand.
#[derive(Clone, Debug)]
pub enum Call {
    Fresh {
        reading: u32,
    },
    Clear {
        area: Vec<u8>,
    },
    Open {
        record: Record,
    },
    Close {
        record: Record,
        area: Vec<u8>,
        n: u8,
    },
    Tick {
        record: Record,
        area: Vec<u8>,
        reading: u32,
    },
    Deliver {
        record: Record,
        area: Vec<u8>,
        n: u8,
        piece: Vec<u8>,
        output: Vec<u8>,
    },
    Take {
        record: Record,
        output: Vec<u8>,
    },
    Datagram {
        record: Record,
        area: Vec<u8>,
        datagram: Vec<u8>,
    },
    ReadMessage {
        bytes: Vec<u8>,
    },
    ReadEntry {
        bytes: Vec<u8>,
        index: usize,
    },
    EntryPart {
        bytes: Vec<u8>,
        index: usize,
    },
    EntryContext {
        bytes: Vec<u8>,
        index: usize,
    },
    Start {
        buffer: Vec<u8>,
        kind: u8,
        entry: Vec<u8>,
    },
    Append {
        buffer: Vec<u8>,
        kind: u8,
        entry: Vec<u8>,
    },
    KeepAlive {
        buffer: Vec<u8>,
        form: u8,
        value: u32,
    },
}

/// The calls' names, in the order of [`Call::place`].
pub const NAMES: [&str; 15] = [
    "fresh",
    "clear",
    "open",
    "close",
    "tick",
    "deliver",
    "take",
    "datagram",
    "read_message",
    "read_entry",
    "entry_part",
    "entry_context",
    "start",
    "append",
    "keep_alive",
];

/// What a call answers.
#[derive(Clone, Copy, Debug, PartialEq, Eq)]
pub enum Answer {
    Fresh(Record),
    Cleared(Cleared),
    Opened(Opened),
    Closed(Closed),
    Ticked(Ticked),
    Delivered(Delivered),
    Taken(Taken),
    Reset(Reset),
    Reading(Reading),
    Entry(Entry),
    Part(Part),
    Written(Written),
}

/// All that comes back: the answer and the buffers lent.
#[derive(Clone, Debug, PartialEq, Eq)]
pub struct Outcome {
    pub answer: Answer,
    pub area: Vec<u8>,
    /// The output, or the writer's buffer.
    pub output: Vec<u8>,
}

impl Call {
    /// The call's place among the names.
    pub fn place(&self) -> usize {
        match self {
            Call::Fresh { .. } => 0,
            Call::Clear { .. } => 1,
            Call::Open { .. } => 2,
            Call::Close { .. } => 3,
            Call::Tick { .. } => 4,
            Call::Deliver { .. } => 5,
            Call::Take { .. } => 6,
            Call::Datagram { .. } => 7,
            Call::ReadMessage { .. } => 8,
            Call::ReadEntry { .. } => 9,
            Call::EntryPart { .. } => 10,
            Call::EntryContext { .. } => 11,
            Call::Start { .. } => 12,
            Call::Append { .. } => 13,
            Call::KeepAlive { .. } => 14,
        }
    }

    /// The record given, if one is.
    pub fn record(&self) -> Option<&Record> {
        match self {
            Call::Open { record }
            | Call::Close { record, .. }
            | Call::Tick { record, .. }
            | Call::Deliver { record, .. }
            | Call::Take { record, .. }
            | Call::Datagram { record, .. } => Some(record),
            _ => None,
        }
    }

    /// The area lent, if one is.
    pub fn area(&self) -> &[u8] {
        match self {
            Call::Clear { area }
            | Call::Close { area, .. }
            | Call::Tick { area, .. }
            | Call::Deliver { area, .. }
            | Call::Datagram { area, .. } => area,
            _ => &[],
        }
    }

    /// The output or buffer lent, if one is.
    pub fn output(&self) -> &[u8] {
        match self {
            Call::Deliver { output, .. } | Call::Take { output, .. } => output,
            Call::Start { buffer, .. }
            | Call::Append { buffer, .. }
            | Call::KeepAlive { buffer, .. } => buffer,
            _ => &[],
        }
    }

    /// Makes the call.
    pub fn perform(&self, engine: &dyn Engine) -> Outcome {
        let mut area = self.area().to_vec();
        let mut output = self.output().to_vec();
        let answer = self.answer(engine, &mut area, &mut output);
        Outcome {
            answer,
            area,
            output,
        }
    }

    fn answer(&self, engine: &dyn Engine, area: &mut [u8], output: &mut [u8]) -> Answer {
        match self {
            Call::Fresh { reading } => Answer::Fresh(engine.fresh(*reading)),
            Call::Clear { .. } => Answer::Cleared(engine.clear(area)),
            Call::Open { record } => Answer::Opened(engine.open(*record)),
            Call::Close { record, n, .. } => Answer::Closed(engine.close(*record, area, *n)),
            Call::Tick {
                record, reading, ..
            } => Answer::Ticked(engine.tick(*record, area, *reading)),
            Call::Deliver {
                record, n, piece, ..
            } => Answer::Delivered(engine.deliver(*record, area, *n, piece, output)),
            Call::Take { record, .. } => Answer::Taken(engine.take(*record, output)),
            Call::Datagram {
                record, datagram, ..
            } => Answer::Reset(engine.datagram(*record, area, datagram)),
            Call::ReadMessage { bytes } => Answer::Reading(engine.read_message(bytes)),
            Call::ReadEntry { bytes, index } => Answer::Entry(engine.read_entry(bytes, *index)),
            Call::EntryPart { bytes, index } => Answer::Part(engine.entry_part(bytes, *index)),
            Call::EntryContext { bytes, index } => {
                Answer::Part(engine.entry_context(bytes, *index))
            }
            Call::Start { kind, entry, .. } => Answer::Written(engine.start(output, *kind, entry)),
            Call::Append { kind, entry, .. } => {
                Answer::Written(engine.append(output, *kind, entry))
            }
            Call::KeepAlive { form, value, .. } => {
                Answer::Written(engine.keep_alive(output, *form, *value))
            }
        }
    }

    /// The call in words, with its bytes in hexadecimal.
    pub fn describe(&self) -> String {
        let mut text = NAMES[self.place()].to_string();
        let detail = match self {
            Call::Fresh { reading } => format!(" reading {reading}"),
            Call::Close { n, .. } => format!(" connection {n}"),
            Call::Tick { reading, .. } => format!(" reading {reading}"),
            Call::Deliver { n, piece, .. } => format!(" connection {n}, piece {}", hex(piece)),
            Call::Datagram { datagram, .. } => format!(" {}", hex(datagram)),
            Call::ReadMessage { bytes } => format!(" {}", hex(bytes)),
            Call::ReadEntry { bytes, index }
            | Call::EntryPart { bytes, index }
            | Call::EntryContext { bytes, index } => {
                format!(" index {index} of {}", hex(bytes))
            }
            Call::Start { kind, entry, .. } | Call::Append { kind, entry, .. } => {
                format!(" type {kind}, entry {}", hex(entry))
            }
            Call::KeepAlive { form, value, .. } => format!(" form {form}, value {value}"),
            Call::Clear { .. } | Call::Open { .. } | Call::Take { .. } => String::new(),
        };
        text += &detail;
        let _ = write!(text, "\n  area of {} bytes", self.area().len());
        let _ = write!(text, "\n  output of {} bytes", self.output().len());
        if let Call::Append { buffer, .. } = self {
            let _ = write!(text, " beginning {}", hex(&buffer[..buffer.len().min(64)]));
        }
        if let Some(record) = self.record() {
            let _ = write!(text, "\n  {record:?}");
            text += &self.undecided(record);
        }
        text
    }

    /// A line for each connection that holds bytes.
    fn undecided(&self, record: &Record) -> String {
        let mut text = String::new();
        for (n, held) in record.held.iter().enumerate().filter(|(_, h)| **h > 0) {
            let share = self.area().iter().skip(2_049 * n);
            let bytes: Vec<u8> = share.take(usize::from(*held)).copied().collect();
            let _ = write!(text, "\n  undecided at {n}: {}", hex(&bytes));
        }
        text
    }
}

impl Answer {
    /// The refusal's number, or 0.
    pub fn number(&self) -> u8 {
        match self {
            Answer::Fresh(_) | Answer::Part(_) => 0,
            Answer::Cleared(answer) => answer.number,
            Answer::Opened(answer) => answer.number,
            Answer::Closed(answer) => answer.number,
            Answer::Ticked(answer) => answer.number,
            Answer::Delivered(answer) => answer.number,
            Answer::Taken(answer) => answer.number,
            Answer::Reset(answer) => answer.number,
            Answer::Reading(answer) => answer.number,
            Answer::Entry(answer) => answer.number,
            Answer::Written(answer) => answer.number,
        }
    }

    /// The part handed back; where none is, one that is nowhere.
    pub fn part(&self) -> Part {
        match self {
            Answer::Part(part) => *part,
            _ => Part::default(),
        }
    }

    /// The record handed back, if one is.
    pub fn record(&self) -> Option<&Record> {
        match self {
            Answer::Fresh(record) => Some(record),
            Answer::Opened(answer) => Some(&answer.record),
            Answer::Closed(answer) => Some(&answer.record),
            Answer::Ticked(answer) => Some(&answer.record),
            Answer::Delivered(answer) => Some(&answer.record),
            Answer::Taken(answer) => Some(&answer.record),
            Answer::Reset(answer) => Some(&answer.record),
            _ => None,
        }
    }
}

/// Bytes in hexadecimal.
pub fn hex(bytes: &[u8]) -> String {
    let pairs: Vec<String> = bytes.iter().map(|byte| format!("{byte:02X}")).collect();
    format!("[{}]", pairs.join(" "))
}
