//! What the reader has to tell of a well-formed entry, by a rule of neither program.

use crate::answer::{Entry, Part};

/// What the three calls for an entry tell.
#[derive(Clone, Copy, Debug, Default, PartialEq, Eq)]
pub struct Told {
    pub entry: Entry,
    /// Its parameters.
    pub part: Part,
    pub context: Part,
}

impl Told {
    /// Whether the same is told; an empty part may begin anywhere.
    pub fn agrees(&self, other: &Told) -> bool {
        let empty = self.part.length == 0 && other.part.length == 0;
        let same = (self.entry, self.context) == (other.entry, other.context);
        same && (empty || self.part == other.part)
    }
}

/// What is told of the entry, which is of that type and starts there in its message.
pub fn told(kind: u8, entry: &[u8], start: usize) -> Told {
    let (told, context, parameters) = match kind {
        2 => notification(entry),
        3 => response(entry),
        _ => command(entry),
    };
    let context = match kind {
        2 => Part {
            start: start + 15,
            length: context,
        },
        _ => Part::default(),
    };
    Told {
        entry: told,
        part: Part {
            start: start + parameters,
            length: entry.len() - parameters,
        },
        context,
    }
}

fn command(entry: &[u8]) -> (Entry, usize, usize) {
    let told = Entry {
        handle: word(entry, 4),
        target: word(entry, 8),
        level: half(entry, 12),
        index: half(entry, 14),
        count: entry[16],
        ..Entry::default()
    };
    (told, 0, 17)
}

fn notification(entry: &[u8]) -> (Entry, usize, usize) {
    let context = usize::from(half(entry, 13));
    let told = Entry {
        kind: 2,
        target: word(entry, 4),
        level: half(entry, 8),
        index: half(entry, 10),
        count: entry[12],
        context_count: half(entry, 13),
        emitter: word(entry, 15 + context),
        event_level: half(entry, 19 + context),
        event_index: half(entry, 21 + context),
        ..Entry::default()
    };
    (told, context, 23 + context)
}

fn response(entry: &[u8]) -> (Entry, usize, usize) {
    let told = Entry {
        kind: 3,
        handle: word(entry, 4),
        status: entry[8],
        count: entry[9],
        ..Entry::default()
    };
    (told, 0, 10)
}

fn word(bytes: &[u8], at: usize) -> u32 {
    u32::from_be_bytes([bytes[at], bytes[at + 1], bytes[at + 2], bytes[at + 3]])
}

fn half(bytes: &[u8], at: usize) -> u16 {
    u16::from_be_bytes([bytes[at], bytes[at + 1]])
}
