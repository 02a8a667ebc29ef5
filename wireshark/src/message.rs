//! Messages and their entries: as they are laid out on the wire, and as the library's reader tells them.

use compare::answer::{self, Part};
use compare::engine::Engine;

/// A method or an event: level and index.
pub type Pair = (u16, u16);

pub const COMMAND: u8 = 0;
pub const COMMAND_WANTING_REPLY: u8 = 1;
pub const NOTIFICATION: u8 = 2;
pub const RESPONSE: u8 = 3;
pub const KEEP_ALIVE: u8 = 4;
/// The 3B and the header.
pub const BEFORE_ENTRIES: usize = 10;
/// Size, target, method, parameter count and the context's own count.
const BEFORE_CONTEXT: usize = 15;
/// The largest pduSize that is read; a reply may have more.
pub const LARGEST_PDU_SIZE: usize = 2_048;
/// The least buffer of the writer.
const ROOM: usize = 2_049;
const SECONDS: u8 = 1;

#[derive(Clone, Debug, PartialEq, Eq)]
pub enum Entry {
    Command {
        handle: u32,
        target: u32,
        method: Pair,
        count: u8,
        parameters: Vec<u8>,
    },
    Notification {
        target: u32,
        method: Pair,
        count: u8,
        context: Vec<u8>,
        emitter: u32,
        event: Pair,
        parameters: Vec<u8>,
    },
    Response {
        handle: u32,
        status: u8,
        count: u8,
        parameters: Vec<u8>,
    },
}

/// What a message carries, its type with it.
#[derive(Clone, Debug, PartialEq, Eq)]
pub enum Message {
    Entries { kind: u8, entries: Vec<Entry> },
    Seconds(u16),
    Milliseconds(u32),
}

/// A method or an event on the wire.
pub fn laid(pair: Pair) -> [u8; 4] {
    ((u32::from(pair.0) << 16) | u32::from(pair.1)).to_be_bytes()
}

/// A blob: its count in 2 bytes, then its bytes.
pub fn counted(bytes: &[u8]) -> Vec<u8> {
    [&(bytes.len() as u16).to_be_bytes(), bytes].concat()
}

impl Entry {
    /// The entry on the wire, its size first.
    pub fn bytes(&self) -> Vec<u8> {
        let rest = self.heads();
        let parameters = self.parameters();
        let size = (4 + rest.len() + parameters.len()) as u32;
        [&size.to_be_bytes()[..], &rest, parameters].concat()
    }

    /// A notification's are its event parameters.
    fn parameters(&self) -> &[u8] {
        match self {
            Entry::Command { parameters, .. }
            | Entry::Notification { parameters, .. }
            | Entry::Response { parameters, .. } => parameters,
        }
    }

    /// What stands between the size and the parameters.
    fn heads(&self) -> Vec<u8> {
        match self {
            Entry::Command {
                handle,
                target,
                method,
                count,
                ..
            } => {
                let numbers = [handle.to_be_bytes(), target.to_be_bytes(), laid(*method)];
                [&numbers.concat()[..], &[*count]].concat()
            }
            Entry::Notification {
                target,
                method,
                count,
                context,
                emitter,
                event,
                ..
            } => {
                let numbers = [target.to_be_bytes(), laid(*method)].concat();
                let emitted = [emitter.to_be_bytes(), laid(*event)].concat();
                [&numbers[..], &[*count], &counted(context), &emitted].concat()
            }
            Entry::Response {
                handle,
                status,
                count,
                ..
            } => [&handle.to_be_bytes()[..], &[*status, *count]].concat(),
        }
    }
}

impl Message {
    pub fn kind(&self) -> u8 {
        match self {
            Message::Entries { kind, .. } => *kind,
            Message::Seconds(_) | Message::Milliseconds(_) => KEEP_ALIVE,
        }
    }

    pub fn entries(&self) -> &[Entry] {
        match self {
            Message::Entries { entries, .. } => entries,
            Message::Seconds(_) | Message::Milliseconds(_) => &[],
        }
    }

    /// messageCount: a keep-alive's is 1.
    pub fn count(&self) -> usize {
        match self {
            Message::Entries { entries, .. } => entries.len(),
            Message::Seconds(_) | Message::Milliseconds(_) => 1,
        }
    }

    fn data(&self) -> Vec<u8> {
        match self {
            Message::Entries { entries, .. } => entries.iter().flat_map(Entry::bytes).collect(),
            Message::Seconds(value) => value.to_be_bytes().to_vec(),
            Message::Milliseconds(value) => value.to_be_bytes().to_vec(),
        }
    }

    /// The message on the wire.
    pub fn bytes(&self) -> Vec<u8> {
        let data = self.data();
        let size = BEFORE_ENTRIES - 1 + data.len();
        let mut bytes = vec![0x3B, 0, 1];
        bytes.extend((size as u32).to_be_bytes());
        bytes.push(self.kind());
        bytes.extend((self.count() as u16).to_be_bytes());
        bytes.extend(data);
        bytes
    }
}

/// What the library's reader says of bytes that are one message.
pub fn read(engine: &impl Engine, bytes: &[u8]) -> Result<Message, String> {
    if bytes.len() > LARGEST_PDU_SIZE + 1 {
        return read_long_reply(engine, bytes);
    }
    let reading = engine.read_message(bytes);
    if reading.number != 0 || reading.length != bytes.len() {
        return Err(format!("the reader says {reading:?} of {bytes:02x?}"));
    }
    match (reading.kind, reading.form) {
        (KEEP_ALIVE, SECONDS) => Ok(Message::Seconds(reading.value as u16)),
        (KEEP_ALIVE, _) => Ok(Message::Milliseconds(reading.value)),
        (kind, _) => {
            let mut entries = Vec::new();
            let mut at = BEFORE_ENTRIES;
            for index in 0..usize::from(reading.count) {
                let entry = read_entry(engine, bytes, index, at)?;
                at += entry.bytes().len();
                entries.push(entry);
            }
            Ok(Message::Entries { kind, entries })
        }
    }
}

/// Entry `index`, which begins at `at`.
fn read_entry(
    engine: &impl Engine,
    bytes: &[u8],
    index: usize,
    at: usize,
) -> Result<Entry, String> {
    let read = engine.read_entry(bytes, index);
    let (part, context) = (
        engine.entry_part(bytes, index),
        engine.entry_context(bytes, index),
    );
    let parameters = named(bytes, part)?;
    let entry = entry_of(&read, named(bytes, context)?, parameters);
    let end = at + entry.bytes().len();
    let placed = |part: Part, start| part.length == 0 || part.start == start;
    let places = placed(part, end - part.length) && placed(context, at + BEFORE_CONTEXT);
    let counts = usize::from(read.context_count) == context.length;
    match read.number == 0 && places && counts {
        true => Ok(entry),
        false => Err(format!(
            "the reader says {read:?} of entry {index} of {bytes:02x?}"
        )),
    }
}

/// The part of the bytes that the reader names.
fn named(bytes: &[u8], part: Part) -> Result<Vec<u8>, String> {
    let named = bytes.get(part.start..part.start + part.length);
    named
        .map(<[u8]>::to_vec)
        .ok_or_else(|| format!("the reader names {part:?} of {bytes:02x?}"))
}

fn entry_of(read: &answer::Entry, context: Vec<u8>, parameters: Vec<u8>) -> Entry {
    let method = (read.level, read.index);
    let (target, handle, status, count) = (read.target, read.handle, read.status, read.count);
    match read.kind {
        COMMAND => Entry::Command {
            handle,
            target,
            method,
            count,
            parameters,
        },
        NOTIFICATION => Entry::Notification {
            target,
            method,
            count,
            context,
            emitter: read.emitter,
            event: (read.event_level, read.event_index),
            parameters,
        },
        _ => Entry::Response {
            handle,
            status,
            count,
            parameters,
        },
    }
}

/// The reader takes no message of pduSize above 2,048, and a reply may have 2,627: its entries are read one at a time,
/// each in a message that the writer makes of it.
fn read_long_reply(engine: &impl Engine, bytes: &[u8]) -> Result<Message, String> {
    let mut entries = Vec::new();
    let mut rest = &bytes[BEFORE_ENTRIES..];
    while let Some(size) = rest.first_chunk() {
        let size = u32::from_be_bytes(*size) as usize;
        let entry = rest.get(..size).ok_or("a reply's entry passes its end")?;
        let mut alone = vec![0; ROOM];
        let written = engine.start(&mut alone, RESPONSE, entry);
        if written.number != 0 {
            return Err(format!("the writer says {written:?} of {entry:02x?}"));
        }
        alone.truncate(written.length);
        entries.push(read_entry(engine, &alone, 0, BEFORE_ENTRIES)?);
        rest = &rest[size..];
    }
    let kind = RESPONSE;
    Ok(Message::Entries { kind, entries })
}
