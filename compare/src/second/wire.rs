//! The wire: integers, the header, the entries, and which byte decides.

use crate::record::CONTEXT;
use std::ops::Range;

/// The byte every message begins with.
pub const SYNC: u8 = 0x3B;
/// The 3B and the 9 bytes of the header.
pub const FRONT: usize = 10;
/// The header alone is the least pduSize.
pub const LEAST_SIZE: u32 = 9;
/// The largest pduSize received or built by the writer.
pub const LARGEST_SIZE: u32 = 2_048;

pub const COMMAND: u8 = 0;
pub const COMMAND_WANTING_REPLY: u8 = 1;
pub const NOTIFICATION: u8 = 2;
pub const RESPONSE: u8 = 3;
pub const KEEP_ALIVE: u8 = 4;

/// Reads up to four bytes, most significant first.
pub fn integer(bytes: &[u8]) -> u32 {
    bytes
        .iter()
        .fold(0, |sum, byte| (sum << 8) | u32::from(*byte))
}

/// Reads two bytes, most significant first.
pub fn short(bytes: &[u8]) -> u16 {
    bytes
        .iter()
        .fold(0, |sum, byte| (sum << 8) | u16::from(*byte))
}

/// The heartbeat of a keep-alive, kept apart by kind.
#[derive(Clone, Copy, Debug, PartialEq, Eq)]
pub enum Heartbeat {
    Seconds(u16),
    Milliseconds(u32),
}

/// A message's header.
#[derive(Clone, Copy, Debug, PartialEq, Eq)]
pub struct Header {
    pub version: u16,
    pub size: u32,
    pub kind: u8,
    pub count: u16,
}

/// The header behind the 3B; `front` has at least ten bytes.
pub fn header(front: &[u8]) -> Header {
    Header {
        version: short(&front[1..3]),
        size: integer(&front[3..7]),
        kind: front[7],
        count: short(&front[8..10]),
    }
}

/// The first fault from 2 to 5 that the header has.
pub fn header_fault(header: &Header) -> Option<u8> {
    if header.version != 1 {
        return Some(2);
    }
    if header.size < LEAST_SIZE || header.size > LARGEST_SIZE {
        return Some(3);
    }
    if header.kind > KEEP_ALIVE {
        return Some(4);
    }
    if header.count == 0 || (header.kind == KEEP_ALIVE && header.count != 1) {
        return Some(5);
    }
    None
}

/// What a connection's bytes come to.
#[derive(Clone, Copy, Debug, PartialEq, Eq)]
pub enum Judgement {
    /// They end before a deciding byte.
    Undecided,
    /// A fault; the deciding byte is the last of the first `taken`.
    Fault { fault: u8, taken: usize },
    /// A sound message of `length` bytes, the 3B counted.
    Sound { length: usize },
}

/// Finds the first deciding byte, and what it decides.
pub fn judge(bytes: &[u8]) -> Judgement {
    if bytes.is_empty() {
        return Judgement::Undecided;
    }
    if bytes[0] != SYNC {
        return Judgement::Fault { fault: 1, taken: 1 };
    }
    if bytes.len() < FRONT {
        return Judgement::Undecided;
    }
    let header = header(bytes);
    if let Some(fault) = header_fault(&header) {
        return Judgement::Fault {
            fault,
            taken: FRONT,
        };
    }
    let length = header.size as usize + 1;
    if bytes.len() < length {
        return Judgement::Undecided;
    }
    if data_is_sound(&header, &bytes[FRONT..length]) {
        Judgement::Sound { length }
    } else {
        Judgement::Fault {
            fault: 6,
            taken: length,
        }
    }
}

fn data_is_sound(header: &Header, data: &[u8]) -> bool {
    if header.kind == KEEP_ALIVE {
        heartbeat(data).is_some()
    } else {
        entries(header.kind, header.count, data).is_some()
    }
}

/// The length of the data tells seconds from milliseconds.
pub fn heartbeat(data: &[u8]) -> Option<Heartbeat> {
    match data.len() {
        2 => Some(Heartbeat::Seconds(short(data))),
        4 => Some(Heartbeat::Milliseconds(integer(data))),
        _ => None,
    }
}

/// Cuts the data into `count` entries that fill it exactly.
pub fn entries(kind: u8, count: u16, data: &[u8]) -> Option<Vec<&[u8]>> {
    let mut found = Vec::new();
    let mut rest = data;
    for _ in 0..count {
        let size = integer(rest.get(0..4)?) as usize;
        let entry = rest.get(0..size)?;
        if !is_entry(kind, entry) {
            return None;
        }
        found.push(entry);
        rest = &rest[size..];
    }
    rest.is_empty().then_some(found)
}

/// Where the parameters of an entry of this type start; none if it ends before, or its context is wrong.
pub fn parameters_start(kind: u8, bytes: &[u8]) -> Option<usize> {
    let start = match kind {
        COMMAND | COMMAND_WANTING_REPLY => 17,
        // Emitter and event stand behind the context.
        NOTIFICATION => context(bytes)?.end + 8,
        RESPONSE => 10,
        _ => return None,
    };
    (start <= bytes.len()).then_some(start)
}

/// Where the context of a notification stands; none if its count is above 64 or runs past the entry.
pub fn context(bytes: &[u8]) -> Option<Range<usize>> {
    let count = usize::from(short(bytes.get(13..15)?));
    let place = 15..15 + count;
    (count <= CONTEXT && place.end <= bytes.len()).then_some(place)
}

/// Where the parameter count of an entry of this type stands.
fn count_place(kind: u8) -> usize {
    match kind {
        NOTIFICATION => 12,
        RESPONSE => 9,
        _ => 16,
    }
}

/// The least count of an entry of this type, which means no parameter bytes.
fn least_count(kind: u8) -> u8 {
    if kind == NOTIFICATION { 1 } else { 0 }
}

/// Whether the bytes are exactly one well-formed entry of this type.
pub fn is_entry(kind: u8, bytes: &[u8]) -> bool {
    let Some(start) = parameters_start(kind, bytes) else {
        return false;
    };
    // Compared in 64 bits: the bytes may be longer than a size can say.
    if u64::from(integer(&bytes[0..4])) != bytes.len() as u64 {
        return false;
    }
    let count = bytes[count_place(kind)];
    let bare = bytes.len() == start;
    if bare {
        count == least_count(kind)
    } else {
        count > least_count(kind)
    }
}

/// Puts a message of these entries together.
pub fn message(kind: u8, entries: &[Vec<u8>]) -> Vec<u8> {
    framed(kind, entries.len() as u16, &entries.concat())
}

/// Puts a keep-alive together.
pub fn keep_alive(heartbeat: Heartbeat) -> Vec<u8> {
    match heartbeat {
        Heartbeat::Seconds(value) => framed(KEEP_ALIVE, 1, &value.to_be_bytes()),
        Heartbeat::Milliseconds(value) => framed(KEEP_ALIVE, 1, &value.to_be_bytes()),
    }
}

fn framed(kind: u8, count: u16, data: &[u8]) -> Vec<u8> {
    let size = LEAST_SIZE + data.len() as u32;
    let mut bytes = vec![SYNC];
    bytes.extend(1_u16.to_be_bytes());
    bytes.extend(size.to_be_bytes());
    bytes.push(kind);
    bytes.extend(count.to_be_bytes());
    bytes.extend(data);
    bytes
}
