//! The reader of whole messages.

use super::Refusal;
use super::wire::{self, FRONT, Heartbeat, Judgement};
use std::ops::Range;

/// What is told of a message as a whole.
#[derive(Clone, Copy, Debug, PartialEq, Eq)]
pub struct Message {
    pub kind: u8,
    pub count: u16,
    /// A keep-alive's value.
    pub heartbeat: Option<Heartbeat>,
    /// The 3B counted.
    pub length: usize,
}

#[derive(Clone, Copy, Debug, PartialEq, Eq)]
pub struct Command {
    pub handle: u32,
    pub target: u32,
    pub level: u16,
    pub index: u16,
    pub count: u8,
}

#[derive(Clone, Copy, Debug, PartialEq, Eq)]
pub struct Notification {
    pub target: u32,
    pub level: u16,
    pub index: u16,
    pub count: u8,
    pub context_count: u16,
    pub emitter: u32,
    pub event_level: u16,
    pub event_index: u16,
}

#[derive(Clone, Copy, Debug, PartialEq, Eq)]
pub struct Response {
    pub handle: u32,
    pub status: u8,
    pub count: u8,
}

/// One entry without its parameters and its context, which come by calls of their own.
#[derive(Clone, Copy, Debug, PartialEq, Eq)]
pub enum Entry {
    Command(Command),
    Notification(Notification),
    Response(Response),
}

/// Reads the message at the front; bytes behind it are not looked at.
pub fn read_message(bytes: &[u8]) -> Result<Message, Refusal> {
    match wire::judge(bytes) {
        Judgement::Undecided => Err(Refusal::Short),
        Judgement::Fault { fault, .. } => Err(Refusal::Fault(fault)),
        Judgement::Sound { length } => Ok(message(&bytes[..length])),
    }
}

fn message(sound: &[u8]) -> Message {
    let header = wire::header(sound);
    let heartbeat = if header.kind == wire::KEEP_ALIVE {
        wire::heartbeat(&sound[FRONT..])
    } else {
        None
    };
    Message {
        kind: header.kind,
        count: header.count,
        heartbeat,
        length: sound.len(),
    }
}

/// Reads one entry of the message at the front.
pub fn read_entry(bytes: &[u8], index: usize) -> Result<Entry, Refusal> {
    let kind = read_message(bytes)?.kind;
    let place = entry_place(bytes, index)?;
    Ok(entry(kind, &bytes[place]))
}

/// Where an entry's parameters stand; nowhere if the entry is refused.
pub fn entry_part(bytes: &[u8], index: usize) -> Option<Range<usize>> {
    let kind = read_message(bytes).ok()?.kind;
    let place = entry_place(bytes, index).ok()?;
    let start = wire::parameters_start(kind, &bytes[place.clone()])?;
    Some(place.start + start..place.end)
}

/// Where a notification's context stands; nowhere if the entry is refused or is no notification.
pub fn entry_context(bytes: &[u8], index: usize) -> Option<Range<usize>> {
    if read_message(bytes).ok()?.kind != wire::NOTIFICATION {
        return None;
    }
    let place = entry_place(bytes, index).ok()?;
    let context = wire::context(&bytes[place.clone()])?;
    Some(place.start + context.start..place.start + context.end)
}

fn entry_place(bytes: &[u8], index: usize) -> Result<Range<usize>, Refusal> {
    let message = read_message(bytes)?;
    if message.heartbeat.is_some() {
        return Err(Refusal::NoEntry);
    }
    let data = &bytes[FRONT..message.length];
    let entries = wire::entries(message.kind, message.count, data).unwrap_or_default();
    let Some(entry) = entries.get(index) else {
        return Err(Refusal::NoEntry);
    };
    let before: usize = entries[..index].iter().map(|entry| entry.len()).sum();
    let start = FRONT + before;
    Ok(start..start + entry.len())
}

/// Reads a well-formed entry.
pub fn entry(kind: u8, bytes: &[u8]) -> Entry {
    match kind {
        wire::NOTIFICATION => Entry::Notification(notification(bytes)),
        wire::RESPONSE => Entry::Response(response(bytes)),
        _ => Entry::Command(command(bytes)),
    }
}

/// Reads a well-formed command.
pub fn command(bytes: &[u8]) -> Command {
    Command {
        handle: wire::integer(&bytes[4..8]),
        target: wire::integer(&bytes[8..12]),
        level: wire::short(&bytes[12..14]),
        index: wire::short(&bytes[14..16]),
        count: bytes[16],
    }
}

fn notification(bytes: &[u8]) -> Notification {
    let context_count = wire::short(&bytes[13..15]);
    let (_, behind) = bytes[15..].split_at(usize::from(context_count));
    Notification {
        target: wire::integer(&bytes[4..8]),
        level: wire::short(&bytes[8..10]),
        index: wire::short(&bytes[10..12]),
        count: bytes[12],
        context_count,
        emitter: wire::integer(&behind[0..4]),
        event_level: wire::short(&behind[4..6]),
        event_index: wire::short(&behind[6..8]),
    }
}

fn response(bytes: &[u8]) -> Response {
    Response {
        handle: wire::integer(&bytes[4..8]),
        status: bytes[8],
        count: bytes[9],
    }
}
