//! The answers of all calls, with the fields that they have at the C boundary.
//!
//! `number` is 0, or the number of the refusal; then every other field is 0,
//! save the fault of refusal 8 and the record, which stays as it was.

use crate::record::Record;

#[derive(Clone, Copy, Debug, Default, PartialEq, Eq)]
pub struct Cleared {
    pub number: u8,
}

#[derive(Clone, Copy, Debug, Default, PartialEq, Eq)]
pub struct Opened {
    pub record: Record,
    pub number: u8,
    pub connection: u8,
}

#[derive(Clone, Copy, Debug, Default, PartialEq, Eq)]
pub struct Closed {
    pub record: Record,
    pub number: u8,
}

#[derive(Clone, Copy, Debug, Default, PartialEq, Eq)]
pub struct Ticked {
    pub record: Record,
    pub number: u8,
    /// Bit n is set for connection n closed.
    pub closed: u8,
}

/// The kind of a delivery's answer: more needed.
pub const MORE: u8 = 1;
/// The kind of a delivery's answer: a message.
pub const MESSAGE: u8 = 2;
/// The kind of a delivery's answer: closed.
pub const CLOSED: u8 = 3;

#[derive(Clone, Copy, Debug, Default, PartialEq, Eq)]
pub struct Delivered {
    pub record: Record,
    pub number: u8,
    pub kind: u8,
    pub fault: u8,
    pub taken: usize,
    pub length: usize,
}

/// The kind of a taking's answer: a notification.
pub const NOTIFICATION: u8 = 1;
/// The kind of a taking's answer: a keep-alive.
pub const KEEP_ALIVE: u8 = 2;

#[derive(Clone, Copy, Debug, Default, PartialEq, Eq)]
pub struct Taken {
    pub record: Record,
    pub number: u8,
    /// 0 nothing, 1 a notification, 2 a keep-alive.
    pub kind: u8,
    pub connection: u8,
    pub length: usize,
}

#[derive(Clone, Copy, Debug, Default, PartialEq, Eq)]
pub struct Reset {
    pub record: Record,
    pub number: u8,
    /// 1 if the datagram reset the device, 0 if it changed nothing.
    pub reset: u8,
}

#[derive(Clone, Copy, Debug, Default, PartialEq, Eq)]
pub struct Reading {
    pub number: u8,
    pub fault: u8,
    /// The message's type.
    pub kind: u8,
    pub count: u16,
    /// A keep-alive's form, 1 or 2.
    pub form: u8,
    /// A keep-alive's value in its form's unit.
    pub value: u32,
    pub length: usize,
}

#[derive(Clone, Copy, Debug, Default, PartialEq, Eq)]
pub struct Entry {
    pub number: u8,
    pub fault: u8,
    /// 0 a command of either type, 2 a notification, 3 a response.
    pub kind: u8,
    pub handle: u32,
    pub target: u32,
    pub level: u16,
    pub index: u16,
    pub count: u8,
    pub status: u8,
    pub context_count: u16,
    pub emitter: u32,
    pub event_level: u16,
    pub event_index: u16,
}

/// A part of the caller's bytes.
#[derive(Clone, Copy, Debug, Default, PartialEq, Eq)]
pub struct Part {
    pub start: usize,
    pub length: usize,
}

#[derive(Clone, Copy, Debug, Default, PartialEq, Eq)]
pub struct Written {
    pub number: u8,
    pub fault: u8,
    pub length: usize,
}
