//! The numbers of the header, by its names less the prefix.
//!
//! The refusals and the faults have enums instead, [`Refusal`](crate::Refusal) and
//! [`Fault`](crate::Fault); the statuses have one too, [`Status`](crate::Status).

/// The number of an answer that is no refusal.
pub const DONE: u8 = 0;

/// The kind of a delivery's answer: more bytes are needed, all of the piece was taken.
pub const DELIVER_MORE: u8 = 1;
/// The kind of a delivery's answer: a message was decided and run.
pub const DELIVER_MESSAGE: u8 = 2;
/// The kind of a delivery's answer: a fault closed the connection.
pub const DELIVER_CLOSED: u8 = 3;

/// The kind of a taking's answer: nothing is to be sent.
pub const TAKE_NOTHING: u8 = 0;
/// The kind of a taking's answer: a notification.
pub const TAKE_NOTIFICATION: u8 = 1;
/// The kind of a taking's answer: a keep-alive.
pub const TAKE_KEEP_ALIVE: u8 = 2;

/// The type of a message of commands that get no reply, and the kind of every command's entry.
pub const TYPE_COMMAND: u8 = 0;
/// The type of a message of commands that want a reply.
pub const TYPE_COMMAND_WANTING_REPLY: u8 = 1;
/// The type of a message of notifications, and the kind of its entries.
pub const TYPE_NOTIFICATION: u8 = 2;
/// The type of a message of responses, and the kind of its entries.
pub const TYPE_RESPONSE: u8 = 3;
/// The type of a keep-alive, which has no entries.
pub const TYPE_KEEP_ALIVE: u8 = 4;

/// The form of no heartbeat.
pub const FORM_NONE: u8 = 0;
/// The form of a heartbeat in seconds.
pub const FORM_SECONDS: u8 = 1;
/// The form of a heartbeat in milliseconds.
pub const FORM_MILLISECONDS: u8 = 2;

/// Carried out; every other status changed nothing.
pub const STATUS_CARRIED_OUT: u8 = 0;
/// Set, lock or unlock of a mute that another connection holds.
pub const STATUS_HELD_BY_OTHER: u8 = 3;
/// Wrong parameter count or length, or a last pair other than 0, 0.
pub const STATUS_MALFORMED: u8 = 4;
/// No such object.
pub const STATUS_NO_OBJECT: u8 = 5;
/// The emitter is no mute, or the event not 1.1.
pub const STATUS_STRANGE_EMITTER: u8 = 6;
/// Mode not 1, a context above 64 bytes, a mute's value not 1 or 2; 3.14: port 0, or a text that is
/// neither empty nor a multicast address.
pub const STATUS_BAD_VALUE: u8 = 7;
/// Lock or unlock of a manager.
pub const STATUS_FORBIDDEN: u8 = 8;
/// Unlock of a mute that nobody holds; add of a subscription that is there, remove of one that is not.
pub const STATUS_OUT_OF_TURN: u8 = 9;
/// All 32 subscription entries are used.
pub const STATUS_NO_FREE_ENTRY: u8 = 10;
/// The object has no such method.
pub const STATUS_NO_METHOD: u8 = 11;

/// The device manager.
pub const OBJECT_DEVICE_MANAGER: u32 = 1;
/// The subscription manager.
pub const OBJECT_SUBSCRIPTION_MANAGER: u32 = 4;
/// The mute of the first channel.
pub const OBJECT_FIRST_MUTE: u32 = 4_097;
/// The mute of the last channel.
pub const OBJECT_LAST_MUTE: u32 = 4_104;

/// The mute of channel n, from 1 to 8: 4096 + n.
pub const fn object_channel(n: u32) -> u32 {
    4_096 + n
}

/// A method, event or property by its level and index, in one number.
const fn numbered(level: u32, index: u32) -> u32 {
    level * 65_536 + index
}

/// 1.1 of all objects: class identification.
pub const METHOD_CLASS: u32 = numbered(1, 1);
/// 1.2 of all objects: whether it can be locked.
pub const METHOD_LOCKABLE: u32 = numbered(1, 2);
/// 1.3 of all objects; the managers cannot be locked.
pub const METHOD_LOCK: u32 = numbered(1, 3);
/// 1.4 of all objects.
pub const METHOD_UNLOCK: u32 = numbered(1, 4);
/// 3.1 of the subscription manager: subscribe.
pub const METHOD_ADD: u32 = numbered(3, 1);
/// 3.2 of the subscription manager: no longer.
pub const METHOD_REMOVE: u32 = numbered(3, 2);
/// 3.14 of the device manager: set the reset key.
pub const METHOD_RESET_KEY: u32 = numbered(3, 14);
/// 4.1 of a mute: its value.
pub const METHOD_GET: u32 = numbered(4, 1);
/// 4.2 of a mute: set its value.
pub const METHOD_SET: u32 = numbered(4, 2);
/// The event 1.1 of a mute: its value changed.
pub const EVENT_CHANGE: u32 = numbered(1, 1);
/// The property 4.1: what a notification says has changed.
pub const PROPERTY_MUTE: u32 = numbered(4, 1);
/// The value of a muted channel.
pub const MUTED: u8 = 1;
/// The value of an unmuted channel.
pub const UNMUTED: u8 = 2;
