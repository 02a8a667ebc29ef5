//! The controller's messages, by the library's own writer and reader.

use crate::entry;
use crate::restart::Key;
use crate::words;
use melorwyth::record::BUFFER;
use melorwyth::{Fault, Heartbeat, Message, Refusal, Status, number};

/// The bytes before the first entry: the 3B and the header.
const BEFORE_ENTRIES: usize = 10;
/// The subscriber's object and method: this controller has one.
const SUBSCRIBER: (u32, u32) = (9, 0x0003_0001);

/// What is asked of a channel.
#[derive(Clone, Copy, Debug, PartialEq, Eq)]
pub enum Asking {
    Lock,
    Unlock,
    Mute,
    Unmute,
    Get,
    Unsubscribe,
}

/// A subscription to a channel; a context that is too long is the amplifier's to judge.
#[derive(Clone, Debug, PartialEq, Eq)]
pub struct Subscribe {
    pub channel: u8,
    pub context: Vec<u8>,
}

/// What arms the reset mechanism.
#[derive(Clone, Debug, PartialEq, Eq)]
pub struct Arm {
    pub key: Key,
    pub port: u16,
    /// Of a group; empty for none.
    pub address: String,
}

/// What the amplifier says.
#[derive(Clone, Debug, PartialEq, Eq)]
pub enum Said {
    Reply {
        handle: u32,
        status: Status,
        parameters: Vec<u8>,
    },
    Notification {
        channel: u8,
        value: u8,
        context: Vec<u8>,
    },
    KeepAlive(Heartbeat),
    /// What no amplifier sends.
    Strange,
}

/// What stands at the front of the bytes.
#[derive(Clone, Debug, PartialEq, Eq)]
pub enum Front {
    Part,
    Message { length: usize, said: Said },
    Fault(Fault),
}

pub fn command(handle: u32, asking: Asking, channel: u8) -> Result<Vec<u8>, Refusal> {
    let mute = words::object_of_channel(channel);
    let plain = |method| entry::command(handle, mute, method, 0, &[]);
    let set = |value| entry::command(handle, mute, number::METHOD_SET, 1, &[value]);
    message(&match asking {
        Asking::Lock => plain(number::METHOD_LOCK),
        Asking::Unlock => plain(number::METHOD_UNLOCK),
        Asking::Get => plain(number::METHOD_GET),
        Asking::Mute => set(number::MUTED),
        Asking::Unmute => set(number::UNMUTED),
        Asking::Unsubscribe => {
            let manager = number::OBJECT_SUBSCRIPTION_MANAGER;
            entry::command(handle, manager, number::METHOD_REMOVE, 2, &named(mute))
        }
    })
}

/// Method 3.1: the event of the channel's mute, this controller, the context and mode 1.
pub fn subscribing(handle: u32, subscribe: &Subscribe) -> Result<Vec<u8>, Refusal> {
    let name = named(words::object_of_channel(subscribe.channel));
    let adding = entry::adding(&name, &subscribe.context);
    let manager = number::OBJECT_SUBSCRIPTION_MANAGER;
    let add = entry::command(handle, manager, number::METHOD_ADD, 5, &adding);
    message(&add)
}

/// A lock that announces one parameter and has no byte of it: the writer's lock with another parameter count, as it
/// builds no such entry.
pub fn announcing(handle: u32, channel: u8) -> Result<Vec<u8>, Refusal> {
    let mut bytes = command(handle, Asking::Lock, channel)?;
    // a lock ends with its parameter count
    if let Some(count) = bytes.last_mut() {
        *count = 1;
    }
    Ok(bytes)
}

/// What the writer says of the entry of a message that has one, wanting reply; nothing if it would build it.
pub fn refusal(bytes: &[u8]) -> Option<Refusal> {
    let entry = bytes.get(BEFORE_ENTRIES..).unwrap_or_default();
    message(entry).err()
}

/// What the reader says against a message; nothing if it is sound, or not whole.
pub fn fault(bytes: &[u8]) -> Option<Fault> {
    match read(bytes) {
        Front::Fault(fault) => Some(fault),
        _ => None,
    }
}

/// Method 3.14: key and network address, as it was typed: the amplifier judges it.
pub fn arming(handle: u32, arm: &Arm) -> Result<Vec<u8>, Refusal> {
    let address = entry::blob(arm.address.as_bytes());
    let parameters = [&arm.key[..], &address, &arm.port.to_be_bytes()].concat();
    let manager = number::OBJECT_DEVICE_MANAGER;
    let arm = entry::command(handle, manager, number::METHOD_RESET_KEY, 2, &parameters);
    message(&arm)
}

fn message(entry: &[u8]) -> Result<Vec<u8>, Refusal> {
    let kind = number::TYPE_COMMAND_WANTING_REPLY;
    written(|buffer| melorwyth::start(buffer, kind, entry))
}

pub fn keep_alive(beat: Heartbeat) -> Result<Vec<u8>, Refusal> {
    written(|buffer| melorwyth::keep_alive(buffer, beat))
}

fn written(write: impl FnOnce(&mut [u8]) -> Result<usize, Refusal>) -> Result<Vec<u8>, Refusal> {
    let mut bytes = vec![0; BUFFER];
    let length = write(&mut bytes)?;
    bytes.truncate(length);
    Ok(bytes)
}

pub fn read(bytes: &[u8]) -> Front {
    match melorwyth::read_message(bytes) {
        Ok(message) => Front::Message {
            length: message.length,
            said: said(&message, bytes),
        },
        Err(Refusal::Fault(fault)) => Front::Fault(fault),
        Err(_) => Front::Part,
    }
}

/// What the first entry says: this controller asks for one thing at a time.
fn said(message: &Message, bytes: &[u8]) -> Said {
    if let Some(beat) = message.heartbeat {
        return Said::KeepAlive(beat);
    }
    let Ok(entry) = melorwyth::read_entry(bytes, 0) else {
        return Said::Strange;
    };
    match (message.kind, melorwyth::entry_part(bytes, 0)) {
        // property 4.1, the value, 1
        (number::TYPE_NOTIFICATION, [0, 4, 0, 1, value, 1]) => Said::Notification {
            channel: words::channel_of_object(entry.emitter),
            value: *value,
            context: melorwyth::entry_context(bytes, 0).to_vec(),
        },
        (number::TYPE_RESPONSE, parameters) => Said::Reply {
            handle: entry.handle,
            status: Status::from_number(entry.status),
            parameters: parameters.to_vec(),
        },
        _ => Said::Strange,
    }
}

/// The name of this controller's subscription to a mute.
fn named(mute: u32) -> Vec<u8> {
    entry::naming(mute, number::EVENT_CHANGE, SUBSCRIBER.0, SUBSCRIBER.1)
}

#[cfg(test)]
mod tests {
    use super::*;
    use melorwyth::record::CONTEXT;

    /// The scope paper's bench examples.
    #[test]
    fn messages_are_those_of_the_paper() {
        let lock = [
            0x3B, 0, 1, 0, 0, 0, 0x1A, 1, 0, 1, 0, 0, 0, 0x11, 0, 0, 0, 7, 0, 0, 0x10, 1, 0, 1, 0,
            3, 0,
        ];
        assert_eq!(command(7, Asking::Lock, 1).unwrap(), lock);
        let seconds = [0x3B, 0, 1, 0, 0, 0, 0x0B, 4, 0, 1, 0, 2];
        assert_eq!(keep_alive(Heartbeat::Seconds(2)).unwrap(), seconds);
        let milliseconds = [0x3B, 0, 1, 0, 0, 0, 0x0D, 4, 0, 1, 0, 0, 7, 0xD0];
        assert_eq!(
            keep_alive(Heartbeat::Milliseconds(2_000)).unwrap(),
            milliseconds
        );
    }

    /// A lock of channel 5 but for its last byte, the count; with the count as it was nothing is said against it.
    #[test]
    fn a_count_without_bytes_is_neither_written_nor_read() {
        let announced = [
            0x3B, 0, 1, 0, 0, 0, 0x1A, 1, 0, 1, 0, 0, 0, 0x11, 0, 0, 0, 7, 0, 0, 0x10, 5, 0, 1, 0,
            3, 1,
        ];
        assert_eq!(announcing(7, 5).unwrap(), announced);
        assert_eq!(refusal(&announced), Some(Refusal::BadEntry));
        assert_eq!(fault(&announced), Some(Fault::Data));
        assert_eq!(read(&announced[..26]), Front::Part);
        let lock = command(7, Asking::Lock, 5).unwrap();
        assert_eq!(lock[..26], announced[..26]);
        assert_eq!((refusal(&lock), fault(&lock)), (None, None));
    }

    /// One byte is enough, whatever the count: of a command, a notification, a response.
    #[test]
    fn a_count_with_one_byte_is_read() {
        let entries: [(u8, &[u8]); 3] = [
            (1, &[0, 0, 0, 7, 0, 0, 0x10, 5, 0, 1, 0, 3, 255]),
            (
                2,
                &[
                    0, 0, 0, 9, 0, 3, 0, 1, 255, 0, 4, 1, 2, 3, 4, 0, 0, 0x10, 5, 0, 1, 0, 1,
                ],
            ),
            (3, &[0, 0, 0, 7, 0, 255]),
        ];
        for (kind, fields) in entries {
            let framed = |size: u8, rest: &[u8]| {
                let header = [0x3B, 0, 1, 0, 0, 0, 9 + size, kind, 0, 1, 0, 0, 0, size];
                [&header, fields, rest].concat()
            };
            let size = 4 + fields.len() as u8;
            let with = read(&framed(size + 1, &[0]));
            assert!(matches!(with, Front::Message { .. }), "{with:?}");
            let without = read(&framed(size, &[]));
            assert_eq!(without, Front::Fault(Fault::Data));
        }
    }

    /// The service page's example, which has no address.
    #[test]
    fn a_key_goes_with_its_port() {
        let arm = Arm {
            key: std::array::from_fn(|k| k as u8),
            port: 5_000,
            address: String::new(),
        };
        let expected = [
            0x3B, 0, 1, 0, 0, 0, 0x2E, 1, 0, 1, 0, 0, 0, 0x25, 0, 0, 0, 7, 0, 0, 0, 1, 0, 3, 0,
            0x0E, 2, 0, 1, 2, 3, 4, 5, 6, 7, 8, 9, 10, 11, 12, 13, 14, 15, 0, 0, 0x13, 0x88,
        ];
        assert_eq!(arming(7, &arm).unwrap(), expected);
    }

    #[test]
    fn a_key_goes_with_its_address() {
        let arm = Arm {
            key: *b"0123456789abcdef",
            port: 0x1388,
            address: "239.1.2.3".to_string(),
        };
        let bytes = arming(7, &arm).unwrap();
        let entry = [
            &[0, 0, 0, 46, 0, 0, 0, 7, 0, 0, 0, 1, 0, 3, 0, 14, 2],
            &b"0123456789abcdef\0\x09239.1.2.3\x13\x88"[..],
        ];
        assert_eq!(bytes[10..], entry.concat());
    }

    #[test]
    fn what_the_amplifier_says_is_read() {
        let reply = [
            0x3B, 0, 1, 0, 0, 0, 0x13, 3, 0, 1, 0, 0, 0, 0x0A, 0, 0, 0, 7, 3, 0,
        ];
        let said = Said::Reply {
            handle: 7,
            status: Status::HeldByOther,
            parameters: Vec::new(),
        };
        let length = reply.len();
        assert_eq!(read(&reply), Front::Message { length, said });
        assert_eq!(read(&reply[..length - 1]), Front::Part);
        assert_eq!(read(&[0]), Front::Fault(Fault::Start));
        // the scope paper's, with the context's count
        let notification = [
            0x3B, 0, 1, 0, 0, 0, 0x2A, 2, 0, 1, 0, 0, 0, 0x21, 0, 0, 0, 9, 0, 3, 0, 1, 2, 0, 4, 1,
            2, 3, 4, 0, 0, 0x10, 1, 0, 1, 0, 1, 0, 4, 0, 1, 1, 1,
        ];
        let said = Said::Notification {
            channel: 1,
            value: 1,
            context: vec![1, 2, 3, 4],
        };
        let length = notification.len();
        assert_eq!(read(&notification), Front::Message { length, said });
    }

    /// 21 bytes and the context's, whatever its length.
    #[test]
    fn a_subscription_has_its_context() {
        for count in [0, 4, CONTEXT, CONTEXT + 1] {
            let context = vec![0xC7; count];
            let bytes = subscribing(
                7,
                &Subscribe {
                    channel: 5,
                    context,
                },
            )
            .unwrap();
            let size = 38 + count as u8;
            let entry = [
                &[0, 0, 0, size, 0, 0, 0, 7, 0, 0, 0, 4, 0, 3, 0, 1, 5][..],
                &[0, 0, 0x10, 5, 0, 1, 0, 1, 0, 0, 0, 9, 0, 3, 0, 1],
                &[0, count as u8],
                &vec![0xC7; count],
                &[1, 0, 0],
            ];
            assert_eq!(bytes[10..], entry.concat());
        }
    }

    #[test]
    fn a_keep_alive_is_read_in_its_form() {
        for beat in [
            Heartbeat::Seconds(2),
            Heartbeat::Milliseconds(2_000),
            Heartbeat::Seconds(u16::MAX),
            Heartbeat::Milliseconds(u32::MAX),
        ] {
            let bytes = keep_alive(beat).unwrap();
            let said = Said::KeepAlive(beat);
            let length = bytes.len();
            assert_eq!(read(&bytes), Front::Message { length, said });
        }
    }
}
