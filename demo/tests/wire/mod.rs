//! Messages as bytes: what a controller of any make may send, and what comes back.

use demo::entry;
use demo::restart::Key;

const LOCK: u32 = 0x0001_0003;
const GET: u32 = 0x0004_0001;
const SET: u32 = 0x0004_0002;
const ADD: u32 = 0x0003_0001;
const RESET_KEY: u32 = 0x0003_000E;

/// A message of any type whose header fits its entries, sound or not.
pub fn message(kind: u8, entries: &[Vec<u8>]) -> Vec<u8> {
    let data = entries.concat();
    let size = 9 + data.len() as u32;
    let count = entries.len() as u16;
    let mut bytes = vec![0x3B, 0, 1];
    bytes.extend(size.to_be_bytes());
    bytes.push(kind);
    bytes.extend(count.to_be_bytes());
    bytes.extend(data);
    bytes
}

/// A message of one command that wants a reply.
pub fn asked(command: &[u8]) -> Vec<u8> {
    message(1, &[command.to_vec()])
}

pub fn seconds(beat: u16) -> Vec<u8> {
    message(4, &[beat.to_be_bytes().to_vec()])
}

pub fn milliseconds(beat: u32) -> Vec<u8> {
    message(4, &[beat.to_be_bytes().to_vec()])
}

pub fn response(handle: u32, status: u8, count: u8, parameters: &[u8]) -> Vec<u8> {
    let size = 10 + parameters.len() as u32;
    let mut bytes = size.to_be_bytes().to_vec();
    bytes.extend(handle.to_be_bytes());
    bytes.extend([status, count]);
    bytes.extend(parameters);
    bytes
}

/// A response message with one entry.
pub fn reply(handle: u32, status: u8, count: u8, parameters: &[u8]) -> Vec<u8> {
    message(3, &[response(handle, status, count, parameters)])
}

pub fn object(channel: u32) -> u32 {
    4_096 + channel
}

pub fn lock(handle: u32, channel: u32) -> Vec<u8> {
    entry::command(handle, object(channel), LOCK, 0, &[])
}

pub fn set(handle: u32, channel: u32, value: u8) -> Vec<u8> {
    entry::command(handle, object(channel), SET, 1, &[value])
}

pub fn get(handle: u32, channel: u32) -> Vec<u8> {
    entry::command(handle, object(channel), GET, 0, &[])
}

/// As many class identifications as one message may have.
pub fn identifications(kind: u8) -> Vec<u8> {
    let identify = |k: u32| entry::command(k, object(1), 0x0001_0001, 0, &[]);
    let many: Vec<Vec<u8>> = (0..119).map(identify).collect();
    message(kind, &many)
}

/// Method 3.14 with any parameters.
pub fn keyed(handle: u32, parameters: &[u8]) -> Vec<u8> {
    entry::command(handle, 1, RESET_KEY, 2, parameters)
}

/// An empty text is no group.
pub fn arm(handle: u32, key: Key, text: &str, port: u16) -> Vec<u8> {
    let text = entry::blob(text.as_bytes());
    keyed(handle, &[&key[..], &text, &port.to_be_bytes()].concat())
}

/// Names of subscriptions have this object and method of the subscriber's.
pub fn name(channel: u32) -> Vec<u8> {
    entry::naming(object(channel), 0x0001_0001, 9, 0x0003_0001)
}

/// Method 3.1 with any parameters.
pub fn added(handle: u32, parameters: &[u8]) -> Vec<u8> {
    entry::command(handle, 4, ADD, 5, parameters)
}

pub fn subscribe(handle: u32, channel: u32, context: &[u8]) -> Vec<u8> {
    added(handle, &entry::adding(&name(channel), context))
}

/// A notification message: channel 1 to 8 is muted (1) or unmuted (2); the context is the subscriber's.
pub fn notified(channel: u8, value: u8, context: &[u8]) -> Vec<u8> {
    let size = 29 + context.len() as u8;
    let told = [
        &[0, 0, 0, size, 0, 0, 0, 9, 0, 3, 0, 1, 2],
        &entry::blob(context)[..],
        &[0, 0, 0x10, channel, 0, 1, 0, 1, 0, 4, 0, 1, value, 1],
    ];
    message(2, &[told.concat()])
}
