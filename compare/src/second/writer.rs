//! The writer of whole messages.

use super::Refusal;
use super::reader;
use super::wire::{self, FRONT, Heartbeat, LARGEST_SIZE};

/// The least buffer: the longest message with its 3B.
const ROOM: usize = LARGEST_SIZE as usize + 1;

/// Starts a message with one entry.
pub fn start(buffer: &mut [u8], kind: u8, entry: &[u8]) -> Result<usize, Refusal> {
    need_room(buffer)?;
    if !wire::is_entry(kind, entry) {
        return Err(Refusal::BadEntry);
    }
    need_fit(FRONT + entry.len())?;
    Ok(put(buffer, &wire::message(kind, &[entry.to_vec()])))
}

/// Appends one entry to the sound message at the buffer's front.
pub fn append(buffer: &mut [u8], kind: u8, entry: &[u8]) -> Result<usize, Refusal> {
    need_room(buffer)?;
    let held = reader::read_message(buffer)?;
    // A keep-alive's type is no entry's type, so one comparison covers both.
    if held.kind != kind || !wire::is_entry(kind, entry) {
        return Err(Refusal::BadEntry);
    }
    need_fit(held.length + entry.len())?;
    let data = &buffer[FRONT..held.length];
    let mut entries: Vec<Vec<u8>> = wire::entries(held.kind, held.count, data)
        .unwrap_or_default()
        .into_iter()
        .map(<[u8]>::to_vec)
        .collect();
    entries.push(entry.to_vec());
    Ok(put(buffer, &wire::message(kind, &entries)))
}

/// Writes a keep-alive; the value is in the form's unit.
pub fn keep_alive(buffer: &mut [u8], form: u8, value: u32) -> Result<usize, Refusal> {
    need_room(buffer)?;
    let heartbeat = match form {
        1 => Heartbeat::Seconds(u16::try_from(value).map_err(|_| Refusal::BadEntry)?),
        2 => Heartbeat::Milliseconds(value),
        _ => return Err(Refusal::BadEntry),
    };
    Ok(put(buffer, &wire::keep_alive(heartbeat)))
}

fn need_room(buffer: &[u8]) -> Result<(), Refusal> {
    if buffer.len() < ROOM {
        Err(Refusal::NoRoom)
    } else {
        Ok(())
    }
}

/// A message's length counts its 3B, its pduSize does not.
fn need_fit(length: usize) -> Result<(), Refusal> {
    if length > ROOM {
        Err(Refusal::TooLong)
    } else {
        Ok(())
    }
}

fn put(buffer: &mut [u8], message: &[u8]) -> usize {
    buffer[..message.len()].copy_from_slice(message);
    message.len()
}
