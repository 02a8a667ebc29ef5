//! The reader and the writer on random, sound and damaged input.

use super::call::{Answer, Call};
use super::desk::Desk;
use super::session::Checked;
use super::told::told;
use super::traffic;
use crate::answer::Reading;

/// Reads bytes of every sort.
pub fn read(desk: &mut Desk<'_, '_>) -> Checked<()> {
    let random = &mut desk.random;
    let mut bytes = match random.weighted(&[55, 35, 10]) {
        0 => traffic::any_message(random),
        1 => traffic::any_damaged(random),
        _ => {
            let length = random.below(60);
            random.bytes(length)
        }
    };
    match random.below(4) {
        0 => bytes.truncate(random.below(bytes.len() + 1)),
        1 => {
            let length = random.below(50);
            bytes.extend(random.bytes(length));
        }
        _ => {}
    }
    let index = random.pick(&[0, 0, 0, 1, 2, 5, 118, 119, 65_535, usize::MAX]);
    desk.session.check(Call::ReadMessage {
        bytes: bytes.clone(),
    })?;
    desk.ask_for(&bytes, index).map(drop)
}

/// A buffer mostly long enough, filled at random.
fn any_buffer(desk: &mut Desk<'_, '_>) -> Vec<u8> {
    let random = &mut desk.random;
    let length = match random.weighted(&[70, 20, 10]) {
        0 => 2_049,
        1 => 2_050 + random.below(300),
        _ => random.pick(&[2_048, 2_048, 20, 0]),
    };
    random.bytes(length)
}

/// A buffer with a message, mostly sound, at its front.
fn filled_buffer(desk: &mut Desk<'_, '_>) -> Vec<u8> {
    let mut buffer = any_buffer(desk);
    let random = &mut desk.random;
    let message = if random.chance(65) {
        traffic::any_message(random)
    } else {
        traffic::any_damaged(random)
    };
    let length = message.len().min(buffer.len());
    buffer[..length].copy_from_slice(&message[..length]);
    buffer
}

/// An entry mostly well formed, and mostly of the type it is said to be.
fn written_entry(desk: &mut Desk<'_, '_>, kind: u8) -> Vec<u8> {
    let random = &mut desk.random;
    let real = if random.chance(90) {
        kind
    } else {
        random.pick(&[0, 1, 2, 3])
    };
    let mut entry = traffic::any_entry(random, real.min(3));
    match random.below(15) {
        0 => entry.push(random.byte()),
        1 => {
            entry.pop();
        }
        2 => {
            let at = random.below(entry.len());
            entry[at] = random.byte();
        }
        3 => entry = Vec::new(),
        4 => {
            let size = random.pick(&[1_900, 2_046, 2_047, 2_048, 2_049, 2_050, 2_500]);
            entry = traffic::of_size(random, real.min(3), size).split_off(10);
        }
        5 if real == 2 => entry = traffic::overlong(random),
        _ => {}
    }
    entry
}

/// Writes with entries and buffers of every sort.
pub fn write(desk: &mut Desk<'_, '_>) -> Checked<()> {
    let random = &mut desk.random;
    let kind = random.pick(&[0, 1, 1, 2, 3, 3, 4, 5, 255]);
    let call = match random.below(3) {
        0 => {
            let buffer = any_buffer(desk);
            let entry = written_entry(desk, kind);
            Call::Start {
                buffer,
                kind,
                entry,
            }
        }
        1 => {
            let buffer = filled_buffer(desk);
            let front = buffer.get(7).copied().unwrap_or(kind);
            let same = desk.random.chance(80);
            let kind = if same { front } else { kind };
            let entry = written_entry(desk, kind);
            Call::Append {
                buffer,
                kind,
                entry,
            }
        }
        _ => {
            let buffer = any_buffer(desk);
            let random = &mut desk.random;
            let form = random.pick(&[1, 1, 2, 2, 0, 3, 255]);
            let value = if random.chance(30) {
                random.pick(&[65_535, 65_536, u32::MAX])
            } else {
                traffic::any_heartbeat(random, form)
            };
            Call::KeepAlive {
                buffer,
                form,
                value,
            }
        }
    };
    desk.session.check(call)?;
    Ok(())
}

/// What the writer writes, the reader reads back entry by entry.
pub fn round_trip(desk: &mut Desk<'_, '_>) -> Checked<()> {
    let kind = desk.random.pick(&[0, 1, 2, 3]);
    let mut given = vec![traffic::any_entry(&mut desk.random, kind)];
    let mut buffer = desk.random.bytes(2_049);
    let mut call = Call::Start {
        buffer,
        kind,
        entry: given[0].clone(),
    };
    let most = desk.random.pick(&[1, 2, 5, 12]);
    loop {
        let outcome = desk.session.check(call)?;
        buffer = outcome.output;
        if outcome.answer.number() != 0 {
            given.pop();
            break;
        }
        if given.len() == most {
            break;
        }
        let entry = traffic::any_entry(&mut desk.random, kind);
        given.push(entry.clone());
        call = Call::Append {
            buffer: buffer.clone(),
            kind,
            entry,
        };
    }
    read_back(desk, kind, &given, buffer)
}

fn read_back(desk: &mut Desk<'_, '_>, kind: u8, given: &[Vec<u8>], bytes: Vec<u8>) -> Checked<()> {
    let session = &mut *desk.session;
    let call = Call::ReadMessage {
        bytes: bytes.clone(),
    };
    let outcome = session.check(call.clone())?;
    let whole = traffic::message(kind, given);
    let wanted = Reading {
        kind,
        count: given.len() as u16,
        length: whole.len(),
        ..Reading::default()
    };
    let kept = outcome.answer == Answer::Reading(wanted) && bytes[..whole.len()] == whole;
    session.demand(kept, "the message written is not read back", call)?;
    let mut start = 10;
    for (index, entry) in given.iter().enumerate() {
        let kept = desk
            .ask_for(&bytes, index)?
            .agrees(&told(kind, entry, start));
        let call = Call::ReadEntry {
            bytes: bytes.clone(),
            index,
        };
        desk.session
            .demand(kept, "an entry written is not read back", call)?;
        start += entry.len();
    }
    Ok(())
}
