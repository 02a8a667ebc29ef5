//! An entry that a plan tries: read, delivered and written, alone and among others,
//! and held to what the plan's own rule says of it.

use crate::answer::{CLOSED, Delivered, Entry, MESSAGE, MORE, Reading, Written};
use crate::harness::call::{Answer, Call, Outcome};
use crate::harness::counts::Tries;
use crate::harness::desk::Desk;
use crate::harness::random::Random;
use crate::harness::session::Checked;
use crate::harness::told::{Told, told};
use crate::harness::traffic::{blob, command, keep_alive, message, notification, response};
use crate::record::{Connection, Record};
use std::ops::Range;

/// Types that are no entry's.
const NO_ENTRY: [u8; 3] = [4, 5, 255];
/// The longest message, and the writer's least buffer.
const ROOM: usize = 2_049;
/// The 3B and the header.
const FRONT: usize = 10;

/// An entry with what its plan says of it.
#[derive(Clone, Debug)]
pub struct Tried {
    pub kind: u8,
    pub bytes: Vec<u8>,
    /// Whether it is well formed.
    pub sound: bool,
    /// Which plan tries it, and whether it has the slip that the plan is about.
    pub tries: Tries,
    pub spoiled: bool,
}

impl Tried {
    /// The fault of a message that has it.
    fn fault(&self, message: &[u8]) -> u8 {
        if message.len() > ROOM {
            3
        } else if self.sound {
            0
        } else {
            6
        }
    }

    /// Whether it is carried out: a command that is tried is a set of mute 3, which wants count 1 and one byte.
    fn sets_mute(&self) -> bool {
        self.kind < 2 && self.bytes.len() == 18 && self.bytes[16] == 1
    }
}

/// Two well-formed entries of the type; commands set mutes 2 and 4 to muted.
fn others(random: &mut Random, kind: u8) -> [Vec<u8>; 2] {
    match kind {
        2 => [(1, &[][..]), (2, &[0, 4, 0, 1, 1, 1])].map(|(count, rest)| {
            let context = blob(&random.bytes(4));
            notification(random, count, &context, rest)
        }),
        3 => [response(random, 0, &[]), response(random, 1, &[2])],
        _ => [4_099, 4_101].map(|mute| command(random.word(), mute, (4, 2), 1, &[1])),
    }
}

/// Connection 0, which is supervised, holds mute 0, and connection 1 holds mute 1.
pub fn two_locks(desk: &mut Desk<'_, '_>) -> Checked<()> {
    for n in 0..2 {
        desk.open()?;
        desk.deliver(n, &keep_alive(1, 2))?;
        let lock = command(1, 4_097 + u32::from(n), (1, 3), 0, &[]);
        desk.deliver(n, &message(1, &[lock]))?;
    }
    desk.tick(700)?;
    Ok(())
}

/// Tries the entry alone and in each place of three, then writes it. The desk has two locks.
pub fn go_through(desk: &mut Desk<'_, '_>, tried: &Tried) -> Checked<()> {
    let [a, b] = others(&mut desk.random, tried.kind);
    offer(desk, tried, std::slice::from_ref(&tried.bytes), 0)?;
    for place in 0..3 {
        let mut entries = vec![a.clone(), b.clone()];
        entries.insert(place, tried.bytes.clone());
        offer(desk, tried, &entries, place)?;
    }
    write(desk, tried, &[a.clone(), b, a])?;
    write_elsewhere(desk, tried)
}

/// Reads a message that has the entry at its place, delivers it and appends to it.
fn offer(desk: &mut Desk<'_, '_>, tried: &Tried, entries: &[Vec<u8>], place: usize) -> Checked<()> {
    let bytes = message(tried.kind, entries);
    let counts = &mut desk.session.counts;
    counts.count_tried(tried.tries, tried.sound, tried.spoiled);
    read(desk, tried, &bytes, entries)?;
    let decided = match tried.fault(&bytes) {
        3 => FRONT,
        _ => bytes.len(),
    };
    let cut = 1 + desk.random.below(decided - 1);
    for cut in [0, cut] {
        deliver(desk, tried, &bytes, cut..decided, (entries.len(), place))?;
    }
    append_to(desk, tried, &bytes)
}

/// Reads the message, every entry of it and the one behind them.
fn read(desk: &mut Desk<'_, '_>, tried: &Tried, bytes: &[u8], entries: &[Vec<u8>]) -> Checked<()> {
    let call = Call::ReadMessage {
        bytes: bytes.to_vec(),
    };
    let outcome = desk.session.check(call.clone())?;
    let fault = tried.fault(bytes);
    let wanted = match fault {
        0 => Reading {
            kind: tried.kind,
            count: entries.len() as u16,
            length: bytes.len(),
            ..Reading::default()
        },
        _ => Reading {
            number: 8,
            fault,
            ..Reading::default()
        },
    };
    let kept = outcome.answer == Answer::Reading(wanted);
    desk.session.demand(
        kept,
        "a message is not read as its counts and bytes say",
        call,
    )?;
    let mut start = FRONT;
    for index in 0..=entries.len() {
        let entry = entries.get(index);
        let wanted = match entry {
            _ if fault != 0 => refused(8, fault),
            None => refused(12, 0),
            Some(entry) => told(tried.kind, entry, start),
        };
        read_entry(desk, bytes, index, &wanted)?;
        start += entry.map_or(0, Vec::len);
    }
    Ok(())
}

/// What is told of an entry that is refused.
fn refused(number: u8, fault: u8) -> Told {
    let entry = Entry {
        number,
        fault,
        ..Entry::default()
    };
    Told {
        entry,
        ..Told::default()
    }
}

fn read_entry(desk: &mut Desk<'_, '_>, bytes: &[u8], index: usize, wanted: &Told) -> Checked<()> {
    let kept = desk.ask_for(bytes, index)?.agrees(wanted);
    let call = Call::ReadEntry {
        bytes: bytes.to_vec(),
        index,
    };
    desk.session.demand(
        kept,
        "an entry is not read as its count and bytes say",
        call,
    )
}

/// Delivers the message to connection 0, cut in two unless the cut is 0, up to the deciding byte; the state stays.
fn deliver(
    desk: &mut Desk<'_, '_>,
    tried: &Tried,
    bytes: &[u8],
    taken: Range<usize>,
    (count, place): (usize, usize),
) -> Checked<()> {
    let (record, area) = (desk.record, desk.area.clone());
    let cut = taken.start;
    if cut > 0 {
        let call = desk.delivering(0, &bytes[..cut]);
        let more = desk.piece(0, &bytes[..cut])?.unwrap_or_default();
        let kept = (more.kind, more.taken) == (MORE, cut) && more.record.device == record.device;
        desk.session
            .demand(kept, "a piece of a message is decided early", call)?;
    }
    let call = desk.delivering(0, &bytes[cut..]);
    let outcome = desk.session.check(call.clone())?;
    (desk.record, desk.area) = (record, area);
    let wanted = delivered(tried, record, tried.fault(bytes), taken.len(), count);
    let kept = outcome.answer == Answer::Delivered(wanted)
        && outcome.area.iter().all(|byte| *byte == 0)
        && reply_is_right(tried, &call, &outcome, wanted.length, place);
    desk.session.demand(
        kept,
        "a delivery is not what the counts and bytes say",
        call,
    )?;
    desk.session
        .counts
        .count_closure(tried.tries, tried.spoiled);
    Ok(())
}

/// What delivering a message of so many entries comes to, by the plan's rule.
fn delivered(
    tried: &Tried,
    mut record: Record,
    fault: u8,
    taken: usize,
    count: usize,
) -> Delivered {
    let device = &mut record.device;
    let (mut kind, mut length) = (MESSAGE, 0);
    if fault != 0 {
        // Its lock is free; the other's lock and the mutes stay.
        device.connections[0] = Connection::default();
        device.holders[0] = 0;
        kind = CLOSED;
    } else {
        device.connections[0].silence = 0;
        if tried.kind == 1 {
            device.connections[0].quiet = 0;
            length = 10 + 10 * count;
        }
        if tried.kind < 2 && count > 1 {
            (device.mutes[2], device.mutes[4]) = (1, 1);
        }
        if tried.sets_mute() {
            device.mutes[3] = 1;
        }
    }
    Delivered {
        record,
        number: 0,
        kind,
        fault,
        taken,
        length,
    }
}

/// The statuses are 0, save 4 of a set whose count or length is wrong; no byte behind the reply is changed.
fn reply_is_right(
    tried: &Tried,
    call: &Call,
    outcome: &Outcome,
    length: usize,
    place: usize,
) -> bool {
    let (reply, behind) = outcome.output.split_at(length);
    let statuses = reply.iter().skip(18).step_by(10);
    let right = statuses.enumerate().all(|(index, status)| {
        let wrong = index == place && !tried.sets_mute();
        *status == if wrong { 4 } else { 0 }
    });
    right && behind == &call.output()[length..]
}

/// Appends to the message: an entry that is well formed, the one that is tried, and one of another type.
fn append_to(desk: &mut Desk<'_, '_>, tried: &Tried, bytes: &[u8]) -> Checked<()> {
    let kind = tried.kind;
    let [sound, _] = others(&mut desk.random, kind);
    let same = tried.bytes.clone();
    let strange = (kind + 1) % 4;
    let [other, _] = others(&mut desk.random, strange);
    for (kind, entry, number) in [(kind, sound, 0), (kind, same, 0), (strange, other, 11)] {
        let fault = tried.fault(bytes);
        let number = if fault == 0 { number } else { 8 };
        let length = bytes.len() + entry.len();
        let wanted = Written {
            number,
            fault,
            length: if number == 0 { length } else { 0 },
        };
        let call = Call::Append {
            buffer: in_front(&mut desk.random, bytes),
            kind,
            entry,
        };
        let outcome = desk.session.check(call.clone())?;
        let kept = outcome.answer == Answer::Written(wanted);
        desk.session
            .demand(kept, "appending is not what the message's counts say", call)?;
    }
    Ok(())
}

/// A buffer of the writer with these bytes at its front, as far as they have room.
fn in_front(random: &mut Random, front: &[u8]) -> Vec<u8> {
    let mut buffer = random.bytes(ROOM);
    let length = front.len().min(ROOM);
    buffer[..length].copy_from_slice(&front[..length]);
    buffer
}

/// Starts a message with the entry, and appends it to messages of its type with one entry, two and three.
fn write(desk: &mut Desk<'_, '_>, tried: &Tried, front: &[Vec<u8>]) -> Checked<()> {
    let kind = tried.kind;
    for before in 0..=front.len() {
        let held = match before {
            0 => Vec::new(),
            _ => message(kind, &front[..before]),
        };
        let buffer = in_front(&mut desk.random, &held);
        let entry = tried.bytes.clone();
        let mut entries = front[..before].to_vec();
        entries.push(entry.clone());
        let whole = message(kind, &entries);
        let (wanted, answer) = written(tried, &buffer, &whole);
        let call = match before {
            0 => Call::Start {
                buffer,
                kind,
                entry,
            },
            _ => Call::Append {
                buffer,
                kind,
                entry,
            },
        };
        let outcome = desk.session.check(call.clone())?;
        let kept = outcome.answer == Answer::Written(answer) && outcome.output == wanted;
        desk.session.demand(
            kept,
            "an entry is not written as its count and bytes say",
            call,
        )?;
        desk.session
            .counts
            .count_unwritten(tried.tries, tried.spoiled);
    }
    Ok(())
}

/// What writing comes to that would make this message, and its answer.
fn written(tried: &Tried, buffer: &[u8], whole: &[u8]) -> (Vec<u8>, Written) {
    let mut left = buffer.to_vec();
    let mut answer = Written::default();
    if tried.sound {
        left[..whole.len()].copy_from_slice(whole);
        answer.length = whole.len();
    } else {
        answer.number = 11;
    }
    (left, answer)
}

/// The entry behind messages of other types, and as one of a type that is no entry's: 11 whatever it is.
fn write_elsewhere(desk: &mut Desk<'_, '_>, tried: &Tried) -> Checked<()> {
    let mut calls = Vec::new();
    for other in (0..5).filter(|other| *other != tried.kind) {
        let front = match other {
            4 => keep_alive(1, 2),
            _ => message(other, &others(&mut desk.random, other)),
        };
        calls.push(Call::Append {
            buffer: in_front(&mut desk.random, &front),
            kind: tried.kind,
            entry: tried.bytes.clone(),
        });
    }
    let front = message(tried.kind, &others(&mut desk.random, tried.kind));
    for kind in NO_ENTRY {
        let entry = tried.bytes.clone();
        calls.push(Call::Append {
            buffer: in_front(&mut desk.random, &front),
            kind,
            entry: entry.clone(),
        });
        calls.push(Call::Start {
            buffer: desk.random.bytes(ROOM),
            kind,
            entry,
        });
    }
    for call in calls {
        let outcome = desk.session.check(call.clone())?;
        let kept = outcome.answer.number() == 11;
        desk.session
            .demand(kept, "an entry of no type or another is written", call)?;
    }
    Ok(())
}
