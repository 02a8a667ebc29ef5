//! The endpoint's calls over the record and the lent area.

use super::Refusal;
use super::device::{self, Reply};
use super::reader;
use super::reset;
use super::rules;
use super::wire::{self, FRONT, Heartbeat, Judgement};
use crate::record::{AREA, CONNECTIONS, Connection, MUTES, Record, SHARE, Subscription};

/// The least output of delivery and take.
const ROOM: usize = 4_096;
/// A step this long or longer is the clock going back.
const BACK: u32 = 1 << 31;
/// Property 4.1, as a notification carries it.
const PROPERTY: [u8; 4] = [0, 4, 0, 1];

/// What a delivery comes to.
#[derive(Clone, Copy, Debug, PartialEq, Eq)]
pub enum Delivery {
    More,
    /// A sound message, with the length of the reply written.
    Message {
        reply: usize,
    },
    Closed {
        fault: u8,
    },
}

/// What a take comes to.
#[derive(Clone, Copy, Debug, PartialEq, Eq)]
pub enum Taking {
    Nothing,
    Notification { connection: u8, length: usize },
    KeepAlive { connection: u8, length: usize },
}

/// The record of a device nobody has reached yet.
pub fn fresh(reading: u32) -> Record {
    let mut record = Record::default();
    record.device.reading = reading;
    record.device.mutes = [2; MUTES];
    record
}

/// Zeros an area; refuses only by its length.
pub fn clear(area: &mut [u8]) -> Result<(), Refusal> {
    if area.len() != AREA {
        return Err(Refusal::BadArea);
    }
    area.fill(0);
    Ok(())
}

/// Opens the lowest free connection.
pub fn open(record: &Record) -> Result<(Record, u8), Refusal> {
    need_record(record)?;
    let connections = &record.device.connections;
    let Some(free) = connections.iter().position(|connection| !connection.live) else {
        return Err(Refusal::TableFull);
    };
    let mut record = *record;
    record.device.connections[free] = Connection {
        live: true,
        ..Connection::default()
    };
    record.held[free] = 0;
    Ok((record, free as u8))
}

/// The host's close.
pub fn close(record: &Record, area: &mut [u8], n: u8) -> Result<Record, Refusal> {
    need_record(record)?;
    need_area(record, area)?;
    need_open(record, n)?;
    let mut record = *record;
    shut(&mut record, area, n);
    Ok(record)
}

/// Brings time; answers which connections it closed.
pub fn tick(record: &Record, area: &mut [u8], reading: u32) -> Result<(Record, u8), Refusal> {
    need_record(record)?;
    need_area(record, area)?;
    let step = reading.wrapping_sub(record.device.reading);
    if step >= BACK {
        return Err(Refusal::ClockBack);
    }
    let step = u64::from(step);
    let mut record = *record;
    record.device.reading = reading;
    let mut closed = 0;
    for n in 0..CONNECTIONS {
        if lapse(&mut record.device.connections[n], step) {
            shut(&mut record, area, n as u8);
            closed |= 1 << n;
        }
    }
    Ok((record, closed))
}

/// Lets time pass for one connection; answers whether it is to be closed.
fn lapse(connection: &mut Connection, step: u64) -> bool {
    if connection.beat == 0 {
        return false;
    }
    connection.silence += step;
    if connection.silence >= 3 * connection.beat {
        return true;
    }
    if !connection.due {
        connection.quiet += step;
        if connection.quiet >= connection.beat {
            connection.due = true;
            connection.quiet = 0;
        }
    }
    false
}

/// Takes bytes up to and including the first deciding byte, and says how many.
pub fn deliver(
    record: &Record,
    area: &mut [u8],
    n: u8,
    piece: &[u8],
    output: &mut [u8],
) -> Result<(Record, usize, Delivery), Refusal> {
    need_record(record)?;
    need_area(record, area)?;
    need_open(record, n)?;
    need_room(output)?;
    let mut record = *record;
    let held = usize::from(record.held[usize::from(n)]);
    let mut bytes = share(area, n)[..held].to_vec();
    bytes.extend(piece);
    match wire::judge(&bytes) {
        Judgement::Undecided => {
            share(area, n)[..bytes.len()].copy_from_slice(&bytes);
            record.held[usize::from(n)] = bytes.len() as u16;
            Ok((record, piece.len(), Delivery::More))
        }
        Judgement::Fault { fault, taken } => {
            shut(&mut record, area, n);
            Ok((record, taken - held, Delivery::Closed { fault }))
        }
        Judgement::Sound { length } => {
            share(area, n).fill(0);
            record.held[usize::from(n)] = 0;
            let answer = hear(&mut record, n, &bytes[..length]);
            let reply = put(output, &answer);
            Ok((record, length - held, Delivery::Message { reply }))
        }
    }
}

/// Acts on a sound message; answers the bytes to send back, if any.
fn hear(record: &mut Record, n: u8, message: &[u8]) -> Vec<u8> {
    record.device.connections[usize::from(n)].silence = 0;
    let header = wire::header(message);
    let data = &message[FRONT..];
    let answer = match header.kind {
        wire::COMMAND | wire::COMMAND_WANTING_REPLY => {
            let entries = wire::entries(header.kind, header.count, data).unwrap_or_default();
            let responses = run_all(record, n, &entries);
            if header.kind == wire::COMMAND_WANTING_REPLY {
                wire::message(wire::RESPONSE, &responses)
            } else {
                Vec::new()
            }
        }
        wire::KEEP_ALIVE => set_heartbeat(record, n, data),
        _ => Vec::new(),
    };
    if !answer.is_empty() {
        spoken(record, n);
    }
    answer
}

/// Runs the commands in order; a failed one does not stop those after it.
fn run_all(record: &mut Record, n: u8, entries: &[&[u8]]) -> Vec<Vec<u8>> {
    let mut responses = Vec::new();
    for entry in entries {
        let command = reader::command(entry);
        let reply = device::run(&mut record.device, n, &command, &entry[17..]);
        responses.push(response(command.handle, &reply));
    }
    responses
}

fn response(handle: u32, reply: &Reply) -> Vec<u8> {
    let size = 10 + reply.parameters.len() as u32;
    let mut bytes = Vec::new();
    bytes.extend(size.to_be_bytes());
    bytes.extend(handle.to_be_bytes());
    bytes.push(reply.status);
    bytes.push(reply.count);
    bytes.extend(&reply.parameters);
    bytes
}

/// Sets the heartbeat; the answer has the same form and value, zero too.
fn set_heartbeat(record: &mut Record, n: u8, data: &[u8]) -> Vec<u8> {
    let Some(heartbeat) = wire::heartbeat(data) else {
        return Vec::new();
    };
    let (form, beat) = match heartbeat {
        Heartbeat::Seconds(value) => (1, u64::from(value) * 1_000),
        Heartbeat::Milliseconds(value) => (2, u64::from(value)),
    };
    let connection = &mut record.device.connections[usize::from(n)];
    connection.beat = beat;
    connection.form = form;
    if beat == 0 {
        connection.form = 0;
        connection.silence = 0;
        connection.quiet = 0;
        connection.due = false;
    }
    wire::keep_alive(heartbeat)
}

/// Anything the device sends on a connection clears quiet and due there.
fn spoken(record: &mut Record, n: u8) {
    let connection = &mut record.device.connections[usize::from(n)];
    connection.quiet = 0;
    connection.due = false;
}

/// Writes the message that is to be sent next, if any.
pub fn take(record: &Record, output: &mut [u8]) -> Result<(Record, Taking), Refusal> {
    need_record(record)?;
    need_room(output)?;
    let mut record = *record;
    let device = &mut record.device;
    if let Some(lowest) = device.subscriptions.iter().position(|entry| entry.waiting) {
        device.subscriptions[lowest].waiting = false;
        let entry = device.subscriptions[lowest];
        let length = put(output, &notification(&record, &entry));
        let connection = entry.connection;
        spoken(&mut record, connection);
        return Ok((record, Taking::Notification { connection, length }));
    }
    if let Some(lowest) = device.connections.iter().position(|other| other.due) {
        let heartbeat = heartbeat(&device.connections[lowest]);
        let length = put(output, &wire::keep_alive(heartbeat));
        let connection = lowest as u8;
        spoken(&mut record, connection);
        return Ok((record, Taking::KeepAlive { connection, length }));
    }
    Ok((record, Taking::Nothing))
}

/// Resets the device if the datagram asks for it; answers whether it did.
pub fn datagram(
    record: &Record,
    area: &mut [u8],
    datagram: &[u8],
) -> Result<(Record, bool), Refusal> {
    need_record(record)?;
    need_area(record, area)?;
    if !reset::asks(&record.device.mechanism, datagram) {
        return Ok((*record, false));
    }
    area.fill(0);
    Ok((fresh(record.device.reading), true))
}

/// The notification of the value the mute has at this moment.
fn notification(record: &Record, entry: &Subscription) -> Vec<u8> {
    let mute = device::mute_number(entry.emitter).unwrap_or_default();
    let mut rest = Vec::new();
    rest.extend(entry.object.to_be_bytes());
    rest.extend(entry.method.to_be_bytes());
    rest.push(2);
    rest.extend(u16::from(entry.context_count).to_be_bytes());
    rest.extend(&entry.context[..usize::from(entry.context_count)]);
    rest.extend(entry.emitter.to_be_bytes());
    rest.extend(entry.event.to_be_bytes());
    rest.extend(PROPERTY);
    rest.push(record.device.mutes[mute]);
    rest.push(1);
    let mut bytes = (4 + rest.len() as u32).to_be_bytes().to_vec();
    bytes.extend(rest);
    wire::message(wire::NOTIFICATION, &[bytes])
}

/// H in the connection's own form.
fn heartbeat(connection: &Connection) -> Heartbeat {
    // The record rules make both values fit.
    if connection.form == 1 {
        Heartbeat::Seconds((connection.beat / 1_000) as u16)
    } else {
        Heartbeat::Milliseconds(connection.beat as u32)
    }
}

/// A closure: frees locks, entries and waiting marks, clears counts, zeros the area.
fn shut(record: &mut Record, area: &mut [u8], n: u8) {
    let device = &mut record.device;
    for holder in &mut device.holders {
        if *holder == n + 1 {
            *holder = 0;
        }
    }
    for entry in &mut device.subscriptions {
        if entry.used && entry.connection == n {
            *entry = Subscription::default();
        }
    }
    device.connections[usize::from(n)] = Connection::default();
    record.held[usize::from(n)] = 0;
    share(area, n).fill(0);
}

/// The connection's part of the area.
fn share(area: &mut [u8], n: u8) -> &mut [u8] {
    let start = SHARE * usize::from(n);
    &mut area[start..start + SHARE]
}

/// Fills the output's front; its other bytes stay.
fn put(output: &mut [u8], message: &[u8]) -> usize {
    output[..message.len()].copy_from_slice(message);
    message.len()
}

fn need_record(record: &Record) -> Result<(), Refusal> {
    need(rules::hold(record), Refusal::BadRecord)
}

fn need_area(record: &Record, area: &[u8]) -> Result<(), Refusal> {
    need(rules::area_is_good(record, area), Refusal::BadArea)
}

fn need_open(record: &Record, n: u8) -> Result<(), Refusal> {
    need(rules::is_open(record, n), Refusal::NoConnection)
}

fn need_room(output: &[u8]) -> Result<(), Refusal> {
    need(output.len() >= ROOM, Refusal::NoRoom)
}

fn need(condition: bool, refusal: Refusal) -> Result<(), Refusal> {
    if condition { Ok(()) } else { Err(refusal) }
}
