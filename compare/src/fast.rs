//! The same delivery, written for speed in plain Rust.
//!
//! It makes the same checks on each call, all record rules and the whole
//! area, and is there to measure the library against.

use crate::answer::{
    CLOSED, Cleared, Closed, Delivered, Entry, MESSAGE, MORE, Opened, Part, Reading, Reset, Taken,
    Ticked, Written,
};
use crate::engine::Engine;
use crate::record::{AREA, CONTEXT, Connection, Device, Mechanism, Record, SHARE, Subscription};
use crate::second::Second;

const EVENT: u32 = 0x0001_0001;
const FRONT: usize = 10;
const ROOM: usize = 4_096;

/// What a delivery answers, the record aside.
#[derive(Clone, Copy, Debug, Default, PartialEq, Eq)]
pub struct Answer {
    pub number: u8,
    pub kind: u8,
    pub fault: u8,
    pub taken: usize,
    pub length: usize,
}

fn refused(number: u8) -> Answer {
    Answer {
        number,
        ..Answer::default()
    }
}

/// Delivers a piece in place.
pub fn deliver(
    record: &mut Record,
    area: &mut [u8],
    n: u8,
    piece: &[u8],
    output: &mut [u8],
) -> Answer {
    if !record_is_good(record) {
        return refused(1);
    }
    if !area_is_good(record, area) {
        return refused(2);
    }
    let at = usize::from(n);
    if at >= 8 || !record.device.connections[at].live {
        return refused(3);
    }
    if output.len() < ROOM {
        return refused(4);
    }
    let share = &mut area[at * SHARE..(at + 1) * SHARE];
    accept(record, share, at, piece, output)
}

fn accept(
    record: &mut Record,
    share: &mut [u8],
    n: usize,
    piece: &[u8],
    output: &mut [u8],
) -> Answer {
    let held = usize::from(record.held[n]);
    let total = held + piece.len();
    if total == 0 {
        return more(0);
    }
    let first = if held == 0 { piece[0] } else { share[0] };
    if first != 0x3B {
        return closed(record, share, n, 1, 1);
    }
    if total < FRONT {
        return keep(record, share, n, held, piece);
    }
    let mut front = [0; FRONT];
    if held >= FRONT {
        front.copy_from_slice(&share[..FRONT]);
    } else {
        front[..held].copy_from_slice(&share[..held]);
        front[held..].copy_from_slice(&piece[..FRONT - held]);
    }
    let fault = front_fault(&front);
    if fault != 0 {
        return closed(record, share, n, fault, FRONT - held);
    }
    let length = word(&front, 3) as usize + 1;
    if total < length {
        return keep(record, share, n, held, piece);
    }
    let taken = length - held;
    let reply = if held == 0 {
        hear(record, n, &piece[..length], output)
    } else {
        share[held..length].copy_from_slice(&piece[..taken]);
        let reply = hear(record, n, &share[..length], output);
        share[..length].fill(0);
        record.held[n] = 0;
        reply
    };
    match reply {
        Some(length) => Answer {
            number: 0,
            kind: MESSAGE,
            fault: 0,
            taken,
            length,
        },
        None => closed(record, share, n, 6, taken),
    }
}

fn more(taken: usize) -> Answer {
    Answer {
        number: 0,
        kind: MORE,
        fault: 0,
        taken,
        length: 0,
    }
}

fn keep(record: &mut Record, share: &mut [u8], n: usize, held: usize, piece: &[u8]) -> Answer {
    share[held..held + piece.len()].copy_from_slice(piece);
    record.held[n] = (held + piece.len()) as u16;
    more(piece.len())
}

fn closed(record: &mut Record, share: &mut [u8], n: usize, fault: u8, taken: usize) -> Answer {
    let device = &mut record.device;
    for holder in &mut device.holders {
        if usize::from(*holder) == n + 1 {
            *holder = 0;
        }
    }
    for entry in &mut device.subscriptions {
        if entry.used && usize::from(entry.connection) == n {
            *entry = Subscription::default();
        }
    }
    device.connections[n] = Connection::default();
    record.held[n] = 0;
    share.fill(0);
    Answer {
        number: 0,
        kind: CLOSED,
        fault,
        taken,
        length: 0,
    }
}

/// Checks the data, and only then acts; answers the reply's length.
fn hear(record: &mut Record, n: usize, message: &[u8], output: &mut [u8]) -> Option<usize> {
    let data = &message[FRONT..];
    let count = half(message, 8);
    let kind = message[7];
    if kind == 4 {
        return hear_keep_alive(record, n, message, output);
    }
    if !entries_are_sound(kind, count, data) {
        return None;
    }
    let device = &mut record.device;
    device.connections[n].silence = 0;
    match kind {
        0 => run_silently(device, n, data),
        1 => {
            let length = run_with_reply(device, n, count, data, output);
            spoken(&mut device.connections[n]);
            return Some(length);
        }
        _ => {}
    }
    Some(0)
}

fn hear_keep_alive(
    record: &mut Record,
    n: usize,
    message: &[u8],
    output: &mut [u8],
) -> Option<usize> {
    let (form, beat) = match message.len() - FRONT {
        2 => (1, u64::from(half(message, FRONT)) * 1_000),
        4 => (2, u64::from(word(message, FRONT))),
        _ => return None,
    };
    record.device.connections[n] = Connection {
        live: true,
        form: if beat == 0 { 0 } else { form },
        beat,
        ..Connection::default()
    };
    output[..message.len()].copy_from_slice(message);
    Some(message.len())
}

fn spoken(connection: &mut Connection) {
    connection.quiet = 0;
    connection.due = false;
}

fn run_silently(device: &mut Device, n: usize, data: &[u8]) {
    let mut spare = [0; 12];
    let mut rest = data;
    while !rest.is_empty() {
        let size = word(rest, 0) as usize;
        run(device, n, &rest[..size], &mut spare);
        rest = &rest[size..];
    }
}

fn run_with_reply(
    device: &mut Device,
    n: usize,
    count: u16,
    data: &[u8],
    output: &mut [u8],
) -> usize {
    let mut parameter = [0; 12];
    let mut rest = data;
    let mut end = FRONT;
    while !rest.is_empty() {
        let size = word(rest, 0) as usize;
        let (status, length) = run(device, n, &rest[..size], &mut parameter);
        let out = &mut output[end..end + 10 + length];
        out[..4].copy_from_slice(&(10 + length as u32).to_be_bytes());
        out[4..8].copy_from_slice(&rest[4..8]);
        out[8] = status;
        out[9] = u8::from(length > 0);
        out[10..].copy_from_slice(&parameter[..length]);
        end += 10 + length;
        rest = &rest[size..];
    }
    output[..3].copy_from_slice(&[0x3B, 0, 1]);
    output[3..7].copy_from_slice(&(end as u32 - 1).to_be_bytes());
    output[7] = 3;
    output[8..10].copy_from_slice(&count.to_be_bytes());
    end
}

/// Runs one command; answers its status and the length of its one parameter.
fn run(device: &mut Device, n: usize, entry: &[u8], out: &mut [u8; 12]) -> (u8, usize) {
    let method = word(entry, 12);
    let count = entry[16];
    let parameters = &entry[17..];
    match word(entry, 8) {
        target @ 4_097..=4_104 => {
            let mute = (target - 4_097) as usize;
            run_mute(device, n, mute, method, count, parameters, out)
        }
        1 => match method {
            0x0003_000E => (set_reset_key(device, count, parameters), 0),
            _ => run_manager(method, count, 1, out),
        },
        4 => match method {
            0x0003_0001 => (add(device, n, count, parameters), 0),
            0x0003_0002 => (remove(device, n, count, parameters), 0),
            _ => run_manager(method, count, 4, out),
        },
        _ => (5, 0),
    }
}

fn run_manager(method: u32, count: u8, last: u8, out: &mut [u8; 12]) -> (u8, usize) {
    match method {
        0x0001_0001 | 0x0001_0002 if count != 0 => (4, 0),
        0x0001_0001 => {
            out[..10].copy_from_slice(&[0, 3, 0, 1, 0, 3, 0, last, 0, 1]);
            (0, 10)
        }
        0x0001_0002 => {
            out[0] = 0;
            (0, 1)
        }
        0x0001_0003 | 0x0001_0004 => (8, 0),
        _ => (11, 0),
    }
}

fn run_mute(
    device: &mut Device,
    n: usize,
    mute: usize,
    method: u32,
    count: u8,
    parameters: &[u8],
    out: &mut [u8; 12],
) -> (u8, usize) {
    let holder = usize::from(device.holders[mute]);
    let others = holder != 0 && holder != n + 1;
    match method {
        0x0004_0002 if count != 1 || parameters.len() != 1 => (4, 0),
        0x0004_0002 => (set(device, mute, others, parameters[0]), 0),
        0x0001_0001..=0x0001_0004 | 0x0004_0001 if count != 0 => (4, 0),
        0x0001_0001 => {
            *out = [0, 4, 0, 1, 0, 1, 0, 1, 0, 2, 0, 1];
            (0, 12)
        }
        0x0001_0002 => {
            out[0] = 1;
            (0, 1)
        }
        0x0001_0003 | 0x0001_0004 if others => (3, 0),
        0x0001_0003 => {
            device.holders[mute] = n as u8 + 1;
            (0, 0)
        }
        0x0001_0004 if holder == 0 => (9, 0),
        0x0001_0004 => {
            device.holders[mute] = 0;
            (0, 0)
        }
        0x0004_0001 => {
            out[0] = device.mutes[mute];
            (0, 1)
        }
        _ => (11, 0),
    }
}

fn set(device: &mut Device, mute: usize, others: bool, value: u8) -> u8 {
    if others {
        return 3;
    }
    if value != 1 && value != 2 {
        return 7;
    }
    if device.mutes[mute] != value {
        device.mutes[mute] = value;
        let emitter = 4_097 + mute as u32;
        for entry in &mut device.subscriptions {
            entry.waiting |= entry.emitter == emitter;
        }
    }
    0
}

fn add(device: &mut Device, n: usize, count: u8, parameters: &[u8]) -> u8 {
    let length = parameters.len();
    if count != 5 || length < 21 || usize::from(half(parameters, 16)) != length - 21 {
        return 4;
    }
    let (context, rest) = parameters[18..].split_at(length - 21);
    if rest[1] != 0 || rest[2] != 0 {
        return 4;
    }
    if !is_mute(word(parameters, 0)) || word(parameters, 4) != EVENT {
        return 6;
    }
    if rest[0] != 1 || context.len() > CONTEXT {
        return 7;
    }
    if find(device, n, parameters).is_some() {
        return 9;
    }
    let Some(free) = device.subscriptions.iter().position(|entry| !entry.used) else {
        return 10;
    };
    // What a free entry holds is zero already.
    let entry = &mut device.subscriptions[free];
    entry.used = true;
    entry.connection = n as u8;
    entry.context_count = context.len() as u8;
    entry.emitter = word(parameters, 0);
    entry.event = EVENT;
    entry.object = word(parameters, 8);
    entry.method = word(parameters, 12);
    entry.context[..context.len()].copy_from_slice(context);
    0
}

fn remove(device: &mut Device, n: usize, count: u8, parameters: &[u8]) -> u8 {
    if count != 2 || parameters.len() != 16 {
        return 4;
    }
    if !is_mute(word(parameters, 0)) || word(parameters, 4) != EVENT {
        return 6;
    }
    match find(device, n, parameters) {
        None => 9,
        Some(held) => {
            device.subscriptions[held] = Subscription::default();
            0
        }
    }
}

fn set_reset_key(device: &mut Device, count: u8, parameters: &[u8]) -> u8 {
    let length = parameters.len();
    if count != 2 || length < 20 || usize::from(half(parameters, 16)) != length - 20 {
        return 4;
    }
    let port = half(parameters, length - 2);
    let Some(address) = address(&parameters[18..length - 2]) else {
        return 7;
    };
    if port == 0 {
        return 7;
    }
    let mechanism = &mut device.mechanism;
    mechanism.armed = true;
    mechanism.key.copy_from_slice(&parameters[..16]);
    mechanism.address = address;
    mechanism.port = port;
    0
}

/// Reads an empty text or a multicast address, byte by byte.
fn address(text: &[u8]) -> Option<[u8; 4]> {
    let mut address = [0; 4];
    if text.is_empty() {
        return Some(address);
    }
    let (mut part, mut digits, mut value) = (0, 0, 0);
    for byte in text {
        match byte {
            // A zero with a digit behind it would be a leading one.
            b'0'..=b'9' if digits == 0 || value != 0 => {
                value = 10 * value + u16::from(byte - b'0');
                digits += 1;
                if value > 255 {
                    return None;
                }
            }
            b'.' if digits > 0 && part < 3 => {
                address[part] = value as u8;
                (part, digits, value) = (part + 1, 0, 0);
            }
            _ => return None,
        }
    }
    address[3] = value as u8;
    (part == 3 && digits > 0 && is_multicast(address)).then_some(address)
}

fn is_multicast(address: [u8; 4]) -> bool {
    address[0] & 0xF0 == 224
}

/// A record that keeps the rules holds no event but the one.
fn find(device: &Device, n: usize, parameters: &[u8]) -> Option<usize> {
    let emitter = word(parameters, 0);
    let object = word(parameters, 8);
    let method = word(parameters, 12);
    device.subscriptions.iter().position(|entry| {
        entry.used
            && usize::from(entry.connection) == n
            && entry.emitter == emitter
            && entry.object == object
            && entry.method == method
    })
}

fn is_mute(object: u32) -> bool {
    object.wrapping_sub(4_097) < 8
}

fn word(bytes: &[u8], at: usize) -> u32 {
    u32::from_be_bytes([bytes[at], bytes[at + 1], bytes[at + 2], bytes[at + 3]])
}

fn half(bytes: &[u8], at: usize) -> u16 {
    u16::from_be_bytes([bytes[at], bytes[at + 1]])
}

fn front_fault(front: &[u8; FRONT]) -> u8 {
    let size = word(front, 3);
    let count = half(front, 8);
    if front[1] != 0 || front[2] != 1 {
        2
    } else if !(9..=2_048).contains(&size) {
        3
    } else if front[7] > 4 {
        4
    } else if count == 0 || (front[7] == 4 && count != 1) {
        5
    } else {
        0
    }
}

fn entries_are_sound(kind: u8, count: u16, data: &[u8]) -> bool {
    // The least entry, the place of its count, and the count that means bare.
    let (least, place, bare) = match kind {
        2 => (23, 12, 1),
        3 => (10, 9, 0),
        _ => (17, 16, 0),
    };
    let mut rest = data;
    for _ in 0..count {
        if rest.len() < least {
            return false;
        }
        let size = word(rest, 0) as usize;
        if size < least || size > rest.len() {
            return false;
        }
        let context = match kind {
            2 => usize::from(half(rest, 13)),
            _ => 0,
        };
        if context > CONTEXT || size < least + context {
            return false;
        }
        let given = rest[place];
        if given < bare || (given == bare) != (size == least + context) {
            return false;
        }
        rest = &rest[size..];
    }
    rest.is_empty()
}

fn record_is_good(record: &Record) -> bool {
    let device = &record.device;
    let mut live = 0_u32;
    for (n, connection) in device.connections.iter().enumerate() {
        if !connection_is_good(connection, record.held[n]) {
            return false;
        }
        live |= u32::from(connection.live) << n;
    }
    let open = |n: u8| n < 8 && (live >> n) & 1 == 1;
    device.holders.iter().all(|h| *h == 0 || open(*h - 1))
        && device.mutes.iter().all(|mute| *mute == 1 || *mute == 2)
        && mechanism_is_good(&device.mechanism)
        && subscriptions_are_good(&device.subscriptions, open)
}

fn mechanism_is_good(mechanism: &Mechanism) -> bool {
    if !mechanism.armed {
        return *mechanism == Mechanism::default();
    }
    let address = mechanism.address;
    mechanism.port != 0 && (address == [0; 4] || is_multicast(address))
}

fn connection_is_good(connection: &Connection, held: u16) -> bool {
    if !connection.live {
        return *connection == Connection::default() && held == 0;
    }
    if held > 2_048 {
        return false;
    }
    let beat = connection.beat;
    match connection.form {
        0 => return *connection == OPENED,
        1 if beat > 65_535_000 || !beat.is_multiple_of(1_000) => return false,
        2 if beat > 4_294_967_295 => return false,
        1 | 2 => {}
        _ => return false,
    }
    // An H of zero fails here, as no silence is below it.
    connection.silence < 3 * beat
        && connection.quiet < beat
        && !(connection.due && connection.quiet != 0)
}

const OPENED: Connection = Connection {
    live: true,
    form: 0,
    beat: 0,
    silence: 0,
    quiet: 0,
    due: false,
};

fn subscriptions_are_good(entries: &[Subscription; 32], open: impl Fn(u8) -> bool) -> bool {
    for (at, entry) in entries.iter().enumerate() {
        if !entry.used {
            if !is_free(entry) {
                return false;
            }
            continue;
        }
        if !open(entry.connection) || !is_mute(entry.emitter) || entry.event != EVENT {
            return false;
        }
        if !context_is_good(entry) {
            return false;
        }
        // A free entry's object 0 and method 0 are told apart by its emitter.
        let twin = entries[..at].iter().any(|other| {
            other.emitter == entry.emitter
                && other.connection == entry.connection
                && other.object == entry.object
                && other.method == entry.method
        });
        if twin {
            return false;
        }
    }
    true
}

fn is_free(entry: &Subscription) -> bool {
    let numbers = entry.emitter | entry.event | entry.object | entry.method;
    let small = u8::from(entry.waiting) | entry.connection | entry.context_count;
    u64::from(numbers | u32::from(small)) | joined(entry.context.as_chunks().0) == 0
}

/// A count of at most 64, and zeros past it.
fn context_is_good(entry: &Subscription) -> bool {
    let count = usize::from(entry.context_count);
    if count > CONTEXT {
        return false;
    }
    match &entry.context.as_chunks().0[count / 8..] {
        // The word that the count cuts loses its bytes before the cut.
        [cut, rest @ ..] => u64::from_le_bytes(*cut) >> (8 * (count % 8)) | joined(rest) == 0,
        [] => true,
    }
}

/// Zero exactly if all bytes are; eight of them are looked at together.
#[inline]
fn joined(words: &[[u8; 8]]) -> u64 {
    words
        .iter()
        .fold(0, |all, word| all | u64::from_ne_bytes(*word))
}

fn area_is_good(record: &Record, area: &[u8]) -> bool {
    area.len() == AREA
        && area
            .chunks_exact(SHARE)
            .zip(&record.held)
            .all(|(share, held)| share_is_good(share, usize::from(*held)))
}

fn share_is_good(share: &[u8], held: usize) -> bool {
    let (bytes, rest) = share.split_at(held);
    // Without an early end the loop over the zeros runs many bytes at once.
    if rest.iter().fold(0, |all, byte| all | byte) != 0 {
        return false;
    }
    if held == 0 {
        return true;
    }
    if bytes[0] != 0x3B {
        return false;
    }
    if held < FRONT {
        return true;
    }
    let mut front = [0; FRONT];
    front.copy_from_slice(&bytes[..FRONT]);
    front_fault(&front) == 0 && held <= word(&front, 3) as usize
}

/// The fast delivery among the second program's other calls, to compare it.
#[derive(Clone, Copy, Debug, Default)]
pub struct Fast;

impl Engine for Fast {
    fn fresh(&self, reading: u32) -> Record {
        Second.fresh(reading)
    }

    fn clear(&self, area: &mut [u8]) -> Cleared {
        Second.clear(area)
    }

    fn open(&self, record: Record) -> Opened {
        Second.open(record)
    }

    fn close(&self, record: Record, area: &mut [u8], n: u8) -> Closed {
        Second.close(record, area, n)
    }

    fn tick(&self, record: Record, area: &mut [u8], reading: u32) -> Ticked {
        Second.tick(record, area, reading)
    }

    fn deliver(
        &self,
        mut record: Record,
        area: &mut [u8],
        n: u8,
        piece: &[u8],
        output: &mut [u8],
    ) -> Delivered {
        let answer = deliver(&mut record, area, n, piece, output);
        Delivered {
            record,
            number: answer.number,
            kind: answer.kind,
            fault: answer.fault,
            taken: answer.taken,
            length: answer.length,
        }
    }

    fn take(&self, record: Record, output: &mut [u8]) -> Taken {
        Second.take(record, output)
    }

    fn datagram(&self, record: Record, area: &mut [u8], datagram: &[u8]) -> Reset {
        Second.datagram(record, area, datagram)
    }

    fn read_message(&self, bytes: &[u8]) -> Reading {
        Second.read_message(bytes)
    }

    fn read_entry(&self, bytes: &[u8], index: usize) -> Entry {
        Second.read_entry(bytes, index)
    }

    fn entry_part(&self, bytes: &[u8], index: usize) -> Part {
        Second.entry_part(bytes, index)
    }

    fn entry_context(&self, bytes: &[u8], index: usize) -> Part {
        Second.entry_context(bytes, index)
    }

    fn start(&self, buffer: &mut [u8], kind: u8, entry: &[u8]) -> Written {
        Second.start(buffer, kind, entry)
    }

    fn append(&self, buffer: &mut [u8], kind: u8, entry: &[u8]) -> Written {
        Second.append(buffer, kind, entry)
    }

    fn keep_alive(&self, buffer: &mut [u8], form: u8, value: u32) -> Written {
        Second.keep_alive(buffer, form, value)
    }
}
