//! Messages to send: sound, damaged, and at the limits.
//!
//! They are put together here without help of either program.

use super::random::Random;
use super::reset;

const MUTES: [u32; 8] = [4_097, 4_098, 4_099, 4_100, 4_101, 4_102, 4_103, 4_104];
const STRANGERS: [u32; 9] = [0, 2, 3, 5, 256, 4_096, 4_105, 0x0001_1001, u32::MAX];
/// Few subscribers, so that twins and removals meet.
const SUBSCRIBERS: [u32; 5] = [5, 6, 7, 8, 9];
const SUBSCRIBER_METHODS: [(u16, u16); 2] = [(3, 1), (3, 2)];
const EVENT: (u16, u16) = (1, 1);
/// The largest pduSize less the header.
pub const LARGEST_DATA: usize = 2_039;
/// Lengths of contexts, the most and the least among them.
const CONTEXTS: [usize; 8] = [0, 1, 4, 4, 16, 32, 63, 64];
const LONG_CONTEXTS: [usize; 7] = [65, 65, 66, 128, 255, 256, 300];

/// A method or event in one number.
pub fn joined(pair: (u16, u16)) -> u32 {
    (u32::from(pair.0) << 16) | u32::from(pair.1)
}

/// A message with any header fields.
pub fn framed(version: u16, size: u32, kind: u8, count: u16, data: &[u8]) -> Vec<u8> {
    let mut bytes = vec![0x3B];
    bytes.extend(version.to_be_bytes());
    bytes.extend(size.to_be_bytes());
    bytes.push(kind);
    bytes.extend(count.to_be_bytes());
    bytes.extend(data);
    bytes
}

/// A message whose header fits its data.
pub fn message(kind: u8, entries: &[Vec<u8>]) -> Vec<u8> {
    let data = entries.concat();
    framed(1, 9 + data.len() as u32, kind, entries.len() as u16, &data)
}

/// A keep-alive of form 1 (seconds) or 2 (milliseconds).
pub fn keep_alive(form: u8, value: u32) -> Vec<u8> {
    let bytes = value.to_be_bytes();
    if form == 1 {
        framed(1, 11, 4, 1, &bytes[2..])
    } else {
        framed(1, 13, 4, 1, &bytes)
    }
}

fn sized(rest: &[u8]) -> Vec<u8> {
    let mut bytes = (4 + rest.len() as u32).to_be_bytes().to_vec();
    bytes.extend(rest);
    bytes
}

/// A command entry.
pub fn command(handle: u32, target: u32, method: (u16, u16), count: u8, rest: &[u8]) -> Vec<u8> {
    let mut bytes = handle.to_be_bytes().to_vec();
    bytes.extend(target.to_be_bytes());
    bytes.extend(joined(method).to_be_bytes());
    bytes.push(count);
    bytes.extend(rest);
    sized(&bytes)
}

/// A context as it is sent: a 2-byte count, here any, and bytes.
pub fn stated(count: u16, context: &[u8]) -> Vec<u8> {
    [&count.to_be_bytes(), context].concat()
}

/// A context behind its own count.
pub fn blob(context: &[u8]) -> Vec<u8> {
    stated(context.len() as u16, context)
}

/// A notification entry, its context given behind a count.
pub fn notification(random: &mut Random, count: u8, blob: &[u8], rest: &[u8]) -> Vec<u8> {
    let mut bytes = random.bytes(8);
    bytes.push(count);
    bytes.extend(blob);
    bytes.extend(random.bytes(8));
    bytes.extend(rest);
    sized(&bytes)
}

/// A response entry.
pub fn response(random: &mut Random, count: u8, rest: &[u8]) -> Vec<u8> {
    let mut bytes = random.bytes(5);
    bytes.push(count);
    bytes.extend(rest);
    sized(&bytes)
}

/// Emitter and event, then the subscriber.
pub fn naming(emitter: u32, event: u32, object: u32, method: u32) -> Vec<u8> {
    [emitter, event, object, method]
        .iter()
        .flat_map(|number| number.to_be_bytes())
        .collect()
}

/// The parameters of an add, its context given behind a count.
pub fn adding(name: &[u8], blob: &[u8], mode: u8, pair: [u8; 2]) -> Vec<u8> {
    let mut bytes = name.to_vec();
    bytes.extend(blob);
    bytes.push(mode);
    bytes.extend(pair);
    bytes
}

/// A well-formed command, mostly one that can succeed.
pub fn any_command(random: &mut Random) -> Vec<u8> {
    let (target, method) = match random.weighted(&[56, 29, 10, 5]) {
        0 => (random.pick(&MUTES), mute_method(random)),
        1 => (4, subscription_method(random)),
        2 => (1, manager_method(random)),
        _ => (stranger(random), mute_method(random)),
    };
    let (count, rest) = arguments(random, method);
    let (count, rest) = disturbed(random, count, rest);
    command(random.word(), target, method, count, &rest)
}

fn stranger(random: &mut Random) -> u32 {
    if random.chance(20) {
        random.word()
    } else {
        random.pick(&STRANGERS)
    }
}

fn mute_method(random: &mut Random) -> (u16, u16) {
    match random.weighted(&[40, 16, 16, 10, 6, 5, 7]) {
        0 => (4, 2),
        1 => (1, 3),
        2 => (1, 4),
        3 => (4, 1),
        4 => (1, 1),
        5 => (1, 2),
        _ => odd_method(random),
    }
}

fn subscription_method(random: &mut Random) -> (u16, u16) {
    match random.weighted(&[60, 20, 4, 4, 3, 3, 6]) {
        0 => (3, 1),
        1 => (3, 2),
        2 => (1, 1),
        3 => (1, 2),
        4 => (1, 3),
        5 => (1, 4),
        _ => odd_method(random),
    }
}

fn manager_method(random: &mut Random) -> (u16, u16) {
    match random.weighted(&[60, 9, 9, 8, 8, 6]) {
        0 => (3, 14),
        1 => (1, 1),
        2 => (1, 2),
        3 => (1, 3),
        4 => (1, 4),
        _ => odd_method(random),
    }
}

fn odd_method(random: &mut Random) -> (u16, u16) {
    let near = [
        (1, 0),
        (1, 5),
        (4, 0),
        (4, 3),
        (3, 1),
        (3, 14),
        (3, 3),
        (0, 1),
    ];
    if random.chance(30) {
        (random.byte().into(), random.byte().into())
    } else {
        random.pick(&near)
    }
}

/// The parameters a method wants, with values that are mostly good.
fn arguments(random: &mut Random, method: (u16, u16)) -> (u8, Vec<u8>) {
    match method {
        (4, 2) => {
            let odd = random.chance(6);
            let value = if odd {
                random.pick(&[0, 3, 4, 255])
            } else {
                random.pick(&[1, 2])
            };
            (1, vec![value])
        }
        (3, 1) => {
            let name = any_name(random);
            let context = any_blob(random);
            let mode = if random.chance(6) { random.byte() } else { 1 };
            let pair = if random.chance(4) {
                random.pick(&[[0, 1], [1, 0], [255, 255], [0, 128]])
            } else {
                [0, 0]
            };
            (5, adding(&name, &context, mode, pair))
        }
        (3, 2) => (2, any_name(random)),
        (3, 14) => (2, reset::any_setting(random)),
        _ => (0, Vec::new()),
    }
}

/// A context that is not too long.
pub fn any_context(random: &mut Random) -> Vec<u8> {
    let length = if random.chance(20) {
        random.below(65)
    } else {
        random.pick(&CONTEXTS)
    };
    random.bytes(length)
}

fn long_context(random: &mut Random) -> Vec<u8> {
    let length = random.pick(&LONG_CONTEXTS);
    random.bytes(length)
}

/// A context behind its count, mostly such as 3.1 takes, now and then too long or with a count that lies.
fn any_blob(random: &mut Random) -> Vec<u8> {
    match random.weighted(&[86, 7, 7]) {
        0 => blob(&any_context(random)),
        1 => blob(&long_context(random)),
        _ => {
            let context = any_context(random);
            let length = context.len() as u16;
            let near = [length.wrapping_sub(1), length + 1, length + 256, 65, 64, 0];
            stated(random.pick(&near), &context)
        }
    }
}

fn any_name(random: &mut Random) -> Vec<u8> {
    let emitter = if random.chance(6) {
        random.pick(&[0, 1, 4, 4_096, 4_105, u32::MAX])
    } else {
        random.pick(&MUTES)
    };
    let event = if random.chance(5) {
        joined(random.pick(&[(1, 2), (2, 1), (0, 1), (1, 0), (257, 1)]))
    } else {
        joined(EVENT)
    };
    let object = random.pick(&SUBSCRIBERS);
    let method = joined(random.pick(&SUBSCRIBER_METHODS));
    naming(emitter, event, object, method)
}

/// Sometimes a wrong count or length, but still a well-formed entry.
fn disturbed(random: &mut Random, count: u8, mut rest: Vec<u8>) -> (u8, Vec<u8>) {
    if random.chance(90) {
        return (count, rest);
    }
    match random.below(6) {
        0 => counted(random, count.wrapping_add(1), rest),
        1 => counted(random, count.saturating_sub(1), rest),
        2 => {
            rest.push(random.byte());
            (count.max(1), rest)
        }
        3 => {
            rest.pop();
            (if rest.is_empty() { 0 } else { count }, rest)
        }
        4 => (0, Vec::new()),
        _ => {
            let length = random.below(40);
            let count = random.byte();
            let rest = random.bytes(length);
            counted(random, count, rest)
        }
    }
}

/// The bytes that go with the count: none with 0, else at least one.
fn counted(random: &mut Random, count: u8, mut rest: Vec<u8>) -> (u8, Vec<u8>) {
    if count == 0 {
        rest.clear();
    } else if rest.is_empty() {
        rest.push(random.byte());
    }
    (count, rest)
}

/// A well-formed entry of the type.
pub fn any_entry(random: &mut Random, kind: u8) -> Vec<u8> {
    let length = random.pick(&[0, 0, 1, 2, 6, 30]);
    let rest = random.bytes(length);
    let many = random.pick(&[1, 2, 3, 255]);
    match kind {
        2 => {
            let count = if rest.is_empty() { 1 } else { many.max(2) };
            let context = blob(&any_context(random));
            notification(random, count, &context, &rest)
        }
        3 => {
            let count = if rest.is_empty() { 0 } else { many };
            response(random, count, &rest)
        }
        _ => any_command(random),
    }
}

/// An entry of the type with this count and these bytes, well formed or not.
fn entry_with(random: &mut Random, kind: u8, count: u8, rest: &[u8]) -> Vec<u8> {
    match kind {
        2 => {
            let context = blob(&any_context(random));
            notification(random, count, &context, rest)
        }
        3 => response(random, count, rest),
        _ => command(random.word(), random.pick(&MUTES), (4, 2), count, rest),
    }
}

/// A message that one entry spoils, whose count is above the least and which has no bytes.
pub fn count_without_bytes(random: &mut Random) -> Vec<u8> {
    let kind = random.pick(&[0, 1, 2, 3]);
    let least = u8::from(kind == 2);
    let count = random.pick(&[1, 1, 2, 3, 128, 254]) + least;
    let entry = entry_with(random, kind, count, &[]);
    among_sound(random, kind, entry)
}

/// A message that one entry spoils, which has bytes and the least count.
fn bytes_without_count(random: &mut Random) -> Vec<u8> {
    let kind = random.pick(&[0, 1, 2, 3]);
    let length = random.pick(&[1, 1, 2, 30]);
    let rest = random.bytes(length);
    let entry = entry_with(random, kind, u8::from(kind == 2), &rest);
    among_sound(random, kind, entry)
}

/// A notification whose context is above 64, or whose count runs past the entry.
pub fn overlong(random: &mut Random) -> Vec<u8> {
    let length = random.pick(&[0, 0, 1, 6]);
    let rest = random.bytes(length);
    let count = if rest.is_empty() { 1 } else { 2 };
    let context = if random.chance(50) {
        blob(&long_context(random))
    } else {
        let context = any_context(random);
        // Emitter and event are 8 bytes that the count would reach into or past.
        let past = context.len() + rest.len() + random.pick(&[1, 1, 7, 8, 9, 256, 60_000]);
        stated(past as u16, &context)
    };
    notification(random, count, &context, &rest)
}

/// A message that such a notification spoils.
pub fn overlong_context(random: &mut Random) -> Vec<u8> {
    let entry = overlong(random);
    among_sound(random, 2, entry)
}

/// A message of the entry, with up to two well-formed ones before it and behind it.
fn among_sound(random: &mut Random, kind: u8, entry: Vec<u8>) -> Vec<u8> {
    let (before, behind) = (random.below(3), random.below(3));
    let mut entries: Vec<Vec<u8>> = (0..before + behind)
        .map(|_| any_entry(random, kind))
        .collect();
    entries.insert(before, entry);
    message(kind, &entries)
}

/// Seconds or milliseconds, of every size.
pub fn any_keep_alive(random: &mut Random) -> Vec<u8> {
    let form = random.pick(&[1, 2]);
    keep_alive(form, any_heartbeat(random, form))
}

/// A value of a keep-alive in its form's unit.
pub fn any_heartbeat(random: &mut Random, form: u8) -> u32 {
    if form == 1 {
        random.pick(&[0, 1, 1, 2, 2, 5, 30, 30, 255, 256, 3_600, 65_534, 65_535])
    } else {
        let odd = random.word() % 5_000;
        let largest = [u32::MAX, u32::MAX - 1, 1 << 31, 65_535_000, 65_536_000];
        let small = [0, 1, 2, 10, 500, 2_000, 2_000, 30_000, odd];
        if random.chance(35) {
            random.pick(&largest)
        } else {
            random.pick(&small)
        }
    }
}

/// A sound message of any type.
pub fn any_message(random: &mut Random) -> Vec<u8> {
    match random.weighted(&[54, 14, 8, 8, 16]) {
        0 => entries_of(random, 1),
        1 => entries_of(random, 0),
        2 => entries_of(random, 2),
        3 => entries_of(random, 3),
        _ => any_keep_alive(random),
    }
}

/// A sound message of entries of the type, one or more.
pub fn entries_of(random: &mut Random, kind: u8) -> Vec<u8> {
    let most = match random.weighted(&[58, 26, 11, 5]) {
        0 => 1,
        1 => 2 + random.below(3),
        2 => 5 + random.below(16),
        _ => 300,
    };
    let mut entries = vec![any_entry(random, kind)];
    let mut length = entries[0].len();
    while entries.len() < most {
        let next = any_entry(random, kind);
        length += next.len();
        if length > LARGEST_DATA {
            break;
        }
        entries.push(next);
    }
    message(kind, &entries)
}

/// One entry that makes the message's pduSize exactly this, where it can.
pub fn of_size(random: &mut Random, kind: u8, size: u32) -> Vec<u8> {
    let data = size.saturating_sub(9) as usize;
    let least = match kind {
        2 => 23,
        3 => 10,
        _ => 17,
    };
    if data < least {
        let data = random.bytes(data);
        return framed(1, size, kind, 1, &data);
    }
    let mut rest = random.bytes(data - least);
    let mut context = any_context(random);
    if kind == 2 {
        context.truncate(rest.len());
        rest.truncate(rest.len() - context.len());
    }
    let count = if rest.is_empty() { 0 } else { 3 };
    let entry = match kind {
        2 => notification(random, count.max(1), &blob(&context), &rest),
        3 => response(random, count, &rest),
        _ => command(random.word(), random.pick(&MUTES), (4, 1), count, &rest),
    };
    message(kind, &[entry])
}

/// A sound message made worse in one place, or sometimes left sound.
pub fn any_damaged(random: &mut Random) -> Vec<u8> {
    let mut bytes = any_message(random);
    match random.below(14) {
        place @ 0..=4 => damage_header(random, &mut bytes, place),
        5 => {
            let last = bytes.len() - 1;
            bytes[last] = bytes[last].wrapping_add(1);
        }
        6 => {
            if let Some(byte) = bytes.get_mut(13) {
                *byte = byte.wrapping_add(1);
            }
        }
        7 => bytes.truncate(random.below(bytes.len())),
        8 => {
            let kind = random.pick(&[0, 1, 2, 3, 4]);
            let size = random.pick(&[9, 10, 11, 13, 2_047, 2_048, 2_049]);
            bytes = of_size(random, kind, size);
        }
        9 => {
            let length = random.below(40);
            bytes = random.bytes(length);
            if random.chance(70) && bytes.len() > 3 {
                bytes[..3].copy_from_slice(&[0x3B, 0, 1]);
            }
        }
        10 => bytes = count_without_bytes(random),
        11 => bytes = bytes_without_count(random),
        12 => bytes = overlong_context(random),
        _ => {
            let at = random.below(bytes.len());
            bytes[at] = random.byte();
        }
    }
    bytes
}

/// Another first byte, version, size, type or count, by its place in the message.
fn damage_header(random: &mut Random, bytes: &mut Vec<u8>, place: usize) {
    match place {
        0 => bytes[0] = random.byte(),
        1 => bytes[1 + random.below(2)] = random.byte(),
        2 => {
            let size = random.pick(&[0, 8, 9, 10, 11, 12, 13, 2_047, 2_048, 2_049, 2_627, 65_545]);
            bytes.splice(3..7, u32::to_be_bytes(size));
        }
        3 => bytes[7] = random.pick(&[0, 1, 2, 3, 4, 5, 6, 255]),
        _ => {
            let count = random.pick(&[0, 0, 1, 2, 3, 119, 256, 65_535]);
            bytes.splice(8..10, u16::to_be_bytes(count));
        }
    }
}

/// The scope paper's messages, and one of each kind besides.
pub fn samples() -> Vec<Vec<u8>> {
    let mut random = Random::new(70);
    let name = naming(4_098, joined(EVENT), 9, joined((3, 1)));
    let context = blob(&[1, 2, 3, 4]);
    let add = command(1, 4, (3, 1), 5, &adding(&name, &context, 1, [0, 0]));
    let remove = command(2, 4, (3, 2), 2, &name);
    let set = command(3, 4_097, (4, 2), 1, &[1]);
    let lock = command(7, 4_097, (1, 3), 0, &[]);
    let key = reset::setting(&reset::KEYS[2], b"239.1.0.255", 65_001);
    vec![
        keep_alive(1, 2),
        keep_alive(2, 2_000),
        message(1, std::slice::from_ref(&lock)),
        message(3, &[response(&mut random, 0, &[])]),
        message(
            3,
            &[
                response(&mut random, 1, &[1, 2]),
                response(&mut random, 1, &[0]),
            ],
        ),
        message(
            2,
            &[notification(&mut random, 2, &context, &[0, 4, 0, 1, 1, 1])],
        ),
        message(2, &[notification(&mut random, 1, &context, &[])]),
        message(2, &[notification(&mut random, 1, &blob(&[]), &[])]),
        message(1, std::slice::from_ref(&add)),
        message(1, &[set.clone(), remove]),
        message(0, &[set, add]),
        message(1, &[command(4, 1, (1, 1), 0, &[]), lock]),
        message(1, &[command(5, 1, (3, 14), 2, &key)]),
    ]
}
