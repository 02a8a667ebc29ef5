//! Reader and writer.

mod asking;

use asking::{asking, command, commands};
use melorwyth::record::BUFFER;
use melorwyth::{Fault, Heartbeat, Refusal, number};
use std::ops::Range;

/// A notification: its size, target, method, count, context and its count, emitter, event, parameters.
fn notification(context: &[u8], parameters: &[u8]) -> Vec<u8> {
    let mut entry = Vec::new();
    let size = 23 + context.len() + parameters.len();
    for word in [size as u32, 77, 0x0003_0009] {
        entry.extend(word.to_be_bytes());
    }
    entry.push(if parameters.is_empty() { 1 } else { 2 });
    entry.extend((context.len() as u16).to_be_bytes());
    entry.extend(context);
    for word in [4_100, number::EVENT_CHANGE] {
        entry.extend(word.to_be_bytes());
    }
    entry.extend(parameters);
    entry
}

fn started(kind: u8, entry: &[u8]) -> Vec<u8> {
    let mut buffer = [0; BUFFER];
    let length = melorwyth::start(&mut buffer, kind, entry).expect("well formed");
    buffer[..length].to_vec()
}

/// Where a part of the bytes lies in them.
fn place(bytes: &[u8], part: &[u8]) -> Range<usize> {
    let start = part.as_ptr() as usize - bytes.as_ptr() as usize;
    start..start + part.len()
}

#[test]
fn an_entrys_part_is_the_callers_own_bytes() {
    let set = command(1, 4_097, number::METHOD_SET, 1, &[2]);
    let mut message = commands(&[set.clone(), set]);
    message.extend([9; 5]);
    assert_eq!(place(&message, melorwyth::entry_part(&message, 0)), 27..28);
    assert_eq!(place(&message, melorwyth::entry_part(&message, 1)), 45..46);
    assert_eq!(melorwyth::entry_context(&message, 0), []);

    let message = started(number::TYPE_NOTIFICATION, &notification(b"abc", b"xy"));
    assert_eq!(
        place(&message, melorwyth::entry_context(&message, 0)),
        25..28
    );
    assert_eq!(place(&message, melorwyth::entry_part(&message, 0)), 36..38);
    let entry = melorwyth::read_entry(&message, 0).expect("an entry");
    assert_eq!((entry.target, entry.emitter), (77, 4_100));
    assert_eq!((entry.level, entry.index), (3, 9));
    assert_eq!((entry.event_level, entry.event_index), (1, 1));
    assert_eq!((entry.count, entry.context_count), (2, 3));
}

#[test]
fn a_refused_entry_has_an_empty_part() {
    let sound = started(number::TYPE_NOTIFICATION, &notification(b"abc", b"xy"));
    let mut faulty = sound.clone();
    faulty[7] = 9;
    let beat = asking::keep_alive(Heartbeat::Seconds(1));
    for (bytes, index, refusal) in [
        (sound.as_slice(), 1, Refusal::NoEntry),
        (&sound, usize::MAX, Refusal::NoEntry),
        (&sound[..sound.len() - 1], 0, Refusal::Short),
        (&[], 0, Refusal::Short),
        (&faulty, 0, Refusal::Fault(Fault::Type)),
        (&beat, 0, Refusal::NoEntry),
    ] {
        assert_eq!(melorwyth::read_entry(bytes, index), Err(refusal));
        assert_eq!(melorwyth::entry_part(bytes, index), []);
        assert_eq!(melorwyth::entry_context(bytes, index), []);
    }
}

#[test]
fn a_message_is_read_as_a_whole() {
    let lock = asking(1, 4_097, number::METHOD_LOCK);
    let message = melorwyth::read_message(&lock).expect("sound");
    assert_eq!(message.kind, number::TYPE_COMMAND_WANTING_REPLY);
    assert_eq!((message.count, message.heartbeat), (1, None));
    assert_eq!(message.length, 27);
    for length in 0..lock.len() {
        let read = melorwyth::read_message(&lock[..length]);
        assert_eq!(read, Err(Refusal::Short));
    }
}

#[test]
fn a_keep_alive_is_read_as_it_was_written() {
    for (heartbeat, milliseconds, length) in [
        (Heartbeat::Seconds(0), 0, 12),
        (Heartbeat::Seconds(65_535), 65_535_000, 12),
        (Heartbeat::Milliseconds(0), 0, 14),
        (Heartbeat::Milliseconds(65_536), 65_536, 14),
        (Heartbeat::Milliseconds(u32::MAX), 4_294_967_295, 14),
    ] {
        assert_eq!(heartbeat.milliseconds(), milliseconds);
        let bytes = asking::keep_alive(heartbeat);
        let message = melorwyth::read_message(&bytes).expect("sound");
        assert_eq!(message.kind, number::TYPE_KEEP_ALIVE);
        assert_eq!((message.count, message.length), (1, length));
        assert_eq!(message.heartbeat, Some(heartbeat));
    }
}

#[test]
fn the_writer_refuses_and_leaves_the_buffer() {
    let entry = command(1, 4_097, number::METHOD_LOCK, 0, &[]);
    let kind = number::TYPE_COMMAND;
    let mut short = [7; BUFFER - 1];
    assert_eq!(
        melorwyth::start(&mut short, kind, &entry),
        Err(Refusal::NoRoom)
    );
    let beat = melorwyth::keep_alive(&mut short, Heartbeat::Seconds(1));
    assert_eq!(beat, Err(Refusal::NoRoom));
    assert_eq!(short, [7; BUFFER - 1]);

    let mut buffer = [7; BUFFER];
    let started = melorwyth::start(&mut buffer, number::TYPE_RESPONSE, &entry[..9]);
    assert_eq!(started, Err(Refusal::BadEntry));
    let appended = melorwyth::append(&mut buffer, kind, &entry);
    assert_eq!(appended, Err(Refusal::Fault(Fault::Start)));
    let longest = command(1, 1, 1, 1, &[0; 2_048]);
    let started = melorwyth::start(&mut buffer, kind, &longest);
    assert_eq!(started, Err(Refusal::TooLong));
    assert_eq!(buffer, [7; BUFFER]);
}

#[test]
fn so_many_least_commands_fit() {
    let entry = command(1, 4_097, number::METHOD_LOCK, 0, &[]);
    let kind = number::TYPE_COMMAND;
    let mut buffer = [7; BUFFER];
    let mut length = melorwyth::start(&mut buffer, kind, &entry);
    for count in 2..=119 {
        length = melorwyth::append(&mut buffer, kind, &entry);
        assert_eq!(length, Ok(10 + 17 * count));
    }
    assert_eq!(length, Ok(2_033));
    let before = buffer;
    let more = melorwyth::append(&mut buffer, kind, &entry);
    assert_eq!(more, Err(Refusal::TooLong));
    assert_eq!(buffer, before);
    assert_eq!(melorwyth::read_message(&buffer).map(|m| m.count), Ok(119));
}
