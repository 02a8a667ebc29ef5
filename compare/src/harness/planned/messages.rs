//! Messages: every byte damaged, every cut, every size, every method, every entry.

use crate::harness::call::Call;
use crate::harness::desk::Desk;
use crate::harness::session::Checked;
use crate::harness::traffic::{self, command, message};

/// Counts and lengths that some method wants, and some that none wants; all are well formed.
const ARGUMENTS: [(u8, usize); 10] = [
    (0, 0),
    (1, 1),
    (5, 25),
    (2, 16),
    (2, 20),
    (1, 2),
    (2, 1),
    (5, 1),
    (5, 24),
    (2, 17),
];
/// Objects there are and are not.
const TARGETS: [u32; 14] = [
    0,
    1,
    2,
    3,
    4,
    5,
    4_096,
    4_097,
    4_098,
    4_103,
    4_104,
    4_105,
    8_193,
    u32::MAX,
];

/// Every byte of every sample changed, in several ways.
pub fn damaged_samples(desk: &mut Desk<'_, '_>) -> Checked<()> {
    desk.open()?;
    desk.open()?;
    for sample in traffic::samples() {
        for at in 0..sample.len() {
            let byte = sample[at];
            let others = [byte ^ 1, byte ^ 128, 0, 255, byte.wrapping_sub(1)];
            for other in others.into_iter().filter(|other| *other != byte) {
                let mut bytes = sample.clone();
                bytes[at] = other;
                offer(desk, &bytes)?;
            }
        }
    }
    Ok(())
}

/// Reads the bytes, delivers them whole to connection 1, and appends to them;
/// the state stays.
fn offer(desk: &mut Desk<'_, '_>, bytes: &[u8]) -> Checked<()> {
    let call = desk.delivering(1, bytes);
    desk.session.check(call)?;
    let bytes = bytes.to_vec();
    let kind = bytes[7];
    desk.session.check(Call::ReadMessage {
        bytes: bytes.clone(),
    })?;
    for index in [0, 1] {
        let bytes = bytes.clone();
        desk.session.check(Call::ReadEntry { bytes, index })?;
    }
    desk.session.check(Call::EntryPart {
        bytes: bytes.clone(),
        index: 0,
    })?;
    desk.session.check(Call::EntryContext {
        bytes: bytes.clone(),
        index: 0,
    })?;
    let mut buffer = desk.random.bytes(2_049);
    buffer[..bytes.len()].copy_from_slice(&bytes);
    let entry = traffic::any_entry(&mut desk.random, kind.min(3));
    desk.session.check(Call::Append {
        buffer,
        kind,
        entry,
    })?;
    Ok(())
}

/// Every sample cut at every place: read short, and delivered in two pieces.
pub fn cut_samples(desk: &mut Desk<'_, '_>) -> Checked<()> {
    desk.open()?;
    for sample in traffic::samples() {
        for cut in 0..=sample.len() {
            let bytes = sample[..cut].to_vec();
            desk.session.check(Call::ReadMessage {
                bytes: bytes.clone(),
            })?;
            desk.ask_for(&bytes, 0)?;
            desk.piece(0, &sample[..cut])?;
            desk.piece(0, &[])?;
            desk.piece(0, &sample[cut..])?;
        }
    }
    Ok(())
}

/// Sizes at both limits, for every type, whole and cut.
pub fn sizes(desk: &mut Desk<'_, '_>) -> Checked<()> {
    desk.open()?;
    for kind in 0..5 {
        for size in [
            0, 8, 9, 10, 11, 12, 13, 14, 19, 26, 32, 2_047, 2_048, 2_049, 2_050,
        ] {
            for _ in 0..3 {
                let bytes = traffic::of_size(&mut desk.random, kind, size);
                let cut = desk.random.below(bytes.len() + 1);
                offer(desk, &bytes[..bytes.len().min(2_049)])?;
                desk.piece(0, &bytes[..cut])?;
                desk.deliver(0, &bytes[cut..])?;
                desk.close(0)?;
                desk.open()?;
            }
        }
    }
    for (target, method) in [(4_097, (1, 1)), (1, (1, 1)), (99, (1, 1)), (4_100, (4, 1))] {
        for count in [118, 119, 120] {
            let full = message(1, &vec![command(5, target, method, 0, &[]); count]);
            desk.deliver(0, &full)?;
            desk.close(0)?;
            desk.open()?;
        }
    }
    Ok(())
}

/// Every entry asked for, of messages of every type; then the same with each
/// entry in turn a byte shorter or longer than it says, and all are refused.
pub fn every_entry(desk: &mut Desk<'_, '_>) -> Checked<()> {
    desk.open()?;
    desk.open()?;
    for kind in 0..4 {
        for count in [1, 2, 3, 7] {
            let entries: Vec<Vec<u8>> = (0..count)
                .map(|_| traffic::any_entry(&mut desk.random, kind))
                .collect();
            ask_for_all(desk, &message(kind, &entries), count)?;
            for broken in 0..count {
                for other in [1, 255] {
                    let mut entries = entries.clone();
                    entries[broken][3] = entries[broken][3].wrapping_add(other);
                    let bytes = message(kind, &entries);
                    ask_for_all(desk, &bytes, count)?;
                    let call = desk.delivering(1, &bytes);
                    desk.session.check(call)?;
                }
            }
        }
        most_entries(desk, kind)?;
    }
    Ok(())
}

/// The most entries that fit a message, and one of them broken.
fn most_entries(desk: &mut Desk<'_, '_>, kind: u8) -> Checked<()> {
    let least = traffic::of_size(&mut desk.random, kind, [26, 26, 32, 19][usize::from(kind)]);
    let mut entries = vec![least[10..].to_vec(); traffic::LARGEST_DATA / (least.len() - 10)];
    let last = entries.len() - 1;
    for index in [0, 1, last / 2, last, last + 1] {
        desk.ask_for(&message(kind, &entries), index)?;
    }
    entries[last][3] += 1;
    for index in [0, last] {
        desk.ask_for(&message(kind, &entries), index)?;
    }
    Ok(())
}

/// Every entry of so many, and the one behind them.
fn ask_for_all(desk: &mut Desk<'_, '_>, bytes: &[u8], count: usize) -> Checked<()> {
    for index in 0..=count {
        desk.ask_for(bytes, index)?;
    }
    Ok(())
}

/// Long messages one byte at a time.
pub fn byte_by_byte(desk: &mut Desk<'_, '_>) -> Checked<()> {
    desk.open()?;
    desk.open()?;
    let full = message(1, &vec![command(5, 4_097, (1, 1), 0, &[]); 119]);
    let largest = traffic::of_size(&mut desk.random, 0, 2_048);
    for (a, b) in full.iter().zip(largest.iter()) {
        desk.piece(0, &[*a])?;
        desk.piece(1, &[*b])?;
    }
    for byte in &largest[full.len()..] {
        desk.piece(1, &[*byte])?;
    }
    Ok(())
}

/// Every object and method there is and is not, with every count and length
/// that some method wants.
pub fn every_method(desk: &mut Desk<'_, '_>) -> Checked<()> {
    desk.open()?;
    desk.open()?;
    let mut entries = Vec::new();
    for target in TARGETS {
        for level in 0..6 {
            for index in [0, 1, 2, 3, 4, 5, 13, 14, 15, 257] {
                let (count, length) = desk.random.pick(&ARGUMENTS);
                let rest = arguments_of(desk, level, length);
                entries.push(command(
                    desk.random.word(),
                    target,
                    (level, index),
                    count,
                    &rest,
                ));
                for (count, length) in ARGUMENTS {
                    if level == 1 || (level > 2 && index < 3) || index == 14 {
                        let rest = arguments_of(desk, level, length);
                        entries.push(command(7, target, (level, index), count, &rest));
                    }
                }
            }
        }
    }
    for (place, some) in entries.chunks(12).enumerate() {
        let (n, bytes) = ((place % 2) as u8, message(1, some));
        let call = desk.delivering(n, &bytes);
        let answer = desk.piece(n, &bytes)?.unwrap_or_default();
        let kept = (answer.taken, answer.length > 0) == (bytes.len(), true);
        desk.session
            .demand(kept, "well-formed commands got no reply", call)?;
    }
    Ok(())
}

/// Bytes that are mostly right for the method that wants so many.
fn arguments_of(desk: &mut Desk<'_, '_>, level: u16, length: usize) -> Vec<u8> {
    let emitter = desk.random.pick(&[4_096, 4_097, 4_104, 4_105]);
    let name = traffic::naming(emitter, 0x0001_0001, 9, 0x0003_0001);
    let mut bytes = traffic::adding(&name, &traffic::blob(&[0, 0, 0, 7]), 1, [0, 0]);
    if level == 4 {
        bytes[0] = desk.random.pick(&[0, 1, 2, 3]);
    }
    bytes.truncate(length);
    bytes
}
