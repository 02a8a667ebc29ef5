//! Entries that just fit and just do not.

use crate::harness::call::Call;
use crate::harness::desk::Desk;
use crate::harness::session::Checked;
use crate::harness::traffic::{self, command};

/// The three calls of the writer, with the sample's first entry.
pub fn write_all(desk: &mut Desk<'_, '_>, buffer: Vec<u8>, sample: &[u8]) -> Checked<()> {
    let kind = sample[7];
    let size = sample.get(13).map_or(0, |size| usize::from(*size));
    let entry = sample.get(10..10 + size).unwrap_or_default().to_vec();
    desk.session.check(Call::Start {
        buffer: buffer.clone(),
        kind,
        entry: entry.clone(),
    })?;
    let mut filled = buffer.clone();
    if filled.len() >= sample.len() {
        filled[..sample.len()].copy_from_slice(sample);
    }
    desk.session.check(Call::Append {
        buffer: filled,
        kind,
        entry,
    })?;
    desk.session.check(Call::KeepAlive {
        buffer,
        form: 1 + kind % 2,
        value: 30,
    })?;
    Ok(())
}

/// Entries that just fit and just do not, started and appended.
pub fn writer(desk: &mut Desk<'_, '_>) -> Checked<()> {
    for kind in 0..6 {
        for size in 2_030..2_070 {
            let entry = traffic::of_size(&mut desk.random, kind, size).split_off(10);
            let buffer = desk.random.bytes(2_049);
            desk.session.check(Call::Start {
                buffer,
                kind,
                entry,
            })?;
            fill_up(desk, kind.min(3), size)?;
        }
        bad_entries(desk, kind)?;
    }
    append_to_bad_headers(desk)
}

/// Appends to messages with every fault of the header, and two at once.
fn append_to_bad_headers(desk: &mut Desk<'_, '_>) -> Checked<()> {
    let entry = command(1, 4_097, (4, 1), 0, &[]);
    for version in [1, 2] {
        for size in [26, 27, 9, 8, 2_049] {
            for kind in [0, 1, 2, 3, 4, 5, 6, 7, 8, 16, 127, 128, 255] {
                for count in [1, 0, 2, 257] {
                    let front = traffic::framed(version, size, kind, count, &entry);
                    let mut buffer = desk.random.bytes(2_049);
                    buffer[..front.len()].copy_from_slice(&front);
                    for kind in [1, kind] {
                        desk.session.check(Call::Append {
                            buffer: buffer.clone(),
                            kind,
                            entry: entry.clone(),
                        })?;
                    }
                    let call = Call::ReadMessage { bytes: front };
                    desk.session.check(call)?;
                }
            }
        }
    }
    Ok(())
}

/// Appends an entry that brings the message to exactly this pduSize, or past
/// the limit, and one that is not well formed besides being too long.
fn fill_up(desk: &mut Desk<'_, '_>, kind: u8, size: u32) -> Checked<()> {
    let half = traffic::of_size(&mut desk.random, kind, 1_000);
    let rest = traffic::of_size(&mut desk.random, kind, size - 991).split_off(10);
    let mut buffer = desk.random.bytes(2_060);
    buffer[..half.len()].copy_from_slice(&half);
    let mut worse = rest.clone();
    worse[3] ^= 1;
    for entry in [rest, worse] {
        desk.session.check(Call::Append {
            buffer: buffer.clone(),
            kind,
            entry,
        })?;
    }
    Ok(())
}

/// Every byte of a well-formed entry changed.
fn bad_entries(desk: &mut Desk<'_, '_>, kind: u8) -> Checked<()> {
    for _ in 0..4 {
        let entry = traffic::any_entry(&mut desk.random, kind.min(3));
        for at in 0..entry.len() {
            for by in [1, 128, 255] {
                let mut entry = entry.clone();
                entry[at] ^= by;
                let buffer = desk.random.bytes(2_049);
                desk.session.check(Call::Start {
                    buffer,
                    kind,
                    entry,
                })?;
            }
        }
    }
    Ok(())
}
