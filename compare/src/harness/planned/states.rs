//! Records, areas, numbers and lengths.

use super::HALF;
use super::writing::write_all;
use crate::harness::call::Call;
use crate::harness::damage;
use crate::harness::desk::{Desk, ROOM};
use crate::harness::reset;
use crate::harness::session::Checked;
use crate::harness::traffic::{self, command, keep_alive, message};
use crate::record::{AREA, Record, SHARE};

/// Lengths near the area's and far from it.
const WRONG_AREAS: [usize; 4] = [AREA - 1, AREA + 1, 0, 2_049];

/// Fresh records of many readings, each opened and ticked at once.
pub fn freshness(desk: &mut Desk<'_, '_>) -> Checked<()> {
    for _ in 0..100 {
        let reading = desk.random.word();
        desk.restart(reading)?;
        desk.take()?;
        desk.tick(reading)?;
        desk.open()?;
    }
    Ok(())
}

/// Counts so large that adding the step does not fit 64 bits: such a record
/// breaks a rule, so the refusal is 1.
pub fn beyond_64_bits(desk: &mut Desk<'_, '_>) -> Checked<()> {
    desk.make_busy()?;
    for n in 0..8 {
        for value in [u64::MAX, u64::MAX - 1, u64::MAX - u64::from(HALF)] {
            let mut silent = desk.record;
            silent.device.connections[n].silence = value;
            let mut quiet = desk.record;
            quiet.device.connections[n].quiet = value;
            for record in [silent, quiet] {
                desk.tick_from(record, &[0, 1, 2, HALF - 1, HALF, u32::MAX])?;
            }
        }
    }
    Ok(())
}

/// A full table: adding once more, adding what is held, and removing.
pub fn full_table(desk: &mut Desk<'_, '_>) -> Checked<()> {
    for _ in 0..3 {
        desk.open()?;
    }
    for round in 0..40 {
        desk.subscribe(round % 3, 8)?;
        for step in 0..12 {
            let method = [(3, 1), (3, 1), (3, 2)][step % 3];
            let n = desk.random.below(3) as u8;
            let emitter = 4_097 + desk.random.word() % 8;
            let object = 9 + desk.random.word() % 4;
            let name = traffic::naming(emitter, 0x0001_0001, object, 0x0003_0001);
            let entry = if method == (3, 1) {
                let context = traffic::blob(&traffic::any_context(&mut desk.random));
                command(
                    1,
                    4,
                    method,
                    5,
                    &traffic::adding(&name, &context, 1, [0, 0]),
                )
            } else {
                command(1, 4, method, 2, &name)
            };
            desk.deliver(n, &message(1, &[entry]))?;
            let value = desk.random.pick(&[1, 2]);
            let set = command(2, emitter, (4, 2), 1, &[value]);
            desk.deliver(n, &message(1, &[set]))?;
            desk.take()?;
        }
    }
    Ok(())
}

/// Records with every field at random, from none that keeps a rule to some
/// that keep most.
pub fn wild_records(desk: &mut Desk<'_, '_>) -> Checked<()> {
    desk.make_busy()?;
    for round in 0..300 {
        let mut record = desk.record;
        for _ in 0..1 + round % 60 {
            record = damage::any_change(&mut desk.random, &record);
        }
        for call in calls_on(desk, record) {
            desk.session.check(call)?;
        }
    }
    Ok(())
}

/// The six calls that are given a record.
pub fn calls_on(desk: &mut Desk<'_, '_>, record: Record) -> [Call; 6] {
    let area = desk.area.clone();
    let step = desk.random.pick(&[0, 1, 100, HALF - 1]);
    let n = desk.random.below(8) as u8;
    [
        Call::Open { record },
        Call::Close {
            record,
            area: area.clone(),
            n,
        },
        Call::Tick {
            record,
            area: area.clone(),
            reading: record.device.reading.wrapping_add(step),
        },
        Call::Deliver {
            record,
            area: area.clone(),
            n,
            piece: message(1, &[command(1, 4_097, (4, 2), 1, &[1])]),
            output: desk.random.bytes(ROOM),
        },
        Call::Take {
            record,
            output: desk.random.bytes(ROOM),
        },
        Call::Datagram {
            record,
            area,
            datagram: reset::asking(&record.device.mechanism.key),
        },
    ]
}

/// Every field of every part of a busy, a half-open and a fresh record.
pub fn damaged_records(desk: &mut Desk<'_, '_>) -> Checked<()> {
    change_all(desk, 5)?;
    desk.make_busy()?;
    change_all(desk, 1)?;
    for n in [1, 3, 6] {
        desk.close(n)?;
    }
    change_all(desk, 2)
}

/// Makes one call in so many of those there are for each change.
fn change_all(desk: &mut Desk<'_, '_>, one_in: usize) -> Checked<()> {
    for record in damage::every_change(&desk.record) {
        for call in calls_on(desk, record) {
            if desk.random.below(one_in) == 0 {
                desk.session.check(call)?;
            }
        }
    }
    Ok(())
}

/// Entries put in the place of others.
pub fn twins(desk: &mut Desk<'_, '_>) -> Checked<()> {
    desk.make_busy()?;
    for n in [1, 6] {
        desk.close(n)?;
    }
    for _ in 0..400 {
        let record = damage::twin(&mut desk.random, &desk.record);
        for call in calls_on(desk, record) {
            desk.session.check(call)?;
        }
    }
    Ok(())
}

/// Every kind of place in the area: the header, the end of the undecided
/// bytes, just after them, the middle, and the end of each share.
pub fn damaged_areas(desk: &mut Desk<'_, '_>) -> Checked<()> {
    desk.make_busy()?;
    desk.close(4)?;
    for n in 0..8 {
        let held = usize::from(desk.record.held[n]);
        let mut places: Vec<usize> = (0..14).collect();
        places.extend([held.saturating_sub(1), held, held + 1]);
        places.extend([1_000, 2_046, 2_047, 2_048]);
        for place in places {
            let byte = desk.area[n * SHARE + place];
            for other in [byte ^ 1, byte ^ 128, 255 - byte] {
                let mut area = desk.area.clone();
                area[n * SHARE + place] = other;
                calls_with(desk, area)?;
            }
        }
    }
    let area = desk.random.bytes(AREA);
    calls_with(desk, area)
}

/// The calls that are lent an area.
fn calls_with(desk: &mut Desk<'_, '_>, area: Vec<u8>) -> Checked<()> {
    let record = desk.record;
    let n = desk.random.below(9) as u8;
    let reading = record.device.reading.wrapping_add(5);
    desk.session.check(Call::Close {
        record,
        area: area.clone(),
        n,
    })?;
    desk.session.check(Call::Tick {
        record,
        area: area.clone(),
        reading,
    })?;
    let output = desk.random.bytes(ROOM);
    desk.session.check(Call::Deliver {
        record,
        area: area.clone(),
        n,
        piece: vec![0],
        output,
    })?;
    desk.session.check(Call::Datagram {
        record,
        area,
        datagram: reset::asking(&record.device.mechanism.key),
    })?;
    Ok(())
}

/// Areas, outputs and buffers one byte short and long, and empty.
pub fn lengths(desk: &mut Desk<'_, '_>) -> Checked<()> {
    desk.open()?;
    for length in WRONG_AREAS {
        for _ in 0..30 {
            calls_with(desk, vec![0; length])?;
            let area = desk.random.bytes(length);
            desk.session.check(Call::Clear { area })?;
        }
    }
    let record = desk.record;
    for length in [0, 1, 20, 2_048, 2_049, 4_095, 4_096, 4_097] {
        for sample in traffic::samples() {
            let output = desk.random.bytes(length);
            desk.session.check(Call::Deliver {
                record,
                area: desk.area.clone(),
                n: 0,
                piece: sample.clone(),
                output: output.clone(),
            })?;
            desk.session.check(Call::Take {
                record,
                output: output.clone(),
            })?;
            write_all(desk, output, &sample)?;
        }
    }
    Ok(())
}

/// Every connection number, and every form of a keep-alive to be written.
pub fn numbers(desk: &mut Desk<'_, '_>) -> Checked<()> {
    for _ in 0..5 {
        desk.open()?;
    }
    desk.close(2)?;
    for n in 0..=255 {
        let call = desk.closing(n);
        desk.session.check(call)?;
        let call = desk.delivering(n, &keep_alive(2, 9));
        desk.session.check(call)?;
        for value in [0, 65_535, 65_536, u32::MAX] {
            let buffer = desk.random.bytes(2_049);
            desk.session.check(Call::KeepAlive {
                buffer,
                form: n,
                value,
            })?;
        }
    }
    // Nine openings on eight places, many times over.
    for n in 0..120 {
        for _ in 0..9 {
            desk.open()?;
        }
        desk.close(n % 8)?;
    }
    Ok(())
}
