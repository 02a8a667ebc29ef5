//! Heartbeats at their limits, and clocks that tick often or seldom.

use super::HALF;
use crate::harness::call::{Answer, Call};
use crate::harness::desk::Desk;
use crate::harness::session::Checked;
use crate::harness::traffic::{keep_alive, message};
use crate::record::Record;

/// Every heartbeat at its limits: due at H, closed at 3 x H.
pub fn supervision(desk: &mut Desk<'_, '_>) -> Checked<()> {
    let seconds = [0, 1, 2, 30, 65_535].map(|value| (1, value, value * 1_000));
    let milliseconds = [0, 1, 2, 2_000, 65_535_000, 500_000_000].map(|value| (2, value, value));
    for (form, value, beat) in seconds.into_iter().chain(milliseconds) {
        for before in 0..3 {
            desk.open()?;
            desk.deliver(0, &keep_alive(form, value))?;
            for step in [beat.saturating_sub(1), 1, before.min(beat)] {
                desk.tick(step)?;
                desk.take()?;
            }
            let silence = desk.record.device.connections[0].silence as u32;
            let left = (3 * beat).saturating_sub(silence);
            desk.tick(left.saturating_sub(1))?;
            desk.take()?;
            let heard = [keep_alive(1, 0), message(3, &[])];
            desk.piece(0, &heard[before as usize % 2][..5])?;
            desk.tick(1)?;
            desk.tick(HALF - 1)?;
            desk.tick(HALF)?;
            desk.tick(u32::MAX)?;
            desk.close(0)?;
        }
    }
    Ok(())
}

/// Silence and 3 x H beyond 32 bits.
pub fn long_silence(desk: &mut Desk<'_, '_>) -> Checked<()> {
    for value in [u32::MAX, HALF, 1_431_655_765, 1_431_655_766] {
        for n in 0..8 {
            desk.open()?;
            desk.deliver(n, &keep_alive(2, value - u32::from(n)))?;
        }
        let limit = 3 * u64::from(value);
        let mut past = 0;
        while past + u64::from(HALF) < limit - 30 {
            desk.tick(HALF - 1)?;
            desk.take()?;
            past += u64::from(HALF) - 1;
        }
        desk.tick((limit - 30 - past) as u32)?;
        for _ in 0..31 {
            desk.tick(1)?;
        }
    }
    Ok(())
}

/// The greatest counts that the rules let stand, under the longest steps, and
/// the next greater ones, which break a rule.
pub fn greatest_counts(desk: &mut Desk<'_, '_>) -> Checked<()> {
    let greatest = [
        (1, 65_535, 65_535_000_u64),
        (2, u32::MAX, u64::from(u32::MAX)),
    ];
    for (form, value, beat) in greatest {
        for n in 0..8 {
            desk.restart(u32::MAX)?;
            for _ in 0..=n {
                desk.open()?;
            }
            desk.deliver(n, &keep_alive(form, value))?;
            desk.tick(1)?;
            for (silence, quiet) in [(3 * beat - 1, 0), (0, beat - 1), (3 * beat - 1, beat - 1)] {
                count_on(desk, n, silence, quiet)?;
                count_on(desk, n, silence + 1, quiet)?;
                count_on(desk, n, silence, quiet + 1)?;
            }
            for count in [u64::from(u32::MAX), 1 << 32, (1 << 32) + 1] {
                count_on(desk, n, count, 0)?;
                count_on(desk, n, 0, count)?;
            }
        }
    }
    Ok(())
}

/// Ticks from the desk's record with these counts of connection n.
fn count_on(desk: &mut Desk<'_, '_>, n: u8, silence: u64, quiet: u64) -> Checked<()> {
    let mut record = desk.record;
    let connection = &mut record.device.connections[usize::from(n)];
    connection.silence = silence;
    connection.quiet = quiet;
    desk.tick_from(record, &[0, 1, HALF - 2, HALF - 1, HALF, u32::MAX])
}

/// Ticks in many ways, each held to one tick that brings the same time
/// (document 02 (xiii)), from a device that serves, one that falls silent and
/// ones that are refused.
pub fn slow_clocks(desk: &mut Desk<'_, '_>) -> Checked<()> {
    for before in [0, 1, 899, 1_300, 1_900, 2_399, 3_900, 58_000] {
        desk.restart(4_294_966_000)?;
        desk.make_busy()?;
        desk.tick(before)?;
        let record = desk.record;
        let area = desk.area.clone();
        clocks(desk, record, &area)?;
        let mut broken = record;
        broken.device.holders[3] = 9;
        as_one(desk, broken, &area, &[100; 60])?;
        let mut stray = area.clone();
        stray[8_000] ^= 1;
        as_one(desk, record, &stray, &[100; 60])?;
        as_one(desk, broken, &stray, &[])?;
    }
    Ok(())
}

/// No tick, steps of 0, every millisecond, ten times a second, cut anywhere
/// below half a round, and at random.
fn clocks(desk: &mut Desk<'_, '_>, record: Record, area: &[u8]) -> Checked<()> {
    as_one(desk, record, area, &[])?;
    as_one(desk, record, area, &[0, 0, 0])?;
    as_one(desk, record, area, &[1; 100])?;
    as_one(desk, record, area, &[100; 60])?;
    as_one(desk, record, area, &[100; 130])?;
    for first in [0, 1, 300, 4_500, 100_000, 196_605_000, HALF - 1] {
        as_one(desk, record, area, &[first, HALF - 1 - first])?;
    }
    for _ in 0..24 {
        let most = [10, 700, 70_000, 60_000_000][desk.random.below(4)];
        let steps: Vec<u32> = (0..desk.random.below(24))
            .map(|_| desk.random.below(most) as u32)
            .collect();
        as_one(desk, record, area, &steps)?;
    }
    Ok(())
}

/// Ticks by each of these steps leave the record and the area, and close the
/// connections, that one tick by their sum does; and each is refused that is.
fn as_one(desk: &mut Desk<'_, '_>, record: Record, area: &[u8], steps: &[u32]) -> Checked<()> {
    let ticking = |record: Record, area: &[u8], reading: u32| Call::Tick {
        record,
        area: area.to_vec(),
        reading,
    };
    let last = steps
        .iter()
        .fold(record.device.reading, |at, step| at.wrapping_add(*step));
    let call = ticking(record, area, last);
    let one = desk.session.check(call.clone())?;
    let (mut left, mut lent, mut closed) = (record, area.to_vec(), 0);
    let mut reading = record.device.reading;
    let mut alike = true;
    for step in steps {
        reading = reading.wrapping_add(*step);
        let outcome = desk.session.check(ticking(left, &lent, reading))?;
        if let Answer::Ticked(answer) = outcome.answer {
            alike &= answer.number == one.answer.number();
            left = answer.record;
            closed |= answer.closed;
        }
        lent = outcome.area;
    }
    let is_one = |answer: &Answer| matches!(answer, Answer::Ticked(t) if t.record == left && t.closed == closed);
    let kept = alike && is_one(&one.answer) && one.area == lent;
    desk.session.counts.count_clock(closed);
    desk.session.demand(
        kept,
        "ticks do not come to the one of all their steps",
        call,
    )
}
