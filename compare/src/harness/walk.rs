//! Random whole sequences of calls.

use super::call::{Answer, Call};
use super::codec;
use super::damage;
use super::desk::{Desk, ROOM};
use super::random::Random;
use super::reset;
use super::session::{Checked, Session};
use super::traffic;
use crate::answer::CLOSED;
use crate::record::Record;

/// A device lives so many calls before a fresh one takes its place.
const LIFE: u64 = 1_500;
/// Readings to begin with, some just before the counter goes round.
const READINGS: [u32; 5] = [0, 1, u32::MAX - 300, u32::MAX, 1 << 31];
const HALF: u32 = 1 << 31;

/// Walks until the session has made so many calls more.
pub fn walk(session: &mut Session<'_>, random: Random, calls: u64) -> Checked<()> {
    let end = session.steps() + calls;
    let desk = Desk::new(session, random, 0)?;
    let mut walk = Walk {
        desk,
        streams: Default::default(),
    };
    while walk.desk.session.steps() < end {
        walk.live(end)?;
    }
    Ok(())
}

/// A desk, and what is still to be sent on each connection.
struct Walk<'s, 'e> {
    desk: Desk<'s, 'e>,
    streams: [Vec<u8>; 8],
}

impl Walk<'_, '_> {
    fn live(&mut self, end: u64) -> Checked<()> {
        let random = &mut self.desk.random;
        let reading = if random.chance(30) {
            random.word()
        } else {
            random.pick(&READINGS)
        };
        self.desk.restart(reading)?;
        let end = end.min(self.desk.session.steps() + LIFE);
        while self.desk.session.steps() < end {
            self.step()?;
        }
        Ok(())
    }

    fn step(&mut self) -> Checked<()> {
        let weights = [7, 2, 12, 10, 40, 9, 6, 9, 1, 6];
        match self.desk.random.weighted(&weights) {
            0 => self.desk.open().map(drop),
            1 => self.close(),
            2 => self.tick(),
            3 => self.take(),
            4 => self.deliver(),
            5 => self.spoiled(),
            6 => codec::read(&mut self.desk),
            7 => codec::write(&mut self.desk),
            8 => codec::round_trip(&mut self.desk),
            _ => self.datagram(),
        }
    }

    fn any_number(&mut self) -> u8 {
        let random = &mut self.desk.random;
        if random.chance(90) {
            random.below(8) as u8
        } else {
            random.pick(&[8, 9, 15, 16, 128, 255])
        }
    }

    fn close(&mut self) -> Checked<()> {
        let n = self.any_number();
        self.desk.close(n)?;
        Ok(())
    }

    fn tick(&mut self) -> Checked<()> {
        let step = self.any_step();
        self.desk.tick(step)?;
        Ok(())
    }

    fn any_step(&mut self) -> u32 {
        let random = &mut self.desk.random;
        match random.weighted(&[38, 16, 16, 5, 8, 3, 6, 8]) {
            0 => 1 + random.word() % 500,
            1 => self.step_to_limit(3),
            2 => self.step_to_limit(1),
            3 => 0,
            4 => 1 + random.word() % 100_000,
            5 => random.pick(&[HALF - 1, HALF - 2]),
            6 => random.pick(&[HALF, HALF + 1, u32::MAX, u32::MAX - 1]),
            _ => {
                if random.chance(20) {
                    random.word()
                } else {
                    random.word() % 3_000
                }
            }
        }
    }

    /// A step that brings a connection's silence to 3 x H or its quiet to H,
    /// or one less or more.
    fn step_to_limit(&mut self, times: u64) -> u32 {
        let n = self.desk.random.below(8);
        let connection = self.desk.record.device.connections[n];
        let past = if times == 3 {
            connection.silence
        } else {
            connection.quiet
        };
        let exact = (times * connection.beat).saturating_sub(past);
        let around = exact.saturating_add(self.desk.random.pick(&[0, 1, 2]));
        let step = around.saturating_sub(1).min(u64::from(HALF) - 1);
        step as u32
    }

    fn take(&mut self) -> Checked<()> {
        let output = self.any_output();
        let record = self.desk.record;
        self.desk.advance(Call::Take { record, output })?;
        Ok(())
    }

    fn datagram(&mut self) -> Checked<()> {
        let mechanism = self.desk.record.device.mechanism;
        let datagram = reset::any_datagram(&mut self.desk.random, &mechanism);
        // Mostly left behind, so that a device lives long enough to be busy.
        if self.desk.random.chance(75) {
            let call = self.desk.resetting(&datagram);
            return self.desk.session.check(call).map(drop);
        }
        let outcome = self.desk.datagram(&datagram)?;
        if let Answer::Reset(answer) = outcome.answer
            && answer.reset == 1
        {
            self.streams = Default::default();
        }
        Ok(())
    }

    /// An output mostly long enough, filled at random.
    fn any_output(&mut self) -> Vec<u8> {
        let random = &mut self.desk.random;
        let length = match random.weighted(&[80, 14, 6]) {
            0 => ROOM,
            1 => ROOM + random.below(400),
            _ => random.pick(&[ROOM - 1, ROOM - 1, 2_049, 20, 0]),
        };
        random.bytes(length)
    }

    fn deliver(&mut self) -> Checked<()> {
        let n = self.any_number();
        if !self.desk.is_open(n) && self.desk.random.chance(80) {
            return self.desk.open().map(drop);
        }
        let Some(stream) = self.streams.get(usize::from(n)) else {
            return self.desk.piece(n, &[0x3B]).map(drop);
        };
        if stream.is_empty() || !self.desk.is_open(n) {
            self.streams[usize::from(n)] = self.any_stream();
        }
        let piece = self.any_piece(n);
        let output = self.any_output();
        let call = Call::Deliver {
            record: self.desk.record,
            area: self.desk.area.clone(),
            n,
            piece,
            output,
        };
        let outcome = self.desk.advance(call)?;
        if let Answer::Delivered(answer) = outcome.answer {
            let stream = &mut self.streams[usize::from(n)];
            stream.drain(..answer.taken.min(stream.len()));
            if answer.kind == CLOSED {
                stream.clear();
            }
        }
        Ok(())
    }

    /// One to three messages, now and then a damaged one among them.
    fn any_stream(&mut self) -> Vec<u8> {
        let random = &mut self.desk.random;
        let mut stream = Vec::new();
        for _ in 0..1 + random.below(3) {
            if random.chance(91) {
                stream.extend(traffic::any_message(random));
            } else {
                stream.extend(traffic::any_damaged(random));
            }
        }
        stream
    }

    /// The next bytes of the stream, cut anywhere.
    fn any_piece(&mut self, n: u8) -> Vec<u8> {
        let stream = &self.streams[usize::from(n)];
        let random = &mut self.desk.random;
        let length = match random.weighted(&[55, 25, 6, 4, 10]) {
            0 => stream.len(),
            1 => random.below(stream.len() + 1),
            2 => 1,
            3 => 0,
            _ => stream.len().saturating_sub(1),
        };
        stream[..length.min(stream.len())].to_vec()
    }

    /// A call with several things wrong at once: the lowest number is given.
    fn spoiled(&mut self) -> Checked<()> {
        let record = if self.desk.random.chance(45) {
            damage::any_change(&mut self.desk.random, &self.desk.record)
        } else {
            self.desk.record
        };
        let (record, area) = if self.desk.random.chance(45) {
            damage::any_area(&mut self.desk.random, &record, &self.desk.area)
        } else {
            (record, self.desk.area.clone())
        };
        let call = self.any_call(record, area);
        // The outcome is left behind: the walk goes on from a sound state.
        self.desk.session.check(call)?;
        Ok(())
    }

    fn any_call(&mut self, record: Record, area: Vec<u8>) -> Call {
        let n = self.any_number();
        let output = self.any_output();
        match self.desk.random.weighted(&[1, 2, 3, 4, 1, 1, 2]) {
            0 => Call::Open { record },
            1 => Call::Close { record, area, n },
            2 => {
                let step = self.any_step();
                let reading = record.device.reading.wrapping_add(step);
                Call::Tick {
                    record,
                    area,
                    reading,
                }
            }
            3 => Call::Deliver {
                record,
                area,
                n,
                piece: self.any_stream(),
                output,
            },
            4 => Call::Take { record, output },
            5 => Call::Clear { area },
            _ => Call::Datagram {
                datagram: reset::any_datagram(&mut self.desk.random, &record.device.mechanism),
                record,
                area,
            },
        }
    }
}
