//! The host's side of a comparison: it keeps the record and the area between
//! calls and offers bytes again as a host does.

use super::call::{Answer, Call, Outcome};
use super::random::Random;
use super::reset;
use super::session::{Checked, Session};
use super::told::Told;
use super::traffic;
use crate::answer::{Delivered, Entry, Part};
use crate::record::{AREA, Record};

/// The least output of delivery and take.
pub const ROOM: usize = 4_096;

/// A host with one device, at two programs at once.
#[derive(Debug)]
pub struct Desk<'s, 'e> {
    pub session: &'s mut Session<'e>,
    pub random: Random,
    pub record: Record,
    pub area: Vec<u8>,
}

impl<'s, 'e> Desk<'s, 'e> {
    /// A fresh device and a cleared area.
    pub fn new(
        session: &'s mut Session<'e>,
        random: Random,
        reading: u32,
    ) -> Checked<Desk<'s, 'e>> {
        let mut desk = Desk {
            session,
            random,
            record: Record::default(),
            area: vec![0; AREA],
        };
        desk.restart(reading)?;
        Ok(desk)
    }

    /// Begins again with a fresh device and a cleared area.
    pub fn restart(&mut self, reading: u32) -> Checked<()> {
        let outcome = self.session.check(Call::Fresh { reading })?;
        if let Some(record) = outcome.answer.record() {
            self.record = *record;
        }
        let area = self.random.bytes(AREA);
        self.area = self.session.check(Call::Clear { area })?.area;
        Ok(())
    }

    /// Reads an entry, and asks for its part and its context.
    pub fn ask_for(&mut self, bytes: &[u8], index: usize) -> Checked<Told> {
        let bytes = bytes.to_vec();
        let reading = Call::ReadEntry {
            bytes: bytes.clone(),
            index,
        };
        let entry = match self.session.check(reading)?.answer {
            Answer::Entry(entry) => entry,
            _ => Entry::default(),
        };
        let part = self.part_of(&entry, bytes.clone(), index)?;
        let context = self.context_of(&entry, bytes, index)?;
        Ok(Told {
            entry,
            part,
            context,
        })
    }

    /// The part is empty exactly where the entry is refused or its count is the least (document 02 (v)).
    fn part_of(&mut self, entry: &Entry, bytes: Vec<u8>, index: usize) -> Checked<Part> {
        let call = Call::EntryPart { bytes, index };
        let part = self.session.check(call.clone())?.answer.part();
        let bare = entry.number != 0 || entry.count == u8::from(entry.kind == 2);
        let kept = bare == (part.length == 0);
        self.session
            .demand(kept, "an entry's count and part do not agree", call)?;
        Ok(part)
    }

    /// The context stands behind its count, and nowhere but in a notification (document 02 (i)).
    fn context_of(&mut self, entry: &Entry, bytes: Vec<u8>, index: usize) -> Checked<Part> {
        let call = Call::EntryContext {
            bytes: bytes.clone(),
            index,
        };
        let context = self.session.check(call.clone())?.answer.part();
        let kept = if entry.number == 0 && entry.kind == 2 {
            let count = entry.context_count;
            let before = &bytes[..context.start.min(bytes.len())];
            context.length == usize::from(count) && before.ends_with(&count.to_be_bytes())
        } else {
            entry.context_count == 0 && context == Part::default()
        };
        self.session
            .demand(kept, "an entry's context and its count do not agree", call)?;
        Ok(context)
    }

    /// Makes a call and goes on from its outcome, if it was done.
    pub fn advance(&mut self, call: Call) -> Checked<Outcome> {
        let outcome = self.session.check(call)?;
        if outcome.answer.number() != 0 {
            return Ok(outcome);
        }
        if let Some(record) = outcome.answer.record() {
            self.record = *record;
        }
        if !outcome.area.is_empty() {
            self.area.clone_from(&outcome.area);
        }
        Ok(outcome)
    }

    pub fn open(&mut self) -> Checked<Outcome> {
        let record = self.record;
        self.advance(Call::Open { record })
    }

    pub fn close(&mut self, n: u8) -> Checked<Outcome> {
        let call = self.closing(n);
        self.advance(call)
    }

    /// Brings so much time.
    pub fn tick(&mut self, step: u32) -> Checked<Outcome> {
        let call = self.ticking(step);
        self.advance(call)
    }

    /// Ticks another record, from its own reading by each of these steps; the desk's record stays.
    pub fn tick_from(&mut self, record: Record, steps: &[u32]) -> Checked<()> {
        for step in steps {
            self.session.check(Call::Tick {
                record,
                area: self.area.clone(),
                reading: record.device.reading.wrapping_add(*step),
            })?;
        }
        Ok(())
    }

    pub fn take(&mut self) -> Checked<Outcome> {
        let call = self.taking();
        self.advance(call)
    }

    /// Hands over a datagram.
    pub fn datagram(&mut self, datagram: &[u8]) -> Checked<Outcome> {
        let call = self.resetting(datagram);
        self.advance(call)
    }

    /// Sets the key by 3.14 from a connection, with a reply.
    pub fn set_key(&mut self, n: u8, parameters: &[u8]) -> Checked<()> {
        let entry = traffic::command(3, 1, (3, 14), 2, parameters);
        self.deliver(n, &traffic::message(1, &[entry]))
    }

    /// Offers one piece.
    pub fn piece(&mut self, n: u8, piece: &[u8]) -> Checked<Option<Delivered>> {
        let call = self.delivering(n, piece);
        let outcome = self.advance(call)?;
        match outcome.answer {
            Answer::Delivered(answer) if answer.number == 0 => Ok(Some(answer)),
            _ => Ok(None),
        }
    }

    /// Offers all bytes, and the rest again after each message.
    pub fn deliver(&mut self, n: u8, bytes: &[u8]) -> Checked<()> {
        let mut rest = bytes;
        while !rest.is_empty() {
            match self.piece(n, rest)? {
                Some(answer) if answer.taken > 0 => {
                    rest = rest.get(answer.taken..).unwrap_or_default();
                }
                _ => return Ok(()),
            }
        }
        Ok(())
    }

    pub fn closing(&self, n: u8) -> Call {
        Call::Close {
            record: self.record,
            area: self.area.clone(),
            n,
        }
    }

    pub fn ticking(&self, step: u32) -> Call {
        Call::Tick {
            record: self.record,
            area: self.area.clone(),
            reading: self.record.device.reading.wrapping_add(step),
        }
    }

    /// The output is filled at random, so that a stray write shows.
    pub fn delivering(&mut self, n: u8, piece: &[u8]) -> Call {
        Call::Deliver {
            record: self.record,
            area: self.area.clone(),
            n,
            piece: piece.to_vec(),
            output: self.random.bytes(ROOM),
        }
    }

    pub fn taking(&mut self) -> Call {
        Call::Take {
            record: self.record,
            output: self.random.bytes(ROOM),
        }
    }

    pub fn resetting(&self, datagram: &[u8]) -> Call {
        Call::Datagram {
            record: self.record,
            area: self.area.clone(),
            datagram: datagram.to_vec(),
        }
    }

    pub fn is_open(&self, n: u8) -> bool {
        let connections = &self.record.device.connections;
        connections.get(usize::from(n)).is_some_and(|c| c.live)
    }

    /// Eight connections with every form and many heartbeats, locks, a full
    /// table, marks waiting, keep-alives due, a key and undecided bytes.
    pub fn make_busy(&mut self) -> Checked<()> {
        for _ in 0..8 {
            self.open()?;
        }
        let beats = [(1, 2), (2, 2_000), (1, 65_535), (2, u32::MAX), (2, 1_500)];
        for (n, (form, value)) in beats.into_iter().enumerate() {
            self.deliver(n as u8, &traffic::keep_alive(form, value))?;
        }
        self.tick(1_700)?;
        for n in 0..8 {
            self.subscribe(n, 4)?;
            let lock = traffic::command(7, 4_097 + u32::from(n), (1, 3), 0, &[]);
            if n != 3 {
                self.deliver(n, &traffic::message(0, &[lock]))?;
            }
        }
        let set = traffic::command(8, 4_100, (4, 2), 1, &[1]);
        self.deliver(2, &traffic::message(0, &[set]))?;
        self.set_key(6, &reset::setting(&reset::KEYS[2], b"239.1.0.255", 65_001))?;
        self.tick(400)?;
        let sample = traffic::message(1, &[traffic::command(9, 4, (3, 1), 5, &[0; 21])]);
        for (n, length) in [(0, 1), (1, 9), (2, 10), (5, 30), (7, sample.len() - 1)] {
            self.piece(n, &sample[..length])?;
        }
        Ok(())
    }

    /// Adds so many subscriptions, up to 8, with contexts of as many lengths.
    pub fn subscribe(&mut self, n: u8, count: u32) -> Checked<()> {
        for (k, length) in (0..count).zip([4, 0, 64, 1, 63, 2, 16, 32]) {
            let name = traffic::naming(4_097 + k, 0x0001_0001, 9, 0x0003_0001);
            let context: Vec<u8> = (1..=length).collect();
            let add = traffic::adding(&name, &traffic::blob(&context), 1, [0, 0]);
            let entry = traffic::command(k, 4, (3, 1), 5, &add);
            self.deliver(n, &traffic::message(0, &[entry]))?;
        }
        Ok(())
    }
}
