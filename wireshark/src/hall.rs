//! A device and its controllers, played through the calls of the library; whatever goes between them is captured.

use crate::capture::{Capture, SEGMENT, Side};
use crate::message::{BEFORE_ENTRIES, Entry, Pair};
use compare::answer::{CLOSED, MESSAGE};
use compare::engine::Engine;
use compare::record::{AREA, CONNECTIONS, Record};

/// The least output of delivery and take.
const OUTPUT: usize = 4_096;
/// The least buffer of the writer.
const BUFFER: usize = 2_049;
/// Odd, so that counted handles spread over all 32 bits and none comes twice.
const SPREAD: u32 = 0x9E37_79B1;

/// A message that went over a connection.
#[derive(Clone, Debug, PartialEq, Eq)]
pub struct Spoken {
    pub stream: usize,
    pub from: Side,
    pub bytes: Vec<u8>,
}

/// How messages are cut into segments.
#[derive(Clone, Copy, Debug, PartialEq, Eq)]
pub enum Cutting {
    /// A segment for each message.
    Each,
    /// Their bytes in a row, in pieces of so many, 10 or more. None ends within the first 10 bytes of a message: where
    /// a reassembled one ends in the same segment, the dissector takes no fewer for the beginning of another.
    Pieces(usize),
}

/// How messages and segments met.
#[derive(Clone, Copy, Debug, Default, PartialEq, Eq)]
pub struct Meetings {
    /// Messages that lie in more than one segment.
    pub cut: usize,
    /// Segments that hold the ends of more than one message.
    pub shared: usize,
}

#[derive(Debug)]
pub struct Hall<'a, E> {
    engine: &'a E,
    record: Record,
    area: Vec<u8>,
    output: Vec<u8>,
    reading: u32,
    handles: u32,
    streams: [usize; CONNECTIONS],
    pub capture: Capture,
    pub spoken: Vec<Spoken>,
    pub meetings: Meetings,
}

fn need(call: &str, number: u8) -> Result<(), String> {
    match number {
        0 => Ok(()),
        _ => Err(format!("{call}: refusal {number}")),
    }
}

impl<'a, E: Engine> Hall<'a, E> {
    pub fn new(engine: &'a E) -> Result<Hall<'a, E>, String> {
        let mut area = vec![0; AREA];
        need("clear", engine.clear(&mut area).number)?;
        let reading = 0xFFFF_FF00;
        Ok(Hall {
            engine,
            record: engine.fresh(reading),
            area,
            output: vec![0; OUTPUT],
            reading,
            handles: 0,
            streams: [0; CONNECTIONS],
            capture: Capture::default(),
            spoken: Vec::new(),
            meetings: Meetings::default(),
        })
    }

    pub fn open(&mut self) -> Result<u8, String> {
        let opened = self.engine.open(self.record);
        need("open", opened.number)?;
        self.record = opened.record;
        self.streams[usize::from(opened.connection)] = self.capture.open();
        Ok(opened.connection)
    }

    pub fn close(&mut self, n: u8) -> Result<(), String> {
        let closed = self.engine.close(self.record, &mut self.area, n);
        need("close", closed.number)?;
        self.record = closed.record;
        let stream = self.streams[usize::from(n)];
        self.capture.close(stream, Side::Controller);
        Ok(())
    }

    /// A command with a handle of its own.
    pub fn command(&mut self, target: u32, method: Pair, count: u8, parameters: &[u8]) -> Entry {
        self.handles += 1;
        Entry::Command {
            handle: self.handles.wrapping_mul(SPREAD),
            target,
            method,
            count,
            parameters: parameters.to_vec(),
        }
    }

    /// A message by the library's writer.
    pub fn written(&self, kind: u8, entries: &[Entry]) -> Result<Vec<u8>, String> {
        let mut buffer = vec![0; BUFFER];
        let mut length = 0;
        for entry in entries {
            let bytes = entry.bytes();
            let written = match length {
                0 => self.engine.start(&mut buffer, kind, &bytes),
                _ => self.engine.append(&mut buffer, kind, &bytes),
            };
            need("writer", written.number)?;
            length = written.length;
        }
        buffer.truncate(length);
        Ok(buffer)
    }

    /// A keep-alive by the library's writer.
    pub fn keep_alive(&self, form: u8, value: u32) -> Result<Vec<u8>, String> {
        let mut buffer = vec![0; BUFFER];
        let written = self.engine.keep_alive(&mut buffer, form, value);
        need("keep_alive", written.number)?;
        buffer.truncate(written.length);
        Ok(buffer)
    }

    /// A controller sends messages; what the device replies goes behind them, cut in the same way.
    pub fn say(&mut self, n: u8, messages: &[Vec<u8>], cutting: Cutting) -> Result<(), String> {
        let segments = self.send(n, Side::Controller, messages, cutting);
        let mut replies = Vec::new();
        for segment in segments {
            self.deliver(n, &segment, &mut replies)?;
        }
        self.send(n, Side::Device, &replies, cutting);
        Ok(())
    }

    fn deliver(&mut self, n: u8, segment: &[u8], replies: &mut Vec<Vec<u8>>) -> Result<(), String> {
        let mut rest = segment;
        while !rest.is_empty() {
            let (area, output) = (&mut self.area, &mut self.output);
            let delivered = self.engine.deliver(self.record, area, n, rest, output);
            need("deliver", delivered.number)?;
            self.record = delivered.record;
            if delivered.kind == CLOSED {
                return Err(format!("deliver: fault {} in {rest:02x?}", delivered.fault));
            }
            if delivered.kind == MESSAGE && delivered.length > 0 {
                replies.push(self.output[..delivered.length].to_vec());
            }
            rest = &rest[delivered.taken..];
        }
        Ok(())
    }

    /// Time goes on; no controller here is silent for so long that it is closed.
    pub fn tick(&mut self, step: u32) -> Result<(), String> {
        self.reading = self.reading.wrapping_add(step);
        let ticked = self.engine.tick(self.record, &mut self.area, self.reading);
        need("tick", ticked.number)?;
        self.record = ticked.record;
        match ticked.closed {
            0 => Ok(()),
            closed => Err(format!("tick: closed {closed:08b}")),
        }
    }

    /// Takes all that waits, and sends to each connection what is for it.
    pub fn take(&mut self, cutting: Cutting) -> Result<usize, String> {
        let mut waiting: [Vec<Vec<u8>>; CONNECTIONS] = Default::default();
        loop {
            let taken = self.engine.take(self.record, &mut self.output);
            need("take", taken.number)?;
            self.record = taken.record;
            if taken.kind == 0 {
                break;
            }
            let message = self.output[..taken.length].to_vec();
            waiting[usize::from(taken.connection)].push(message);
        }
        for (n, messages) in waiting.iter().enumerate() {
            self.send(n as u8, Side::Device, messages, cutting);
        }
        Ok(waiting.iter().map(Vec::len).sum())
    }

    fn send(&mut self, n: u8, from: Side, messages: &[Vec<u8>], cutting: Cutting) -> Vec<Vec<u8>> {
        let stream = self.streams[usize::from(n)];
        let segments = segments(messages, cutting);
        for segment in &segments {
            self.capture.send(stream, from, segment);
        }
        self.meetings.count(messages, &segments);
        self.spoken.extend(messages.iter().map(|bytes| Spoken {
            stream,
            from,
            bytes: bytes.clone(),
        }));
        segments
    }
}

fn segments(messages: &[Vec<u8>], cutting: Cutting) -> Vec<Vec<u8>> {
    match cutting {
        Cutting::Each => {
            let cut = |message: &Vec<u8>| -> Vec<Vec<u8>> {
                message.chunks(SEGMENT).map(<[u8]>::to_vec).collect()
            };
            messages.iter().flat_map(cut).collect()
        }
        Cutting::Pieces(length) => pieces(messages, length),
    }
}

fn pieces(messages: &[Vec<u8>], length: usize) -> Vec<Vec<u8>> {
    let bytes = messages.concat();
    let starts: Vec<usize> = [0].into_iter().chain(ends(messages)).collect();
    let mut pieces = Vec::new();
    let mut at = 0;
    while at < bytes.len() {
        let end = bytes.len().min(at + length);
        let cut_short = |start: &&usize| (**start + 1..**start + BEFORE_ENTRIES).contains(&end);
        let end = starts.iter().find(cut_short).map_or(end, |start| *start);
        pieces.push(bytes[at..end].to_vec());
        at = end;
    }
    pieces
}

/// Where each of them ends, in the row of their bytes.
fn ends(parts: &[Vec<u8>]) -> Vec<usize> {
    let mut end = 0;
    let each = parts.iter().map(|part| {
        end += part.len();
        end
    });
    each.collect()
}

impl Meetings {
    fn count(&mut self, messages: &[Vec<u8>], segments: &[Vec<u8>]) {
        let (message_ends, segment_ends) = (ends(messages), ends(segments));
        let within = |from: usize, to: usize, all: &[usize]| {
            all.iter().filter(|end| (from..to).contains(*end)).count()
        };
        for (message, end) in messages.iter().zip(&message_ends) {
            // a cut right at the end of a message does not cut it
            let cuts = within(end - message.len() + 1, *end, &segment_ends);
            self.cut += usize::from(cuts > 0);
        }
        for (segment, end) in segments.iter().zip(&segment_ends) {
            let ended = within(end - segment.len() + 1, end + 1, &message_ends);
            self.shared += usize::from(ended > 1);
        }
    }
}

#[cfg(test)]
mod tests {
    use super::*;

    #[test]
    fn messages_that_are_cut_and_segments_that_are_shared_are_counted() {
        let messages = [vec![1; 12], vec![2; 14], vec![3; 27]];
        let count = |cutting| {
            let mut meetings = Meetings::default();
            meetings.count(&messages, &segments(&messages, cutting));
            (meetings.cut, meetings.shared)
        };
        assert_eq!(count(Cutting::Each), (0, 0));
        assert_eq!(count(Cutting::Pieces(53)), (0, 1));
        // a cut behind the second message, then one in the third
        assert_eq!(count(Cutting::Pieces(26)), (1, 1));
        assert_eq!(count(Cutting::Pieces(13)), (2, 0));
    }

    #[test]
    fn a_message_is_not_cut_within_its_first_10_bytes() {
        let messages = [vec![1; 12], vec![2; 14], vec![3; 27]];
        for length in 10..60 {
            let pieces = pieces(&messages, length);
            assert_eq!(pieces.concat(), messages.concat());
            assert!(
                pieces
                    .iter()
                    .all(|piece| (1..=length).contains(&piece.len()))
            );
            let cuts = ends(&pieces);
            let firsts = [1..10, 13..22, 27..36];
            assert!(
                cuts.iter()
                    .all(|cut| firsts.iter().all(|first| !first.contains(cut)))
            );
        }
    }
}
