//! The endpoint, the output that it is lent, and what each call is told by.
//!
//! It starts fresh: whatever was before a restart is lost.

use crate::changes;
use crate::events::{Event, Why};
use crate::witness::{Call, Came, Delivered, Taken, Witness};
use melorwyth::record::{OUTPUT, Record};
use melorwyth::{Endpoint, Refusal, SendingKind, Status};

/// What a delivery came to.
#[derive(Debug)]
pub struct Delivery {
    /// How many bytes were taken; the rest is offered again.
    pub taken: usize,
    /// How many bytes of reply stand in the output.
    pub reply: usize,
    pub closed: bool,
    pub events: Vec<Event>,
}

/// A message to send, which stands in the output.
#[derive(Debug)]
pub struct Sending {
    pub n: u8,
    pub length: usize,
    pub event: Option<Event>,
}

/// This host makes no call that is refused, but for an opening with 8 open.
#[derive(Debug)]
pub struct Amplifier<S> {
    endpoint: Endpoint,
    output: Vec<u8>,
    witness: S,
}

impl<S: Witness> Amplifier<S> {
    pub fn fresh(reading: u32, witness: S) -> Amplifier<S> {
        let mut amplifier = Amplifier {
            endpoint: Endpoint::fresh(reading),
            output: vec![0; OUTPUT],
            witness,
        };
        amplifier.saw(Call::Fresh { reading });
        amplifier
    }

    fn saw(&mut self, call: Call) {
        self.witness.saw(call, &self.endpoint, &self.output);
    }

    pub fn record(&self) -> &Record {
        self.endpoint.record()
    }

    /// The front of the output.
    pub fn output(&self, length: usize) -> &[u8] {
        &self.output[..length]
    }

    /// The milliseconds from the last tick to the next at which something is to be done.
    pub fn next_due(&self) -> Option<u64> {
        let connections = self.record().device.connections.iter();
        let watched = connections.filter(|connection| connection.beat > 0);
        let due = watched.map(|connection| {
            let closing = 3 * connection.beat - connection.silence;
            let speaking = connection.beat - connection.quiet;
            closing.min(speaking)
        });
        due.min()
    }

    /// The number opened, or nothing when all are open.
    pub fn open(&mut self) -> Result<Option<u8>, Refusal> {
        let answer = self.endpoint.open();
        self.saw(Call::Open { answer });
        match answer {
            Err(Refusal::TableFull) => Ok(None),
            answer => answer.map(Some),
        }
    }

    pub fn close(&mut self, n: u8, why: Why) -> Result<Event, Refusal> {
        let event = changes::closed(n, why, self.record());
        let answer = self.endpoint.close(n);
        self.saw(Call::Close { n, answer });
        answer.map(|()| event)
    }

    pub fn tick(&mut self, reading: u32) -> Result<Vec<Event>, Refusal> {
        let before = *self.record();
        let answer = self.endpoint.tick(reading);
        self.saw(Call::Tick { reading, answer });
        Ok(changes::lapsed(&before, self.record(), answer?.mask()))
    }

    pub fn deliver(&mut self, n: u8, piece: &[u8]) -> Result<Delivery, Refusal> {
        let before = *self.record();
        let answer = self.endpoint.deliver(n, piece, &mut self.output);
        let answer = answer.map(Delivered::from);
        self.saw(Call::Deliver { n, piece, answer });
        let Delivered { taken, came } = answer?;
        let (reply, events) = match came {
            Came::More => (0, Vec::new()),
            Came::Message { reply } => (reply, self.heard(n, &before, reply)),
            Came::Closed(fault) => (0, vec![changes::closed(n, Why::Fault(fault), &before)]),
        };
        Ok(Delivery {
            taken,
            reply,
            closed: matches!(came, Came::Closed(_)),
            events,
        })
    }

    /// A reset, or a datagram that changed nothing.
    pub fn datagram(&mut self, datagram: &[u8]) -> Result<Event, Refusal> {
        let before = *self.record();
        let answer = self.endpoint.datagram(datagram);
        self.saw(Call::Datagram { datagram, answer });
        let length = datagram.len();
        Ok(match answer? {
            true => changes::reset(&before),
            false => Event::Ignored { length },
        })
    }

    /// The next message to send, if there is one.
    pub fn take(&mut self) -> Result<Option<Sending>, Refusal> {
        let before = *self.record();
        let answer = self.endpoint.take(&mut self.output);
        let answer = answer.map(|sending| sending.map(Taken::from));
        self.saw(Call::Take { answer });
        let Some(Taken { n, kind, length }) = answer? else {
            return Ok(None);
        };
        let event = match kind {
            SendingKind::Notification => changes::notified(n, &before, self.record()),
            SendingKind::KeepAlive => Some(changes::kept_alive(n, &before)),
        };
        Ok(Some(Sending { n, length, event }))
    }

    /// What a message changed, and what of it failed.
    fn heard(&self, n: u8, before: &Record, reply: usize) -> Vec<Event> {
        let mut events = changes::heard(n, before, self.record());
        events.extend(failures(n, self.output(reply)));
        events
    }
}

/// The statuses other than 0 in a reply; those of one too large to be read are not told.
fn failures(n: u8, reply: &[u8]) -> Vec<Event> {
    let count = melorwyth::read_message(reply).map_or(0, |message| message.count);
    let entries = (0..usize::from(count)).filter_map(|k| melorwyth::read_entry(reply, k).ok());
    let statuses = entries.map(|entry| Status::from_number(entry.status));
    statuses
        .filter(|status| *status != Status::CarriedOut)
        .map(|status| Event::Answered { n, status })
        .collect()
}
