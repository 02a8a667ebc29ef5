//! That the comparison can fail: captures with one slip each, which it has to find.

use crate::capture::{Capture, Side};
use crate::comparison::{Sent, compare};
use crate::message::{COMMAND, COMMAND_WANTING_REPLY, Entry, Message, NOTIFICATION, RESPONSE};
use crate::session::{adding, resetting};
use crate::tshark;

const NAME: [u8; 16] = [0, 0, 0x10, 1, 0, 1, 0, 1, 0, 0, 0, 9, 0, 3, 0, 1];
/// Where the context's count stands in a notification and in a 3.1 that are alone in their message.
const COUNT_IN_NOTIFICATION: usize = 23;
const COUNT_IN_ADDING: usize = 43;

/// A message, and other bytes that are sent in its place.
#[derive(Clone, Debug)]
pub struct Slip {
    pub name: String,
    /// The command that a response is to.
    asking: Option<Message>,
    message: Message,
    pub bytes: Vec<u8>,
}

fn one(kind: u8, entry: Entry) -> Message {
    let entries = vec![entry];
    Message::Entries { kind, entries }
}

fn command(target: u32, method: (u16, u16), count: u8, parameters: &[u8]) -> Entry {
    Entry::Command {
        handle: 7,
        target,
        method,
        count,
        parameters: parameters.to_vec(),
    }
}

fn asked(target: u32, method: (u16, u16), count: u8, parameters: &[u8]) -> Message {
    one(
        COMMAND_WANTING_REPLY,
        command(target, method, count, parameters),
    )
}

fn notified(context: &[u8], count: u8, parameters: &[u8]) -> Message {
    let entry = Entry::Notification {
        target: 9,
        method: (3, 1),
        count,
        context: context.to_vec(),
        emitter: 4_097,
        event: (1, 1),
        parameters: parameters.to_vec(),
    };
    one(NOTIFICATION, entry)
}

fn answered(status: u8, count: u8, parameters: &[u8]) -> Message {
    let entry = Entry::Response {
        handle: 7,
        status,
        count,
        parameters: parameters.to_vec(),
    };
    one(RESPONSE, entry)
}

/// A sample's name, the command that it answers, and the message.
type Sample = (&'static str, Option<Message>, Message);

fn sample_commands() -> Vec<Sample> {
    let add = adding(&NAME, &[1, 2, 3, 4], 1);
    let key = resetting("239.1.2.3", 5_000);
    let unanswered = one(COMMAND, command(4_097, (4, 2), 1, &[2]));
    vec![
        ("lock", None, asked(4_097, (1, 3), 0, &[])),
        ("set", None, asked(4_097, (4, 2), 1, &[2])),
        ("3.1", None, asked(4, (3, 1), 5, &add)),
        ("3.2", None, asked(4, (3, 2), 2, &NAME)),
        ("3.14", None, asked(1, (3, 14), 2, &key)),
        ("set without reply", None, unanswered),
    ]
}

fn sample_notifications() -> Vec<Sample> {
    let change = [0, 4, 0, 1, 1, 1];
    vec![
        ("notification", None, notified(&[1, 2, 3, 4], 2, &change)),
        ("without context", None, notified(&[], 2, &change)),
        ("without parameters", None, notified(&[9; 64], 1, &[])),
    ]
}

fn sample_responses() -> Vec<Sample> {
    let class = [0, 4, 0, 1, 0, 1, 0, 1, 0, 2, 0, 1];
    let to = |method| Some(asked(4_097, method, 0, &[]));
    vec![
        ("status 3", to((1, 3)), answered(3, 0, &[])),
        ("class", to((1, 1)), answered(0, 1, &class)),
        ("lockable", to((1, 2)), answered(0, 1, &[1])),
        ("value", to((4, 1)), answered(0, 1, &[1])),
    ]
}

fn sample_heartbeats() -> Vec<Sample> {
    vec![
        ("seconds", None, Message::Seconds(2)),
        ("milliseconds", None, Message::Milliseconds(2_000)),
    ]
}

/// Each sample as it is: no slip, so there is nothing to find.
pub fn right() -> Vec<Slip> {
    let samples = [
        sample_commands(),
        sample_notifications(),
        sample_responses(),
        sample_heartbeats(),
    ];
    samples
        .into_iter()
        .flatten()
        .map(|(name, asking, message)| Slip {
            name: name.to_string(),
            asking,
            bytes: message.bytes(),
            message,
        })
        .collect()
}

/// A bit of each byte of each sample flipped, but for the port of 3.14, which the dissector does not show.
pub fn flipped() -> Vec<Slip> {
    let mut slips = Vec::new();
    for sample in right() {
        let shown = match sample.name.as_str() {
            "3.14" => sample.bytes.len() - 2,
            _ => sample.bytes.len(),
        };
        slips.extend((0..shown).map(|place| {
            let mut slip = sample.clone();
            slip.name = format!("{}, byte {place} flipped", sample.name);
            slip.bytes[place] ^= 1;
            slip
        }));
    }
    slips
}

/// Contexts of 4 bytes without a count, as the draft has them.
pub fn older() -> Vec<Slip> {
    let contexts = [
        [1, 2, 3, 4],
        [0, 0, 0, 0],
        [0, 1, 2, 3],
        [0, 2, 0, 0],
        [0, 4, 1, 2],
        [255; 4],
    ];
    let both = |context: [u8; 4]| {
        let notification = notified(&context, 2, &[0, 4, 0, 1, 1, 1]);
        let add = asked(4, (3, 1), 5, &adding(&NAME, &context, 1));
        [
            ("notification", notification, COUNT_IN_NOTIFICATION),
            ("3.1", add, COUNT_IN_ADDING),
        ]
        .map(|(name, message, count)| Slip {
            name: format!("{name} with the older context {context:?}"),
            asking: None,
            bytes: without_count(&message.bytes(), count),
            message,
        })
    };
    contexts.into_iter().flat_map(both).collect()
}

/// A message of one entry without the context's count; both sizes are small, so their last bytes are all of them.
fn without_count(bytes: &[u8], count: usize) -> Vec<u8> {
    let mut older = bytes.to_vec();
    older.drain(count..count + 2);
    older[6] -= 2;
    older[13] -= 2;
    older
}

/// The names of the slips in which no difference is found, each slip on a connection of its own.
pub fn unfound(slips: &[Slip]) -> Result<Vec<String>, String> {
    let mut capture = Capture::default();
    let mut sent = Vec::new();
    for slip in slips {
        let stream = capture.open();
        let from = match slip.message.kind() {
            NOTIFICATION | RESPONSE => Side::Device,
            _ => Side::Controller,
        };
        if let Some(message) = slip.asking.clone() {
            capture.send(stream, Side::Controller, &message.bytes());
            sent.push(Sent {
                stream,
                from: Side::Controller,
                message,
            });
        }
        capture.send(stream, from, &slip.bytes);
        sent.push(Sent {
            stream,
            from,
            message: slip.message.clone(),
        });
    }
    let verdict = compare(&sent, &tshark::page(capture.file())?);
    let found = |stream: usize| {
        verdict
            .differences
            .iter()
            .any(|difference| difference.stream == stream)
    };
    let unfound = slips
        .iter()
        .enumerate()
        .filter(|(stream, _)| !found(*stream));
    Ok(unfound.map(|(_, slip)| slip.name.clone()).collect())
}
