//! The whole of it: the session played, captured, dissected and compared.

use crate::capture::{Capture, Side};
use crate::comparison::{Difference, Sent, compare};
use crate::hall::Spoken;
use crate::message::{COMMAND, COMMAND_WANTING_REPLY, Message, read};
use crate::tally::Tally;
use crate::{session, tshark};
use compare::engine::Engine;

/// Where pduType stands in a message.
const TYPE: usize = 7;

#[derive(Debug)]
pub struct Agreement {
    pub differences: Vec<Difference>,
    pub tally: Tally,
    pub frames: u32,
    pub segments: usize,
}

/// Plays the session on an engine, and holds what tshark shows of it to what the engine's reader says.
pub fn agreement(engine: &impl Engine) -> Result<Agreement, String> {
    let hall = session::play(engine)?;
    let mut sent = Vec::new();
    for spoken in &hall.spoken {
        sent.push(Sent {
            stream: spoken.stream,
            from: spoken.from,
            message: read(engine, &spoken.bytes)?,
        });
    }
    let mut capture = hall.capture;
    let twins = twins(&hall.spoken, &sent, &mut capture);
    let played = sent.len();
    sent.extend(twins);
    let verdict = compare(&sent, &tshark::page(capture.file())?);
    Ok(Agreement {
        tally: Tally::of(&sent, &verdict.compared, played, hall.meetings),
        differences: verdict.differences,
        frames: capture.frames(),
        segments: capture.segments(),
    })
}

/// The dissector shows the entries of type 0 as bytes alone: each such message is captured once more, on a connection
/// that nobody played, as one of type 1, of which it shows every field.
fn twins(spoken: &[Spoken], sent: &[Sent], capture: &mut Capture) -> Vec<Sent> {
    let stream = capture.open();
    let from = Side::Controller;
    let mut twins = Vec::new();
    for (spoken, sent) in spoken.iter().zip(sent) {
        if sent.message.kind() != COMMAND {
            continue;
        }
        let mut bytes = spoken.bytes.clone();
        bytes[TYPE] = COMMAND_WANTING_REPLY;
        capture.send(stream, from, &bytes);
        let kind = COMMAND_WANTING_REPLY;
        let entries = sent.message.entries().to_vec();
        let message = Message::Entries { kind, entries };
        twins.push(Sent {
            stream,
            from,
            message,
        });
    }
    twins
}
