//! A controller's voice: commands sent in pieces, replies waited for, and everything that comes looked at.

use crate::line::{Came, Line};
use crate::shared::Shared;
use compare::harness::random::Random;
use demo::message::Arm;
use demo::{entry, message};
use melorwyth::record::BUFFER;
use melorwyth::{Heartbeat, Status, number};
use std::sync::Arc;
use std::thread;
use std::time::{Duration, Instant};

/// How long a reply, a closure or a free channel may take before it counts as missing.
pub const PATIENCE: Duration = Duration::from_secs(20);

/// A command but for its handle.
#[derive(Clone, Debug)]
pub struct Asked {
    pub target: u32,
    pub method: u32,
    pub count: u8,
    pub parameters: Vec<u8>,
}

impl Asked {
    /// One without parameters.
    pub fn plain(target: u32, method: u32) -> Asked {
        let (count, parameters) = (0, Vec::new());
        Asked {
            target,
            method,
            count,
            parameters,
        }
    }

    pub fn set(target: u32, value: u8) -> Asked {
        Asked {
            target,
            method: number::METHOD_SET,
            count: 1,
            parameters: vec![value],
        }
    }
}

#[derive(Debug)]
pub struct Voice {
    pub random: Random,
    pub shared: Arc<Shared>,
    handle: u32,
}

impl Voice {
    pub fn new(seed: u64, shared: Arc<Shared>) -> Voice {
        let (random, handle) = (Random::new(seed), 0);
        Voice {
            random,
            shared,
            handle,
        }
    }

    /// The status of one command, or nothing once the line is closed.
    pub fn ask(&mut self, line: &mut Line, asked: Asked) -> Option<Status> {
        self.ask_all(line, &[asked])?.pop()
    }

    /// Sends these commands in one message; the statuses of the reply.
    pub fn ask_all(&mut self, line: &mut Line, asked: &[Asked]) -> Option<Vec<Status>> {
        self.send(line, number::TYPE_COMMAND_WANTING_REPLY, asked);
        self.replies(line, asked.len())
    }

    /// Sends these commands in one message that wants no reply.
    pub fn tell(&mut self, line: &mut Line, asked: &[Asked]) {
        self.send(line, number::TYPE_COMMAND, asked);
    }

    fn send(&mut self, line: &mut Line, kind: u8, asked: &[Asked]) {
        let mut buffer = vec![0; BUFFER];
        let mut length = 0;
        for asked in asked {
            self.handle += 1;
            let Asked { target, method, .. } = *asked;
            let entry = entry::command(self.handle, target, method, asked.count, &asked.parameters);
            let written = match length {
                0 => melorwyth::start(&mut buffer, kind, &entry),
                _ => melorwyth::append(&mut buffer, kind, &entry),
            };
            match written {
                Ok(written) => length = written,
                Err(refusal) => self.shared.fail(format!("the writer: {refusal}")),
            }
        }
        self.send_cut(line, &buffer[..length]);
    }

    pub fn set_key(&mut self, line: &mut Line, arm: &Arm) -> Option<()> {
        self.handle += 1;
        let message = message::arming(self.handle, arm).ok()?;
        self.send_cut(line, &message);
        self.replies(line, 1).map(drop)
    }

    /// Sets the heartbeat; its answer is waited for, so that the amplifier knows it.
    pub fn beat(&mut self, line: &mut Line, beat: Heartbeat) -> Option<()> {
        let message = message::keep_alive(beat).ok()?;
        self.send_cut(line, &message);
        loop {
            let came = self.heard(line)?;
            if melorwyth::read_message(&came).ok()?.heartbeat == Some(beat) {
                return Some(());
            }
        }
    }

    /// Waits until the amplifier has hung up.
    pub fn closed(&mut self, line: &mut Line, missing: &str) -> Option<()> {
        let until = Instant::now() + PATIENCE;
        while self.heard(line).is_some() {
            self.due(until, missing)?;
        }
        Some(())
    }

    /// Something that has to be by now; the run fails where it is not.
    pub fn due(&self, until: Instant, missing: &str) -> Option<()> {
        if Instant::now() < until {
            return Some(());
        }
        self.shared.fail(format!("{missing} after {PATIENCE:?}"));
        None
    }

    pub fn pause(&mut self, milliseconds: usize) {
        let pause = self.random.below(milliseconds) as u64;
        thread::sleep(Duration::from_millis(pause));
    }

    /// The statuses of the next response, whose handles are the last so many that were sent.
    fn replies(&mut self, line: &mut Line, count: usize) -> Option<Vec<Status>> {
        let first = self.handle + 1 - count as u32;
        loop {
            let came = self.heard(line)?;
            if melorwyth::read_message(&came).ok()?.kind != number::TYPE_RESPONSE {
                continue;
            }
            let entries = (0..).map_while(|index| melorwyth::read_entry(&came, index).ok());
            let (handles, statuses): (Vec<u32>, Vec<Status>) = entries
                .map(|entry| (entry.handle, Status::from_number(entry.status)))
                .unzip();
            if !handles.iter().copied().eq(first..=self.handle) {
                self.shared
                    .fail(format!("replies to {handles:?}, sent {first} and on"));
            }
            return Some(statuses);
        }
    }

    /// Sends a message in one piece or in several.
    fn send_cut(&mut self, line: &mut Line, bytes: &[u8]) {
        let mut rest = bytes;
        while !rest.is_empty() {
            let cut = match self.random.chance(70) {
                true => rest.len(),
                false => 1 + self.random.below(rest.len()),
            };
            line.send(&rest[..cut]);
            rest = &rest[cut..];
        }
    }

    /// The next message, looked at; nothing once the line is closed.
    fn heard(&mut self, line: &mut Line) -> Option<Vec<u8>> {
        let wrong = match line.next(PATIENCE) {
            Came::Message(bytes) => match sound(&bytes, &line.contexts) {
                Ok(()) => return Some(bytes),
                Err(wrong) => wrong,
            },
            Came::Closed => return None,
            Came::Nothing => format!("nothing came in {PATIENCE:?}"),
            Came::Unsound(refusal) => format!("the amplifier sent: {refusal}"),
        };
        self.shared.fail(wrong);
        None
    }
}

/// What an amplifier may send: responses, keep-alives, and notifications with a context that was given to it.
fn sound(bytes: &[u8], contexts: &[(u32, Vec<u8>)]) -> Result<(), String> {
    let message = melorwyth::read_message(bytes).map_err(|refusal| refusal.to_string())?;
    match message.kind {
        number::TYPE_RESPONSE | number::TYPE_KEEP_ALIVE => Ok(()),
        number::TYPE_NOTIFICATION => {
            let entry = melorwyth::read_entry(bytes, 0).map_err(|refusal| refusal.to_string())?;
            let context = melorwyth::entry_context(bytes, 0);
            let given = |(emitter, given): &(u32, Vec<u8>)| {
                *emitter == entry.emitter && given.as_slice() == context
            };
            match contexts.iter().any(given) {
                true => Ok(()),
                false => Err(format!("{}: a context that was not given", entry.emitter)),
            }
        }
        kind => Err(format!("an amplifier sends no message of type {kind}")),
    }
}

#[cfg(test)]
mod tests {
    use super::*;

    /// A notification of 4097 with the context 7, 8.
    const NOTIFIED: [u8; 41] = [
        0x3B, 0, 1, 0, 0, 0, 40, 2, 0, 1, 0, 0, 0, 31, 0, 0, 0, 9, 0, 3, 0, 1, 2, 0, 2, 7, 8, 0, 0,
        16, 1, 0, 1, 0, 1, 0, 4, 0, 1, 1, 1,
    ];

    #[test]
    fn a_context_comes_back_as_it_was_given() {
        let given = |emitter, context: &[u8]| [(emitter, context.to_vec())];
        assert_eq!(sound(&NOTIFIED, &given(4_097, &[7, 8])), Ok(()));
        assert!(sound(&NOTIFIED, &given(4_098, &[7, 8])).is_err());
        assert!(sound(&NOTIFIED, &given(4_097, &[7])).is_err());
        assert!(sound(&NOTIFIED, &[]).is_err());
    }

    #[test]
    fn an_amplifier_sends_no_command() {
        let lock = message::command(7, message::Asking::Lock, 5).unwrap();
        assert!(sound(&lock, &[]).is_err());
        assert!(sound(&lock[..9], &[]).is_err());
    }
}
