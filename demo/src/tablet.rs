//! One connection of a controller.

use crate::events::Why;
use crate::message::{self, Front, Said};
use crate::socket::Socket;
use melorwyth::{Fault, Heartbeat, Refusal};
use std::time::{Duration, Instant};

#[derive(Debug)]
pub struct Tablet {
    pub name: String,
    pub socket: Socket,
    /// Says nothing more.
    pub dead: bool,
    /// The handle of the command asked last.
    pub handle: u32,
    beat: Option<Heartbeat>,
    /// When a keep-alive was sent last.
    beaten: Instant,
    /// How many keep-alives have not been answered.
    unanswered: u32,
    undecided: Vec<u8>,
}

impl Tablet {
    pub fn new(name: &str, socket: Socket) -> Tablet {
        Tablet {
            name: name.to_string(),
            socket,
            dead: false,
            handle: 0,
            beat: None,
            beaten: Instant::now(),
            unanswered: 0,
            undecided: Vec::new(),
        }
    }

    /// Sets the heartbeat; from now on it is kept.
    pub fn set_beat(&mut self, beat: Heartbeat) -> Result<Vec<u8>, Refusal> {
        self.beat = (beat.milliseconds() > 0).then_some(beat);
        self.keep_alive(beat)
    }

    fn keep_alive(&mut self, beat: Heartbeat) -> Result<Vec<u8>, Refusal> {
        self.beaten = Instant::now();
        self.unanswered += 1;
        message::keep_alive(beat)
    }

    /// When the next keep-alive is to be sent: two in a heartbeat, so that one may be late.
    pub fn next_beat(&self) -> Option<Instant> {
        let beat = self.beat.filter(|_| !self.dead)?;
        let half = Duration::from_millis((beat.milliseconds() / 2).max(1));
        self.beaten.checked_add(half)
    }

    /// Sends a keep-alive if it is time.
    pub fn beat(&mut self) -> Result<(), Why> {
        let due = self.next_beat().is_some_and(|at| at <= Instant::now());
        match self.beat.filter(|_| due) {
            Some(beat) => {
                let bytes = self.keep_alive(beat).map_err(|_| Why::Broken)?;
                self.socket.send(&bytes)
            }
            None => Ok(()),
        }
    }

    /// Takes bytes; they are cut anyhow.
    pub fn take(&mut self, bytes: &[u8]) {
        self.undecided.extend(bytes);
    }

    /// The next whole message, or the fault in it.
    pub fn next_said(&mut self) -> Result<Option<Said>, Fault> {
        match message::read(&self.undecided) {
            Front::Part => Ok(None),
            Front::Fault(fault) => Err(fault),
            Front::Message { length, said } => {
                self.undecided.drain(..length);
                Ok(Some(said))
            }
        }
    }

    /// Whether a keep-alive answers one of ours; else the amplifier sent it by itself.
    pub fn answered(&mut self) -> bool {
        let ours = self.unanswered > 0;
        self.unanswered = self.unanswered.saturating_sub(1);
        ours
    }
}
