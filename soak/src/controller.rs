//! A controller that lives, dies and comes back.

use crate::line::Line;
use crate::shared::Shared;
use crate::voice::{Asked, Voice};
use demo::entry;
use demo::message::Arm;
use melorwyth::record::CONTEXT;
use melorwyth::{Heartbeat, Status, number};
use std::net::SocketAddr;
use std::sync::Arc;

/// Heartbeats, in milliseconds.
pub const BEATS: [u32; 4] = [100, 150, 200, 300];

#[derive(Debug)]
pub struct Controller {
    pub address: SocketAddr,
    /// The channel that this one alone locks, or nothing for one that contends with others.
    pub own: Option<u8>,
    pub voice: Voice,
    /// Where the rack is reset, for the one that sets the key.
    arm: Option<Arm>,
}

impl Controller {
    pub fn new(address: SocketAddr, own: Option<u8>, seed: u64, shared: Arc<Shared>) -> Controller {
        let voice = Voice::new(seed, shared);
        let arm = None;
        Controller {
            address,
            own,
            voice,
            arm,
        }
    }

    /// The same, setting the reset key whenever it comes back.
    pub fn arming(mut self, arm: Arm) -> Controller {
        self.arm = Some(arm);
        self
    }

    /// One life after another until the run stops.
    pub fn run(mut self) {
        while !self.voice.shared.stopped() {
            // it was turned away, reset or cut off: that is part of it
            let _ = self.live();
            self.voice.pause(20);
        }
    }

    fn live(&mut self) -> Option<()> {
        let mut line = Line::connect(self.address).ok()?;
        if let Some(arm) = self.arm.clone() {
            self.voice.set_key(&mut line, &arm)?;
        }
        if self.voice.random.chance(80) {
            let beat = self.voice.random.pick(&BEATS);
            self.voice.beat(&mut line, Heartbeat::Milliseconds(beat))?;
        }
        for _ in 0..10 + self.voice.random.below(90) {
            self.act(&mut line)?;
        }
        match self.voice.random.below(8) {
            0..3 => self.die(line),
            3 => self.fault(line),
            4 => {
                line.send(&[0x3B, 0, 1, 0]);
                Some(())
            }
            // it hangs up
            _ => Some(()),
        }
    }

    /// One thing that controllers do.
    fn act(&mut self, line: &mut Line) -> Option<()> {
        let mute = self.any_mute();
        let asked = match self.voice.random.below(24) {
            0..4 => Asked::plain(self.lockable(), number::METHOD_LOCK),
            4..7 => Asked::plain(self.lockable(), number::METHOD_UNLOCK),
            7..12 => {
                let value = self.voice.random.pick(&[number::MUTED, number::UNMUTED]);
                Asked::set(mute, value)
            }
            12..16 => self.subscribing(line, mute),
            16..19 => unsubscribing(mute),
            19..23 => return self.many(line),
            _ => return self.wait(line),
        };
        self.voice.ask(line, asked).map(drop)
    }

    fn any_mute(&mut self) -> u32 {
        number::OBJECT_FIRST_MUTE + self.voice.random.below(8) as u32
    }

    /// Its own channel, or one of those that are contended for.
    pub fn lockable(&mut self) -> u32 {
        let before = number::OBJECT_FIRST_MUTE - 1;
        match self.own {
            Some(own) => before + u32::from(own),
            None => before + 5 + self.voice.random.below(4) as u32,
        }
    }

    pub fn lock(&mut self, line: &mut Line) -> Option<Status> {
        let lock = Asked::plain(self.lockable(), number::METHOD_LOCK);
        self.voice.ask(line, lock)
    }

    fn subscribing(&mut self, line: &mut Line, mute: u32) -> Asked {
        let length = self.voice.random.below(CONTEXT + 1);
        let context = self.voice.random.bytes(length);
        let parameters = entry::adding(&named(mute), &context);
        line.contexts.push((mute, context));
        Asked {
            target: number::OBJECT_SUBSCRIPTION_MANAGER,
            method: number::METHOD_ADD,
            count: 5,
            parameters,
        }
    }

    /// Several commands in a message, some of which fail; now and then no reply is wanted.
    fn many(&mut self, line: &mut Line) -> Option<()> {
        let count = 2 + self.voice.random.below(20);
        let values = [0, number::MUTED, number::UNMUTED];
        let asked: Vec<Asked> = (0..count)
            .map(|_| Asked::set(self.any_mute(), self.voice.random.pick(&values)))
            .collect();
        if self.voice.random.chance(30) {
            self.voice.tell(line, &asked);
            return Some(());
        }
        self.voice.ask_all(line, &asked).map(drop)
    }

    fn wait(&mut self, line: &mut Line) -> Option<()> {
        self.voice.pause(30);
        let beats = [Heartbeat::Seconds(1), Heartbeat::Milliseconds(300)];
        let beat = self.voice.random.pick(&beats);
        self.voice.beat(line, beat)
    }

    /// Bytes that are no message: the amplifier hangs up.
    fn fault(&mut self, mut line: Line) -> Option<()> {
        let faulty: [&[u8]; 3] = [&[0x3A], &[0x3B, 0, 2, 0, 0, 0, 11, 4, 0, 1], &[0x3B; 10]];
        line.send(self.voice.random.pick(&faulty));
        self.voice.closed(&mut line, "a fault did not close")
    }
}

fn unsubscribing(mute: u32) -> Asked {
    Asked {
        target: number::OBJECT_SUBSCRIPTION_MANAGER,
        method: number::METHOD_REMOVE,
        count: 2,
        parameters: named(mute),
    }
}

fn named(mute: u32) -> Vec<u8> {
    entry::naming(mute, number::EVENT_CHANGE, 9, 0x0003_0001)
}
