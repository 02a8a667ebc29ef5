//! A controller's death, and the technician who waits for its channel.

use crate::controller::{BEATS, Controller};
use crate::line::Line;
use crate::shared::Shared;
use crate::voice::{Asked, PATIENCE};
use melorwyth::{Heartbeat, Status, number};
use std::time::{Duration, Instant};

/// What a reading in whole milliseconds may differ by from the time that it was read at.
const READING: Duration = Duration::from_millis(1);

/// A dead one's last whole message.
#[derive(Clone, Copy, Debug)]
struct Death {
    /// Before it was sent, and behind its reply: the amplifier heard it between the two.
    sent: Instant,
    heard: Instant,
    /// The heartbeat H in milliseconds.
    beat: u32,
    /// How many resets had been sent by then.
    resets: u64,
}

impl Death {
    /// The silence that closes.
    fn limit(&self) -> Duration {
        3 * Duration::from_millis(self.beat.into())
    }

    /// How long ago the amplifier can have heard it at most.
    fn at_most(&self, now: Instant) -> Duration {
        now.saturating_duration_since(self.sent) + READING
    }

    /// How long ago it has heard it at least.
    fn at_least(&self, now: Instant) -> Duration {
        let since = now.saturating_duration_since(self.heard);
        since.saturating_sub(READING)
    }
}

impl Controller {
    /// Holds a lock, is silent, and is to be let go of at 3 x H; then another has the channel.
    pub fn die(&mut self, mut line: Line) -> Option<()> {
        let death = self.last_words(&mut line)?;
        self.voice.shared.with_counts(|counts| counts.deaths += 1);
        if self.voice.random.chance(50) {
            line.send(&[0x3B, 0, 1, 0, 0, 0]);
        }
        if self.own.is_some() {
            self.technician(&death)?;
        }
        self.voice.closed(&mut line, "a dead one is not closed")?;
        buried(&self.voice.shared, &death, Instant::now());
        Some(())
    }

    /// Sets a heartbeat, locks, and says one thing more.
    fn last_words(&mut self, line: &mut Line) -> Option<Death> {
        let beat = self.voice.random.pick(&BEATS);
        self.voice.beat(line, Heartbeat::Milliseconds(beat))?;
        let until = Instant::now() + PATIENCE;
        // the connection before this one may not be closed yet
        while self.lock(line)? != Status::CarriedOut && self.own.is_some() {
            self.voice.due(until, "its own channel is not free")?;
        }
        let resets = self.voice.shared.resets_sent();
        let get = Asked::plain(self.lockable(), number::METHOD_GET);
        let sent = Instant::now();
        self.voice.ask(line, get)?;
        let heard = Instant::now();
        Some(Death {
            sent,
            heard,
            beat,
            resets,
        })
    }

    /// Asks for the dead one's channel until it is given.
    fn technician(&mut self, death: &Death) -> Option<()> {
        let until = Instant::now() + PATIENCE;
        let mut line = Line::connect(self.address).ok()?;
        loop {
            let asked = Instant::now();
            let status = self.lock(&mut line);
            judge(&self.voice.shared, death, status, asked, Instant::now());
            match status {
                Some(Status::CarriedOut) => return Some(()),
                Some(_) => self.voice.pause(40),
                // all eight were open, or a reset came
                None => {
                    self.voice.pause(20);
                    line = Line::connect(self.address).ok()?;
                }
            }
            self.voice.due(until, "a dead one's channel is not free")?;
        }
    }
}

/// A lock is not given before 3 x H, and from then on at the first try, as the desk ticks before it hears.
fn judge(shared: &Shared, death: &Death, status: Option<Status>, asked: Instant, told: Instant) {
    // a reset may have freed it
    if shared.resets_sent() != death.resets {
        return;
    }
    let (limit, beat) = (death.limit(), death.beat);
    let (most, least) = (death.at_most(told), death.at_least(asked));
    match status {
        Some(Status::CarriedOut) if most < limit => {
            shared.fail(format!(
                "H {beat}: a dead one's lock was given after {most:?}"
            ));
        }
        Some(Status::CarriedOut) => shared.with_counts(|counts| {
            let behind = (most - limit).as_millis() as u64;
            counts.judged += 1;
            counts.let_in_behind = counts.let_in_behind.max(behind);
        }),
        Some(Status::HeldByOther) if least >= limit => {
            shared.fail(format!("H {beat}: a dead one had its lock after {least:?}"));
        }
        Some(Status::HeldByOther) | None => {}
        Some(status) => shared.fail(format!("a lock: {status:?}")),
    }
}

/// The amplifier does not hang up on a dead one before 3 x H.
fn buried(shared: &Shared, death: &Death, closed: Instant) {
    let (most, beat) = (death.at_most(closed), death.beat);
    if shared.resets_sent() == death.resets && most < death.limit() {
        shared.fail(format!("H {beat}: a dead one was closed after {most:?}"));
    }
}

#[cfg(test)]
mod tests {
    use super::*;

    const GIVEN: Option<Status> = Some(Status::CarriedOut);
    const HELD: Option<Status> = Some(Status::HeldByOther);

    /// H 100, and the last message's reply so many milliseconds behind its sending.
    fn death(sent: Instant, replied: u64) -> Death {
        Death {
            sent,
            heard: sent + Duration::from_millis(replied),
            beat: 100,
            resets: 0,
        }
    }

    /// What is said of a try so many milliseconds behind a death whose last message took 5.
    fn said(status: Option<Status>, asked: u64, told: u64) -> Option<String> {
        let shared = Shared::default();
        let sent = Instant::now();
        let at = |milliseconds| sent + Duration::from_millis(milliseconds);
        judge(&shared, &death(sent, 5), status, at(asked), at(told));
        shared.failure()
    }

    #[test]
    fn a_lock_is_given_neither_early_nor_late() {
        assert_eq!(said(GIVEN, 290, 299), None);
        assert!(said(GIVEN, 290, 298).is_some());
        assert_eq!(said(HELD, 305, 400), None);
        assert!(said(HELD, 306, 400).is_some());
        assert_eq!(said(None, 999, 999), None);
        assert!(said(Some(Status::NoObject), 1, 1).is_some());
    }

    #[test]
    fn a_reset_may_free_it() {
        let shared = Shared::default();
        let now = Instant::now();
        shared.resetting();
        judge(&shared, &death(now, 0), GIVEN, now, now);
        buried(&shared, &death(now, 0), now);
        assert_eq!(shared.failure(), None);
    }

    #[test]
    fn an_early_closure_is_told() {
        let shared = Shared::default();
        let now = Instant::now();
        buried(&shared, &death(now, 0), now + Duration::from_millis(299));
        assert_eq!(shared.failure(), None);
        buried(&shared, &death(now, 0), now + Duration::from_millis(298));
        assert!(shared.failure().is_some());
    }
}
