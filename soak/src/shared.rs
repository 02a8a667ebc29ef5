//! What all threads of a run share: counts, what went wrong, and whether to go on.

use crate::supervision::Freed;
use demo::witness::{Call, Came};
use melorwyth::{Refusal, SendingKind};
use std::sync::atomic::{AtomicBool, AtomicU64, Ordering};
use std::sync::{Mutex, PoisonError};

/// What was counted.
#[derive(Clone, Copy, Debug, Default, PartialEq, Eq)]
pub struct Counts {
    pub opened: u64,
    pub turned_away: u64,
    pub closed: u64,
    pub ticks: u64,
    pub pieces: u64,
    pub messages: u64,
    pub faults: u64,
    pub takes: u64,
    pub notifications: u64,
    pub keep_alives: u64,
    pub datagrams: u64,
    pub resets: u64,
    /// What ticks closed and freed.
    pub freed: Freed,
    /// Controllers that died with a lock, and how often a technician's tries were held to the clock.
    pub deaths: u64,
    pub judged: u64,
    /// How many milliseconds behind 3 x H the last of the technicians had his lock.
    pub let_in_behind: u64,
}

#[derive(Debug, Default)]
pub struct Shared {
    stop: AtomicBool,
    calls: AtomicU64,
    resets_sent: AtomicU64,
    counts: Mutex<Counts>,
    failure: Mutex<Option<String>>,
}

impl Shared {
    pub fn stop(&self) {
        self.stop.store(true, Ordering::Relaxed);
    }

    pub fn stopped(&self) -> bool {
        self.stop.load(Ordering::Relaxed)
    }

    pub fn calls(&self) -> u64 {
        self.calls.load(Ordering::Relaxed)
    }

    /// To be told before a datagram that resets goes out: a lock may be freed by it from then on.
    pub fn resetting(&self) {
        self.resets_sent.fetch_add(1, Ordering::SeqCst);
    }

    pub fn resets_sent(&self) -> u64 {
        self.resets_sent.load(Ordering::SeqCst)
    }

    /// Keeps the first failure, and ends the run.
    pub fn fail(&self, what: String) {
        let mut failure = self.failure.lock().unwrap_or_else(PoisonError::into_inner);
        failure.get_or_insert(what);
        self.stop();
    }

    pub fn failure(&self) -> Option<String> {
        let failure = self.failure.lock().unwrap_or_else(PoisonError::into_inner);
        failure.clone()
    }

    pub fn counts(&self) -> Counts {
        *self.counts.lock().unwrap_or_else(PoisonError::into_inner)
    }

    pub fn with_counts(&self, count: impl FnOnce(&mut Counts)) {
        count(&mut self.counts.lock().unwrap_or_else(PoisonError::into_inner));
    }

    pub fn freed(&self, freed: Freed) {
        self.with_counts(|counts| {
            counts.freed.connections += freed.connections;
            counts.freed.locks += freed.locks;
            counts.freed.behind = counts.freed.behind.max(freed.behind);
        });
    }

    pub fn count(&self, call: &Call) {
        self.calls.fetch_add(1, Ordering::Relaxed);
        self.with_counts(|counts| match *call {
            Call::Fresh { .. } => {}
            Call::Open { answer } => match answer {
                Err(Refusal::TableFull) => counts.turned_away += 1,
                _ => counts.opened += 1,
            },
            Call::Close { .. } => counts.closed += 1,
            Call::Tick { .. } => counts.ticks += 1,
            Call::Deliver { answer, .. } => {
                counts.pieces += 1;
                match answer.map(|answer| answer.came) {
                    Ok(Came::Message { .. }) => counts.messages += 1,
                    Ok(Came::Closed(_)) => counts.faults += 1,
                    _ => {}
                }
            }
            Call::Take { answer } => {
                counts.takes += 1;
                match answer.ok().flatten().map(|taken| taken.kind) {
                    Some(SendingKind::Notification) => counts.notifications += 1,
                    Some(SendingKind::KeepAlive) => counts.keep_alives += 1,
                    None => {}
                }
            }
            Call::Datagram { answer, .. } => {
                counts.datagrams += 1;
                counts.resets += u64::from(answer == Ok(true));
            }
        });
    }
}
