//! What a run came to.

use crate::process::Holding;
use crate::shared::Counts;
use std::fmt;
use std::time::Duration;

/// The most descriptors that twelve lines and a desk with its readers have at a time.
const DESCRIPTORS: usize = 80;
/// How many KiB a process may have more at the end than early: threads come and go, and an allocator keeps some.
const GROWTH: usize = 8 << 10;

#[derive(Clone, Debug)]
pub struct Report {
    pub time: Duration,
    pub calls: u64,
    pub counts: Counts,
    pub failure: Option<String>,
    /// What the process held before, in the first third at most, at most, with the desk alone, and at last.
    pub before: Holding,
    pub early: Holding,
    pub most: Holding,
    pub late: Holding,
    pub after: Holding,
}

impl Report {
    /// The first thing that is not as it has to be; where memory is not the program's own, it is not judged.
    pub fn wrong(&self, judge_memory: bool) -> Option<String> {
        let (before, after) = (self.before, self.after);
        let leaks = [
            ("descriptors", before.descriptors, after.descriptors),
            ("threads", before.threads, after.threads),
        ];
        let leak = leaks.into_iter().find(|(_, before, after)| before != after);
        let leak = leak.map(|(what, before, after)| format!("{what}: {before}, at last {after}"));
        let grown = self.late.memory > self.early.memory + GROWTH;
        let memory = format!("memory: {} KiB, {}", self.early.memory, self.late.memory);
        self.failure
            .clone()
            .or(leak)
            .or((self.most.descriptors > DESCRIPTORS)
                .then(|| format!("{} descriptors at a time", self.most.descriptors)))
            .or((judge_memory && grown).then_some(memory))
            .or(self.missing().map(|what| format!("no {what} in this run")))
    }

    /// What did not come at all: a run without it shows nothing of it.
    fn missing(&self) -> Option<&'static str> {
        let counts = &self.counts;
        let needed = [
            ("opening", counts.opened),
            ("closing by the host", counts.closed),
            ("message", counts.messages),
            ("fault", counts.faults),
            ("notification", counts.notifications),
            ("keep-alive of the amplifier", counts.keep_alives),
            ("ninth connection", counts.turned_away),
            ("closure by a tick", counts.freed.connections),
            ("lock freed by a tick", counts.freed.locks),
            ("technician", counts.judged),
        ];
        let missing = needed.into_iter().find(|(_, count)| *count == 0);
        missing.map(|(what, _)| what)
    }
}

impl fmt::Display for Report {
    fn fmt(&self, f: &mut fmt::Formatter) -> fmt::Result {
        let (calls, seconds) = (self.calls, self.time.as_secs_f64());
        writeln!(
            f,
            "{calls} calls in {seconds:.1} s, each held to the second program"
        )?;
        writeln!(f, "{}", self.counts)?;
        let (before, most, after) = (self.before, self.most, self.after);
        writeln!(
            f,
            "  descriptors {} before, {} at most, {} at last; threads {}, {}, {}; memory {} KiB early, {} late",
            before.descriptors,
            most.descriptors,
            after.descriptors,
            before.threads,
            most.threads,
            after.threads,
            self.early.memory,
            self.late.memory
        )
    }
}

impl fmt::Display for Counts {
    fn fmt(&self, f: &mut fmt::Formatter) -> fmt::Result {
        let freed = &self.freed;
        writeln!(
            f,
            "  {} ticks, {} pieces with {} messages and {} faults, {} takes with {} notifications and {} keep-alives",
            self.ticks,
            self.pieces,
            self.messages,
            self.faults,
            self.takes,
            self.notifications,
            self.keep_alives
        )?;
        writeln!(
            f,
            "  {} openings, {} closings by the host, {} turned away as the ninth, {} datagrams with {} resets",
            self.opened, self.closed, self.turned_away, self.datagrams, self.resets
        )?;
        writeln!(
            f,
            "  {} died; ticks closed {} and freed {} locks, each at its first tick from 3 x H on, at most {} ms behind",
            self.deaths, freed.connections, freed.locks, freed.behind
        )?;
        write!(
            f,
            "  {} technicians were let in, none before 3 x H, at most {} ms behind it by their own clocks and tries",
            self.judged, self.let_in_behind
        )
    }
}
