//! What a run exercised.

use super::call::{Answer, Call, NAMES, Outcome};
use super::context_counts::ContextCounts;
use super::reset_counts::ResetCounts;
use crate::answer::{CLOSED, KEEP_ALIVE, MESSAGE, MORE, NOTIFICATION};
use crate::record::SHARE;
use std::fmt::Write;

/// Each thing that can come is to come at least so often.
pub const FLOOR: u64 = 100;

const STATUSES: [u8; 10] = [0, 3, 4, 5, 6, 7, 8, 9, 10, 11];

/// The refusals that each call can give, by the call's name.
const POSSIBLE: [(&str, &[u8]); 12] = [
    ("clear", &[2]),
    ("open", &[1, 5]),
    ("close", &[1, 2, 3]),
    ("tick", &[1, 2, 6]),
    ("deliver", &[1, 2, 3, 4]),
    ("take", &[1, 4]),
    ("datagram", &[1, 2]),
    ("read_message", &[8, 9]),
    ("read_entry", &[8, 9, 12]),
    ("start", &[4, 10, 11]),
    ("append", &[4, 8, 10, 11]),
    ("keep_alive", &[4, 11]),
];

/// The calls that are given a record.
pub const GIVEN: [&str; 6] = ["open", "close", "tick", "deliver", "take", "datagram"];

/// What a plan tries entries for.
#[derive(Clone, Copy, Debug)]
pub enum Tries {
    /// A count without bytes.
    Counts,
    /// A context above 64 or past its entry.
    Contexts,
}

const TRIES: [&str; 2] = ["count without bytes", "context too long"];

/// Entries tried, each in a message; closures and writes are counted of those that have what the plan tries them for.
const TRIED: [&str; 5] = [
    "tried",
    "not well formed",
    "by this",
    "closures",
    "not written by 11",
];

/// Counts of all that came.
#[derive(Clone, Debug, Default)]
pub struct Counts {
    calls: [u64; NAMES.len()],
    /// By call, then by the refusal's number; place 0 counts the calls done.
    refusals: [[u64; 13]; NAMES.len()],
    delivery_faults: [u64; 7],
    reader_faults: [u64; 7],
    append_faults: [u64; 7],
    statuses: [u64; 16],
    delivered_types: [u64; 5],
    read_types: [u64; 5],
    more: u64,
    replies: u64,
    closed_by_fault: u64,
    closed_by_host: u64,
    closed_by_tick: u64,
    notifications: u64,
    keep_alives: u64,
    nothing: u64,
    parts: u64,
    empty_parts: u64,
    /// Ticks given a record and a step whose sum does not fit 64 bits.
    beyond: u64,
    /// Those of them that 1 refused.
    beyond_refused: u64,
    /// Lists of ticks held to one tick.
    clocks: u64,
    /// Those of them that closed a connection.
    clocks_closing: u64,
    /// By what they are tried for.
    tries: [[u64; TRIED.len()]; TRIES.len()],
    reset: ResetCounts,
    contexts: ContextCounts,
}

impl Counts {
    /// Counts one call and its outcome.
    pub fn count(&mut self, call: &Call, outcome: &Outcome) {
        let place = call.place();
        let number = usize::from(outcome.answer.number());
        self.calls[place] += 1;
        self.refusals[place][number.min(12)] += 1;
        self.count_beyond(call, number);
        self.reset.count(call, outcome);
        self.contexts.count(call, outcome);
        match (call, &outcome.answer) {
            (Call::Close { .. }, Answer::Closed(answer)) if answer.number == 0 => {
                self.closed_by_host += 1;
            }
            (_, Answer::Ticked(answer)) => {
                self.closed_by_tick += u64::from(answer.closed.count_ones());
            }
            (_, Answer::Delivered(_)) if number == 0 => self.count_delivery(call, outcome),
            (_, Answer::Taken(answer)) if number == 0 => match answer.kind {
                NOTIFICATION => self.notifications += 1,
                KEEP_ALIVE => self.keep_alives += 1,
                _ => self.nothing += 1,
            },
            (_, Answer::Reading(answer)) => {
                self.reader_faults[usize::from(answer.fault.min(6))] += 1;
                if number == 0 {
                    self.read_types[usize::from(answer.kind.min(4))] += 1;
                }
            }
            (Call::Append { .. }, Answer::Written(answer)) => {
                self.append_faults[usize::from(answer.fault.min(6))] += 1;
            }
            (Call::EntryPart { .. }, Answer::Part(answer)) => match answer.length {
                0 => self.empty_parts += 1,
                _ => self.parts += 1,
            },
            _ => {}
        }
    }

    /// Counts a list of ticks held to one, by the connections that it closed.
    pub fn count_clock(&mut self, closed: u8) {
        self.clocks += 1;
        self.clocks_closing += u64::from(closed != 0);
    }

    /// Counts an entry tried in a message, by whether it is well formed and has what it is tried for.
    pub fn count_tried(&mut self, tries: Tries, sound: bool, spoiled: bool) {
        let came = [true, !sound, spoiled].map(u64::from);
        add_all(&mut self.tries[tries as usize], &came);
    }

    /// Counts a delivery that closes if the message has such an entry.
    pub fn count_closure(&mut self, tries: Tries, spoiled: bool) {
        self.tries[tries as usize][3] += u64::from(spoiled);
    }

    /// Counts a write that is refused by 11 if the entry is such a one.
    pub fn count_unwritten(&mut self, tries: Tries, spoiled: bool) {
        self.tries[tries as usize][4] += u64::from(spoiled);
    }

    fn count_beyond(&mut self, call: &Call, number: usize) {
        let Call::Tick {
            record, reading, ..
        } = call
        else {
            return;
        };
        let step = u64::from(reading.wrapping_sub(record.device.reading));
        let is_beyond = record.device.connections.iter().any(|connection| {
            connection.silence.checked_add(step).is_none()
                || connection.quiet.checked_add(step).is_none()
        });
        self.beyond += u64::from(is_beyond);
        self.beyond_refused += u64::from(is_beyond && number == 1);
    }

    fn count_delivery(&mut self, call: &Call, outcome: &Outcome) {
        let Answer::Delivered(answer) = outcome.answer else {
            return;
        };
        match answer.kind {
            MORE => self.more += 1,
            CLOSED => {
                self.closed_by_fault += 1;
                self.delivery_faults[usize::from(answer.fault.min(6))] += 1;
            }
            MESSAGE => {
                let kind = delivered_type(call);
                self.delivered_types[usize::from(kind.min(4))] += 1;
                if answer.length > 0 {
                    self.replies += 1;
                }
                if kind == 1 {
                    self.count_statuses(&outcome.output[..answer.length]);
                }
            }
            _ => {}
        }
    }

    fn count_statuses(&mut self, reply: &[u8]) {
        let mut rest = reply.get(10..).unwrap_or_default();
        while rest.len() >= 10 {
            let size = u32::from_be_bytes([rest[0], rest[1], rest[2], rest[3]]) as usize;
            self.statuses[usize::from(rest[8].min(15))] += 1;
            rest = rest.get(size.max(10)..).unwrap_or_default();
        }
    }

    /// Adds what another run counted.
    pub fn add(&mut self, other: &Counts) {
        add_all(&mut self.calls, &other.calls);
        for (mine, theirs) in self.refusals.iter_mut().zip(&other.refusals) {
            add_all(mine, theirs);
        }
        add_all(&mut self.delivery_faults, &other.delivery_faults);
        add_all(&mut self.reader_faults, &other.reader_faults);
        add_all(&mut self.append_faults, &other.append_faults);
        add_all(&mut self.statuses, &other.statuses);
        add_all(&mut self.delivered_types, &other.delivered_types);
        add_all(&mut self.read_types, &other.read_types);
        self.more += other.more;
        self.replies += other.replies;
        self.closed_by_fault += other.closed_by_fault;
        self.closed_by_host += other.closed_by_host;
        self.closed_by_tick += other.closed_by_tick;
        self.notifications += other.notifications;
        self.keep_alives += other.keep_alives;
        self.nothing += other.nothing;
        self.parts += other.parts;
        self.empty_parts += other.empty_parts;
        self.beyond += other.beyond;
        self.beyond_refused += other.beyond_refused;
        self.clocks += other.clocks;
        self.clocks_closing += other.clocks_closing;
        for (mine, theirs) in self.tries.iter_mut().zip(&other.tries) {
            add_all(mine, theirs);
        }
        self.reset.add(&other.reset);
        self.contexts.add(&other.contexts);
    }

    /// All calls made.
    pub fn total(&self) -> u64 {
        self.calls.iter().sum()
    }

    /// Everything that has to come, with how often it came.
    pub fn lines(&self) -> Vec<(String, u64)> {
        let mut lines = Vec::new();
        for (place, name) in NAMES.iter().enumerate() {
            lines.push((format!("{name}: calls"), self.calls[place]));
            lines.push((format!("{name}: done"), self.refusals[place][0]));
        }
        for (name, numbers) in POSSIBLE {
            for number in numbers {
                let label = format!("{name}: refusal {number}");
                lines.push((label, self.refused(name, *number)));
            }
        }
        for fault in 1..=6 {
            lines.push((
                format!("delivery: closed by fault {fault}"),
                self.delivery_faults[fault],
            ));
            lines.push((format!("reader: fault {fault}"), self.reader_faults[fault]));
            lines.push((format!("append: fault {fault}"), self.append_faults[fault]));
        }
        for status in STATUSES {
            let count = self.statuses[usize::from(status)];
            lines.push((format!("status {status}"), count));
        }
        for kind in 0..5 {
            lines.push((
                format!("type {kind} delivered, sound"),
                self.delivered_types[kind],
            ));
            lines.push((format!("type {kind} read"), self.read_types[kind]));
        }
        lines.extend(self.single_lines());
        for (name, counts) in TRIES.iter().zip(&self.tries) {
            lines.extend(labelled(&format!("{name}: "), &TRIED, counts));
        }
        lines.extend(self.reset.lines());
        lines.extend(self.contexts.lines());
        lines
    }

    fn single_lines(&self) -> impl Iterator<Item = (String, u64)> {
        let lines = [
            ("delivery: more needed", self.more),
            ("delivery: replies", self.replies),
            ("closures by fault", self.closed_by_fault),
            ("closures by the host", self.closed_by_host),
            ("closures by tick", self.closed_by_tick),
            ("taken: notifications", self.notifications),
            ("taken: keep-alives", self.keep_alives),
            ("taken: nothing", self.nothing),
            ("parts with bytes", self.parts),
            ("parts without bytes", self.empty_parts),
            ("ticks whose sum does not fit 64 bits", self.beyond),
            ("lists of ticks held to one", self.clocks),
            ("lists of ticks that closed", self.clocks_closing),
        ];
        lines
            .into_iter()
            .map(|(label, count)| (label.to_string(), count))
    }

    fn refused(&self, name: &str, number: u8) -> u64 {
        let place = NAMES.iter().position(|other| *other == name);
        place.map_or(0, |place| self.refusals[place][usize::from(number)])
    }

    /// What came too seldom, and refusals that came where none can.
    pub fn failures(&self) -> Vec<String> {
        let mut failures: Vec<String> = self
            .lines()
            .into_iter()
            .filter(|(_, count)| *count < FLOOR)
            .map(|(label, count)| format!("{label}: only {count}"))
            .collect();
        for (place, name) in NAMES.iter().enumerate() {
            for number in 1..=12_u8 {
                let count = self.refusals[place][usize::from(number)];
                if count > 0 && !is_possible(name, number) {
                    failures.push(format!("{name}: refusal {number} came {count} times"));
                }
            }
        }
        if self.beyond_refused < self.beyond {
            let others = self.beyond - self.beyond_refused;
            failures.push(format!(
                "tick: {others} sums beyond 64 bits not refused by 1"
            ));
        }
        failures
    }

    /// How often the rarest thing that has to come came.
    fn rarest(&self) -> u64 {
        self.lines()
            .iter()
            .map(|(_, count)| *count)
            .min()
            .unwrap_or(0)
    }

    /// The table of counts.
    pub fn table(&self) -> String {
        let mut text = format!(
            "{:<14}{:>8}  refusals, each with its number\n",
            "call", "done"
        );
        for (name, numbers) in NAMES.iter().zip(&self.refusals) {
            let refusals = series(&numbers[1..], 1);
            let line = format!("{name:<14}{:>8}  {refusals}", numbers[0]);
            let _ = writeln!(text, "{}", line.trim_end());
        }
        let rows = [
            ("closed by fault", series(&self.delivery_faults[1..], 1)),
            ("reader's faults", series(&self.reader_faults[1..], 1)),
            ("append's faults", series(&self.append_faults[1..], 1)),
            ("statuses", series(&self.statuses, 0)),
            ("types delivered", series(&self.delivered_types, 0)),
            ("types read", series(&self.read_types, 0)),
        ];
        let tries = TRIES.into_iter().zip(&self.tries);
        let tried = tries.map(|(label, counts)| (label, named(&TRIED, counts)));
        let rows = rows.into_iter().chain(self.reset.rows());
        for (label, numbers) in rows.chain(self.contexts.rows()).chain(tried) {
            let _ = writeln!(text, "{label:<24}{numbers}");
        }
        self.write_rest(&mut text);
        text
    }

    fn write_rest(&self, text: &mut String) {
        let _ = writeln!(
            text,
            "deliveries              more needed {}, replies {}\n\
             closures                by fault {}, by the host {}, by tick {}\n\
             taken                   notifications {}, keep-alives {}, nothing {}\n\
             parts                   with bytes {}, empty {}\n\
             sums beyond 64 bits     tried {}, refused by 1: {}\n\
             lists of ticks          held to one tick {}, of them closing {}\n\
             calls in all            {}\n\
             kinds that have to come {}, the rarest {} times",
            self.more,
            self.replies,
            self.closed_by_fault,
            self.closed_by_host,
            self.closed_by_tick,
            self.notifications,
            self.keep_alives,
            self.nothing,
            self.parts,
            self.empty_parts,
            self.beyond,
            self.beyond_refused,
            self.clocks,
            self.clocks_closing,
            self.total(),
            self.lines().len(),
            self.rarest()
        );
    }
}

/// The counts that are not zero, each after its number.
fn series(counts: &[u64], first: usize) -> String {
    let some: Vec<String> = counts
        .iter()
        .enumerate()
        .filter(|(_, count)| **count > 0)
        .map(|(place, count)| format!("{}: {count}", first + place))
        .collect();
    some.join(", ")
}

fn is_possible(name: &str, number: u8) -> bool {
    POSSIBLE
        .iter()
        .any(|(other, numbers)| *other == name && numbers.contains(&number))
}

/// The type of the message a delivery completed.
fn delivered_type(call: &Call) -> u8 {
    decided(call).get(7).copied().unwrap_or_default()
}

/// The message that a delivery completed, and what comes behind it.
pub fn decided(call: &Call) -> Vec<u8> {
    let Call::Deliver {
        record,
        area,
        n,
        piece,
        ..
    } = call
    else {
        return Vec::new();
    };
    let n = usize::from(*n);
    let held = usize::from(record.held[n]);
    [&area[n * SHARE..n * SHARE + held], piece].concat()
}

/// Each count behind its label, which has this before it.
pub fn labelled<'a>(
    front: &'a str,
    labels: &'a [&str],
    counts: &'a [u64],
) -> impl Iterator<Item = (String, u64)> + 'a {
    let named = labels.iter().zip(counts);
    named.map(move |(label, count)| (format!("{front}{label}"), *count))
}

/// Each count behind its label, in a row.
pub fn named(labels: &[&str], counts: &[u64]) -> String {
    let cells: Vec<String> = labelled("", labels, counts)
        .map(|(label, count)| format!("{label}: {count}"))
        .collect();
    cells.join(", ")
}

/// The entries of a sound message at the front.
pub fn entries(message: &[u8]) -> impl Iterator<Item = &[u8]> {
    let size = message.get(3..7).map_or(0, number);
    let mut rest = message.get(10..size + 1).unwrap_or_default();
    std::iter::from_fn(move || {
        let size = number(rest.get(..4)?);
        let (entry, behind) = rest.split_at_checked(size.max(10))?;
        rest = behind;
        Some(entry)
    })
}

/// The bytes as a number, most significant first.
pub fn number(bytes: &[u8]) -> usize {
    bytes
        .iter()
        .fold(0, |sum, byte| (sum << 8) | usize::from(*byte))
}

/// Adds each count to the one at its place.
pub fn add_all(mine: &mut [u64], theirs: &[u64]) {
    for (mine, theirs) in mine.iter_mut().zip(theirs) {
        *mine += theirs;
    }
}
