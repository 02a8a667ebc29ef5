//! Two programs side by side: every call is made of both and compared.

use super::call::{Answer, Call, Outcome, hex};
use super::counts::Counts;
use crate::answer::{Entry, Part, Reading, Reset};
use crate::engine::Engine;
use crate::record::Record;
use crate::second::{endpoint, reader, rules};
use std::fmt;

/// What differed, where, and after which call.
#[derive(Clone, Debug)]
pub struct Difference {
    pub run: &'static str,
    pub seed: u64,
    pub step: u64,
    pub reason: &'static str,
    pub call: Call,
    pub left: Outcome,
    pub right: Outcome,
}

/// Stops the run at the first difference.
pub type Checked<T> = Result<T, Box<Difference>>;

/// A run of calls under one seed.
pub struct Session<'a> {
    left: &'a dyn Engine,
    right: &'a dyn Engine,
    run: &'static str,
    seed: u64,
    step: u64,
    pub counts: Counts,
}

impl fmt::Debug for Session<'_> {
    fn fmt(&self, f: &mut fmt::Formatter<'_>) -> fmt::Result {
        write!(
            f,
            "{} of seed {} at step {}",
            self.run, self.seed, self.step
        )
    }
}

impl<'a> Session<'a> {
    /// A session of a kind of run, under a seed.
    pub fn new(
        left: &'a dyn Engine,
        right: &'a dyn Engine,
        run: &'static str,
        seed: u64,
    ) -> Session<'a> {
        Session {
            left,
            right,
            run,
            seed,
            step: 0,
            counts: Counts::default(),
        }
    }

    /// How many calls were made of each program.
    pub fn steps(&self) -> u64 {
        self.step
    }

    /// Makes the call of both, compares all that comes back, and counts it.
    pub fn check(&mut self, call: Call) -> Checked<Outcome> {
        self.step += 1;
        let left = call.perform(self.left);
        let right = call.perform(self.right);
        if let Some(reason) = difference(&call, &left, &right) {
            return Err(Box::new(Difference {
                run: self.run,
                seed: self.seed,
                step: self.step,
                reason,
                call,
                left,
                right,
            }));
        }
        self.counts.count(&call, &left);
        Ok(left)
    }

    /// Reports a broken promise that equality alone would not show.
    pub fn demand(&self, kept: bool, reason: &'static str, call: Call) -> Checked<()> {
        if kept {
            return Ok(());
        }
        let left = call.perform(self.left);
        let right = call.perform(self.right);
        Err(Box::new(Difference {
            run: self.run,
            seed: self.seed,
            step: self.step,
            reason,
            call,
            left,
            right,
        }))
    }
}

fn difference(call: &Call, left: &Outcome, right: &Outcome) -> Option<&'static str> {
    if !same_answer(call, &left.answer, &right.answer) {
        return Some("the answers differ");
    }
    if left.area != right.area {
        return Some("the areas differ");
    }
    if left.output != right.output {
        return Some("the outputs differ");
    }
    // Equality carries these over to the right side.
    if left.answer.number() == 0 {
        after_success(call, left)
    } else {
        after_refusal(call, left)
    }
}

/// After every call the record rules hold, and row 2 does not apply.
fn after_success(call: &Call, outcome: &Outcome) -> Option<&'static str> {
    let record = outcome.answer.record()?;
    if !rules::hold(record) {
        return Some("a call left a record that breaks a rule");
    }
    let lent = !matches!(
        call,
        Call::Fresh { .. } | Call::Open { .. } | Call::Take { .. }
    );
    if lent && !rules::area_is_good(record, &outcome.area) {
        return Some("a call left a bad area");
    }
    let before = call.record()?;
    match outcome.answer {
        Answer::Delivered(_) => None,
        Answer::Reset(answer) => after_datagram(call, before, &answer, &outcome.area),
        _ if record.device.mechanism != before.device.mechanism => {
            Some("a call changed the mechanism that may not")
        }
        _ => None,
    }
}

/// After a reset the record is fresh and the area zero; else nothing is changed.
fn after_datagram(
    call: &Call,
    before: &Record,
    answer: &Reset,
    area: &[u8],
) -> Option<&'static str> {
    match answer.reset {
        0 if answer.record != *before || area != call.area() => {
            Some("a datagram that resets nothing changed something")
        }
        1 if answer.record != endpoint::fresh(before.device.reading) => {
            Some("a reset left a record that is not fresh at the last reading")
        }
        1 if area.iter().any(|byte| *byte != 0) => Some("a reset left bytes in the area"),
        0 | 1 => None,
        _ => Some("a datagram's answer is neither reset nor nothing"),
    }
}

/// The empty part of an entry there is may begin anywhere.
fn same_answer(call: &Call, left: &Answer, right: &Answer) -> bool {
    match (call, left, right) {
        (Call::EntryPart { bytes, index }, Answer::Part(left), Answer::Part(right))
            if left.length == 0 && reader::read_entry(bytes, *index).is_ok() =>
        {
            right.length == 0
        }
        _ => left == right,
    }
}

fn after_refusal(call: &Call, outcome: &Outcome) -> Option<&'static str> {
    if call.record() != outcome.answer.record() {
        return Some("a refusal changed the record");
    }
    if call.area() != outcome.area {
        return Some("a refusal changed the area");
    }
    if call.output() != outcome.output {
        return Some("a refusal changed the output");
    }
    if !is_bare(&outcome.answer) {
        return Some("a refusal says more than its number");
    }
    None
}

/// Whether a refused answer is the number alone, with a fault for 8.
fn is_bare(answer: &Answer) -> bool {
    let number = answer.number();
    let fault_fits = |fault: u8| (number == 8) == (1..=6).contains(&fault) && fault <= 6;
    match *answer {
        Answer::Opened(answer) => answer.connection == 0,
        Answer::Ticked(answer) => answer.closed == 0,
        Answer::Delivered(answer) => {
            (answer.kind, answer.fault, answer.taken, answer.length) == (0, 0, 0, 0)
        }
        Answer::Taken(answer) => (answer.kind, answer.connection, answer.length) == (0, 0, 0),
        Answer::Reset(answer) => answer.reset == 0,
        Answer::Reading(answer) => {
            let fault = answer.fault;
            let bare = Reading {
                number,
                fault,
                ..Reading::default()
            };
            answer == bare && fault_fits(fault)
        }
        Answer::Entry(answer) => {
            let fault = answer.fault;
            let bare = Entry {
                number,
                fault,
                ..Entry::default()
            };
            answer == bare && fault_fits(fault)
        }
        Answer::Written(answer) => answer.length == 0 && fault_fits(answer.fault),
        Answer::Part(answer) => answer == Part::default(),
        Answer::Fresh(_) | Answer::Cleared(_) | Answer::Closed(_) => true,
    }
}

impl fmt::Display for Difference {
    fn fmt(&self, f: &mut fmt::Formatter<'_>) -> fmt::Result {
        let Difference {
            run,
            seed,
            step,
            reason,
            ..
        } = self;
        writeln!(f, "{run}, seed {seed}, step {step}: {reason}")?;
        writeln!(f, "call: {}", self.call.describe())?;
        writeln!(f, "left:  {}", without_record(&self.left.answer))?;
        writeln!(f, "right: {}", without_record(&self.right.answer))?;
        if let (Some(left), Some(right)) = (self.left.answer.record(), self.right.answer.record()) {
            for line in record_differences(left, right) {
                writeln!(f, "record: {line}")?;
            }
        }
        bytes_difference(f, "area", &self.left.area, &self.right.area)?;
        bytes_difference(f, "output", &self.left.output, &self.right.output)
    }
}

/// The answer's own fields: the record is told field by field.
fn without_record(answer: &Answer) -> String {
    match answer {
        Answer::Fresh(_) => "a record".to_string(),
        Answer::Opened(a) => format!("number {} connection {}", a.number, a.connection),
        Answer::Closed(a) => format!("number {}", a.number),
        Answer::Ticked(a) => format!("number {} closed {:#010b}", a.number, a.closed),
        Answer::Delivered(a) => format!(
            "number {} kind {} fault {} taken {} length {}",
            a.number, a.kind, a.fault, a.taken, a.length
        ),
        Answer::Taken(a) => format!(
            "number {} kind {} connection {} length {}",
            a.number, a.kind, a.connection, a.length
        ),
        Answer::Reset(a) => format!("number {} reset {}", a.number, a.reset),
        other => format!("{other:?}"),
    }
}

fn record_differences(left: &Record, right: &Record) -> Vec<String> {
    let (a, b) = (&left.device, &right.device);
    let mut lines = Vec::new();
    note(&mut lines, "reading", 0, &a.reading, &b.reading);
    for n in 0..8 {
        let (one, other) = (&a.connections[n], &b.connections[n]);
        note(&mut lines, "connection", n, one, other);
        note(&mut lines, "held", n, &left.held[n], &right.held[n]);
        note(&mut lines, "mute", n, &a.mutes[n], &b.mutes[n]);
        note(&mut lines, "holder", n, &a.holders[n], &b.holders[n]);
    }
    note(&mut lines, "mechanism", 0, &a.mechanism, &b.mechanism);
    for n in 0..32 {
        let (one, other) = (&a.subscriptions[n], &b.subscriptions[n]);
        note(&mut lines, "subscription", n, one, other);
    }
    lines
}

fn note<T: PartialEq + fmt::Debug>(
    lines: &mut Vec<String>,
    what: &str,
    n: usize,
    left: &T,
    right: &T,
) {
    if left != right {
        lines.push(format!("{what} {n}: left {left:?}, right {right:?}"));
    }
}

fn bytes_difference(
    f: &mut fmt::Formatter<'_>,
    what: &str,
    left: &[u8],
    right: &[u8],
) -> fmt::Result {
    let Some(first) = (0..left.len()).find(|at| left.get(*at) != right.get(*at)) else {
        return Ok(());
    };
    let end = (first + 16).min(left.len()).min(right.len());
    let (one, other) = (hex(&left[first..end]), hex(&right[first..end]));
    writeln!(f, "{what} from byte {first}: left {one}, right {other}")
}
