//! What a run exercised of contexts.

use super::call::{Answer, Call, NAMES, Outcome};
use super::counts::{GIVEN, add_all, decided, entries, labelled, named, number};
use super::traffic::naming;
use crate::answer;
use crate::record::{CONTEXT, Record, Subscription};

/// How many bytes a context has.
const LENGTHS: [&str; 3] = ["no byte", "1 to 63 bytes", "64 bytes"];

/// Why 3.1 gets another status than 0.
const STATUSES: [&str; 7] = [
    "4 by the count",
    "4 by the length",
    "4 by the last pair",
    "7 by the mode",
    "7 by a context above 64",
    "9 with the same context",
    "9 with another",
];

/// What the call for a context answers.
const ASKED: [&str; 3] = ["with bytes", "empty", "nowhere"];

/// The rules of a context that a record can break.
const RULES: [&str; 4] = [
    "count above 64",
    "byte past the count",
    "free with a count",
    "free with a byte",
];

/// Counts of all that came of contexts.
#[derive(Clone, Debug, Default)]
pub struct ContextCounts {
    added: [u64; LENGTHS.len()],
    taken: [u64; LENGTHS.len()],
    statuses: [u64; STATUSES.len()],
    asked: [u64; ASKED.len()],
    /// Refusals of a record that breaks this rule alone of the contexts', by call.
    broken: [[u64; RULES.len()]; NAMES.len()],
}

impl ContextCounts {
    /// Counts one call and its outcome.
    pub fn count(&mut self, call: &Call, outcome: &Outcome) {
        if let (Some(record), 1) = (call.record(), outcome.answer.number())
            && let [rule] = broken_rules(record).as_slice()
        {
            self.broken[call.place()][*rule] += 1;
        }
        match (call, &outcome.answer) {
            (Call::EntryContext { .. }, Answer::Part(part)) => {
                let kind = if part.length > 0 {
                    0
                } else {
                    1 + usize::from(part.start == 0)
                };
                self.asked[kind] += 1;
            }
            (_, Answer::Taken(taken)) if taken.kind == answer::NOTIFICATION => {
                let count = outcome.output.get(23..25).map_or(0, number);
                self.taken[length_kind(count)] += 1;
            }
            (Call::Deliver { record, n, .. }, Answer::Delivered(answer)) if answer.length > 0 => {
                let reply = outcome.output.get(..answer.length).unwrap_or_default();
                self.count_adds(record, *n, &decided(call), reply);
            }
            _ => {}
        }
    }

    /// Goes through commands and responses side by side.
    fn count_adds(&mut self, record: &Record, n: u8, message: &[u8], reply: &[u8]) {
        if message.get(7) != Some(&1) {
            return;
        }
        for (command, response) in entries(message).zip(entries(reply)) {
            if command.get(8..16) != Some(&[0, 0, 0, 4, 0, 3, 0, 1]) {
                continue;
            }
            let (count, parameters) = (command[16], &command[17..]);
            match response[8] {
                0 => self.added[length_kind(parameters.len().saturating_sub(21))] += 1,
                status => {
                    if let Some(kind) = status_kind(record, n, status, count, parameters) {
                        self.statuses[kind] += 1;
                    }
                }
            }
        }
    }

    /// Adds what another run counted.
    pub fn add(&mut self, other: &ContextCounts) {
        add_all(&mut self.added, &other.added);
        add_all(&mut self.taken, &other.taken);
        add_all(&mut self.statuses, &other.statuses);
        add_all(&mut self.asked, &other.asked);
        for (mine, theirs) in self.broken.iter_mut().zip(&other.broken) {
            add_all(mine, theirs);
        }
    }

    /// Everything that has to come, with how often it came.
    pub fn lines(&self) -> Vec<(String, u64)> {
        let mut lines = Vec::new();
        lines.extend(labelled("added with ", &LENGTHS, &self.added));
        lines.extend(labelled("taken with ", &LENGTHS, &self.taken));
        lines.extend(labelled("3.1: ", &STATUSES, &self.statuses));
        lines.extend(labelled("context asked for, ", &ASKED, &self.asked));
        for (place, name) in NAMES.iter().enumerate() {
            if GIVEN.contains(name) {
                let front = format!("{name}: refused, ");
                lines.extend(labelled(&front, &RULES, &self.broken[place]));
            }
        }
        lines
    }

    /// The table's rows; the rules are added up over the calls.
    pub fn rows(&self) -> [(&'static str, String); 5] {
        let mut broken = [0; RULES.len()];
        for counts in &self.broken {
            add_all(&mut broken, counts);
        }
        [
            ("contexts added", named(&LENGTHS, &self.added)),
            ("contexts taken", named(&LENGTHS, &self.taken)),
            ("contexts asked for", named(&ASKED, &self.asked)),
            ("3.1 with another", named(&STATUSES, &self.statuses)),
            ("entries refused", named(&RULES, &broken)),
        ]
    }
}

fn length_kind(count: usize) -> usize {
    match count {
        0 => 0,
        1..CONTEXT => 1,
        _ => 2,
    }
}

/// The place of the reason for a status, as far as it tells of a context; of several reasons the first.
fn status_kind(record: &Record, n: u8, status: u8, count: u8, parameters: &[u8]) -> Option<usize> {
    let stated = parameters.get(16..18).map_or(0, number);
    match status {
        4 if count != 5 => Some(0),
        4 if parameters.len() != 21 + stated => Some(1),
        4 => Some(2),
        7 => Some(3 + usize::from(*parameters.get(18 + stated)? == 1)),
        9 => {
            let twin = twin(record, n, parameters)?;
            let held = twin.context.get(..usize::from(twin.context_count));
            let same = held == parameters.get(18..18 + stated);
            Some(if same { 5 } else { 6 })
        }
        _ => None,
    }
}

/// The entry that the parameters name, if the record had it before the message.
fn twin<'a>(record: &'a Record, n: u8, parameters: &[u8]) -> Option<&'a Subscription> {
    record.device.subscriptions.iter().find(|entry| {
        let name = naming(entry.emitter, entry.event, entry.object, entry.method);
        entry.used && entry.connection == n && parameters.starts_with(&name)
    })
}

/// The rules of contexts that a record breaks, each once.
fn broken_rules(record: &Record) -> Vec<usize> {
    let entries = &record.device.subscriptions;
    let is_broken = |rule: &usize| {
        entries.iter().any(|entry| {
            let count = usize::from(entry.context_count);
            let past = entry.context.get(count..).unwrap_or_default();
            match rule {
                0 => entry.used && count > CONTEXT,
                1 => entry.used && past.iter().any(|byte| *byte != 0),
                2 => !entry.used && count != 0,
                _ => !entry.used && entry.context.iter().any(|byte| *byte != 0),
            }
        })
    };
    (0..RULES.len()).filter(is_broken).collect()
}
