//! What a run exercised of reset by key.

use super::call::{Answer, Call, NAMES, Outcome};
use super::counts::{GIVEN, add_all, decided, entries, labelled, named, number};
use super::reset::{SENTINEL, asking};
use crate::answer::Reset;
use crate::record::{Mechanism, Record};
use std::cmp::Ordering;

/// Two resets, then why nothing is changed.
const DATAGRAMS: [&str; 9] = [
    "by a key",
    "by the zero key",
    "disarmed",
    "disarmed and zero key",
    "too short",
    "too long",
    "right and more",
    "wrong sentinel",
    "wrong key",
];

/// What a reset ends; several at once count each.
const ENDED: [&str; 5] = [
    "connections",
    "locks",
    "waiting entries",
    "undecided bytes",
    "mutes",
];

/// Status 0, the third besides one of the first two; then why another status is given.
const SETTINGS: [&str; 9] = [
    "without text",
    "with an address",
    "over another key",
    "4 by the count",
    "4 by too few bytes",
    "4 by too many bytes",
    "7 by the text",
    "7 with port 0",
    "11 elsewhere",
];
const OVER_ANOTHER: usize = 2;

/// Three rules of the armed, three of the disarmed.
const RULES: [&str; 6] = [
    "armed with port 0",
    "address below 224",
    "address above 239",
    "disarmed with a key",
    "with an address",
    "with a port",
];

/// Counts of all that came of reset by key.
#[derive(Clone, Debug, Default)]
pub struct ResetCounts {
    datagrams: [u64; DATAGRAMS.len()],
    ended: [u64; ENDED.len()],
    settings: [u64; SETTINGS.len()],
    /// Refusals of a record that breaks this rule alone of the mechanism's, by call.
    broken: [[u64; RULES.len()]; NAMES.len()],
    /// Calls done on an armed record, by call.
    armed: [u64; NAMES.len()],
}

impl ResetCounts {
    /// Counts one call and its outcome.
    pub fn count(&mut self, call: &Call, outcome: &Outcome) {
        if let Some(record) = call.record() {
            self.count_mechanism(call.place(), record, outcome.answer.number());
        }
        match (call, &outcome.answer) {
            (
                Call::Datagram {
                    record, datagram, ..
                },
                Answer::Reset(answer),
            ) if answer.number == 0 => self.count_datagram(record, datagram, answer),
            (Call::Deliver { record, .. }, Answer::Delivered(answer)) if answer.length > 0 => {
                let reply = outcome.output.get(..answer.length).unwrap_or_default();
                self.count_settings(record, &decided(call), reply);
            }
            _ => {}
        }
    }

    fn count_mechanism(&mut self, place: usize, record: &Record, number: u8) {
        let mechanism = &record.device.mechanism;
        if number == 0 {
            self.armed[place] += u64::from(mechanism.armed);
        } else if let ([rule], 1) = (broken_rules(mechanism).as_slice(), number) {
            self.broken[place][*rule] += 1;
        }
    }

    fn count_datagram(&mut self, record: &Record, datagram: &[u8], answer: &Reset) {
        let kind = datagram_kind(&record.device.mechanism, datagram, answer.reset == 1);
        self.datagrams[kind] += 1;
        if answer.reset == 1 {
            let device = &record.device;
            let ended = [
                device.connections.iter().any(|connection| connection.live),
                device.holders.iter().any(|holder| *holder != 0),
                device.subscriptions.iter().any(|entry| entry.waiting),
                record.held.iter().any(|held| *held != 0),
                device.mutes.contains(&1),
            ];
            add_all(&mut self.ended, &ended.map(u64::from));
        }
    }

    /// Goes through commands and responses side by side.
    fn count_settings(&mut self, record: &Record, message: &[u8], reply: &[u8]) {
        if message.get(7) != Some(&1) {
            return;
        }
        let mut armed = record.device.mechanism.armed;
        for (command, response) in entries(message).zip(entries(reply)) {
            if command.get(12..16) != Some(&[0, 3, 0, 14]) {
                continue;
            }
            let first = command[8..12] == [0, 0, 0, 1];
            if let Some(kind) = setting_kind(&command[16..], response[8], first) {
                self.settings[kind] += 1;
            }
            let taken = response[8] == 0;
            self.settings[OVER_ANOTHER] += u64::from(taken && armed);
            armed |= taken;
        }
    }

    /// Adds what another run counted.
    pub fn add(&mut self, other: &ResetCounts) {
        add_all(&mut self.datagrams, &other.datagrams);
        add_all(&mut self.ended, &other.ended);
        add_all(&mut self.settings, &other.settings);
        for (mine, theirs) in self.broken.iter_mut().zip(&other.broken) {
            add_all(mine, theirs);
        }
        add_all(&mut self.armed, &other.armed);
    }

    /// Everything that has to come, with how often it came.
    pub fn lines(&self) -> Vec<(String, u64)> {
        let mut lines = Vec::new();
        lines.extend(labelled("datagram, ", &DATAGRAMS, &self.datagrams));
        lines.extend(labelled("reset ended ", &ENDED, &self.ended));
        lines.extend(labelled("3.14: ", &SETTINGS, &self.settings));
        for (place, name) in NAMES.iter().enumerate() {
            if GIVEN.contains(name) {
                let front = format!("{name}: refused, ");
                lines.extend(labelled(&front, &RULES, &self.broken[place]));
                lines.push((format!("{name}: done, armed"), self.armed[place]));
            }
        }
        lines
    }

    /// The table's rows; the rules are added up over the calls.
    pub fn rows(&self) -> [(&'static str, String); 7] {
        let mut broken = [0; RULES.len()];
        for counts in &self.broken {
            add_all(&mut broken, counts);
        }
        let armed: u64 = self.armed.iter().sum();
        let (resets, nothing) = self.datagrams.split_at(2);
        let (taken, refused) = self.settings.split_at(3);
        [
            ("resets", named(&DATAGRAMS[..2], resets)),
            ("resets that ended", named(&ENDED, &self.ended)),
            ("datagrams for nothing", named(&DATAGRAMS[2..], nothing)),
            ("3.14 with status 0", named(&SETTINGS[..3], taken)),
            ("3.14 with another", named(&SETTINGS[3..], refused)),
            ("mechanisms refused", named(&RULES, &broken)),
            ("calls done while armed", armed.to_string()),
        ]
    }
}

/// The datagram's place among the kinds; of several reasons the first.
fn datagram_kind(mechanism: &Mechanism, datagram: &[u8], reset: bool) -> usize {
    let zero = mechanism.key == [0; 16];
    let right = asking(&mechanism.key);
    match datagram.len().cmp(&right.len()) {
        _ if reset => usize::from(zero),
        _ if !mechanism.armed => 2 + usize::from(datagram == right),
        Ordering::Less => 4,
        Ordering::Greater => 5 + usize::from(datagram[..right.len()] == right),
        Ordering::Equal => 7 + usize::from(datagram[..8] == SENTINEL),
    }
}

/// The setting's place among the kinds, by its count and parameters, its status and its object.
fn setting_kind(counted: &[u8], status: u8, first: bool) -> Option<usize> {
    let (count, parameters) = (counted[0], &counted[1..]);
    let length = 20 + parameters.get(16..18).map_or(0, number);
    match (first, status) {
        (true, 0) => Some(usize::from(length > 20)),
        (true, 4) if count != 2 => Some(3),
        (true, 4) => Some(if parameters.len() < length { 4 } else { 5 }),
        (true, 7) => Some(if parameters.ends_with(&[0, 0]) { 7 } else { 6 }),
        (false, 11) => Some(8),
        _ => None,
    }
}

/// The rules of the mechanism that a record breaks.
fn broken_rules(mechanism: &Mechanism) -> Vec<usize> {
    let Mechanism {
        armed,
        key,
        address,
        port,
    } = *mechanism;
    let none = address == [0; 4];
    let broken = [
        armed && port == 0,
        armed && address[0] < 224 && !none,
        armed && address[0] > 239,
        !armed && key != [0; 16],
        !armed && !none,
        !armed && port != 0,
    ];
    (0..RULES.len()).filter(|rule| broken[*rule]).collect()
}
