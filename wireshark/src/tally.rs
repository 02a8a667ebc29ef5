//! How much of each kind was compared, and that whatever has to come came.

use crate::capture::Side;
use crate::comparison::Sent;
use crate::hall::Meetings;
use crate::message::{COMMAND, COMMAND_WANTING_REPLY, Entry, Message, NOTIFICATION};
use crate::session::{LONGEST_CONTEXT, LONGEST_DATA, MOST_COMMANDS};
use std::collections::{BTreeMap, HashMap};
use std::fmt;

/// The statuses that the device gives.
const STATUSES: [u8; 10] = [0, 3, 4, 5, 6, 7, 8, 9, 10, 11];
const KINDS: [&str; 11] = [
    "commands",
    "commands, once more as if wanting reply",
    "commands wanting reply",
    "responses from the device",
    "responses to the device",
    "notifications from the device",
    "notifications to the device",
    "keep-alives in seconds from the device",
    "keep-alives in seconds to the device",
    "keep-alives in milliseconds from the device",
    "keep-alives in milliseconds to the device",
];
const TWINS: usize = 1;
/// pduSize of the longest reply: 119 times the class identification of a mute.
const LONGEST_REPLY: usize = 9 + MOST_COMMANDS * 22;

#[derive(Clone, Copy, Debug, Default)]
struct Row {
    messages: usize,
    entries: usize,
    fields: usize,
}

/// How often each length came.
type Lengths = BTreeMap<usize, usize>;

/// The counts of a comparison.
#[derive(Clone, Debug, Default)]
pub struct Tally {
    rows: [Row; KINDS.len()],
    /// The contexts of 3.1, and those of notifications from the device and to it.
    added: Lengths,
    sent: Lengths,
    heard: Lengths,
    /// Notifications that carry the context which they were subscribed with, and others.
    returned: usize,
    strange: usize,
    statuses: BTreeMap<u8, usize>,
    /// How many entries the fullest command has, and the largest pduSize of either side.
    most_commands: usize,
    largest_heard: usize,
    largest_sent: usize,
    meetings: Meetings,
}

/// Which of the kinds a message is.
fn kind(message: &Message, from: Side) -> usize {
    let first = match message {
        Message::Entries { kind: COMMAND, .. } => return 0,
        Message::Entries {
            kind: COMMAND_WANTING_REPLY,
            ..
        } => return 2,
        Message::Entries {
            kind: NOTIFICATION, ..
        } => 5,
        Message::Entries { .. } => 3,
        Message::Seconds(_) => 7,
        Message::Milliseconds(_) => 9,
    };
    first + usize::from(from == Side::Controller)
}

/// A subscription as 3.1 and a notification name it: stream, emitter and event, subscriber's object and method.
type Name = (usize, Vec<u8>);

impl Tally {
    /// Of messages that were played, and of their twins behind them.
    pub fn of(sent: &[Sent], compared: &[usize], played: usize, meetings: Meetings) -> Tally {
        let mut tally = Tally {
            meetings,
            ..Tally::default()
        };
        let mut subscribed: HashMap<Name, Vec<u8>> = HashMap::new();
        for (number, (sent, fields)) in sent.iter().zip(compared).enumerate() {
            let row = if number < played {
                kind(&sent.message, sent.from)
            } else {
                TWINS
            };
            tally.count(row, &sent.message, *fields);
            if row != TWINS {
                tally.count_size(sent);
                for entry in sent.message.entries() {
                    tally.count_entry(entry, sent, &mut subscribed);
                }
            }
        }
        tally
    }

    fn count(&mut self, row: usize, message: &Message, fields: usize) {
        let row = &mut self.rows[row];
        row.messages += 1;
        row.entries += message.entries().len();
        row.fields += fields;
    }

    fn count_size(&mut self, sent: &Sent) {
        let size = sent.message.bytes().len() - 1;
        let largest = match sent.from {
            Side::Controller => &mut self.largest_heard,
            Side::Device => &mut self.largest_sent,
        };
        *largest = size.max(*largest);
        if kind(&sent.message, sent.from) <= 2 {
            self.most_commands = self.most_commands.max(sent.message.entries().len());
        }
    }

    fn count_entry(&mut self, entry: &Entry, sent: &Sent, subscribed: &mut HashMap<Name, Vec<u8>>) {
        match entry {
            Entry::Command {
                target: 4,
                method: (3, 1),
                count: 5,
                parameters,
                ..
            } => {
                let context = parameters[18..parameters.len() - 3].to_vec();
                *self.added.entry(context.len()).or_default() += 1;
                subscribed.insert((sent.stream, parameters[..16].to_vec()), context);
            }
            Entry::Notification { context, .. } if sent.from == Side::Controller => {
                *self.heard.entry(context.len()).or_default() += 1;
            }
            Entry::Notification { context, .. } => {
                *self.sent.entry(context.len()).or_default() += 1;
                let returned = subscribed.get(&(sent.stream, naming(entry))) == Some(context);
                self.returned += usize::from(returned);
                self.strange += usize::from(!returned);
            }
            Entry::Response { status, .. } if sent.from == Side::Device => {
                *self.statuses.entry(*status).or_default() += 1;
            }
            _ => {}
        }
    }

    /// What has to come and did not, or came and has not to.
    pub fn lacking(&self) -> Vec<String> {
        let every =
            |lengths: &Lengths| (0..=LONGEST_CONTEXT).all(|length| lengths.contains_key(&length));
        let demands = [
            ("contexts of 0 to 64 bytes in 3.1", every(&self.added)),
            (
                "contexts of 0 to 64 bytes from the device",
                every(&self.sent),
            ),
            (
                "contexts of 0 to 64 bytes to the device",
                every(&self.heard),
            ),
            (
                "contexts as subscribed",
                self.returned > 0 && self.strange == 0,
            ),
            ("statuses 0 and 3 to 11", self.statuses.keys().eq(&STATUSES)),
            ("119 commands", self.most_commands == MOST_COMMANDS),
            (
                "the longest message",
                self.largest_heard == 9 + LONGEST_DATA,
            ),
            ("the longest reply", self.largest_sent == LONGEST_REPLY),
            ("messages cut over segments", self.meetings.cut > 0),
            ("segments with several messages", self.meetings.shared > 0),
        ];
        let demands = demands
            .iter()
            .filter(|(_, met)| !met)
            .map(|(what, _)| *what);
        let kinds = KINDS.iter().zip(&self.rows);
        let kinds = kinds
            .filter(|(_, row)| row.fields == 0)
            .map(|(name, _)| *name);
        demands.chain(kinds).map(str::to_string).collect()
    }
}

/// Emitter and event, subscriber's object and method, in the order of 3.1.
fn naming(entry: &Entry) -> Vec<u8> {
    let bytes = entry.bytes();
    match entry {
        Entry::Notification { context, .. } => {
            let emitter = 15 + context.len();
            [&bytes[emitter..emitter + 8], &bytes[4..12]].concat()
        }
        _ => Vec::new(),
    }
}

fn told(lengths: &Lengths) -> String {
    let longest = lengths.keys().last().copied().unwrap_or_default();
    format!(
        "{} of {} lengths, up to {longest} bytes",
        lengths.values().sum::<usize>(),
        lengths.len()
    )
}

impl Tally {
    /// What is told behind the kinds.
    fn notes(&self) -> [(&str, String); 7] {
        let each = self.statuses.iter();
        let statuses: Vec<String> = each
            .map(|(status, count)| format!("{status}: {count}"))
            .collect();
        let Meetings { cut, shared } = self.meetings;
        let (heard, sent) = (self.largest_heard, self.largest_sent);
        [
            ("contexts in 3.1", told(&self.added)),
            (
                "contexts in notifications from the device",
                told(&self.sent),
            ),
            ("contexts in notifications to the device", told(&self.heard)),
            (
                "contexts sent as they were subscribed",
                self.returned.to_string(),
            ),
            ("statuses", statuses.join(", ")),
            (
                "segments",
                format!("{cut} messages cut, {shared} segments with several"),
            ),
            (
                "pduSize up to",
                format!("{heard} to the device, {sent} from it"),
            ),
        ]
    }
}

impl fmt::Display for Tally {
    fn fmt(&self, f: &mut fmt::Formatter) -> fmt::Result {
        for (name, row) in KINDS.iter().zip(&self.rows) {
            let (messages, entries, fields) = (row.messages, row.entries, row.fields);
            writeln!(
                f,
                "{name:<44}{messages:>4} messages, {entries:>4} entries, {fields:>5} fields"
            )?;
        }
        let lines = self.notes().map(|(name, told)| format!("{name:<44}{told}"));
        writeln!(f, "{}", lines.join("\n"))?;
        let sum = |count: fn(&Row) -> usize| self.rows.iter().map(count).sum::<usize>();
        let (messages, entries) = (sum(|row| row.messages), sum(|row| row.entries));
        let fields = sum(|row| row.fields);
        write!(
            f,
            "{messages} messages, {entries} entries, {fields} fields in all"
        )
    }
}
