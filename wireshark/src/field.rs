//! Fields as the dissector shows them, under its names, and those that a message is to have.

use crate::message::{COMMAND, Entry, Message, Pair, counted};
use std::collections::HashMap;

/// A field of a message.
#[derive(Clone, Debug, PartialEq, Eq)]
pub struct Field {
    pub name: String,
    pub value: String,
    /// Its first byte, counted from the 3B, and how many it has; none where it stands for no bytes.
    pub place: Option<(usize, usize)>,
}

/// The name that stands here for an entry as a whole, which the dissector shows as a heading.
pub const ENTRY: &str = "entry";
/// What the dissector says of a response to a handle that it did not see asked.
pub const UNASKED: &str = "ocp1.handle_fail";

/// What was asked by a handle: the dissector keeps it for the response.
#[derive(Clone, Copy, Debug, PartialEq, Eq)]
pub struct Asked {
    pub frame: u32,
    pub method: Pair,
}

/// What was asked on one connection, by handle.
pub type Asking = HashMap<u32, Asked>;

/// Bytes as the dissector writes them.
pub fn hexadecimal(bytes: &[u8]) -> String {
    let each: Vec<String> = bytes.iter().map(|byte| format!("{byte:02x}")).collect();
    each.join(":")
}

fn joined(pair: Pair) -> u64 {
    (u64::from(pair.0) << 16) | u64::from(pair.1)
}

/// Fields laid one behind the other.
#[derive(Debug, Default)]
struct Row {
    fields: Vec<Field>,
    at: usize,
}

impl Row {
    /// Laid at the end of the row, which does not move: what stands for the same bytes follows.
    fn over(&mut self, name: &str, width: usize, value: impl ToString) {
        self.fields.push(Field {
            name: name.to_string(),
            value: value.to_string(),
            place: Some((self.at, width)),
        });
    }

    fn put(&mut self, name: &str, width: usize, value: impl ToString) {
        self.over(name, width, value);
        self.at += width;
    }

    fn bytes(&mut self, name: &str, bytes: &[u8]) {
        self.put(name, bytes.len(), hexadecimal(bytes));
    }

    /// A method or an event: both numbers in one, then each.
    fn pair(&mut self, prefix: &str, letter: char, pair: Pair) {
        self.over(&format!("{prefix}{letter}id"), 4, joined(pair));
        self.put(&format!("{prefix}{letter}level"), 2, pair.0);
        self.put(&format!("{prefix}{letter}idx"), 2, pair.1);
    }

    /// A count of 2 bytes, and the bytes.
    fn blob(&mut self, bytes: &[u8]) {
        self.over("ocp1.params.blob", 2 + bytes.len(), "");
        self.put("ocp1.params.blob.size", 2, bytes.len());
        self.bytes("ocp1.params.blob.data", bytes);
    }

    /// What the dissector adds of its own.
    fn beside(&mut self, name: &str, value: impl ToString) {
        self.fields.push(Field {
            name: name.to_string(),
            value: value.to_string(),
            place: None,
        });
    }
}

/// The fields that the dissector is to show of a message, all of them, in its order. Whether it shows the entries of
/// type 0 depends: its test for commands is `0 || 1`, which is 1, and of type 0 it shows the data as bytes.
pub fn fields(message: &Message, asking: &Asking, shows_entries: bool) -> Vec<Field> {
    let mut row = Row::default();
    let bytes = message.bytes();
    row.put("ocp1.syncval", 1, "0x3b");
    row.put("ocp1.version", 2, 1);
    row.put("ocp1.size", 4, bytes.len() - 1);
    row.put("ocp1.type", 1, message.kind());
    row.put("ocp1.msgcount", 2, message.count());
    match message {
        Message::Seconds(value) => row.put("ocp1.heartbeat.time", 2, format!("{value}s")),
        Message::Milliseconds(value) => row.put("ocp1.heartbeat.time", 4, format!("{value}ms")),
        Message::Entries { kind: COMMAND, .. } if !shows_entries => {
            let at = row.at;
            row.bytes("data.data", &bytes[at..]);
        }
        Message::Entries { entries, .. } => {
            for entry in entries {
                put_entry(&mut row, entry, asking);
            }
        }
    }
    row.fields
}

fn put_entry(row: &mut Row, entry: &Entry, asking: &Asking) {
    let size = entry.bytes().len();
    row.over(ENTRY, size, "");
    row.put("ocp1.msgsize", 4, size);
    match entry {
        Entry::Command {
            handle,
            target,
            method,
            count,
            parameters,
        } => {
            row.put("ocp1.handle", 4, handle);
            put_addressed(row, *target, *method, *count);
            put_asked(row, *target, *method, *count, parameters);
        }
        Entry::Notification {
            target,
            method,
            count,
            context,
            emitter,
            event,
            parameters,
        } => {
            put_addressed(row, *target, *method, *count);
            put_context(row, context);
            row.put("ocp1.eono", 4, emitter);
            row.pair("ocp1.", 'e', *event);
            put_bytes(row, parameters);
        }
        Entry::Response {
            handle,
            status,
            count,
            parameters,
        } => put_response(row, (*handle, *status, *count), parameters, asking),
    }
}

/// Target, method and count; before them the dissector's name for object and method, both in one number.
fn put_addressed(row: &mut Row, target: u32, method: Pair, count: u8) {
    row.over("ocp1.occ", 8, (u64::from(target) << 32) | joined(method));
    row.put("ocp1.tono", 4, target);
    row.pair("ocp1.", 'm', method);
    row.put("ocp1.pcount", 1, count);
}

/// The context is shown twice: its count and bytes as one, then each.
fn put_context(row: &mut Row, context: &[u8]) {
    let counted = counted(context);
    row.over("ocp1.context", counted.len(), hexadecimal(&counted));
    row.blob(context);
}

fn put_response(row: &mut Row, heads: (u32, u8, u8), parameters: &[u8], asking: &Asking) {
    let (handle, status, count) = heads;
    let asked = asking.get(&handle);
    row.put("ocp1.handle", 4, handle);
    row.put("ocp1.status", 1, status);
    if status != 0 {
        row.beside("ocp1.bad_status_code", "");
    }
    row.put("ocp1.pcount", 1, count);
    match asked.map(|asked| asked.method) {
        Some((1, 1)) if count == 1 => put_class_identification(row, parameters),
        Some((1, 2)) if count == 1 => row.put("ocp1.params.bool", 1, parameters[0]),
        _ => put_bytes(row, parameters),
    }
    match asked {
        Some(asked) => row.beside("ocp1.response_to", asked.frame),
        None => row.beside(UNASKED, ""),
    }
}

/// Parameters that the dissector shows as bytes, if there are any.
fn put_bytes(row: &mut Row, parameters: &[u8]) {
    if !parameters.is_empty() {
        row.bytes("ocp1.params", parameters);
    }
}

/// The parameters of a command; those of 3.1, 3.2 and 3.14 the dissector takes apart.
fn put_asked(row: &mut Row, target: u32, method: Pair, count: u8, parameters: &[u8]) {
    match (target, method, count) {
        (4, (3, 1), 5) => put_adding(row, parameters),
        (4, (3, 2), 2) => put_naming(row, parameters),
        (1, (3, 14), 2) => put_reset_key(row, parameters),
        _ => put_bytes(row, parameters),
    }
}

fn number<const WIDTH: usize>(bytes: &[u8], at: usize) -> u64 {
    let taken: [u8; WIDTH] = std::array::from_fn(|k| bytes[at + k]);
    taken
        .iter()
        .fold(0, |sum, byte| (sum << 8) | u64::from(*byte))
}

fn pair(bytes: &[u8], at: usize) -> Pair {
    let [level, index] = [at, at + 2].map(|at| number::<2>(bytes, at) as u16);
    (level, index)
}

/// Emitter and event, subscriber's object and method.
fn put_naming(row: &mut Row, parameters: &[u8]) {
    row.put("ocp1.params.ono", 4, number::<4>(parameters, 0));
    row.pair("ocp1.params.", 'e', pair(parameters, 4));
    row.put("ocp1.params.ono", 4, number::<4>(parameters, 8));
    row.pair("ocp1.params.", 'm', pair(parameters, 12));
}

/// 3.1; its last pair, 0 and 0, the dissector shows as the count of an empty blob.
fn put_adding(row: &mut Row, parameters: &[u8]) {
    put_naming(row, parameters);
    let context = 18 + number::<2>(parameters, 16) as usize;
    row.blob(&parameters[18..context]);
    row.put("ocp1.params.dmode", 1, parameters[context]);
    row.blob(&parameters[context + 3..]);
}

/// 3.14; the dissector takes the address for a blob, so it shows the text and leaves the port out.
fn put_reset_key(row: &mut Row, parameters: &[u8]) {
    row.bytes("ocp1.params.blob.data", &parameters[..16]);
    let port = parameters.len() - 2;
    row.blob(&parameters[18..port]);
    row.at += 2;
}

/// The answer to 1.1.
fn put_class_identification(row: &mut Row, parameters: &[u8]) {
    let fields = number::<2>(parameters, 0) as usize;
    let each: Vec<String> = (1..=fields)
        .map(|k| number::<2>(parameters, 2 * k).to_string())
        .collect();
    row.put("ocp1.params.classid.fields", 2, fields);
    row.put("ocp1.params.classid", 2 * fields, each.join("."));
    let version = number::<2>(parameters, 2 + 2 * fields);
    row.put("ocp1.params.classver", 2, version);
}

/// Keeps what a shown message asks, as the dissector does: of type 1 alone, and the first of each handle.
pub fn keep_asked(message: &Message, frame: u32, asking: &mut Asking) {
    if message.kind() == COMMAND {
        return;
    }
    for entry in message.entries() {
        if let Entry::Command { handle, method, .. } = entry {
            let method = *method;
            asking.entry(*handle).or_insert(Asked { frame, method });
        }
    }
}
