//! Reader and writer: whole messages, with no record.

use crate::answer::{Entry, Part};
use crate::refusal::Refusal;
use crate::{call, number};

/// A message as a whole.
#[derive(Clone, Copy, Debug, PartialEq, Eq)]
pub struct Message {
    /// Its type: [`TYPE_COMMAND`](number::TYPE_COMMAND) and so on.
    pub kind: u8,
    /// How many entries it has; 1 for a keep-alive, whose data is no entry.
    pub count: u16,
    /// What a keep-alive says; `None` for every other type.
    pub heartbeat: Option<Heartbeat>,
    /// How many bytes it has.
    pub length: usize,
}

/// A keep-alive's value in its form. Zero ends the supervision.
#[derive(Clone, Copy, Debug, PartialEq, Eq, Hash)]
pub enum Heartbeat {
    /// The form of 2 bytes.
    Seconds(u16),
    /// The form of 4 bytes.
    Milliseconds(u32),
}

impl Heartbeat {
    /// The heartbeat H in milliseconds.
    pub const fn milliseconds(self) -> u64 {
        match self {
            Heartbeat::Seconds(seconds) => seconds as u64 * 1_000,
            Heartbeat::Milliseconds(milliseconds) => milliseconds as u64,
        }
    }

    /// What the reader tells of a keep-alive, and 0 of other messages.
    fn told(form: u8, value: u32) -> Option<Heartbeat> {
        match form {
            number::FORM_SECONDS => u16::try_from(value).ok().map(Heartbeat::Seconds),
            number::FORM_MILLISECONDS => Some(Heartbeat::Milliseconds(value)),
            _ => None,
        }
    }

    const fn form_and_value(self) -> (u8, u32) {
        match self {
            Heartbeat::Seconds(seconds) => (number::FORM_SECONDS, seconds as u32),
            Heartbeat::Milliseconds(value) => (number::FORM_MILLISECONDS, value),
        }
    }
}

/// The message at the front of the bytes; those behind it are not looked at.
///
/// [`Short`](Refusal::Short) means that more bytes are needed.
///
/// ```
/// use melorwyth::{Fault, Heartbeat, Refusal, number};
///
/// let keep_alive = [0x3B, 0, 1, 0, 0, 0, 11, 4, 0, 1, 0, 5];
/// let message = melorwyth::read_message(&keep_alive)?;
/// assert_eq!(message.kind, number::TYPE_KEEP_ALIVE);
/// assert_eq!(message.heartbeat, Some(Heartbeat::Seconds(5)));
/// assert_eq!(message.length, keep_alive.len());
/// assert_eq!(melorwyth::read_message(&keep_alive[..11]), Err(Refusal::Short));
/// assert_eq!(melorwyth::read_message(b"GET"), Err(Refusal::Fault(Fault::Start)));
/// # Ok::<(), Refusal>(())
/// ```
pub fn read_message(bytes: &[u8]) -> Result<Message, Refusal> {
    let reading = call::read_message(bytes).done()?;
    Ok(Message {
        kind: reading.kind,
        count: reading.count,
        heartbeat: Heartbeat::told(reading.form, reading.value),
        length: reading.length,
    })
}

/// Entry `index`, from 0, of the message at the front of the bytes.
///
/// ```
/// use melorwyth::{Refusal, Status};
///
/// // A response to the command of handle 9: status 0, one parameter of one byte.
/// let message = [
///     0x3B, 0, 1, 0, 0, 0, 20, 3, 0, 1, // the message: 20 bytes behind the 3B, type 3, one entry
///     0, 0, 0, 11, 0, 0, 0, 9, 0, 1, 2, // the entry: size, handle, status, count, parameters
/// ];
/// let entry = melorwyth::read_entry(&message, 0)?;
/// assert_eq!((entry.handle, entry.count), (9, 1));
/// assert_eq!(Status::from_number(entry.status), Status::CarriedOut);
/// assert_eq!(melorwyth::entry_part(&message, 0), [2]);
/// assert_eq!(melorwyth::read_entry(&message, 1), Err(Refusal::NoEntry));
/// assert_eq!(melorwyth::entry_part(&message, 1), []);
/// # Ok::<(), Refusal>(())
/// ```
pub fn read_entry(bytes: &[u8], index: usize) -> Result<Entry, Refusal> {
    call::read_entry(bytes, index).done()
}

/// That entry's parameters (a notification's event parameters); empty where the entry is refused.
pub fn entry_part(bytes: &[u8], index: usize) -> &[u8] {
    within(bytes, call::entry_part(bytes, index))
}

/// That entry's context; empty where the entry is refused or is no notification.
pub fn entry_context(bytes: &[u8], index: usize) -> &[u8] {
    within(bytes, call::entry_context(bytes, index))
}

/// A part always lies within the bytes that were read: the library tells no other.
fn within(bytes: &[u8], part: Part) -> &[u8] {
    bytes
        .get(part.start..)
        .and_then(|rest| rest.get(..part.length))
        .unwrap_or_default()
}

/// Starts a message of that type with one entry, given as its bytes, its size field included.
/// The buffer has at least [`BUFFER`](crate::record::BUFFER) bytes; this gives the message's length.
///
/// ```
/// use melorwyth::{Refusal, number, record};
///
/// // Lock of channel 1, which is object 4097 (1001 in hex), then of channel 2: method 1.3, no parameters.
/// let mut entry = [0, 0, 0, 17, 0, 0, 0, 1, 0, 0, 0x10, 1, 0, 1, 0, 3, 0];
/// let mut buffer = [0; record::BUFFER];
/// let kind = number::TYPE_COMMAND_WANTING_REPLY;
/// assert_eq!(melorwyth::start(&mut buffer, kind, &entry)?, 10 + 17);
/// entry[7] = 2;
/// entry[11] = 2;
/// assert_eq!(melorwyth::append(&mut buffer, kind, &entry)?, 10 + 2 * 17);
/// assert_eq!(melorwyth::read_message(&buffer)?.count, 2);
/// // A size that is not the entry's.
/// assert_eq!(melorwyth::append(&mut buffer, kind, &entry[..16]), Err(Refusal::BadEntry));
/// # Ok::<(), Refusal>(())
/// ```
pub fn start(buffer: &mut [u8], kind: u8, entry: &[u8]) -> Result<usize, Refusal> {
    let written = call::start(buffer, kind, entry).done()?;
    Ok(written.length)
}

/// Appends an entry to the sound message of that type at the buffer's front, and gives its new length.
/// The buffer has at least [`BUFFER`](crate::record::BUFFER) bytes.
pub fn append(buffer: &mut [u8], kind: u8, entry: &[u8]) -> Result<usize, Refusal> {
    let written = call::append(buffer, kind, entry).done()?;
    Ok(written.length)
}

/// Writes a keep-alive, and gives its length. The buffer has at least [`BUFFER`](crate::record::BUFFER)
/// bytes.
///
/// ```
/// use melorwyth::{Heartbeat, Refusal, record};
///
/// let mut buffer = [0; record::BUFFER];
/// let length = melorwyth::keep_alive(&mut buffer, Heartbeat::Seconds(5))?;
/// assert_eq!(buffer[..length], [0x3B, 0, 1, 0, 0, 0, 11, 4, 0, 1, 0, 5]);
/// # Ok::<(), Refusal>(())
/// ```
pub fn keep_alive(buffer: &mut [u8], heartbeat: Heartbeat) -> Result<usize, Refusal> {
    let (form, value) = heartbeat.form_and_value();
    let written = call::keep_alive(buffer, form, value).done()?;
    Ok(written.length)
}
