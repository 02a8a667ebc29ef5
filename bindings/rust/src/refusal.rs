//! Why a call was refused, and why bytes are no sound message.

use core::error::Error;
use core::fmt;

/// Why a call was refused. Nothing has been changed then.
#[derive(Clone, Copy, Debug, PartialEq, Eq, Hash)]
pub enum Refusal {
    /// 1: a record rule is broken. This is no record that a call handed back.
    BadRecord,
    /// 2: the area is not 16,392 bytes, or does not hold what the record counts.
    BadArea,
    /// 3: the connection's number is above 7, or it is not open.
    NoConnection,
    /// 4: the output is under 4,096 bytes (deliver, take), or the buffer under 2,049 (writer).
    NoRoom,
    /// 5: all eight connections are open.
    TableFull,
    /// 6: this reading less the last, modulo 2^32, is 2^31 or more. The clock went back, or more
    /// than 24 days passed.
    ClockBack,
    /// 8: the bytes are no sound message (reader, append).
    Fault(Fault),
    /// 9: the bytes end before it is decided what they are (reader).
    Short,
    /// 10: the message would pass pduSize 2,048 (writer).
    TooLong,
    /// 11: no well formed entry, or not of the message's type, or appended to a keep-alive; or a
    /// keep-alive of no known form, or in seconds with a value above 65,535 (writer).
    BadEntry,
    /// 12: the entry's number is not below the message's count, or it is a keep-alive (reader).
    NoEntry,
    /// A number that this crate has no name for, which its own archive never tells:
    /// [`check_version`](crate::check_version) says whether that is the one linked.
    Unknown(u8),
}

impl Refusal {
    /// What an answer's `number` and `fault` tell. `None` is for 0, which is no refusal; `fault` is
    /// looked at for 8 alone.
    ///
    /// ```
    /// use melorwyth::{Fault, Refusal};
    /// assert_eq!(Refusal::from_numbers(0, 0), None);
    /// assert_eq!(Refusal::from_numbers(5, 0), Some(Refusal::TableFull));
    /// assert_eq!(Refusal::from_numbers(8, 3), Some(Refusal::Fault(Fault::Size)));
    /// assert_eq!(Refusal::from_numbers(7, 0), Some(Refusal::Unknown(7)));
    /// ```
    pub const fn from_numbers(number: u8, fault: u8) -> Option<Refusal> {
        Some(match number {
            0 => return None,
            1 => Refusal::BadRecord,
            2 => Refusal::BadArea,
            3 => Refusal::NoConnection,
            4 => Refusal::NoRoom,
            5 => Refusal::TableFull,
            6 => Refusal::ClockBack,
            8 => Refusal::Fault(Fault::from_number(fault)),
            9 => Refusal::Short,
            10 => Refusal::TooLong,
            11 => Refusal::BadEntry,
            12 => Refusal::NoEntry,
            other => Refusal::Unknown(other),
        })
    }

    /// An error where that number is a refusal. The answer, 3 KB with its record, is not copied for it.
    pub(crate) const fn check(number: u8) -> Result<(), Refusal> {
        match Refusal::from_numbers(number, 0) {
            None => Ok(()),
            Some(refusal) => Err(refusal),
        }
    }

    /// The number in the header's table, which is never 0 for what a call told.
    pub const fn number(self) -> u8 {
        match self {
            Refusal::BadRecord => 1,
            Refusal::BadArea => 2,
            Refusal::NoConnection => 3,
            Refusal::NoRoom => 4,
            Refusal::TableFull => 5,
            Refusal::ClockBack => 6,
            Refusal::Fault(_) => 8,
            Refusal::Short => 9,
            Refusal::TooLong => 10,
            Refusal::BadEntry => 11,
            Refusal::NoEntry => 12,
            Refusal::Unknown(number) => number,
        }
    }

    const fn words(self) -> &'static str {
        match self {
            Refusal::BadRecord => "a record rule is broken",
            Refusal::BadArea => "the area does not go with the record",
            Refusal::NoConnection => "no such connection is open",
            Refusal::NoRoom => "the output or buffer is too short",
            Refusal::TableFull => "all eight connections are open",
            Refusal::ClockBack => "the clock went back, or more than 24 days passed",
            Refusal::Fault(_) => "the bytes are no sound message",
            Refusal::Short => "the bytes end before the message does",
            Refusal::TooLong => "the message would be too long",
            Refusal::BadEntry => {
                "no well formed entry of the message's type, or no such keep-alive"
            }
            Refusal::NoEntry => "the message has no such entry",
            Refusal::Unknown(_) => "a refusal of another version of the library",
        }
    }
}

impl fmt::Display for Refusal {
    fn fmt(&self, f: &mut fmt::Formatter<'_>) -> fmt::Result {
        write!(f, "{} (refusal {})", self.words(), self.number())?;
        match self {
            Refusal::Fault(fault) => write!(f, ": {fault}"),
            _ => Ok(()),
        }
    }
}

impl Error for Refusal {}

/// Why bytes are no sound message.
#[derive(Clone, Copy, Debug, PartialEq, Eq, Hash)]
pub enum Fault {
    /// 1: the first byte is not 3B.
    Start,
    /// 2: protocolVersion is not 1.
    Version,
    /// 3: pduSize is below 9 or above 2,048.
    Size,
    /// 4: pduType is above 4.
    Type,
    /// 5: messageCount is 0, or not 1 for a keep-alive.
    Count,
    /// 6: the entries do not fill the data, one is not well formed (a count without bytes is not, nor
    /// a context above 64 bytes or past its entry), or a keep-alive has other than 2 or 4 bytes.
    Data,
    /// A number that this crate has no name for, which its own archive never tells:
    /// [`check_version`](crate::check_version) says whether that is the one linked.
    Unknown(u8),
}

impl Fault {
    /// The fault of that number.
    pub const fn from_number(number: u8) -> Fault {
        match number {
            1 => Fault::Start,
            2 => Fault::Version,
            3 => Fault::Size,
            4 => Fault::Type,
            5 => Fault::Count,
            6 => Fault::Data,
            other => Fault::Unknown(other),
        }
    }

    /// The number in the header's table.
    pub const fn number(self) -> u8 {
        match self {
            Fault::Start => 1,
            Fault::Version => 2,
            Fault::Size => 3,
            Fault::Type => 4,
            Fault::Count => 5,
            Fault::Data => 6,
            Fault::Unknown(number) => number,
        }
    }

    const fn words(self) -> &'static str {
        match self {
            Fault::Start => "the first byte is not 3B",
            Fault::Version => "protocolVersion is not 1",
            Fault::Size => "pduSize is below 9 or above 2,048",
            Fault::Type => "pduType is above 4",
            Fault::Count => "messageCount is 0, or not 1 for a keep-alive",
            Fault::Data => {
                "data that do not fit their type, a count without bytes, or a context too long"
            }
            Fault::Unknown(_) => "a fault of another version of the library",
        }
    }
}

impl fmt::Display for Fault {
    fn fmt(&self, f: &mut fmt::Formatter<'_>) -> fmt::Result {
        write!(f, "{} (fault {})", self.words(), self.number())
    }
}

impl Error for Fault {}

#[cfg(feature = "std")]
impl From<Refusal> for std::io::Error {
    fn from(refusal: Refusal) -> std::io::Error {
        use std::io::ErrorKind;
        let kind = match refusal {
            Refusal::Fault(_) => ErrorKind::InvalidData,
            Refusal::Short => ErrorKind::UnexpectedEof,
            Refusal::NoConnection => ErrorKind::NotConnected,
            Refusal::TableFull => ErrorKind::ResourceBusy,
            Refusal::Unknown(_) => ErrorKind::Other,
            _ => ErrorKind::InvalidInput,
        };
        std::io::Error::new(kind, refusal)
    }
}
