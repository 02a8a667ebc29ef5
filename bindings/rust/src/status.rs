//! What a device answers a command by.

use crate::number;
use core::fmt;

/// The status of a response, for controllers.
#[derive(Clone, Copy, Debug, PartialEq, Eq, Hash)]
pub enum Status {
    /// 0: carried out; every other status changed nothing.
    CarriedOut,
    /// 3: set, lock or unlock of a mute that another connection holds.
    HeldByOther,
    /// 4: wrong parameter count or length, or a last pair other than 0, 0.
    Malformed,
    /// 5: no such object.
    NoObject,
    /// 6: the emitter is no mute, or the event not 1.1.
    StrangeEmitter,
    /// 7: mode not 1, a context above 64 bytes, a mute's value not 1 or 2; 3.14: port 0, or a text
    /// that is neither empty nor a multicast address.
    BadValue,
    /// 8: lock or unlock of a manager.
    Forbidden,
    /// 9: unlock of a mute that nobody holds; add of a subscription that is there, remove of one that
    /// is not.
    OutOfTurn,
    /// 10: all 32 subscription entries are used.
    NoFreeEntry,
    /// 11: the object has no such method.
    NoMethod,
    /// One that this device never answers by. The reader reads responses of other devices too.
    Other(u8),
}

impl Status {
    /// The status of that number, as in [`Entry::status`](crate::answer::Entry::status).
    pub const fn from_number(number: u8) -> Status {
        match number {
            number::STATUS_CARRIED_OUT => Status::CarriedOut,
            number::STATUS_HELD_BY_OTHER => Status::HeldByOther,
            number::STATUS_MALFORMED => Status::Malformed,
            number::STATUS_NO_OBJECT => Status::NoObject,
            number::STATUS_STRANGE_EMITTER => Status::StrangeEmitter,
            number::STATUS_BAD_VALUE => Status::BadValue,
            number::STATUS_FORBIDDEN => Status::Forbidden,
            number::STATUS_OUT_OF_TURN => Status::OutOfTurn,
            number::STATUS_NO_FREE_ENTRY => Status::NoFreeEntry,
            number::STATUS_NO_METHOD => Status::NoMethod,
            other => Status::Other(other),
        }
    }

    /// The number on the wire.
    pub const fn number(self) -> u8 {
        match self {
            Status::CarriedOut => number::STATUS_CARRIED_OUT,
            Status::HeldByOther => number::STATUS_HELD_BY_OTHER,
            Status::Malformed => number::STATUS_MALFORMED,
            Status::NoObject => number::STATUS_NO_OBJECT,
            Status::StrangeEmitter => number::STATUS_STRANGE_EMITTER,
            Status::BadValue => number::STATUS_BAD_VALUE,
            Status::Forbidden => number::STATUS_FORBIDDEN,
            Status::OutOfTurn => number::STATUS_OUT_OF_TURN,
            Status::NoFreeEntry => number::STATUS_NO_FREE_ENTRY,
            Status::NoMethod => number::STATUS_NO_METHOD,
            Status::Other(number) => number,
        }
    }

    const fn words(self) -> &'static str {
        match self {
            Status::CarriedOut => "done",
            Status::HeldByOther => "held by another connection",
            Status::Malformed => "wrong parameter count or length",
            Status::NoObject => "no such object",
            Status::StrangeEmitter => "the emitter is no mute, or the event not 1.1",
            Status::BadValue => "a value, mode, context, text or port that is not taken",
            Status::Forbidden => "a manager cannot be locked",
            Status::OutOfTurn => "not held, or held already",
            Status::NoFreeEntry => "no free subscription entry",
            Status::NoMethod => "no such method",
            Status::Other(_) => "another device's status",
        }
    }
}

impl fmt::Display for Status {
    fn fmt(&self, f: &mut fmt::Formatter<'_>) -> fmt::Result {
        write!(f, "{} (status {})", self.words(), self.number())
    }
}
