//! The answers of all calls, as they cross the C boundary.
//!
//! `number` is 0, or that of the lowest refusal that applies. Then nothing has been
//! changed: the record is the one passed, and every other field is 0 but for the fault of
//! refusal 8. [`done`](Opened::done) turns an answer into a [`Result`].

use crate::record::Record;
use crate::refusal::Refusal;
use core::mem::size_of;

/// The answer of [`clear`](crate::call::clear).
#[repr(C)]
#[derive(Clone, Copy, Debug, PartialEq, Eq)]
pub struct Cleared {
    /// 0 or 2.
    pub number: u8,
}

/// The answer of [`open`](crate::call::open).
#[repr(C)]
#[derive(Clone, Copy, Debug, PartialEq, Eq)]
pub struct Opened {
    /// The record to go on with.
    pub record: Record,
    /// 0, 1 or 5.
    pub number: u8,
    /// The number opened, the lowest that was free.
    pub connection: u8,
}

/// The answer of [`close`](crate::call::close).
#[repr(C)]
#[derive(Clone, Copy, Debug, PartialEq, Eq)]
pub struct Closed {
    /// The record to go on with.
    pub record: Record,
    /// 0, 1, 2 or 3.
    pub number: u8,
}

/// The answer of [`tick`](crate::call::tick).
#[repr(C)]
#[derive(Clone, Copy, Debug, PartialEq, Eq)]
pub struct Ticked {
    /// The record to go on with.
    pub record: Record,
    /// 0, 1, 2 or 6.
    pub number: u8,
    /// Bit n is set for connection n closed.
    pub closed: u8,
}

/// The answer of [`deliver`](crate::call::deliver).
#[repr(C)]
#[derive(Clone, Copy, Debug, PartialEq, Eq)]
pub struct Delivered {
    /// The record to go on with.
    pub record: Record,
    /// 0, 1, 2, 3 or 4.
    pub number: u8,
    /// 1, 2 or 3: [`DELIVER_MORE`](crate::number::DELIVER_MORE) and so on.
    pub kind: u8,
    /// Kind 3: which fault, 1 to 6.
    pub fault: u8,
    /// How many bytes of the piece were taken: offer the rest again.
    pub taken: usize,
    /// Kind 2: the length of the reply at the front of the output, 0 for none.
    pub length: usize,
}

/// The answer of [`take`](crate::call::take).
#[repr(C)]
#[derive(Clone, Copy, Debug, PartialEq, Eq)]
pub struct Taken {
    /// The record to go on with.
    pub record: Record,
    /// 0, 1 or 4.
    pub number: u8,
    /// 0, 1 or 2: [`TAKE_NOTHING`](crate::number::TAKE_NOTHING) and so on.
    pub kind: u8,
    /// To whom it is to be sent.
    pub connection: u8,
    /// The length of the message at the front of the output.
    pub length: usize,
}

/// The answer of [`datagram`](crate::call::datagram).
#[repr(C)]
#[derive(Clone, Copy, Debug, PartialEq, Eq)]
pub struct Reset {
    /// The record to go on with.
    pub record: Record,
    /// 0, 1 or 2.
    pub number: u8,
    /// 1: it was reset, close every socket; 0: nothing was changed.
    pub reset: u8,
}

/// The answer of [`read_message`](crate::call::read_message).
#[repr(C)]
#[derive(Clone, Copy, Debug, PartialEq, Eq)]
pub struct Reading {
    /// 0, 8 or 9.
    pub number: u8,
    /// Refusal 8: which fault.
    pub fault: u8,
    /// The message's type, 0 to 4.
    pub kind: u8,
    /// messageCount.
    pub count: u16,
    /// A keep-alive's form: 1 seconds, 2 milliseconds; else 0.
    pub form: u8,
    /// A keep-alive's value in that form's unit; else 0.
    pub value: u32,
    /// The message's length, its 3B counted: pduSize plus 1.
    pub length: usize,
}

/// The answer of [`read_entry`](crate::call::read_entry). Fields that an entry of that kind does not have are 0.
#[repr(C)]
#[derive(Clone, Copy, Debug, PartialEq, Eq)]
pub struct Entry {
    /// 0, 8, 9 or 12.
    pub number: u8,
    /// Refusal 8: which fault.
    pub fault: u8,
    /// 0 a command of type 0 or 1, 2 a notification, 3 a response.
    pub kind: u8,
    /// Of a command or response.
    pub handle: u32,
    /// Of a command or notification.
    pub target: u32,
    /// The method's level, of a command or notification.
    pub level: u16,
    /// The method's index.
    pub index: u16,
    /// The parameter count: 0, in a notification 1, exactly where the part is empty.
    pub count: u8,
    /// Of a response: [`Status`](crate::Status) has words for it.
    pub status: u8,
    /// How many bytes the context has, 0 to 64: of a notification, as are the fields below.
    pub context_count: u16,
    /// The object whose property changed.
    pub emitter: u32,
    /// The event's level.
    pub event_level: u16,
    /// The event's index.
    pub event_index: u16,
}

/// The answer of [`entry_part`](crate::call::entry_part) and [`entry_context`](crate::call::entry_context).
///
/// The `length` bytes from `start` on; where there are none, `start` is where they would stand. Both
/// are 0 where the entry is refused, and for the context of an entry that is no notification.
#[repr(C)]
#[derive(Clone, Copy, Debug, PartialEq, Eq)]
pub struct Part {
    /// Where it begins in the bytes that were read.
    pub start: usize,
    /// How many bytes it has.
    pub length: usize,
}

/// The answer of the writer's calls.
#[repr(C)]
#[derive(Clone, Copy, Debug, PartialEq, Eq)]
pub struct Written {
    /// 0, 4, 8 (append), 10 or 11.
    pub number: u8,
    /// Refusal 8: which fault.
    pub fault: u8,
    /// The length of the message at the front of the buffer, its 3B counted.
    pub length: usize,
}

/// Gives each answer its `done`; the function tells the fault of refusal 8.
macro_rules! done {
    ($($answer:ident),+; $fault:expr) => {
        $(impl $answer {
            /// The answer itself, or the refusal that it tells.
            #[inline]
            pub fn done(self) -> Result<Self, Refusal> {
                let fault: fn(&Self) -> u8 = $fault;
                match Refusal::from_numbers(self.number, fault(&self)) {
                    None => Ok(self),
                    Some(refusal) => Err(refusal),
                }
            }
        })+
    };
}

done!(Cleared, Opened, Closed, Ticked, Delivered, Taken, Reset; |_| 0);
done!(Reading, Entry, Written; |answer| answer.fault);

// The archive's layout: a compiler that lays the answers out in another way stops here.
const _: () = assert!(size_of::<Delivered>() == 3_096);
const _: () = assert!(size_of::<Reset>() == 3_080);
