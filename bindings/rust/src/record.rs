//! The sizes, and the record: all state of a device but the area's bytes.
//!
//! The record is to be passed on, and to be looked at: its fields may be read at
//! any time, as for a display. Nothing need be written into them. A record that
//! breaks a rule is refused by [`Refusal::BadRecord`](crate::Refusal::BadRecord).

use core::fmt;
use core::mem::size_of;

/// How many connections there are, numbered from 0.
pub const CONNECTIONS: usize = 8;
/// How many subscriptions there are.
pub const SUBSCRIPTIONS: usize = 32;
/// How many mutes there are, one for each channel.
pub const MUTES: usize = 8;
/// The longest context of a subscriber.
pub const CONTEXT: usize = 64;
/// The area: exactly so long. Connection n's undecided bytes stand at 2,049 n, zeros after them.
pub const AREA: usize = 16_392;
/// The output of deliver and take: at least so long.
pub const OUTPUT: usize = 4_096;
/// The longest reply to a delivered message.
pub const LONGEST_REPLY: usize = 2_628;
/// The buffer of the writer: at least so long, which is the longest message.
pub const BUFFER: usize = 2_049;
/// The reset key.
pub const KEY: usize = 16;
/// The datagram that resets: the sentinel, then the key.
pub const DATAGRAM: usize = 24;
/// How the datagram that resets begins.
pub const SENTINEL: [u8; 8] = [0xDE, 0xAF, 0xDA, 0xDA, 0xCA, 0xFE, 0xBA, 0xBE];

/// One connection.
#[repr(C)]
#[derive(Clone, Copy, Debug, PartialEq, Eq)]
pub struct Connection {
    /// Whether it is open; a closed one is all 0.
    pub live: bool,
    /// Of its heartbeat: 0 none, 1 seconds, 2 milliseconds.
    pub form: u8,
    /// The heartbeat H in milliseconds; 0: it is not supervised.
    pub beat: u64,
    /// While H is above 0: milliseconds that ticks brought since a sound message was heard, less than
    /// 3 H, as the tick that reaches 3 H closes it; else 0.
    pub silence: u64,
    /// While H is above 0: milliseconds that ticks brought since something was sent to it, less than H,
    /// as the tick that reaches H sets `due`; 0 while something is due, and else.
    pub quiet: u64,
    /// Whether a keep-alive is to be taken for it.
    pub due: bool,
}

/// One subscription.
#[repr(C)]
#[derive(Clone, Copy, Debug, PartialEq, Eq)]
pub struct Subscription {
    /// Whether it is in use; a free one is all 0.
    pub used: bool,
    /// Whether a notification is to be taken for it.
    pub waiting: bool,
    /// Whose it is.
    pub connection: u8,
    /// How many bytes its context has, 0 to 64.
    pub context_count: u8,
    /// The mute, 4097 to 4104.
    pub emitter: u32,
    /// Level times 65,536 plus index: always 1.1.
    pub event: u32,
    /// The subscriber's object.
    pub object: u32,
    /// The subscriber's method: level times 65,536 plus index.
    pub method: u32,
    /// Sent with each notification: `context_count` bytes, and zeros behind them.
    pub context: [u8; CONTEXT],
}

/// Reset by key. Disarmed it is all 0.
#[repr(C)]
#[derive(Clone, Copy, PartialEq, Eq)]
pub struct Mechanism {
    /// Whether the host is to listen for datagrams.
    pub armed: bool,
    /// Secret: not for a display. [`Debug`](fmt::Debug) leaves it out.
    pub key: [u8; KEY],
    /// The multicast group to join, first part 224 to 239; all 0: none.
    pub address: [u8; 4],
    /// The UDP port to listen on, not 0.
    pub port: u16,
}

// Whoever has the key can reset the device: it stays out of logs.
impl fmt::Debug for Mechanism {
    fn fmt(&self, f: &mut fmt::Formatter<'_>) -> fmt::Result {
        f.debug_struct("Mechanism")
            .field("armed", &self.armed)
            .field("address", &self.address)
            .field("port", &self.port)
            .finish_non_exhaustive()
    }
}

/// The device: time, connections, subscriptions, mutes, locks and reset by key.
#[repr(C)]
#[derive(Clone, Copy, Debug, PartialEq, Eq)]
pub struct Device {
    /// The last reading of the host's millisecond counter.
    pub reading: u32,
    /// By their numbers.
    pub connections: [Connection; CONNECTIONS],
    /// The lowest that waits is taken first.
    pub subscriptions: [Subscription; SUBSCRIPTIONS],
    /// Object 4097 + i: 1 muted, 2 unmuted.
    pub mutes: [u8; MUTES],
    /// Who holds the lock of object 4097 + i: 0 nobody, else the connection plus 1.
    pub holders: [u8; MUTES],
    /// Reset by key: the device's, so a closure leaves it.
    pub mechanism: Mechanism,
}

/// All state but the area's bytes. It goes with one area, and with no other.
#[repr(C)]
#[derive(Clone, Copy, Debug, PartialEq, Eq)]
pub struct Record {
    /// The device.
    pub device: Device,
    /// How many undecided bytes each connection has in the area.
    pub held: [u16; CONNECTIONS],
}

// The archive's layout: a compiler that lays the record out in another way stops here.
const _: () = assert!(size_of::<Subscription>() == 84);
const _: () = assert!(size_of::<Mechanism>() == 24);
const _: () = assert!(size_of::<Record>() == 3_072);
