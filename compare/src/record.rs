//! The endpoint's record. It shares no struct with the library's, but is laid out
//! in the same way, so that `speed` measures both programs on the same bytes.

/// How many connections there are.
pub const CONNECTIONS: usize = 8;
/// How many subscription entries there are.
pub const SUBSCRIPTIONS: usize = 32;
/// How many mutes there are.
pub const MUTES: usize = 8;
/// How many bytes a context has at most.
pub const CONTEXT: usize = 64;
/// How many bytes of the area belong to one connection.
pub const SHARE: usize = 2_049;
/// How many bytes the lent area has.
pub const AREA: usize = CONNECTIONS * SHARE;

/// What is kept of one connection, its undecided bytes excepted.
#[repr(C)]
#[derive(Clone, Copy, Debug, Default, PartialEq, Eq)]
pub struct Connection {
    /// Whether the connection is open.
    pub live: bool,
    /// 0 none, 1 seconds, 2 milliseconds.
    pub form: u8,
    /// The heartbeat H in milliseconds.
    pub beat: u64,
    /// Milliseconds since a sound message was heard.
    pub silence: u64,
    /// Milliseconds since the device spoke.
    pub quiet: u64,
    /// Whether a keep-alive is to be taken.
    pub due: bool,
}

/// One subscription entry.
#[repr(C)]
#[derive(Clone, Copy, Debug, PartialEq, Eq)]
pub struct Subscription {
    pub used: bool,
    pub waiting: bool,
    pub connection: u8,
    /// How many bytes the context has.
    pub context_count: u8,
    pub emitter: u32,
    /// Level times 65,536 plus index.
    pub event: u32,
    /// The subscriber's object.
    pub object: u32,
    /// The subscriber's method: level times 65,536 plus index.
    pub method: u32,
    /// As many bytes as the count says, then zeros.
    pub context: [u8; CONTEXT],
}

// The context is too long for it to be derived.
impl Default for Subscription {
    fn default() -> Subscription {
        Subscription {
            used: false,
            waiting: false,
            connection: 0,
            context_count: 0,
            emitter: 0,
            event: 0,
            object: 0,
            method: 0,
            context: [0; CONTEXT],
        }
    }
}

/// Reset by key, as method 3.14 arms it; all zero while disarmed.
#[repr(C)]
#[derive(Clone, Copy, Debug, Default, PartialEq, Eq)]
pub struct Mechanism {
    pub armed: bool,
    pub key: [u8; 16],
    /// Zeros for no text.
    pub address: [u8; 4],
    pub port: u16,
}

/// What the rules speak of when messages come whole.
#[repr(C)]
#[derive(Clone, Copy, Debug, Default, PartialEq, Eq)]
pub struct Device {
    /// The counter's last reading.
    pub reading: u32,
    pub connections: [Connection; CONNECTIONS],
    pub subscriptions: [Subscription; SUBSCRIPTIONS],
    /// 1 muted, 2 unmuted.
    pub mutes: [u8; MUTES],
    /// 0 free, else the holding connection plus 1.
    pub holders: [u8; MUTES],
    pub mechanism: Mechanism,
}

/// The endpoint's record: the device, and each connection's count of undecided bytes.
#[repr(C)]
#[derive(Clone, Copy, Debug, Default, PartialEq, Eq)]
pub struct Record {
    pub device: Device,
    pub held: [u16; CONNECTIONS],
}
