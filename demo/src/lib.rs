//! An amplifier on the desk: a host over the crate `melorwyth`, on real
//! sockets of the loopback address; and a controller to ask it.

#![deny(unsafe_code)]
#![warn(missing_debug_implementations)]

pub mod amplifier;
pub mod board;
pub mod changes;
pub mod clock;
pub mod datagrams;
pub mod desk;
pub mod entry;
pub mod events;
#[allow(unsafe_code)]
pub mod interrupt;
pub mod message;
pub mod page;
pub mod rack;
pub mod restart;
pub mod script;
pub mod session;
pub mod socket;
pub mod tablet;
pub mod witness;
pub mod words;

/// The port of the loopback address that both programs take when none is named.
pub const PORT: u16 = 65_070;
