//! An AES70 (OCP.1) device endpoint whose behaviour is proved.
//!
//! The library reads and writes messages, keeps locks and subscriptions, decides when a controller is
//! gone, and is reset by key. Sockets, TLS, discovery and the clock are the host's. It has no heap, no
//! globals, no threads and no callbacks: all state is a [`Record`] and an area of bytes, and an
//! [`Endpoint`] keeps the two together.
//!
//! What every call answers is proved of the archive that this crate links. The crate around it is
//! plain Rust: it passes slices on, and turns numbers into enums.
//!
//! # A whole host, but for the sockets
//!
//! A controller locks channel 1, and is never heard again. At three times its heartbeat the connection
//! is closed, and the lock is free.
//!
//! ```
//! use melorwyth::{Endpoint, Heartbeat, Outcome, Refusal, SendingKind, Status, number, record};
//!
//! /// A command without parameters, as a controller writes it: size, handle, target, method, count.
//! fn command(handle: u32, target: u32, method: u32) -> [u8; 17] {
//!     let mut entry = [0; 17];
//!     for (place, value) in [17, handle, target, method].into_iter().enumerate() {
//!         entry[4 * place..][..4].copy_from_slice(&value.to_be_bytes());
//!     }
//!     entry
//! }
//!
//! /// Gives the endpoint what was received on connection n, and gives back what is to be sent there.
//! fn receive(endpoint: &mut Endpoint, n: u8, mut piece: &[u8]) -> Result<Vec<u8>, Refusal> {
//!     let mut output = [0; record::OUTPUT];
//!     let mut sent = Vec::new();
//!     while !piece.is_empty() {
//!         let delivery = endpoint.deliver(n, piece, &mut output)?;
//!         piece = &piece[delivery.taken..];
//!         match delivery.outcome {
//!             Outcome::More => {}
//!             Outcome::Message(reply) => sent.extend(reply),
//!             // A host closes the socket here.
//!             Outcome::Closed(fault) => panic!("{fault}"),
//!         }
//!     }
//!     Ok(sent)
//! }
//!
//! melorwyth::check_version()?;
//! let mut endpoint = Endpoint::fresh(0);
//! let mut buffer = [0; record::BUFFER];
//!
//! // A socket was accepted, and the controller says that it will be heard every 2 seconds.
//! let n = endpoint.open()?;
//! let length = melorwyth::keep_alive(&mut buffer, Heartbeat::Seconds(2))?;
//! let reply = receive(&mut endpoint, n, &buffer[..length])?;
//! assert_eq!(melorwyth::read_message(&reply)?.heartbeat, Some(Heartbeat::Seconds(2)));
//!
//! // It locks channel 1. The command comes in two pieces.
//! let lock = command(7, number::object_channel(1), number::METHOD_LOCK);
//! let length = melorwyth::start(&mut buffer, number::TYPE_COMMAND_WANTING_REPLY, &lock)?;
//! let (front, rest) = buffer[..length].split_at(20);
//! assert_eq!(receive(&mut endpoint, n, front)?, []);
//! let reply = receive(&mut endpoint, n, rest)?;
//!
//! // What the controller reads.
//! let message = melorwyth::read_message(&reply)?;
//! assert_eq!((message.kind, message.count), (number::TYPE_RESPONSE, 1));
//! let response = melorwyth::read_entry(&reply, 0)?;
//! assert_eq!(response.handle, 7);
//! assert_eq!(Status::from_number(response.status), Status::CarriedOut);
//! assert_eq!(endpoint.record().device.holders[0], n + 1);
//!
//! // Time passes. The device keeps its own side alive, and the controller says nothing.
//! let mut output = [0; record::OUTPUT];
//! let mut keep_alives = 0;
//! let mut now = 0;
//! loop {
//!     now += 100;
//!     let closures = endpoint.tick(now)?;
//!     while let Some(sending) = endpoint.take(&mut output)? {
//!         assert_eq!((sending.connection, sending.kind), (n, SendingKind::KeepAlive));
//!         keep_alives += 1;
//!     }
//!     if closures.contains(n) {
//!         // A host closes the socket here.
//!         break;
//!     }
//! }
//! assert_eq!((now, keep_alives), (6_000, 2));
//! assert_eq!(endpoint.record().device.holders[0], 0);
//! # Ok::<(), Box<dyn std::error::Error>>(())
//! ```
//!
//! # Layers
//!
//! - [`Endpoint`] owns record and area; its calls give a [`Result`] with a [`Refusal`].
//! - [`read_message`], [`read_entry`], [`entry_part`], [`entry_context`], [`start`], [`append`] and
//!   [`keep_alive`] read and write whole messages, with no endpoint: for controllers too.
//! - [`call`] has the archive's functions as they are, over slices, with every field of their
//!   [answers](answer); [`mod@record`] has the structs and sizes, [`number`] the numbers.
//!
//! # What a host owes
//!
//! - Ticks, every 100 ms or so; takes, after deliveries and ticks, until there is nothing.
//! - [`Endpoint::close`] where the other side closed the socket; and a socket closed wherever a call
//!   says that its connection is.
//! - A UDP socket while `record().device.mechanism` is armed, and every datagram of it whole:
//!   [`Endpoint::datagram`].
//! - About 16 KB of stack for a call, and about 48 KB in an unoptimised program: records pass by value,
//!   and the deepest, [`Endpoint::deliver`], took 10 KB, unoptimised 39 KB.
//!
//! The header `include/melorwyth.h` says more of each, and `docs/PROMISES.md` what is proved.
//!
//! # The archive
//!
//! `libmelorwyth.a`, for x86-64 alone, is named by the environment variable `MELORWYTH_ARCHIVE` when the
//! crate is built; a relative name counts from this package's folder. Without it
//! `../../target/staticlib/libmelorwyth.a` is taken. [`check_version`] says whether it is of this
//! crate's [`VERSION`].
//!
//! # Features
//!
//! `std`, on by default, brings `From<Refusal>` for `std::io::Error`. All else works without it, and
//! without a heap.

#![no_std]
#![deny(unsafe_code)]
#![warn(missing_docs, missing_debug_implementations)]

#[cfg(feature = "std")]
extern crate std;

pub mod answer;
#[allow(unsafe_code)]
mod boundary;
pub mod call;
mod endpoint;
mod message;
pub mod number;
mod outcome;
pub mod record;
mod refusal;
mod status;
mod version;

pub use answer::Entry;
pub use endpoint::Endpoint;
pub use message::{
    Heartbeat, Message, append, entry_context, entry_part, keep_alive, read_entry, read_message,
    start,
};
pub use outcome::{Closures, Delivery, Numbers, Outcome, Sending, SendingKind};
pub use record::Record;
pub use refusal::{Fault, Refusal};
pub use status::Status;
pub use version::{VERSION, VersionMismatch, check_version, version};

/// What was written at the front of a buffer, which is never more than the buffer has.
fn front(buffer: &[u8], length: usize) -> &[u8] {
    buffer.get(..length).unwrap_or_default()
}

// The host on that page is compiled as well; its errors are those of input and output.
#[cfg(all(doctest, feature = "std"))]
#[doc = include_str!("../README.md")]
struct Page;
