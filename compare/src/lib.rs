//! An independent second program of the device endpoint, and the harness that
//! compares it with the library call by call.
//!
//! The second program is written from the scope paper and the requests that
//! landed alone, in the plainest way, so that a slip in either program shows as a
//! difference.

#![deny(unsafe_code)]
#![warn(missing_debug_implementations)]

pub mod answer;
#[cfg(feature = "ours")]
mod convert;
pub mod engine;
pub mod fast;
pub mod harness;
#[cfg(feature = "ours")]
pub mod ours;
pub mod record;
pub mod second;
