//! The desk under load: eight controllers lock, mute, subscribe, die and come
//! back on real sockets while ticks go on, and every call that the desk makes of
//! the library is held to the second program, to the record rules and to the clock.

#![forbid(unsafe_code)]
#![warn(missing_debug_implementations)]

pub mod checked;
pub mod controller;
mod death;
pub mod line;
pub mod process;
pub mod report;
pub mod run;
pub mod shared;
pub mod supervision;
pub mod voice;
