//! Holds the library to Wireshark's dissector: what the library sends and reads is put into a capture file, tshark
//! dissects it, and each field is compared with what the library's reader says.

#![deny(unsafe_code)]
#![warn(missing_debug_implementations)]

pub mod agreement;
pub mod capture;
pub mod comparison;
pub mod field;
pub mod hall;
pub mod message;
pub mod pdml;
pub mod session;
pub mod shown;
pub mod slips;
pub mod tally;
pub mod tshark;
