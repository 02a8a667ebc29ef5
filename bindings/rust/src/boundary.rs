//! The C boundary: the archive's functions, and a safe one around each.

use crate::answer::{
    Cleared, Closed, Delivered, Entry, Opened, Part, Reading, Reset, Taken, Ticked, Written,
};
use crate::record::Record;

unsafe extern "C" {
    fn melorwyth_version() -> u32;
    fn melorwyth_fresh(reading: u32) -> Record;
    fn melorwyth_clear(area: *mut u8, area_length: usize) -> Cleared;
    fn melorwyth_open(record: Record) -> Opened;
    fn melorwyth_close(record: Record, area: *mut u8, area_length: usize, n: u8) -> Closed;
    fn melorwyth_tick(record: Record, area: *mut u8, area_length: usize, reading: u32) -> Ticked;
    fn melorwyth_deliver(
        record: Record,
        area: *mut u8,
        area_length: usize,
        n: u8,
        piece: *const u8,
        piece_length: usize,
        output: *mut u8,
        output_length: usize,
    ) -> Delivered;
    fn melorwyth_take(record: Record, output: *mut u8, output_length: usize) -> Taken;
    fn melorwyth_datagram(
        record: Record,
        area: *mut u8,
        area_length: usize,
        datagram: *const u8,
        datagram_length: usize,
    ) -> Reset;
    fn melorwyth_read_message(bytes: *const u8, bytes_length: usize) -> Reading;
    fn melorwyth_read_entry(bytes: *const u8, bytes_length: usize, index: usize) -> Entry;
    fn melorwyth_entry_part(bytes: *const u8, bytes_length: usize, index: usize) -> Part;
    fn melorwyth_entry_context(bytes: *const u8, bytes_length: usize, index: usize) -> Part;
    fn melorwyth_start(
        buffer: *mut u8,
        buffer_length: usize,
        kind: u8,
        entry: *const u8,
        entry_length: usize,
    ) -> Written;
    fn melorwyth_append(
        buffer: *mut u8,
        buffer_length: usize,
        kind: u8,
        entry: *const u8,
        entry_length: usize,
    ) -> Written;
    fn melorwyth_keep_alive(buffer: *mut u8, buffer_length: usize, form: u8, value: u32)
    -> Written;
}

// SAFETY of every block below: each pointer comes from a live slice, so it is not
// null, and goes with that slice's length; no slice overlaps one that is written;
// nothing is kept of a pointer after the call; and the structs are laid out as the
// header says, in the archive as here.
//
// Inlined, so that the record is not copied once more on its way.

/// The archive's version: one byte each for its three numbers.
#[inline]
pub fn version() -> u32 {
    unsafe { melorwyth_version() }
}

/// A record to start with: all connections closed, all channels unmuted, no lock, no subscription,
/// the reset mechanism disarmed. The reading is that of a free-running 32-bit millisecond counter, now.
#[inline]
pub fn fresh(reading: u32) -> Record {
    unsafe { melorwyth_fresh(reading) }
}

/// Zeros an area, for a fresh record. It refuses only by the length.
#[inline]
pub fn clear(area: &mut [u8]) -> Cleared {
    unsafe { melorwyth_clear(area.as_mut_ptr(), area.len()) }
}

/// Opens the lowest free connection.
#[inline]
pub fn open(record: Record) -> Opened {
    unsafe { melorwyth_open(record) }
}

/// Closes connection n: its locks, subscriptions and undecided bytes are gone.
#[inline]
pub fn close(record: Record, area: &mut [u8], n: u8) -> Closed {
    unsafe { melorwyth_close(record, area.as_mut_ptr(), area.len(), n) }
}

/// Brings time: the counter's reading now. Connections silent for 3 H or more are closed.
#[inline]
pub fn tick(record: Record, area: &mut [u8], reading: u32) -> Ticked {
    unsafe { melorwyth_tick(record, area.as_mut_ptr(), area.len(), reading) }
}

/// Gives connection n a piece of what it received. Bytes are taken up to and including the first
/// that decides something, so that a call runs at most one message.
#[inline]
pub fn deliver(
    record: Record,
    area: &mut [u8],
    n: u8,
    piece: &[u8],
    output: &mut [u8],
) -> Delivered {
    unsafe {
        melorwyth_deliver(
            record,
            area.as_mut_ptr(),
            area.len(),
            n,
            piece.as_ptr(),
            piece.len(),
            output.as_mut_ptr(),
            output.len(),
        )
    }
}

/// Writes one message that is to be sent, and names its connection: the notification of the lowest
/// waiting subscription, else a keep-alive for the lowest connection due, else nothing.
#[inline]
pub fn take(record: Record, output: &mut [u8]) -> Taken {
    unsafe { melorwyth_take(record, output.as_mut_ptr(), output.len()) }
}

/// Gives the device a datagram that came in on the mechanism's port. It resets exactly when the
/// mechanism is armed and the datagram is the sentinel and the key, 24 bytes in all.
#[inline]
pub fn datagram(record: Record, area: &mut [u8], datagram: &[u8]) -> Reset {
    unsafe {
        melorwyth_datagram(
            record,
            area.as_mut_ptr(),
            area.len(),
            datagram.as_ptr(),
            datagram.len(),
        )
    }
}

/// The message at the front of the bytes; those behind it are not looked at.
#[inline]
pub fn read_message(bytes: &[u8]) -> Reading {
    unsafe { melorwyth_read_message(bytes.as_ptr(), bytes.len()) }
}

/// Entry `index` of that message, from 0.
#[inline]
pub fn read_entry(bytes: &[u8], index: usize) -> Entry {
    unsafe { melorwyth_read_entry(bytes.as_ptr(), bytes.len(), index) }
}

/// Where that entry's parameters stand in the bytes (a notification's event parameters).
#[inline]
pub fn entry_part(bytes: &[u8], index: usize) -> Part {
    unsafe { melorwyth_entry_part(bytes.as_ptr(), bytes.len(), index) }
}

/// Where that entry's context stands in the bytes, behind its 2-byte count: only a notification has one.
#[inline]
pub fn entry_context(bytes: &[u8], index: usize) -> Part {
    unsafe { melorwyth_entry_context(bytes.as_ptr(), bytes.len(), index) }
}

/// Starts a message of that type with one entry, given as its bytes, its size field included.
#[inline]
pub fn start(buffer: &mut [u8], kind: u8, entry: &[u8]) -> Written {
    unsafe {
        melorwyth_start(
            buffer.as_mut_ptr(),
            buffer.len(),
            kind,
            entry.as_ptr(),
            entry.len(),
        )
    }
}

/// Appends an entry to the sound message at the buffer's front.
#[inline]
pub fn append(buffer: &mut [u8], kind: u8, entry: &[u8]) -> Written {
    unsafe {
        melorwyth_append(
            buffer.as_mut_ptr(),
            buffer.len(),
            kind,
            entry.as_ptr(),
            entry.len(),
        )
    }
}

/// Writes a keep-alive: form 1 and seconds, or form 2 and milliseconds.
#[inline]
pub fn keep_alive(buffer: &mut [u8], form: u8, value: u32) -> Written {
    unsafe { melorwyth_keep_alive(buffer.as_mut_ptr(), buffer.len(), form, value) }
}
