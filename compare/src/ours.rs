//! The library, called over its C boundary by the crate `melorwyth`.

use crate::answer::{
    Cleared, Closed, Delivered, Entry, Opened, Part, Reading, Reset, Taken, Ticked, Written,
};
use crate::engine::Engine;
use crate::record::Record;
use melorwyth::call;

/// The library behind its static archive.
#[derive(Clone, Copy, Debug, Default)]
pub struct Ours;

impl Engine for Ours {
    fn fresh(&self, reading: u32) -> Record {
        call::fresh(reading).into()
    }

    fn clear(&self, area: &mut [u8]) -> Cleared {
        call::clear(area).into()
    }

    fn open(&self, record: Record) -> Opened {
        call::open(record.into()).into()
    }

    fn close(&self, record: Record, area: &mut [u8], n: u8) -> Closed {
        call::close(record.into(), area, n).into()
    }

    fn tick(&self, record: Record, area: &mut [u8], reading: u32) -> Ticked {
        call::tick(record.into(), area, reading).into()
    }

    fn deliver(
        &self,
        record: Record,
        area: &mut [u8],
        n: u8,
        piece: &[u8],
        output: &mut [u8],
    ) -> Delivered {
        call::deliver(record.into(), area, n, piece, output).into()
    }

    fn take(&self, record: Record, output: &mut [u8]) -> Taken {
        call::take(record.into(), output).into()
    }

    fn datagram(&self, record: Record, area: &mut [u8], datagram: &[u8]) -> Reset {
        call::datagram(record.into(), area, datagram).into()
    }

    fn read_message(&self, bytes: &[u8]) -> Reading {
        call::read_message(bytes).into()
    }

    fn read_entry(&self, bytes: &[u8], index: usize) -> Entry {
        call::read_entry(bytes, index).into()
    }

    fn entry_part(&self, bytes: &[u8], index: usize) -> Part {
        call::entry_part(bytes, index).into()
    }

    fn entry_context(&self, bytes: &[u8], index: usize) -> Part {
        call::entry_context(bytes, index).into()
    }

    fn start(&self, buffer: &mut [u8], kind: u8, entry: &[u8]) -> Written {
        call::start(buffer, kind, entry).into()
    }

    fn append(&self, buffer: &mut [u8], kind: u8, entry: &[u8]) -> Written {
        call::append(buffer, kind, entry).into()
    }

    fn keep_alive(&self, buffer: &mut [u8], form: u8, value: u32) -> Written {
        call::keep_alive(buffer, form, value).into()
    }
}
