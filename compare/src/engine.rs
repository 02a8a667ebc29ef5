//! The calls both programs answer.

use crate::answer::{
    Cleared, Closed, Delivered, Entry, Opened, Part, Reading, Reset, Taken, Ticked, Written,
};
use crate::record::Record;

/// A program of the reader, the writer and the endpoint.
pub trait Engine {
    fn fresh(&self, reading: u32) -> Record;
    fn clear(&self, area: &mut [u8]) -> Cleared;
    fn open(&self, record: Record) -> Opened;
    fn close(&self, record: Record, area: &mut [u8], n: u8) -> Closed;
    fn tick(&self, record: Record, area: &mut [u8], reading: u32) -> Ticked;
    fn deliver(
        &self,
        record: Record,
        area: &mut [u8],
        n: u8,
        piece: &[u8],
        output: &mut [u8],
    ) -> Delivered;
    fn take(&self, record: Record, output: &mut [u8]) -> Taken;
    fn datagram(&self, record: Record, area: &mut [u8], datagram: &[u8]) -> Reset;
    fn read_message(&self, bytes: &[u8]) -> Reading;
    fn read_entry(&self, bytes: &[u8], index: usize) -> Entry;
    fn entry_part(&self, bytes: &[u8], index: usize) -> Part;
    fn entry_context(&self, bytes: &[u8], index: usize) -> Part;
    fn start(&self, buffer: &mut [u8], kind: u8, entry: &[u8]) -> Written;
    fn append(&self, buffer: &mut [u8], kind: u8, entry: &[u8]) -> Written;
    fn keep_alive(&self, buffer: &mut [u8], form: u8, value: u32) -> Written;
}
