//! The layout of every struct of the C boundary: its size, and where each
//! field stands. `boundary/layout.c` prints the same from the C header.

use melorwyth::answer::{
    Cleared, Closed, Delivered, Entry, Opened, Part, Reading, Reset, Taken, Ticked, Written,
};
use melorwyth::record::{Connection, Device, Mechanism, Record, Subscription};
use std::mem::{offset_of, size_of};

/// One line for the struct, and one for each of its fields.
macro_rules! tell {
    ($name:ident: $($field:ident),+) => {
        println!("{} {}", stringify!($name), size_of::<$name>());
        $(println!("{}.{} {}", stringify!($name), stringify!($field), offset_of!($name, $field));)+
    };
}

fn main() {
    tell!(Connection: live, form, beat, silence, quiet, due);
    tell!(Subscription: used, waiting, connection, context_count, emitter, event, object, method,
        context);
    tell!(Mechanism: armed, key, address, port);
    tell!(Device: reading, connections, subscriptions, mutes, holders, mechanism);
    tell!(Record: device, held);
    tell!(Cleared: number);
    tell!(Opened: record, number, connection);
    tell!(Closed: record, number);
    tell!(Ticked: record, number, closed);
    tell!(Delivered: record, number, kind, fault, taken, length);
    tell!(Taken: record, number, kind, connection, length);
    tell!(Reset: record, number, reset);
    tell!(Reading: number, fault, kind, count, form, value, length);
    tell!(Entry: number, fault, kind, handle, target, level, index, count, status, context_count,
        emitter, event_level, event_index);
    tell!(Part: start, length);
    tell!(Written: number, fault, length);
}
