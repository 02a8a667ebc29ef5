//! The binding's structs from this package's and back, field by field.
//!
//! The second program has structs of its own, so that it shares none with the
//! library's callers. A field that either side has alone does not compile.

use crate::{answer, record};
use melorwyth::answer as their_answer;
use melorwyth::record as their_record;

/// Both directions for structs whose fields have the same types.
macro_rules! both {
    ($($name:ident { $($field:ident),+ })+) => {
        $(impl From<their_record::$name> for record::$name {
            fn from(their_record::$name { $($field),+ }: their_record::$name) -> Self {
                record::$name { $($field),+ }
            }
        }

        impl From<record::$name> for their_record::$name {
            fn from(record::$name { $($field),+ }: record::$name) -> Self {
                their_record::$name { $($field),+ }
            }
        })+
    };
}

/// Answers that hand the record back, and their other fields.
macro_rules! with_record {
    ($($name:ident { $($field:ident),+ })+) => {
        $(impl From<their_answer::$name> for answer::$name {
            fn from(
                their_answer::$name { record, $($field),+ }: their_answer::$name,
            ) -> Self {
                answer::$name { record: record.into(), $($field),+ }
            }
        })+
    };
}

/// Answers without a record.
macro_rules! without_record {
    ($($name:ident { $($field:ident),+ })+) => {
        $(impl From<their_answer::$name> for answer::$name {
            fn from(their_answer::$name { $($field),+ }: their_answer::$name) -> Self {
                answer::$name { $($field),+ }
            }
        })+
    };
}

both! {
    Connection { live, form, beat, silence, quiet, due }
    Subscription {
        used, waiting, connection, context_count, emitter, event, object, method, context
    }
    Mechanism { armed, key, address, port }
}

with_record! {
    Opened { number, connection }
    Closed { number }
    Ticked { number, closed }
    Delivered { number, kind, fault, taken, length }
    Taken { number, kind, connection, length }
    Reset { number, reset }
}

without_record! {
    Cleared { number }
    Reading { number, fault, kind, count, form, value, length }
    Entry {
        number, fault, kind, handle, target, level, index, count, status, context_count, emitter,
        event_level, event_index
    }
    Part { start, length }
    Written { number, fault, length }
}

/// The two that hold other structs, in one direction.
macro_rules! holding {
    ($from:ident to $into:ident) => {
        impl From<$from::Device> for $into::Device {
            fn from(device: $from::Device) -> Self {
                let $from::Device {
                    reading,
                    connections,
                    subscriptions,
                    mutes,
                    holders,
                    mechanism,
                } = device;
                $into::Device {
                    reading,
                    connections: connections.map(Into::into),
                    subscriptions: subscriptions.map(Into::into),
                    mutes,
                    holders,
                    mechanism: mechanism.into(),
                }
            }
        }

        impl From<$from::Record> for $into::Record {
            fn from($from::Record { device, held }: $from::Record) -> Self {
                let device = device.into();
                $into::Record { device, held }
            }
        }
    };
}

holding!(their_record to record);
holding!(record to their_record);
