//! The archive's functions over slices, one for each of the header, by its name less the prefix.
//!
//! Slices go in, and the whole answer comes out, that of a refusal too. The record goes with its
//! area: pass the record that the last call handed back. [`Endpoint`](crate::Endpoint) keeps both
//! together; this layer is for those who keep them elsewhere, or look at every field.
//!
//! ```
//! use melorwyth::{Refusal, call, record::AREA};
//!
//! let mut area = [0xFF; AREA];
//! call::clear(&mut area).done()?;
//! let opened = call::open(call::fresh(0)).done()?;
//! assert_eq!(opened.connection, 0);
//! // A refusal hands the record back as it was passed.
//! let refused = call::close(opened.record, &mut area, 5);
//! assert_eq!((refused.number, refused.record), (3, opened.record));
//! # Ok::<(), Refusal>(())
//! ```

pub use crate::boundary::{
    append, clear, close, datagram, deliver, entry_context, entry_part, fresh, keep_alive, open,
    read_entry, read_message, start, take, tick, version,
};
