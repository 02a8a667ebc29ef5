//! For whoever makes a desk and wants to watch the calls that it makes on the endpoint.

use melorwyth::{Closures, Delivery, Endpoint, Fault, Outcome, Refusal, Sending, SendingKind};

pub trait Witness {
    /// Told after every call: what was asked and answered, and the record, area and output that it left.
    ///
    /// Nothing changes them between two calls, so what stood before this one is what the last one left; the first is
    /// `Fresh`. That is enough to run another program on the same inputs, and to compare all of it.
    fn saw(&mut self, call: Call, endpoint: &Endpoint, output: &[u8]);
}

/// Watches nothing, and costs nothing.
#[derive(Clone, Copy, Debug, Default)]
pub struct Unwatched;

impl Witness for Unwatched {
    fn saw(&mut self, _call: Call, _endpoint: &Endpoint, _output: &[u8]) {}
}

/// A call: its inputs and its answer.
#[derive(Clone, Copy, Debug, PartialEq, Eq)]
pub enum Call<'a> {
    Fresh {
        reading: u32,
    },
    Open {
        answer: Result<u8, Refusal>,
    },
    Close {
        n: u8,
        answer: Result<(), Refusal>,
    },
    Tick {
        reading: u32,
        answer: Result<Closures, Refusal>,
    },
    Deliver {
        n: u8,
        piece: &'a [u8],
        answer: Result<Delivered, Refusal>,
    },
    Take {
        answer: Result<Option<Taken>, Refusal>,
    },
    Datagram {
        datagram: &'a [u8],
        answer: Result<bool, Refusal>,
    },
}

/// A delivery's answer; its reply is the front of the output.
#[derive(Clone, Copy, Debug, PartialEq, Eq)]
pub struct Delivered {
    pub taken: usize,
    pub came: Came,
}

#[derive(Clone, Copy, Debug, PartialEq, Eq)]
pub enum Came {
    More,
    Message { reply: usize },
    Closed(Fault),
}

impl From<Delivery<'_>> for Delivered {
    fn from(delivery: Delivery) -> Delivered {
        Delivered {
            taken: delivery.taken,
            came: match delivery.outcome {
                Outcome::More => Came::More,
                Outcome::Message(reply) => Came::Message { reply: reply.len() },
                Outcome::Closed(fault) => Came::Closed(fault),
            },
        }
    }
}

/// A take's answer; its message is the front of the output.
#[derive(Clone, Copy, Debug, PartialEq, Eq)]
pub struct Taken {
    pub n: u8,
    pub kind: SendingKind,
    pub length: usize,
}

impl From<Sending<'_>> for Taken {
    fn from(sending: Sending) -> Taken {
        Taken {
            n: sending.connection,
            kind: sending.kind,
            length: sending.message.len(),
        }
    }
}
