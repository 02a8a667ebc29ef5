//! What the endpoint's calls give.

use crate::refusal::Fault;

/// What came of a delivery.
#[derive(Clone, Copy, Debug, PartialEq, Eq)]
pub struct Delivery<'a> {
    /// How many bytes of the piece were taken: offer the rest again.
    pub taken: usize,
    /// What they came to.
    pub outcome: Outcome<'a>,
}

/// What the bytes taken came to.
#[derive(Clone, Copy, Debug, PartialEq, Eq)]
pub enum Outcome<'a> {
    /// More bytes are needed: all of the piece was taken.
    More,
    /// A message was decided and run. This is the reply to be sent, empty for none.
    Message(&'a [u8]),
    /// A fault closed the connection: close its socket.
    Closed(Fault),
}

/// A message to be sent that answers none.
#[derive(Clone, Copy, Debug, PartialEq, Eq)]
pub struct Sending<'a> {
    /// To whom.
    pub connection: u8,
    /// Which of the two it is.
    pub kind: SendingKind,
    /// The message, never empty.
    pub message: &'a [u8],
}

/// What is sent without being asked for.
#[derive(Clone, Copy, Debug, PartialEq, Eq, Hash)]
pub enum SendingKind {
    /// A mute changed that the connection has subscribed to.
    Notification,
    /// Nothing was sent for as long as the connection's heartbeat.
    KeepAlive,
}

/// The connections that a tick closed.
///
/// ```
/// # use melorwyth::{Endpoint, Heartbeat, Refusal, record};
/// # let (mut output, mut buffer) = ([0; record::OUTPUT], [0; record::BUFFER]);
/// # let mut endpoint = Endpoint::fresh(0);
/// # let length = melorwyth::keep_alive(&mut buffer, Heartbeat::Seconds(1))?;
/// # for n in 0..3 {
/// #     endpoint.open()?;
/// #     if n != 1 {
/// #         endpoint.deliver(n, &buffer[..length], &mut output)?;
/// #     }
/// # }
/// // Connections 0 and 2 said that they would be heard every second.
/// let closures = endpoint.tick(3_000)?;
/// for n in closures {
///     println!("connection {n} is gone");
/// }
/// assert_eq!(closures.iter().collect::<Vec<_>>(), [0, 2]);
/// assert!(!closures.contains(1));
/// assert_eq!(closures.mask(), 0b101);
/// # Ok::<(), Refusal>(())
/// ```
#[derive(Clone, Copy, Debug, Default, PartialEq, Eq, Hash)]
#[must_use = "the sockets of these connections are to be closed"]
pub struct Closures {
    mask: u8,
}

impl Closures {
    pub(crate) const fn new(mask: u8) -> Closures {
        Closures { mask }
    }

    /// Whether connection n was closed.
    pub const fn contains(self, n: u8) -> bool {
        n < 8 && self.mask & (1 << n) != 0
    }

    /// Whether none was closed.
    pub const fn is_empty(self) -> bool {
        self.mask == 0
    }

    /// How many were closed.
    pub const fn len(self) -> usize {
        self.mask.count_ones() as usize
    }

    /// Their numbers, from the lowest on.
    pub const fn iter(self) -> Numbers {
        Numbers { mask: self.mask }
    }

    /// As the library tells them: bit n is set for connection n closed.
    pub const fn mask(self) -> u8 {
        self.mask
    }
}

impl IntoIterator for Closures {
    type Item = u8;
    type IntoIter = Numbers;

    fn into_iter(self) -> Numbers {
        self.iter()
    }
}

/// The numbers of [`Closures`], from the lowest on.
#[derive(Clone, Debug)]
pub struct Numbers {
    mask: u8,
}

impl Iterator for Numbers {
    type Item = u8;

    fn next(&mut self) -> Option<u8> {
        if self.mask == 0 {
            return None;
        }
        let lowest = self.mask.trailing_zeros() as u8;
        // The lowest bit goes.
        self.mask &= self.mask - 1;
        Some(lowest)
    }

    fn size_hint(&self) -> (usize, Option<usize>) {
        let left = self.mask.count_ones() as usize;
        (left, Some(left))
    }
}

impl ExactSizeIterator for Numbers {}
