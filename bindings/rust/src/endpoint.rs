//! The device endpoint with its record and area in one.

use crate::call;
use crate::outcome::{Closures, Delivery, Outcome, Sending, SendingKind};
use crate::record::{AREA, Record};
use crate::refusal::{Fault, Refusal};
use crate::{front, number};
use core::fmt;

/// A device endpoint: its record and its area, so that neither gets mixed up.
///
/// On a refusal nothing has changed. [`BadRecord`](Refusal::BadRecord) and [`BadArea`](Refusal::BadArea)
/// never come from an endpoint's calls but [`resume`](Endpoint::resume). It is no `Clone`: a copy would be
/// an older history, to which nobody may go back. One endpoint is one thread's at a time.
///
/// It has about 19 KB, which [`fresh`](Endpoint::fresh) and `resume` hand back by value.
pub struct Endpoint {
    record: Record,
    area: [u8; AREA],
}

impl Endpoint {
    /// One to start with: all connections closed, all channels unmuted, no lock, no subscription,
    /// reset by key disarmed. The reading is that of a free-running 32-bit millisecond counter, now.
    pub fn fresh(reading: u32) -> Endpoint {
        Endpoint {
            record: call::fresh(reading),
            area: [0; AREA],
        }
    }

    /// Goes on with what [`into_parts`](Endpoint::into_parts) gave. A record that breaks a rule is
    /// refused by [`BadRecord`](Refusal::BadRecord), an area that does not go with it by
    /// [`BadArea`](Refusal::BadArea).
    ///
    /// ```
    /// use melorwyth::{Endpoint, Refusal};
    ///
    /// let mut endpoint = Endpoint::fresh(0);
    /// endpoint.open()?;
    /// let (mut record, area) = endpoint.into_parts();
    /// let mut endpoint = Endpoint::resume(record, &area)?;
    /// assert_eq!(endpoint.open(), Ok(1));
    ///
    /// record.device.mutes[3] = 7;
    /// assert_eq!(Endpoint::resume(record, &area).err(), Some(Refusal::BadRecord));
    /// # Ok::<(), Refusal>(())
    /// ```
    pub fn resume(record: Record, area: &[u8]) -> Result<Endpoint, Refusal> {
        let mut endpoint = Endpoint {
            record,
            area: [0; AREA],
        };
        if area.len() != AREA {
            go_together(&record, &mut [])?;
            return Err(Refusal::BadArea);
        }
        endpoint.area.copy_from_slice(area);
        go_together(&record, &mut endpoint.area)?;
        Ok(endpoint)
    }

    /// Record and area, to be kept and resumed later. A reset key may be in both.
    pub fn into_parts(self) -> (Record, [u8; AREA]) {
        (self.record, self.area)
    }

    /// The record, to be looked at.
    pub fn record(&self) -> &Record {
        &self.record
    }

    /// The area: each connection's undecided bytes. A reset key may be among them.
    pub fn area(&self) -> &[u8; AREA] {
        &self.area
    }

    /// Opens the lowest free connection, and gives its number, 0 to 7.
    ///
    /// ```
    /// use melorwyth::{Endpoint, Refusal};
    ///
    /// let mut endpoint = Endpoint::fresh(0);
    /// for n in 0..8 {
    ///     assert_eq!(endpoint.open(), Ok(n));
    /// }
    /// assert_eq!(endpoint.open(), Err(Refusal::TableFull));
    /// ```
    pub fn open(&mut self) -> Result<u8, Refusal> {
        let answer = call::open(self.record);
        Refusal::check(answer.number)?;
        self.record = answer.record;
        Ok(answer.connection)
    }

    /// Closes connection n: its locks, subscriptions and undecided bytes are gone. This is for a
    /// socket that was closed by the other side.
    ///
    /// ```
    /// use melorwyth::{Endpoint, Refusal};
    ///
    /// let mut endpoint = Endpoint::fresh(0);
    /// let n = endpoint.open()?;
    /// endpoint.close(n)?;
    /// assert_eq!(endpoint.close(n), Err(Refusal::NoConnection));
    /// # Ok::<(), Refusal>(())
    /// ```
    pub fn close(&mut self, n: u8) -> Result<(), Refusal> {
        let answer = call::close(self.record, &mut self.area, n);
        Refusal::check(answer.number)?;
        self.record = answer.record;
        Ok(())
    }

    /// Brings time: the counter's reading now. Connections silent for 3 H or more are closed, and
    /// their sockets are to be closed. How often it is called makes no difference but in how late a
    /// closure or a keep-alive comes; call it at least every 24 days.
    ///
    /// ```
    /// use melorwyth::{Endpoint, Refusal};
    ///
    /// // The counter goes round: from its last reading to 99 are 100 milliseconds.
    /// let mut endpoint = Endpoint::fresh(u32::MAX);
    /// assert!(endpoint.tick(99)?.is_empty());
    /// assert_eq!(endpoint.tick(98), Err(Refusal::ClockBack));
    /// assert_eq!(endpoint.record().device.reading, 99);
    /// # Ok::<(), Refusal>(())
    /// ```
    pub fn tick(&mut self, reading: u32) -> Result<Closures, Refusal> {
        let answer = call::tick(self.record, &mut self.area, reading);
        Refusal::check(answer.number)?;
        self.record = answer.record;
        Ok(Closures::new(answer.closed))
    }

    /// Gives connection n a piece of what it received. The output has at least
    /// [`OUTPUT`](crate::record::OUTPUT) bytes, and the reply stands in it.
    ///
    /// Bytes are taken up to and including the first that decides something, so that a call runs at
    /// most one message: offer the rest again.
    ///
    /// ```
    /// use melorwyth::{Endpoint, Fault, Outcome, Refusal, record};
    ///
    /// let mut endpoint = Endpoint::fresh(0);
    /// let mut output = [0; record::OUTPUT];
    /// let n = endpoint.open()?;
    /// // A first byte other than 3B decides at once, and closes the connection.
    /// let delivery = endpoint.deliver(n, b"GET / HTTP/1.1", &mut output)?;
    /// assert_eq!(delivery.taken, 1);
    /// assert_eq!(delivery.outcome, Outcome::Closed(Fault::Start));
    /// # Ok::<(), Refusal>(())
    /// ```
    pub fn deliver<'a>(
        &mut self,
        n: u8,
        piece: &[u8],
        output: &'a mut [u8],
    ) -> Result<Delivery<'a>, Refusal> {
        let answer = call::deliver(self.record, &mut self.area, n, piece, output);
        Refusal::check(answer.number)?;
        self.record = answer.record;
        let outcome = match answer.kind {
            number::DELIVER_MORE => Outcome::More,
            number::DELIVER_CLOSED => Outcome::Closed(Fault::from_number(answer.fault)),
            // There is no fourth kind.
            _ => Outcome::Message(front(output, answer.length)),
        };
        Ok(Delivery {
            taken: answer.taken,
            outcome,
        })
    }

    /// Writes one message that is to be sent without being asked for, if there is one: the
    /// notification of the lowest waiting subscription, else a keep-alive for the lowest connection
    /// due. Call it after deliveries and ticks until it gives `None`. The output has at least
    /// [`OUTPUT`](crate::record::OUTPUT) bytes, and the message stands in it.
    ///
    /// ```
    /// use melorwyth::{Endpoint, Heartbeat, Refusal, SendingKind, record};
    ///
    /// let mut endpoint = Endpoint::fresh(0);
    /// let mut output = [0; record::OUTPUT];
    /// let mut keep_alive = [0; record::BUFFER];
    /// let length = melorwyth::keep_alive(&mut keep_alive, Heartbeat::Milliseconds(500))?;
    /// let n = endpoint.open()?;
    /// endpoint.deliver(n, &keep_alive[..length], &mut output)?;
    /// assert_eq!(endpoint.take(&mut output)?, None);
    ///
    /// // The device has said nothing for 500 milliseconds.
    /// assert!(endpoint.tick(500)?.is_empty());
    /// let sending = endpoint.take(&mut output)?.expect("a keep-alive is due");
    /// assert_eq!((sending.connection, sending.kind), (n, SendingKind::KeepAlive));
    /// assert_eq!(sending.message, &keep_alive[..length]);
    /// assert_eq!(endpoint.take(&mut output)?, None);
    /// # Ok::<(), Refusal>(())
    /// ```
    pub fn take<'a>(&mut self, output: &'a mut [u8]) -> Result<Option<Sending<'a>>, Refusal> {
        let answer = call::take(self.record, output);
        Refusal::check(answer.number)?;
        self.record = answer.record;
        let kind = match answer.kind {
            number::TAKE_NOTHING => return Ok(None),
            number::TAKE_NOTIFICATION => SendingKind::Notification,
            // There is no fourth kind.
            _ => SendingKind::KeepAlive,
        };
        Ok(Some(Sending {
            connection: answer.connection,
            kind,
            message: front(output, answer.length),
        }))
    }

    /// Gives the device a datagram that came in on the mechanism's port, and tells whether it was
    /// reset. Then no connection is left: close every socket, with no [`close`](Endpoint::close).
    ///
    /// Read datagrams into more than [`DATAGRAM`](crate::record::DATAGRAM) bytes: most systems cut one
    /// to the buffer, and of 25 bytes the first 24 are no datagram of 24.
    ///
    /// ```
    /// use melorwyth::{Endpoint, Refusal, record};
    ///
    /// // Nobody has set a key: no datagram resets the device.
    /// let mut endpoint = Endpoint::fresh(0);
    /// assert!(!endpoint.record().device.mechanism.armed);
    /// let mut datagram = [0; record::DATAGRAM];
    /// datagram[..8].copy_from_slice(&record::SENTINEL);
    /// assert!(!endpoint.datagram(&datagram)?);
    /// # Ok::<(), Refusal>(())
    /// ```
    pub fn datagram(&mut self, datagram: &[u8]) -> Result<bool, Refusal> {
        let answer = call::datagram(self.record, &mut self.area, datagram);
        Refusal::check(answer.number)?;
        self.record = answer.record;
        Ok(answer.reset != 0)
    }
}

/// Refuses what every call would refuse. Record and area are judged before the connection's number,
/// and there is none of this number, so that nothing is closed.
fn go_together(record: &Record, area: &mut [u8]) -> Result<(), Refusal> {
    match Refusal::check(call::close(*record, area, u8::MAX).number) {
        Err(Refusal::NoConnection) => Ok(()),
        judged => judged,
    }
}

// The area stays out of logs: a reset key may be in it.
impl fmt::Debug for Endpoint {
    fn fmt(&self, f: &mut fmt::Formatter<'_>) -> fmt::Result {
        f.debug_struct("Endpoint")
            .field("record", &self.record)
            .finish_non_exhaustive()
    }
}
