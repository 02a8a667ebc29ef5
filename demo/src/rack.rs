//! What a person wants to see of the amplifier: the record's figures, and what the host alone knows.
//!
//! The reset key has no place here, so nothing that is made of a rack can show it.

use crate::changes;
use crate::events::Place;
use crate::words;
use melorwyth::Heartbeat;
use melorwyth::record::{CONNECTIONS, Connection, MUTES, Record};
use std::fmt;
use std::net::SocketAddr;

/// All that is shown at one reading.
#[derive(Clone, Debug, PartialEq, Eq)]
pub struct Rack {
    /// Where controllers connect.
    pub address: SocketAddr,
    pub reading: u32,
    pub strips: [Strip; MUTES],
    /// The open connections, by their numbers.
    pub guests: Vec<Guest>,
    pub reset: Reset,
}

/// A channel.
#[derive(Clone, Copy, Debug, PartialEq, Eq)]
pub struct Strip {
    pub value: u8,
    pub holder: Option<u8>,
    /// The reading at which it was locked or became free; nothing: as it was when the desk began.
    pub since: Option<u32>,
    pub watch: Watch,
}

/// How long a connection has been silent, and the silence that closes it: 3 x H. Both are 0 where none does.
#[derive(Clone, Copy, Debug, Default, PartialEq, Eq)]
pub struct Watch {
    pub silence: u64,
    pub limit: u64,
}

/// An open connection.
#[derive(Clone, Debug, PartialEq, Eq)]
pub struct Guest {
    pub n: u8,
    pub arrival: Option<Arrival>,
    pub beat: Heartbeat,
    pub watch: Watch,
    /// The milliseconds until a keep-alive is due for it; nothing without a heartbeat.
    pub due: Option<u64>,
    pub undecided: u16,
    /// The channels that it holds, and those of its subscriptions.
    pub holds: Vec<u8>,
    pub subscribed: Vec<u8>,
}

/// Who has a connection, and since which reading: a status tells no one, and the record keeps neither.
#[derive(Clone, Copy, Debug, PartialEq, Eq)]
pub struct Arrival {
    pub from: SocketAddr,
    pub at: u32,
}

pub type Arrivals = [Option<Arrival>; CONNECTIONS];

/// Whether a datagram with the key would be heard.
#[derive(Clone, Debug, PartialEq, Eq)]
pub struct Reset {
    /// The device's own switch.
    pub on: bool,
    /// Nothing where the mechanism is not armed.
    pub place: Option<Place>,
    pub listening: Vec<SocketAddr>,
}

impl Rack {
    pub fn of(record: &Record, address: SocketAddr, arrivals: &Arrivals, reset: Reset) -> Rack {
        let device = &record.device;
        let numbers = (0..CONNECTIONS).filter(|n| device.connections[*n].live);
        Rack {
            address,
            reading: device.reading,
            strips: std::array::from_fn(|k| strip(record, k)),
            guests: numbers
                .map(|n| guest(record, n as u8, arrivals[n]))
                .collect(),
            reset,
        }
    }

    /// A channel that is held, or free, as it was is so since it was.
    pub fn following(mut self, before: &Rack) -> Rack {
        for (strip, was) in self.strips.iter_mut().zip(&before.strips) {
            strip.since = match strip.holder == was.holder {
                true => was.since,
                false => Some(self.reading),
            };
        }
        self
    }
}

fn strip(record: &Record, k: usize) -> Strip {
    let device = &record.device;
    let holder = device.holders[k].checked_sub(1);
    let connection = holder.and_then(|n| device.connections.get(usize::from(n)));
    Strip {
        value: device.mutes[k],
        holder,
        since: None,
        watch: connection.map_or(Watch::default(), watch),
    }
}

fn watch(connection: &Connection) -> Watch {
    Watch {
        silence: connection.silence,
        limit: 3 * connection.beat,
    }
}

fn guest(record: &Record, n: u8, arrival: Option<Arrival>) -> Guest {
    let device = &record.device;
    let connection = &device.connections[usize::from(n)];
    let due = match connection.due {
        true => 0,
        false => connection.beat - connection.quiet,
    };
    let entries = device.subscriptions.iter();
    let entries = entries.filter(|entry| entry.used && entry.connection == n);
    Guest {
        n,
        arrival,
        beat: changes::beat(connection),
        watch: watch(connection),
        due: (connection.beat > 0).then_some(due),
        undecided: record.held[usize::from(n)],
        holds: changes::channels(|k| device.holders[k] == n + 1),
        subscribed: entries
            .map(|entry| words::channel_of_object(entry.emitter))
            .collect(),
    }
}

impl fmt::Display for Reset {
    fn fmt(&self, f: &mut fmt::Formatter) -> fmt::Result {
        let Some(place) = self.place else {
            return write!(f, "not armed: no reset key is set");
        };
        write!(f, "armed on {place}")?;
        match self.listening.as_slice() {
            [] if self.on => write!(f, "; the port cannot be had: not listening"),
            [] => write!(f, "; the reset switch is off: not listening"),
            some => write!(f, ": listening on {}", words::listed(some)),
        }
    }
}

#[cfg(test)]
mod tests {
    use super::*;
    use melorwyth::call::fresh;
    use melorwyth::number;
    use std::net::Ipv4Addr;

    const HERE: SocketAddr = SocketAddr::new(std::net::IpAddr::V4(Ipv4Addr::LOCALHOST), 65_070);

    fn unarmed() -> Reset {
        Reset {
            on: true,
            place: None,
            listening: Vec::new(),
        }
    }

    fn rack(record: &Record) -> Rack {
        Rack::of(record, HERE, &Arrivals::default(), unarmed())
    }

    /// Connection 2 holds channel 5, with a heartbeat of 2 s, at this reading.
    fn held(reading: u32) -> Record {
        let mut record = fresh(reading);
        let connection = &mut record.device.connections[2];
        connection.live = true;
        connection.form = number::FORM_SECONDS;
        connection.beat = 2_000;
        connection.silence = 1_500;
        connection.quiet = 1_400;
        record.device.holders[4] = 3;
        record
    }

    #[test]
    fn a_strip_has_the_figures_of_its_holder() {
        let rack = rack(&held(7));
        assert_eq!(rack.strips[4].holder, Some(2));
        let (silence, limit) = (1_500, 6_000);
        assert_eq!(rack.strips[4].watch, Watch { silence, limit });
        assert_eq!(rack.strips[3].holder, None);
        assert_eq!(rack.strips[3].watch, Watch::default());
        assert_eq!(rack.guests.len(), 1);
        assert_eq!(rack.guests[0].holds, [5]);
        assert_eq!(rack.guests[0].due, Some(600));
    }

    #[test]
    fn a_keep_alive_may_be_due() {
        let mut record = held(7);
        record.device.connections[2].due = true;
        record.device.connections[2].quiet = 0;
        assert_eq!(rack(&record).guests[0].due, Some(0));
        record.device.connections[2] = fresh(0).device.connections[2];
        record.device.connections[2].live = true;
        assert_eq!(rack(&record).guests[0].due, None);
    }

    /// The reading at which the holder changed, and no later one.
    #[test]
    fn a_strip_is_so_since_it_changed() {
        let since = |rack: &Rack| rack.strips[4].since;
        let first = rack(&fresh(5));
        let locked = rack(&held(10)).following(&first);
        let still = rack(&held(20)).following(&locked);
        let free = rack(&fresh(30)).following(&still);
        let later = rack(&fresh(40)).following(&free);
        assert_eq!(since(&first), None);
        assert_eq!(since(&locked), Some(10));
        assert_eq!(since(&still), Some(10));
        assert_eq!(since(&free), Some(30));
        assert_eq!(since(&later), Some(30));
        assert_eq!(later.strips[3].since, None);
    }

    #[test]
    fn whether_a_datagram_would_be_heard_is_told() {
        let group = Ipv4Addr::new(239, 1, 2, 3);
        let place = Some(Place { port: 5_000, group });
        let addresses = [Ipv4Addr::LOCALHOST, group];
        let listening = addresses.map(|address| SocketAddr::from((address, 5_000)));
        let told = |on, place, listening: &[SocketAddr]| {
            let listening = listening.to_vec();
            let reset = Reset {
                on,
                place,
                listening,
            };
            reset.to_string()
        };
        assert_eq!(told(true, None, &[]), "not armed: no reset key is set");
        let armed = "armed on UDP port 5000, group 239.1.2.3";
        let both = "listening on 127.0.0.1:5000, 239.1.2.3:5000";
        assert_eq!(told(true, place, &listening), format!("{armed}: {both}"));
        let off = "the reset switch is off: not listening";
        assert_eq!(told(false, place, &[]), format!("{armed}; {off}"));
        let cannot = "the port cannot be had: not listening";
        assert_eq!(told(true, place, &[]), format!("{armed}; {cannot}"));
    }
}
