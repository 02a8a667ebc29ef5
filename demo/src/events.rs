//! What happens at the amplifier, one line each.

use crate::words;
use melorwyth::record::Mechanism;
use melorwyth::{Fault, Heartbeat, Status};
use std::fmt;
use std::net::{Ipv4Addr, SocketAddr};

/// Channels are numbered from 1, connections from 0.
#[derive(Clone, Debug, PartialEq, Eq)]
pub enum Event {
    Opened {
        n: u8,
        /// Who has this number now: a status tells no one.
        from: SocketAddr,
    },
    Full,
    Watched {
        n: u8,
        beat: Heartbeat,
    },
    Unwatched {
        n: u8,
    },
    Locked {
        n: u8,
        channel: u8,
    },
    Unlocked {
        n: u8,
        channel: u8,
    },
    Set {
        n: u8,
        channel: u8,
        value: u8,
    },
    Subscribed {
        n: u8,
        channel: u8,
        /// How many its context has: what they say is the controller's own.
        bytes: u8,
    },
    Unsubscribed {
        n: u8,
        channel: u8,
    },
    Answered {
        n: u8,
        status: Status,
    },
    Notified {
        n: u8,
        channel: u8,
        value: u8,
    },
    KeptAlive {
        n: u8,
        beat: Heartbeat,
    },
    Silent {
        n: u8,
        since: u32,
    },
    HeardAgain {
        n: u8,
    },
    Closed {
        n: u8,
        why: Why,
        left: Left,
    },
    Armed {
        n: u8,
        place: Place,
    },
    Reset(Ended),
    /// A datagram that did not reset.
    Ignored {
        length: usize,
    },
}

/// Why a connection was closed.
#[derive(Clone, Copy, Debug, PartialEq, Eq)]
pub enum Why {
    /// By a tick: nothing whole was heard for so long.
    Silence {
        silence: u64,
        beat: Heartbeat,
    },
    /// By a delivery.
    Fault(Fault),
    /// By the host, as everything below.
    HungUp,
    Broken,
    Stalled,
    Ending,
}

/// What a closed connection had, or all that a reset closed.
#[derive(Clone, Debug, Default, PartialEq, Eq)]
pub struct Left {
    pub undecided: u16,
    pub freed: Vec<u8>,
}

/// Where the armed mechanism wants datagrams; its key is a secret.
#[derive(Clone, Copy, Debug, PartialEq, Eq)]
pub struct Place {
    pub port: u16,
    /// Zeros are no group.
    pub group: Ipv4Addr,
}

impl Place {
    pub fn of(mechanism: &Mechanism) -> Place {
        Place {
            port: mechanism.port,
            group: mechanism.address.into(),
        }
    }
}

/// What a reset ended.
#[derive(Clone, Debug, Default, PartialEq, Eq)]
pub struct Ended {
    pub closed: Vec<u8>,
    pub left: Left,
    /// The channels that were muted before.
    pub unmuted: Vec<u8>,
    pub subscriptions: usize,
}

impl fmt::Display for Event {
    fn fmt(&self, f: &mut fmt::Formatter) -> fmt::Result {
        match self {
            Event::Opened { n, from } => write!(f, "opened connection {n} for {from}"),
            Event::Full => write!(f, "refused a connection: all 8 are open"),
            Event::Watched { n, beat } => watched(f, *n, *beat),
            Event::Unwatched { n } => {
                write!(f, "connection {n} set its heartbeat to 0: not supervised")
            }
            Event::Locked { n, channel } => write!(f, "connection {n} locked channel {channel}"),
            Event::Unlocked { n, channel } => {
                write!(f, "connection {n} unlocked channel {channel}")
            }
            Event::Set { n, channel, value } => {
                let set = words::value(*value);
                write!(f, "connection {n} {set} channel {channel}")
            }
            Event::Subscribed { n, channel, bytes } => subscribed(f, *n, *channel, *bytes),
            Event::Unsubscribed { n, channel } => {
                write!(f, "connection {n} unsubscribed from channel {channel}")
            }
            Event::Answered { n, status } => write!(f, "answered connection {n}: {status}"),
            Event::Notified { n, channel, value } => {
                let value = words::value(*value);
                write!(f, "notified connection {n}: channel {channel} is {value}")
            }
            Event::KeptAlive { n, beat } => {
                let beat = words::beat(*beat);
                write!(f, "sent connection {n} a keep-alive of {beat}")
            }
            Event::Silent { n, since } => write!(f, "connection {n} silent since {since} ms"),
            Event::HeardAgain { n } => write!(f, "connection {n} heard again"),
            Event::Closed { n, why, left } => write!(f, "closed connection {n}: {why}{left}"),
            Event::Armed { n, place } => write!(f, "connection {n} set the reset key: {place}"),
            Event::Reset(ended) => write!(f, "reset by key: {ended}"),
            Event::Ignored { length } => {
                write!(f, "a datagram of {length} bytes changed nothing")
            }
        }
    }
}

fn watched(f: &mut fmt::Formatter, n: u8, beat: Heartbeat) -> fmt::Result {
    let limit = 3 * beat.milliseconds();
    let beat = words::beat(beat);
    write!(f, "connection {n} set its heartbeat to {beat}")?;
    write!(f, ": closed after {limit} ms of silence")
}

fn subscribed(f: &mut fmt::Formatter, n: u8, channel: u8, bytes: u8) -> fmt::Result {
    let context = words::context_count(usize::from(bytes));
    write!(f, "connection {n} subscribed to channel {channel}")?;
    write!(f, "; {context}")
}

impl fmt::Display for Why {
    fn fmt(&self, f: &mut fmt::Formatter) -> fmt::Result {
        match self {
            Why::Silence { silence, beat } => {
                let beat = words::beat(*beat);
                write!(f, "nothing heard for {silence} ms (3 x {beat})")
            }
            Why::Fault(fault) => write!(f, "{fault}"),
            Why::HungUp => write!(f, "the controller hung up"),
            Why::Broken => write!(f, "the network broke it"),
            Why::Stalled => write!(f, "it does not take what it is sent"),
            Why::Ending => write!(f, "the amplifier ends"),
        }
    }
}

impl fmt::Display for Place {
    fn fmt(&self, f: &mut fmt::Formatter) -> fmt::Result {
        write!(f, "UDP port {}", self.port)?;
        f.write_str(&words::group(self.group))
    }
}

impl fmt::Display for Ended {
    fn fmt(&self, f: &mut fmt::Formatter) -> fmt::Result {
        let closed = words::connections(&self.closed);
        let subscriptions = words::subscriptions_ended(self.subscriptions);
        let unmuted = words::unmuted(&self.unmuted);
        write!(f, "closed {closed}{subscriptions}{}{unmuted}", self.left)
    }
}

impl fmt::Display for Left {
    fn fmt(&self, f: &mut fmt::Formatter) -> fmt::Result {
        f.write_str(&words::undecided(self.undecided))?;
        f.write_str(&words::free(&self.freed))
    }
}

#[cfg(test)]
mod tests {
    use super::*;

    const BEAT: Heartbeat = Heartbeat::Seconds(2);

    fn said(event: Event, line: &str) {
        assert_eq!(event.to_string(), line);
    }

    #[test]
    fn lines_say_who_did_what() {
        let (n, channel, value, since) = (2, 5, 1, 4_000);
        let from = SocketAddr::from((Ipv4Addr::LOCALHOST, 50_712));
        said(
            Event::Opened { n, from },
            "opened connection 2 for 127.0.0.1:50712",
        );
        said(Event::Full, "refused a connection: all 8 are open");
        said(
            Event::Watched { n, beat: BEAT },
            "connection 2 set its heartbeat to 2 s: closed after 6000 ms of silence",
        );
        said(
            Event::Locked { n, channel },
            "connection 2 locked channel 5",
        );
        said(
            Event::Unlocked { n, channel },
            "connection 2 unlocked channel 5",
        );
        said(
            Event::Set { n, channel, value },
            "connection 2 muted channel 5",
        );
        said(
            Event::KeptAlive { n, beat: BEAT },
            "sent connection 2 a keep-alive of 2 s",
        );
        said(
            Event::Silent { n, since },
            "connection 2 silent since 4000 ms",
        );
    }

    #[test]
    fn a_subscription_names_the_length_of_its_context() {
        let subscribed = |bytes| Event::Subscribed {
            n: 2,
            channel: 5,
            bytes,
        };
        let to = "connection 2 subscribed to channel 5; context of";
        said(subscribed(0), &format!("{to} 0 bytes"));
        said(subscribed(1), &format!("{to} 1 byte"));
        said(subscribed(64), &format!("{to} 64 bytes"));
    }

    #[test]
    fn a_reset_says_what_it_ended() {
        let armed = |group: [u8; 4]| Event::Armed {
            n: 2,
            place: Place {
                port: 5_000,
                group: group.into(),
            },
        };
        said(
            armed([0; 4]),
            "connection 2 set the reset key: UDP port 5000",
        );
        said(
            armed([239, 1, 2, 3]),
            "connection 2 set the reset key: UDP port 5000, group 239.1.2.3",
        );
        let reset = |closed: &[u8], undecided, freed: &[u8], unmuted: &[u8]| {
            let freed = freed.to_vec();
            Event::Reset(Ended {
                closed: closed.to_vec(),
                left: Left { undecided, freed },
                unmuted: unmuted.to_vec(),
                subscriptions: 0,
            })
        };
        said(
            reset(&[], 0, &[], &[]),
            "reset by key: closed no connection",
        );
        said(
            reset(&[0, 2], 6, &[1, 5], &[5]),
            "reset by key: closed connections 0, 2; 6 undecided bytes dropped; \
             channels 1, 5 are free; channel 5 is unmuted",
        );
        let length = 23;
        said(
            Event::Ignored { length },
            "a datagram of 23 bytes changed nothing",
        );
    }

    #[test]
    fn a_closure_says_why_and_what_is_left() {
        let silence = 6_000;
        let closed = |why, undecided, freed: &[u8]| Event::Closed {
            n: 1,
            why,
            left: Left {
                undecided,
                freed: freed.to_vec(),
            },
        };
        said(
            closed(
                Why::Silence {
                    silence,
                    beat: BEAT,
                },
                13,
                &[5],
            ),
            "closed connection 1: nothing heard for 6000 ms (3 x 2 s); \
             13 undecided bytes dropped; channel 5 is free",
        );
        said(
            closed(Why::Fault(Fault::Type), 0, &[]),
            "closed connection 1: pduType is above 4 (fault 4)",
        );
        said(
            closed(Why::Fault(Fault::Start), 0, &[5]),
            "closed connection 1: the first byte is not 3B (fault 1); channel 5 is free",
        );
        said(
            closed(Why::HungUp, 0, &[2, 8]),
            "closed connection 1: the controller hung up; channels 2, 8 are free",
        );
    }
}
