//! The UDP sockets that the armed reset mechanism wants, all on the loopback address.

use crate::events::Place;
use crate::rack::Reset;
use melorwyth::record::{KEY, Mechanism};
use std::io;
use std::net::{Ipv4Addr, SocketAddr, SocketAddrV4, UdpSocket};

/// No datagram is longer, so none is cut: the first 24 of 25 bytes would be another datagram.
const LONGEST: usize = 65_536;
/// As every device starts.
const DISARMED: Mechanism = Mechanism {
    armed: false,
    key: [0; KEY],
    address: [0; 4],
    port: 0,
};

/// What is open is what the mechanism that was followed last wants, as far as it can be had.
#[derive(Debug)]
pub struct Datagrams {
    /// The device's own switch: off, nothing is opened.
    on: bool,
    followed: Mechanism,
    sockets: Vec<UdpSocket>,
    buffer: Vec<u8>,
}

impl Datagrams {
    /// As at the start: disarmed, and nothing open.
    pub fn switched(on: bool) -> Datagrams {
        Datagrams {
            on,
            followed: DISARMED,
            sockets: Vec::new(),
            buffer: vec![0; LONGEST],
        }
    }

    /// Opens and closes what the mechanism wants now; answers a line for each socket wanted anew.
    pub fn follow(&mut self, mechanism: &Mechanism) -> Vec<String> {
        if *mechanism == self.followed {
            return Vec::new();
        }
        let (had, wanted) = (addresses(&self.followed), addresses(mechanism));
        self.followed = *mechanism;
        if !self.on && mechanism.armed {
            return vec!["the reset switch is off: not listening for datagrams".to_string()];
        }
        // what could not be had is tried again when another key is set
        if had == wanted && self.sockets.len() == wanted.len() {
            return Vec::new();
        }
        // the old ones go first, as the port may be the same
        self.sockets.clear();
        wanted
            .into_iter()
            .map(|address| self.open(address))
            .collect()
    }

    fn open(&mut self, address: SocketAddrV4) -> String {
        match listen(address) {
            Ok(socket) => {
                self.sockets.push(socket);
                format!("listening for datagrams on {address}")
            }
            Err(error) => format!("cannot listen for datagrams on {address}: {error}"),
        }
    }

    /// The next datagram, if one has come, and who sent it; the sockets take turns.
    pub fn received(&mut self) -> Option<(&[u8], SocketAddr)> {
        let count = self.sockets.len();
        self.sockets.rotate_left(count.min(1));
        let mut sockets = self.sockets.iter();
        let (length, from) = sockets.find_map(|socket| socket.recv_from(&mut self.buffer).ok())?;
        Some((&self.buffer[..length], from))
    }

    /// Whether, and where, a datagram to this mechanism would be heard now; the group comes last.
    pub fn reset(&self, mechanism: &Mechanism) -> Reset {
        let sockets = self.sockets.iter();
        let mut listening: Vec<SocketAddr> = sockets
            .filter_map(|socket| socket.local_addr().ok())
            .collect();
        listening.sort();
        let place = Place::of(mechanism);
        Reset {
            on: self.on,
            place: mechanism.armed.then_some(place),
            listening,
        }
    }
}

/// The port for what is sent to the device itself, and that port of the group; none while disarmed.
fn addresses(mechanism: &Mechanism) -> Vec<SocketAddrV4> {
    if !mechanism.armed {
        return Vec::new();
    }
    let group = Ipv4Addr::from(mechanism.address);
    let hosts = [Ipv4Addr::LOCALHOST, group].into_iter();
    let hosts = hosts.filter(|host| !host.is_unspecified());
    hosts
        .map(|host| SocketAddrV4::new(host, mechanism.port))
        .collect()
}

fn listen(address: SocketAddrV4) -> io::Result<UdpSocket> {
    let socket = UdpSocket::bind(address)?;
    socket.set_nonblocking(true)?;
    if address.ip().is_multicast() {
        socket.join_multicast_v4(address.ip(), &Ipv4Addr::LOCALHOST)?;
    }
    Ok(socket)
}

#[cfg(test)]
mod tests {
    use super::*;

    const GROUP: [u8; 4] = [239, 77, 70, 14];

    fn armed(key: u8, address: [u8; 4], port: u16) -> Mechanism {
        Mechanism {
            armed: true,
            key: [key; KEY],
            address,
            port,
        }
    }

    #[test]
    fn the_group_is_heard_besides_the_port() {
        let told = |mechanism: &Mechanism| -> Vec<String> {
            let addresses = addresses(mechanism).into_iter();
            addresses.map(|address| address.to_string()).collect()
        };
        assert!(told(&DISARMED).is_empty());
        assert_eq!(told(&armed(1, [0; 4], 5_000)), ["127.0.0.1:5000"]);
        let both = ["127.0.0.1:5000", "239.77.70.14:5000"];
        assert_eq!(told(&armed(1, GROUP, 5_000)), both);
    }

    /// A new key alone leaves a good socket as it is, and tries again for one that could not be had.
    #[test]
    fn a_socket_that_cannot_be_had_is_tried_again() {
        let taken = UdpSocket::bind((Ipv4Addr::LOCALHOST, 0)).unwrap();
        let port = taken.local_addr().unwrap().port();
        let mut datagrams = Datagrams::switched(true);
        let lines = datagrams.follow(&armed(1, [0; 4], port));
        assert!(lines[0].starts_with("cannot listen for datagrams on 127.0.0.1:"));
        assert!(datagrams.follow(&armed(1, [0; 4], port)).is_empty());
        assert!(datagrams.received().is_none());
        drop(taken);
        let lines = datagrams.follow(&armed(2, [0; 4], port));
        assert_eq!(
            lines,
            [format!("listening for datagrams on 127.0.0.1:{port}")]
        );
        assert!(datagrams.follow(&armed(3, [0; 4], port)).is_empty());
        assert!(datagrams.follow(&DISARMED).is_empty());
        assert!(UdpSocket::bind((Ipv4Addr::LOCALHOST, port)).is_ok());
    }
}
