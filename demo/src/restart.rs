//! Reset by key from outside: the datagram, and where it may be sent.

use melorwyth::record::{DATAGRAM, KEY, SENTINEL};
use std::fmt;
use std::io::{self, ErrorKind};
use std::net::{Ipv4Addr, SocketAddrV4, UdpSocket};
use std::time::Duration;

/// How long a port that nobody listens on may take to say so.
const ECHO: Duration = Duration::from_millis(100);

pub const USAGE: &str = "usage: restart KEY PORT [HOST-OR-GROUP]   (without: 127.0.0.1)";

pub type Key = [u8; KEY];

/// A datagram to be sent.
#[derive(Clone, Copy, Debug, PartialEq, Eq)]
pub struct Restart {
    pub key: Key,
    pub to: SocketAddrV4,
}

impl Restart {
    pub fn datagram(&self) -> Vec<u8> {
        [&SENTINEL[..], &self.key].concat()
    }

    /// Sends it from the loopback address, which it does not leave.
    pub fn send(&self) -> io::Result<()> {
        self.send_by(&socket()?)
    }

    /// By a socket whose address is known, so that an answer by another way is known to be its own.
    pub fn send_by(&self, socket: &UdpSocket) -> io::Result<()> {
        socket.connect(self.to)?;
        socket.send(&self.datagram())?;
        match unheard(socket)? {
            true => Err(io::Error::other(format!(
                "nobody listens on {}, UDP",
                self.to
            ))),
            false => Ok(()),
        }
    }
}

/// Without the key, which is a secret.
impl fmt::Display for Restart {
    fn fmt(&self, f: &mut fmt::Formatter) -> fmt::Result {
        write!(
            f,
            "sends {DATAGRAM} bytes to {} by UDP, which answers nothing",
            self.to
        )
    }
}

/// A socket on the loopback address that sends to a group on this machine too, and no further.
pub fn socket() -> io::Result<UdpSocket> {
    let socket = UdpSocket::bind((Ipv4Addr::LOCALHOST, 0))?;
    socket.set_multicast_loop_v4(true)?;
    socket.set_multicast_ttl_v4(0)?;
    Ok(socket)
}

/// Whether the port's own machine says that nobody listens there; a group says nothing.
fn unheard(socket: &UdpSocket) -> io::Result<bool> {
    socket.set_read_timeout(Some(ECHO))?;
    let heard = socket.recv(&mut [0]);
    Ok(heard.is_err_and(|error| error.kind() == ErrorKind::ConnectionRefused))
}

/// The datagram that the words ask for, or what is wrong with them.
pub fn parse(words: &[&str]) -> Result<Restart, String> {
    let (key_text, port_text, host_text) = match words {
        [key, port] => (key, port, "127.0.0.1"),
        [key, port, host] => (key, port, *host),
        _ => return Err("it takes a key, a port and perhaps an address".to_string()),
    };
    let key = key(key_text)?;
    let port = match port(port_text)? {
        0 => return Err("nobody can listen on port 0".to_string()),
        port => port,
    };
    let to = SocketAddrV4::new(host(host_text)?, port);
    Ok(Restart { key, to })
}

/// A key is not repeated in what is said of it: it is nearly the secret.
pub fn key(text: &str) -> Result<Key, String> {
    let digits = text.chars().map(|digit| digit.to_digit(16));
    let Some(digits) = digits.collect::<Option<Vec<u32>>>() else {
        return Err(
            "a key is 32 hex digits, 0 to 9 and A to F; this has something else".to_string(),
        );
    };
    let bytes: Vec<u8> = digits.chunks(2).map(byte).collect();
    let wrong = |_| format!("a key is 32 hex digits, and this has {}", digits.len());
    match digits.len() % 2 {
        0 => bytes.try_into().map_err(wrong),
        _ => Err(wrong(bytes)),
    }
}

fn byte(digits: &[u32]) -> u8 {
    digits.iter().fold(0, |value, digit| 16 * value + digit) as u8
}

pub fn port(text: &str) -> Result<u16, String> {
    text.parse()
        .map_err(|_| format!("a port is a number up to 65535, and '{text}' is none"))
}

/// The amplifier on the desk is reached by no other address.
fn host(text: &str) -> Result<Ipv4Addr, String> {
    let address: Option<Ipv4Addr> = text.parse().ok();
    let reached = |address: &Ipv4Addr| address.is_loopback() || address.is_multicast();
    address.filter(reached).ok_or_else(|| {
        format!("the desk's amplifier is at 127.0.0.1 or in a group, 224.0.0.0 to 239.255.255.255; '{text}' is neither")
    })
}

#[cfg(test)]
mod tests {
    use super::*;

    const KEY: &str = "00112233445566778899aAbBcCdDeEfF";

    #[test]
    fn the_datagram_is_the_sentinel_and_the_key() {
        let restart = parse(&[KEY, "5000"]).unwrap();
        assert_eq!(restart.to.to_string(), "127.0.0.1:5000");
        let expected = [
            0xDE, 0xAF, 0xDA, 0xDA, 0xCA, 0xFE, 0xBA, 0xBE, 0x00, 0x11, 0x22, 0x33, 0x44, 0x55,
            0x66, 0x77, 0x88, 0x99, 0xAA, 0xBB, 0xCC, 0xDD, 0xEE, 0xFF,
        ];
        assert_eq!(restart.datagram(), expected);
        let group = parse(&[KEY, "65535", "239.1.2.3"]).unwrap();
        assert_eq!(
            group.to_string(),
            "sends 24 bytes to 239.1.2.3:65535 by UDP, which answers nothing"
        );
    }

    #[test]
    fn a_wrong_key_is_explained_and_not_repeated() {
        let told = |text: &str| key(text).unwrap_err();
        assert_eq!(told(""), "a key is 32 hex digits, and this has 0");
        assert_eq!(told(&KEY[1..]), "a key is 32 hex digits, and this has 31");
        assert_eq!(told(&KEY[2..]), "a key is 32 hex digits, and this has 30");
        let long = format!("{KEY}0");
        assert_eq!(told(&long), "a key is 32 hex digits, and this has 33");
        for strange in ['G', '+', '-', ' ', 'é'] {
            let wrong = told(&format!("{}{strange}", &KEY[1..]));
            assert!(wrong.ends_with("this has something else"), "{wrong}");
            assert!(!wrong.contains("112233"));
        }
    }

    /// Nothing is sent to another machine.
    #[test]
    fn other_places_are_refused() {
        for words in [
            &[KEY, "5000", "192.168.1.1"][..],
            &[KEY, "5000", "0.0.0.0"],
            &[KEY, "5000", "240.0.0.1"],
            &[KEY, "5000", "255.255.255.255"],
            &[KEY, "5000", "localhost"],
            &[KEY, "5000", "239.1.2"],
            &[KEY, "0"],
            &[KEY, "65536"],
            &[KEY, "-1"],
            &[KEY],
            &[],
            &[KEY, "5000", "127.0.0.1", "more"],
        ] {
            assert!(parse(words).is_err(), "{words:?}");
        }
    }

    #[test]
    fn a_port_that_nobody_listens_on_is_told() {
        let taken = UdpSocket::bind((Ipv4Addr::LOCALHOST, 0)).unwrap();
        let port = taken.local_addr().unwrap().port();
        let restart = parse(&[KEY, &port.to_string()]).unwrap();
        restart.send().unwrap();
        let mut bytes = [0; 64];
        assert_eq!(taken.recv(&mut bytes).unwrap(), 24);
        assert_eq!(bytes[..24], restart.datagram());
        drop(taken);
        let unheard = restart.send().unwrap_err().to_string();
        assert_eq!(unheard, format!("nobody listens on 127.0.0.1:{port}, UDP"));
    }
}
