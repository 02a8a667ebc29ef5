//! What the program leaves behind: descriptors, its port, its exit code.

use super::{Host, KEY, eight, program};
use crate::hall::{free_port, until};
use crate::wire::{arm, asked, lock};
use std::net::{Ipv4Addr, TcpListener, TcpStream};

/// Hung up, closed for a fault, with half a message, refused as a ninth, armed elsewhere: nothing stays open.
#[test]
fn two_hundred_come_and_go() {
    let Some(host) = Host::start() else { return };
    let before = host.descriptors();
    let ways: Vec<String> = (0..8)
        .map(|n| format!("closed connection {n}: hung up"))
        .collect();
    for k in 1..=25 {
        let mut peers = eight(&host);
        assert!(host.connect().is_closed());
        peers[0].ask(&arm(2, KEY, "", free_port()), 0);
        peers[1].send(&asked(&lock(3, 1))[..12]);
        peers[2].send(&[0]);
        assert!(peers[2].is_closed());
        drop(peers);
        host.wait_for("closed connection 2: fault 1", k);
        until("seven closures", || host.count_all(&ways) == 7 * k);
    }
    // the last key's socket is the only one more
    assert_eq!(host.descriptors(), before + 1);
    host.end();
}

/// Either signal: everybody is cut off, and the port can be had again at once.
#[test]
fn a_signal_ends_it() {
    let mut port = 0;
    for signal in ["TERM", "INT"] {
        let Some(host) = Host::start_as(&[&port.to_string()]) else {
            return;
        };
        let (mut tablet, mut panel) = (host.connect(), host.connect());
        tablet.beat(30_000);
        tablet.ask(&lock(7, 5), 0);
        panel.ask(&arm(8, KEY, "", free_port()), 0);
        let address = host.address;
        port = address.port();
        let text = host.end_by(signal);
        let last = "closed connection 0: the host ends\n\
            closed connection 1: the host ends\nended\n";
        assert!(text.ends_with(last), "{text}");
        assert!(tablet.is_closed() && panel.is_closed());
        assert!(TcpStream::connect(address).is_err());
    }
}

#[test]
fn wrong_words_are_told() {
    let taken = TcpListener::bind((Ipv4Addr::LOCALHOST, 0)).unwrap();
    let port = taken.local_addr().unwrap().port().to_string();
    let usage = "usage: host PORT [no-reset]\n";
    for (words, code, said) in [
        (&[][..], 2, usage),
        (&["65536"], 2, usage),
        (&["12x"], 2, usage),
        (&[""], 2, usage),
        (&["0", "reset"], 2, usage),
        (&["0", "no-reset", "0"], 2, usage),
        (&[&port], 1, "host: listening on 127.0.0.1: "),
    ] {
        let Some(mut command) = program(words) else {
            return;
        };
        let output = command.output().unwrap();
        let told = String::from_utf8(output.stderr).unwrap();
        assert_eq!(output.status.code(), Some(code), "{words:?}: {told}");
        assert!(told.starts_with(said), "{words:?}: {told}");
        assert!(output.stdout.is_empty());
    }
}
