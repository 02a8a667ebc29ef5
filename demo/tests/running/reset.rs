//! Reset by key: a datagram restarts the host.

use super::{Host, KEY, ask_value, eight, skipped};
use crate::hall::{Peer, free_port, group_works, until};
use crate::wire::{arm, asked, lock, notified, set, subscribe};
use demo::restart::{Key, Restart};
use std::net::{Ipv4Addr, SocketAddrV4, UdpSocket};

const OTHER: Key = *b"\x00front desk keY\xFF";
const GROUP: Ipv4Addr = Ipv4Addr::new(239, 77, 70, 16);

fn restart(key: Key, port: u16) -> Restart {
    let to = SocketAddrV4::new(Ipv4Addr::LOCALHOST, port);
    Restart { key, to }
}

/// All eight hang, each with a lock and half a message, none of them supervised; twice, as the first leaves nothing.
#[test]
fn a_rack_that_hung_is_restarted() {
    let Some(host) = Host::start() else { return };
    let port = free_port();
    for count in 1..=2 {
        let mut peers = eight(&host);
        peers[0].ask(&arm(2, KEY, "", port), 0);
        for (channel, peer) in (1..).zip(&mut peers) {
            peer.ask(&subscribe(3, channel, &[]), 0);
            peer.ask(&set(4, channel, 1), 0);
            peer.expect(&notified(channel as u8, 1, &[]));
            peer.send(&asked(&lock(5, 1))[..12]);
        }
        restart(KEY, port).send().unwrap();
        assert!(peers.iter_mut().all(Peer::is_closed));
        host.wait_for("reset by key", count);
        host.wait_for("closed connection 7: reset", count);
        // disarmed, with nobody there
        until("its port's end", || restart(KEY, port).send().is_err());
        let mut technician = host.connect();
        for channel in 1..=8 {
            technician.ask(&lock(1, channel), 0);
            ask_value(&mut technician, 2, channel, 2);
        }
        drop(technician);
        host.wait_for("closed connection 0: hung up", count);
    }
    host.end();
}

/// Another length, another sentinel, another key; then the right one, whose controller has gone.
#[test]
fn other_datagrams_change_nothing() {
    let Some(host) = Host::start() else { return };
    let port = free_port();
    let (mut installer, mut tablet) = (host.connect(), host.connect());
    installer.ask(&arm(1, KEY, "", port), 0);
    drop(installer);
    tablet.ask(&lock(2, 5), 0);
    let good = restart(KEY, port).datagram();
    let mut sentinel = good.clone();
    sentinel[7] ^= 1;
    let long = [&good[..], &[0]].concat();
    let wrong = restart(OTHER, port).datagram();
    let socket = UdpSocket::bind((Ipv4Addr::LOCALHOST, 0)).unwrap();
    for bytes in [
        &[],
        &good[..23],
        &long,
        &good.repeat(100),
        &sentinel,
        &wrong,
    ] {
        socket.send_to(bytes, (Ipv4Addr::LOCALHOST, port)).unwrap();
        // datagrams come first in a turn, so that this one has been heard
        tablet.ask(&lock(3, 5), 0);
    }
    assert_eq!(host.count("reset by key"), 0);
    restart(KEY, port).send().unwrap();
    assert!(tablet.is_closed());
    host.wait_for("reset by key", 1);
    host.end();
}

/// The latest key counts, on the latest port alone; a port that is taken is told, and tried again with another key.
#[test]
fn arming_again_moves_the_port() {
    let Some(host) = Host::start() else { return };
    let (first, taken) = (free_port(), UdpSocket::bind((Ipv4Addr::LOCALHOST, 0)));
    let taken = taken.unwrap();
    let second = taken.local_addr().unwrap().port();
    let mut tablet = host.connect();
    tablet.ask(&arm(1, KEY, "", first), 0);
    tablet.ask(&arm(2, KEY, "", second), 0);
    assert!(restart(KEY, first).send().is_err());
    drop(taken);
    tablet.ask(&arm(3, OTHER, "", second), 0);
    restart(KEY, second).send().unwrap();
    tablet.ask(&lock(4, 5), 0);
    restart(OTHER, second).send().unwrap();
    assert!(tablet.is_closed());
    let text = host.end();
    let cannot = format!("cannot listen for datagrams on port {second}: ");
    assert_eq!(text.matches(&cannot).count(), 1, "{text}");
    for port in [first, second] {
        let listening = format!("listening for datagrams on port {port}\n");
        assert_eq!(text.matches(&listening).count(), 1, "{text}");
    }
}

/// The group's datagram resets, and so does one sent to the host itself.
#[test]
fn the_group_is_heard() {
    let Some(host) = Host::start() else { return };
    if let Err(error) = group_works(Ipv4Addr::UNSPECIFIED, GROUP) {
        skipped(&format!(
            "the group: no multicast on the loopback address: {error}"
        ));
        return;
    }
    let port = free_port();
    for (k, to) in [GROUP, Ipv4Addr::LOCALHOST].into_iter().enumerate() {
        let mut tablet = host.connect();
        tablet.ask(&arm(1, KEY, &GROUP.to_string(), port), 0);
        let to = SocketAddrV4::new(to, port);
        Restart { key: OTHER, to }.send().unwrap();
        tablet.ask(&lock(2, 5), 0);
        Restart { key: KEY, to }.send().unwrap();
        assert!(tablet.is_closed());
        host.wait_for("reset by key", 1 + k);
    }
    host.end();
}

/// The switch on the device: a key is taken, and no datagram is heard.
#[test]
fn the_switch_keeps_datagrams_out() {
    let Some(host) = Host::start_as(&["0", "no-reset"]) else {
        return;
    };
    let port = free_port();
    let mut tablet = host.connect();
    tablet.ask(&arm(1, KEY, "", port), 0);
    host.wait_for("the reset switch is off: not listening for datagrams", 1);
    assert!(restart(KEY, port).send().is_err());
    tablet.ask(&lock(2, 5), 0);
    host.end();
}
