//! Reset by key, over real sockets of the loopback address.

use super::hall::{Hall, Log, PATIENCE, Peer, bad_value, free_port, group_works, program};
use super::wire::{arm, asked, get, identifications, keyed, lock, reply, set, subscribe};
use demo::restart::{Key, Restart};
use demo::script;
use demo::session::{Next, Session};
use std::io::{self, Write};
use std::net::{Ipv4Addr, SocketAddrV4, UdpSocket};
use std::process::Output;
use std::thread;
use std::time::Duration;

pub const KEY: Key = *b"\x00front desk key\xFF";
pub const OTHER: Key = *b"\x00front desk keY\xFF";
const GROUP: Ipv4Addr = Ipv4Addr::new(239, 77, 70, 15);

pub fn restart(key: Key, port: u16) -> Restart {
    let to = SocketAddrV4::new(Ipv4Addr::LOCALHOST, port);
    Restart { key, to }
}

fn send(port: u16, bytes: &[u8]) {
    let socket = UdpSocket::bind((Ipv4Addr::LOCALHOST, 0)).unwrap();
    let sent = socket.send_to(bytes, (Ipv4Addr::LOCALHOST, port));
    assert_eq!(sent.unwrap(), bytes.len());
}

/// How many lines have these words, once there are that many.
fn wait_for(log: &Log, words: &str, count: usize) {
    let start = std::time::Instant::now();
    while log.text().matches(words).count() < count {
        assert!(start.elapsed() < PATIENCE, "{}", log.text());
        thread::sleep(Duration::from_millis(5));
    }
}

/// All eight hang, each with a lock and half a message, none of them supervised.
#[test]
fn a_rack_that_hung_is_restarted() {
    let hall = Hall::open();
    let port = free_port();
    let mut peers: Vec<Peer> = (0..8).map(|n| hall.connect(n)).collect();
    peers[0].ask(&arm(1, KEY, "", port), 0);
    for (n, peer) in (1..).zip(&mut peers) {
        peer.ask(&set(2, n, 1), 0);
        peer.ask(&subscribe(3, n, &[]), 0);
        peer.ask(&lock(4, n), 0);
        peer.send(&asked(&lock(5, 1))[..12]);
    }
    assert!(Peer::connect(hall.address).is_closed());
    restart(KEY, port).send().unwrap();
    assert!(peers.iter_mut().all(Peer::is_closed));
    let (_, line) = hall.log.line("reset by key");
    let all = "1, 2, 3, 4, 5, 6, 7, 8";
    assert!(line.starts_with("reset by key: closed connections 0, 1, 2, 3, 4, 5, 6, 7; "));
    assert!(line.ends_with(&format!(
        "channels {all} are free; channels {all} are unmuted"
    )));
    let mut technician = hall.connect(0);
    for channel in 1..=8 {
        technician.ask(&lock(channel, channel), 0);
        technician.send(&asked(&get(channel, channel)));
        technician.expect(&reply(channel, 0, 1, &[2]));
    }
    // nobody is subscribed any more: its next message is its own reply
    technician.ask(&set(9, 5, 1), 0);
    assert!(!hall.end().contains("notified"));
}

/// Another length, another sentinel, another key; then the right one.
#[test]
fn other_datagrams_do_nothing() {
    let hall = Hall::open();
    let port = free_port();
    let mut tablet = hall.connect(0);
    tablet.ask(&arm(1, KEY, "", port), 0);
    tablet.ask(&lock(2, 5), 0);
    let good = restart(KEY, port).datagram();
    let long = [&good[..], &[0]].concat();
    let twice = [&good[..], &good].concat();
    let mut sentinel = good.clone();
    sentinel[7] ^= 1;
    let wrong = restart(OTHER, port).datagram();
    for (bytes, count) in [
        (&good[..23], 1),
        (&long, 1),
        (&twice, 1),
        (&[], 1),
        (&sentinel, 1),
        (&wrong, 2),
    ] {
        send(port, bytes);
        let line = format!("a datagram of {} bytes changed nothing", bytes.len());
        wait_for(&hall.log, &line, count);
        tablet.ask(&lock(3, 5), 0);
    }
    assert!(!hall.log.has("reset by key"));
    send(port, &good);
    assert!(tablet.is_closed());
    let (_, line) = hall.log.line("reset by key");
    assert_eq!(line, "reset by key: closed connection 0; channel 5 is free");
    hall.end();
}

/// Whoever set it has hung up; nobody is connected; the reset is the same.
#[test]
fn a_closure_leaves_the_key() {
    let hall = Hall::open();
    let port = free_port();
    let mut installer = hall.connect(0);
    installer.ask(&arm(1, KEY, "", port), 0);
    drop(installer);
    hall.log.line("closed connection 0");
    restart(KEY, port).send().unwrap();
    let (_, line) = hall.log.line("reset by key");
    assert_eq!(line, "reset by key: closed no connection");
    hall.end();
}

/// The mechanism is disarmed, so nobody listens there, until a key is set again.
#[test]
fn after_a_reset_the_port_is_closed() {
    let hall = Hall::open();
    let port = free_port();
    for count in 1..=2 {
        let mut tablet = hall.connect(0);
        tablet.ask(&arm(1, KEY, "", port), 0);
        restart(KEY, port).send().unwrap();
        assert!(tablet.is_closed());
        wait_for(&hall.log, "reset by key", count);
        let unheard = restart(KEY, port).send().unwrap_err();
        assert!(unheard.to_string().starts_with("nobody listens on"));
    }
    assert_eq!(hall.end().matches("reset by key").count(), 2);
}

/// The latest key counts, on the latest port alone.
#[test]
fn arming_again_moves_the_port() {
    let hall = Hall::open();
    let (first, second) = (free_port(), free_port());
    let mut tablet = hall.connect(0);
    let mut panel = hall.connect(1);
    tablet.ask(&arm(1, KEY, "", first), 0);
    panel.ask(&arm(1, OTHER, "", second), 0);
    for key in [KEY, OTHER] {
        assert!(restart(key, first).send().is_err());
    }
    restart(KEY, second).send().unwrap();
    hall.log.line("a datagram of 24 bytes changed nothing");
    // another key on the same port keeps the socket
    tablet.ask(&arm(2, KEY, "", second), 0);
    restart(OTHER, second).send().unwrap();
    wait_for(&hall.log, "a datagram of 24 bytes changed nothing", 2);
    restart(KEY, second).send().unwrap();
    assert!(tablet.is_closed() && panel.is_closed());
    let text = hall.end();
    assert_eq!(text.matches("listening for datagrams").count(), 2);
}

/// What 3.14 refuses changes nothing: the key set before counts.
#[test]
fn a_refused_key_arms_nothing() {
    let hall = Hall::open();
    let (port, other) = (free_port(), free_port());
    let mut tablet = hall.connect(0);
    tablet.ask(&arm(1, KEY, "", port), 0);
    for text in [
        "127.0.0.1",
        "223.1.2.3",
        "240.0.0.0",
        "239.01.2.3",
        "239.1.2",
    ] {
        tablet.ask(&arm(2, OTHER, text, other), 7);
    }
    tablet.ask(&arm(3, OTHER, "", 0), 7);
    tablet.ask(&keyed(4, &OTHER), 4);
    assert!(restart(OTHER, other).send().is_err());
    restart(KEY, port).send().unwrap();
    assert!(tablet.is_closed());
    hall.end();
}

/// The group's datagram resets, and so does one sent to the device itself.
#[test]
fn the_group_is_heard() {
    if let Err(error) = group_works(GROUP, GROUP) {
        // not by the test's own output, which is shown only where it fails
        let skipped = "SKIPPED the_group_is_heard: no multicast on the loopback address";
        writeln!(io::stderr(), "{skipped}: {error}").unwrap();
        return;
    }
    let hall = Hall::open();
    let port = free_port();
    let group = SocketAddrV4::new(GROUP, port);
    for (key, to) in [(KEY, group), (OTHER, restart(KEY, port).to)] {
        let mut tablet = hall.connect(0);
        tablet.ask(&arm(1, key, &GROUP.to_string(), port), 0);
        let mut wrong = Restart { key, to: group };
        wrong.key[0] ^= 1;
        let ignored = hall.log.text().matches("changed nothing").count();
        wrong.send().unwrap();
        wait_for(
            &hall.log,
            "a datagram of 24 bytes changed nothing",
            ignored + 1,
        );
        tablet.ask(&lock(2, 5), 0);
        Restart { key, to }.send().unwrap();
        assert!(tablet.is_closed());
    }
    let text = hall.end();
    assert!(text.contains(&format!(
        "set the reset key: UDP port {port}, group {GROUP}"
    )));
    assert!(text.contains(&format!("listening for datagrams on {group}")));
    assert_eq!(text.matches("reset by key").count(), 2);
}

/// The amplifier says so and goes on; another port can be had.
#[test]
fn a_port_that_is_taken_is_told() {
    let hall = Hall::open();
    let taken = UdpSocket::bind((Ipv4Addr::LOCALHOST, 0)).unwrap();
    let mut tablet = hall.connect(0);
    tablet.ask(&arm(1, KEY, "", taken.local_addr().unwrap().port()), 0);
    hall.log.line("cannot listen for datagrams on 127.0.0.1:");
    tablet.ask(&lock(2, 5), 0);
    let port = free_port();
    tablet.ask(&arm(3, KEY, "", port), 0);
    restart(KEY, port).send().unwrap();
    assert!(tablet.is_closed());
    hall.end();
}

/// The switch on the device: a key is taken, and no datagram is heard.
#[test]
fn the_switch_keeps_datagrams_out() {
    let hall = Hall::open_without_reset();
    let port = free_port();
    let mut tablet = hall.connect(0);
    tablet.ask(&arm(1, KEY, "", port), 0);
    hall.log
        .line("the reset switch is off: not listening for datagrams");
    assert!(restart(KEY, port).send().is_err());
    tablet.ask(&lock(2, 5), 0);
    assert!(!hall.end().contains("reset by key"));
}

/// One that hung babbles without end; the datagram is heard all the same.
#[test]
fn a_babbling_controller_does_not_put_it_off() {
    let hall = Hall::open();
    let port = free_port();
    let mut babbling = hall.connect(0);
    babbling.ask(&arm(1, KEY, "", port), 0);
    babbling.ask(&lock(2, 5), 0);
    // of type 0, so that it is run without replies
    let many = identifications(0);
    // a write that waits for room may learn late that the other end is closed
    let soon = Some(Duration::from_secs(1));
    babbling.stream.set_write_timeout(soon).unwrap();
    let talking = thread::spawn(move || while babbling.stream.write_all(&many).is_ok() {});
    thread::sleep(Duration::from_millis(100));
    restart(KEY, port).send().unwrap();
    hall.log.line("reset by key: closed connection 0");
    talking.join().unwrap();
    hall.connect(0).ask(&lock(3, 5), 0);
    hall.end();
}

/// The controller's own program: what it is told, and that it never says the key.
#[test]
fn the_controller_arms_in_words() {
    let hall = Hall::open();
    let lines = Log::default();
    let (port, key) = (free_port(), "0123456789abcdefFEDCBA9876543210");
    let typed = format!(
        "arm {key} {port} 10.0.0.1 arm {key} 0 arm {key} {port} leave \
         as panel lock 5 restart {} {port} restart {key} {port} lock 5 quit",
        key.to_lowercase().replace('0', "1")
    );
    let mut session = Session::new(hall.address, lines.clone());
    // the wrong key is seen by what is not closed; that takes its time
    let next = session.obey(script::parse(&typed).unwrap()).unwrap();
    assert_eq!(next, Next::Quit);
    for line in [
        format!("tablet: arm {port} 10.0.0.1: {}", bad_value()),
        format!("tablet: arm 0: {}", bad_value()),
        format!("tablet: arm {port}: done (status 0)"),
        "tablet: hangs up".to_string(),
        format!("panel: sends 24 bytes to 127.0.0.1:{port} by UDP, which answers nothing"),
        "panel: nothing was closed: that was no reset".to_string(),
        "panel: closed by the amplifier".to_string(),
        "panel: lock 5: done (status 0)".to_string(),
    ] {
        lines.line(&line);
    }
    drop(session);
    let said = [hall.end(), lines.text()].concat().to_lowercase();
    assert!(!said.contains(&key[..8]), "{said}");
}

/// The show, held to its order.
#[test]
fn the_show_of_a_restart() {
    let hall = Hall::open();
    let lines = Log::default();
    // each lock is asked for once, so that the test has an end where there is no reset
    let played = script::restarting(free_port()).replace("await", "lock");
    let played = script::parse(&played).unwrap();
    let mut session = Session::new(hall.address, lines.clone());
    assert_eq!(session.obey(played).unwrap(), Next::Quit);
    drop(session);
    hall.end();
    let text = lines.text();
    let order = [
        "installer: hangs up",
        "technician: lock 5: held by another connection (status 3)",
        "front-desk: sends 24 bytes",
        "technician: lock 1: done (status 0)",
        "technician: lock 8: done (status 0)",
        "technician: get 5: done (status 0), unmuted",
    ];
    let places: Vec<Option<usize>> = order.iter().map(|words| text.find(words)).collect();
    assert!(
        places.iter().all(Option::is_some) && places.is_sorted(),
        "{text}"
    );
    for name in ["foyer", "stage", "balcony", "technician"] {
        assert!(
            text.contains(&format!("{name}: closed by the amplifier")),
            "{text}"
        );
    }
}

fn run_restart(words: &[&str]) -> (Option<i32>, String) {
    let output = program(env!("CARGO_BIN_EXE_restart")).args(words).output();
    let Output {
        status,
        stdout,
        stderr,
    } = output.unwrap();
    let said = [stdout, stderr].concat();
    (status.code(), String::from_utf8(said).unwrap())
}

/// The program that sends the datagram.
#[test]
fn the_restart_program_says_what_it_did() {
    let hall = Hall::open();
    let (port, key) = (free_port(), "00112233445566778899aabbccddeeff");
    let mut tablet = hall.connect(0);
    let bytes = *b"\x00\x11\x22\x33\x44\x55\x66\x77\x88\x99\xaa\xbb\xcc\xdd\xee\xff";
    tablet.ask(&arm(1, bytes, "", port), 0);
    let port = port.to_string();
    let (code, said) = run_restart(&[&key[1..], &port]);
    assert_eq!(code, Some(2));
    assert!(
        said.starts_with("restart: a key is 32 hex digits, and this has 31\nusage"),
        "{said}"
    );
    let (code, said) = run_restart(&[key, &port, "192.0.2.1"]);
    assert_eq!(code, Some(2));
    assert!(said.contains("'192.0.2.1' is neither"), "{said}");
    let (code, said) = run_restart(&[key, &port]);
    assert_eq!(code, Some(0), "{said}");
    assert!(
        said.contains("if it worked: the amplifier says 'reset by key'"),
        "{said}"
    );
    assert!(tablet.is_closed());
    let (code, said) = run_restart(&[key, &port]);
    assert_eq!(code, Some(1));
    assert!(
        said.ends_with(&format!("nobody listens on 127.0.0.1:{port}, UDP\n")),
        "{said}"
    );
    hall.end();
}
