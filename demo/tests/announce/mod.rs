//! A count without bytes, over real sockets.

use super::hall::{Controller, Hall, Peer, bad_data};
use super::program;
use super::wire::{asked, get, lock, reply};
use melorwyth::Refusal;
use std::io::{Read, Write};
use std::net::{Ipv4Addr, TcpListener, TcpStream};
use std::thread;

fn sent(channel: u8) -> String {
    let refusal = Refusal::BadEntry;
    assert_eq!(refusal.number(), 11);
    format!(
        "announce {channel}: one parameter and no byte of it; the writer says: {refusal}; \
         sends 27 bytes all the same"
    )
}

/// What came, and what the reader says.
fn came(channel: u8, came: &str) -> String {
    let fault = bad_data();
    format!("announce {channel}: {came}; the reader says: {fault}")
}

/// Its own lock is freed; what it muted, and whatever another has, stay; it may come again.
#[test]
fn an_announced_entry_closes_its_connection_alone() {
    let hall = Hall::open();
    let mut controller = Controller::new(hall.address);
    controller.obey("as panel lock 6 mute 6 as tablet mute 4 lock 5 announce 3");
    let (_, line) = hall.log.line("closed connection");
    let fault = bad_data();
    assert_eq!(
        line,
        format!("closed connection 1: {fault}; channel 5 is free")
    );
    controller.obey("as panel lock 3 lock 5 lock 6 get 6 get 4 as tablet lock 6 lock 2");
    let tablet = [
        "connected",
        "mute 4: done (status 0)",
        "lock 5: done (status 0)",
        &sent(3),
        "closed by the amplifier",
        &came(3, "closed"),
        "connected",
        "lock 6: held by another connection (status 3)",
        "lock 2: done (status 0)",
    ];
    assert_eq!(controller.said("tablet"), tablet);
    let panel = [
        "connected",
        "lock 6: done (status 0)",
        "mute 6: done (status 0)",
        "lock 3: done (status 0)",
        "lock 5: done (status 0)",
        "lock 6: done (status 0)",
        "get 6: done (status 0), muted",
        "get 4: done (status 0), muted",
    ];
    assert_eq!(controller.said("panel"), panel);
    drop(controller);
    let text = hall.end();
    assert_eq!(text.matches("fault 6").count(), 1);
    assert!(!text.contains("connection 1 locked channel 3"), "{text}");
}

/// Every channel, one after another, whether or not another holds it: each time closed, each time let in again.
#[test]
fn every_channel_may_be_announced() {
    let hall = Hall::open();
    let mut controller = Controller::new(hall.address);
    controller.obey("as panel lock 2 lock 8 as tablet beat 30");
    for channel in 1..=8 {
        controller.obey(&format!("announce {channel}"));
    }
    controller.obey("get 8");
    let said = controller.said("tablet");
    let count = |words: &str| said.iter().filter(|line| line.contains(words)).count();
    assert_eq!(count("connected"), 9);
    assert_eq!(count("closed by the amplifier"), 8);
    let fault = bad_data();
    assert_eq!(count(&fault), 8);
    assert_eq!(said.last().unwrap(), "get 8: done (status 0), unmuted");
    drop(controller);
    let text = hall.end();
    assert_eq!(text.matches(&format!("1: {fault}\n")).count(), 8, "{text}");
}

/// Channel 5 muted and channel 6 locked in one message, whose second command announces and gives nothing.
#[test]
fn no_command_of_that_message_is_run() {
    let message = "3B0001 0000002C 01 0002 \
        00000012 00000021 00001005 00040002 01 01 \
        00000011 00000022 00001006 00010003 01"
        .replace(' ', "");
    for cut in [2, 20, 56, 88] {
        let hall = Hall::open();
        let mut controller = Controller::new(hall.address);
        let (first, second) = message.split_at(cut);
        controller.obey(&format!("bytes {first} wait 20"));
        assert!(!hall.log.has("closed"));
        controller.obey(&format!("bytes {second}"));
        controller.hear("closed by the amplifier");
        controller.obey("get 5 as panel lock 6");
        let tablet = controller.said("tablet");
        assert_eq!(
            tablet[3..],
            [
                "closed by the amplifier",
                "connected",
                "get 5: done (status 0), unmuted"
            ]
        );
        assert!(controller.lines.has("panel: lock 6: done (status 0)"));
        drop(controller);
        let text = hall.end();
        assert!(
            text.contains(&format!("closed connection 0: {}\n", bad_data())),
            "{text}"
        );
        assert!(!text.contains("muted channel"), "{text}");
        assert!(!text.contains("connection 0 locked"), "{text}");
    }
}

/// Sent before the message that closes, a sound one is run and answered; sent after it, nothing is.
#[test]
fn messages_before_it_are_run_and_those_after_it_not() {
    let hall = Hall::open();
    let mut tablet = hall.connect(0);
    let mut announced = asked(&lock(8, 6));
    *announced.last_mut().unwrap() = 1;
    let before = asked(&lock(7, 5));
    let after = asked(&lock(9, 7));
    tablet.send(&[before, announced, after].concat());
    tablet.expect(&reply(7, 0, 0, &[]));
    assert!(tablet.is_closed());
    let (_, line) = hall.log.line("closed connection 0");
    let fault = bad_data();
    assert_eq!(
        line,
        format!("closed connection 0: {fault}; channel 5 is free")
    );
    let mut panel = hall.connect(0);
    for channel in 5..=7 {
        panel.ask(&lock(channel, channel), 0);
    }
    panel.send(&asked(&get(1, 5)));
    panel.expect(&reply(1, 0, 1, &[2]));
    assert_eq!(
        hall.end().matches("connection 0 locked channel 7").count(),
        1
    );
}

/// A message without the byte, and its neighbours that are sound: with one byte, and with the count that has none.
struct Kind {
    without: &'static str,
    with: &'static str,
    none: &'static str,
    /// What the closure frees: channel 7, and channel 5 where the last neighbour locked it.
    freed: &'static str,
}

const KINDS: [Kind; 4] = [
    // a command that wants no reply
    Kind {
        without: "3B0001 0000001A 00 0001 00000011 00000077 00001005 00010003 01",
        with: "3B0001 0000001B 00 0001 00000012 00000077 00001005 00010003 01 00",
        none: "3B0001 0000001A 00 0001 00000011 00000077 00001005 00010003 00",
        freed: "channels 5, 7 are free",
    },
    // a command that wants one, of which the count is as high as it goes
    Kind {
        without: "3B0001 0000001A 01 0001 00000011 00000077 00001005 00010003 FF",
        with: "3B0001 0000001B 01 0001 00000012 00000077 00001005 00010003 FF 00",
        none: "3B0001 0000001A 01 0001 00000011 00000077 00001005 00010003 00",
        freed: "channels 5, 7 are free",
    },
    // a notification, whose count is one more
    Kind {
        without: "3B0001 00000024 02 0001 0000001B 00000009 00030001 02 0004 01020304 00001005 00010001",
        with: "3B0001 00000025 02 0001 0000001C 00000009 00030001 02 0004 01020304 00001005 00010001 01",
        none: "3B0001 00000024 02 0001 0000001B 00000009 00030001 01 0004 01020304 00001005 00010001",
        freed: "channel 7 is free",
    },
    // a response
    Kind {
        without: "3B0001 00000013 03 0001 0000000A 00000077 00 01",
        with: "3B0001 00000014 03 0001 0000000B 00000077 00 01 05",
        none: "3B0001 00000013 03 0001 0000000A 00000077 00 00",
        freed: "channel 7 is free",
    },
];

/// Entries of every kind; the connection is the first one still, after both neighbours.
#[test]
fn every_kind_of_entry_needs_a_byte_for_its_count() {
    for kind in KINDS {
        let [without, with, none] =
            [kind.without, kind.with, kind.none].map(|hex| hex.replace(' ', ""));
        let hall = Hall::open();
        let mut controller = Controller::new(hall.address);
        controller.obey(&format!("bytes {with} get 5 bytes {none} get 6 lock 7"));
        assert!(!hall.log.has("closed"), "{with} {none}");
        controller.obey(&format!("bytes {without}"));
        controller.hear("closed by the amplifier");
        let said = controller.said("tablet");
        assert_eq!(said.iter().filter(|line| *line == "connected").count(), 1);
        let (_, line) = hall.log.line("closed connection 0");
        let (fault, freed) = (bad_data(), kind.freed);
        assert_eq!(line, format!("closed connection 0: {fault}; {freed}"));
        drop(controller);
        hall.end();
    }
}

/// Hears one announced lock; answers the bytes.
fn heard(stream: &mut TcpStream) -> [u8; 27] {
    let mut bytes = [0; 27];
    stream.read_exact(&mut bytes).unwrap();
    bytes
}

/// One that answers, then says nothing, then closes: none of it ends the controller.
fn unlike(listener: &TcpListener) {
    let (mut stream, _) = listener.accept().unwrap();
    for handle in 1..=3 {
        let mut expected = asked(&lock(handle, handle));
        expected[26] = 1;
        assert_eq!(heard(&mut stream), expected[..]);
        if handle == 1 {
            stream.write_all(&reply(1, 4, 0, &[])).unwrap();
        }
    }
    drop(stream);
    let mut again = Peer {
        stream: listener.accept().unwrap().0,
    };
    again.expect(&asked(&lock(1, 4)));
    again.send(&reply(1, 0, 0, &[]));
}

/// An amplifier that knows nothing of the rule, and one that hangs.
#[test]
fn whatever_comes_the_controller_goes_on() {
    let listener = TcpListener::bind((Ipv4Addr::LOCALHOST, 0)).unwrap();
    let mut controller = Controller::new(listener.local_addr().unwrap());
    let other = thread::spawn(move || unlike(&listener));
    controller.obey("announce 1 announce 2 announce 3 lock 4");
    other.join().unwrap();
    let expected = [
        "connected",
        &sent(1),
        &came(1, "wrong parameter count or length (status 4)"),
        &sent(2),
        &came(2, "neither closed nor answered"),
        &sent(3),
        "closed by the amplifier",
        &came(3, "closed"),
        "connected",
        "lock 4: done (status 0)",
    ];
    assert_eq!(controller.said("tablet"), expected);
}

/// The program itself: it goes on after the closure, and ends well; a channel that there is not, and it prints its commands.
#[test]
fn the_program_announces() {
    let hall = Hall::open();
    let port = hall.address.port().to_string();
    let run = |words: &[&str]| {
        let mut command = program(env!("CARGO_BIN_EXE_controller"));
        command.arg(&port).args(words).output().unwrap()
    };
    let output = run(&["lock", "5", "announce", "5", "lock", "5", "quit"]);
    let said = String::from_utf8(output.stdout).unwrap();
    assert_eq!(output.status.code(), Some(0), "{said}");
    assert_eq!(said.lines().count(), 7, "{said}");
    assert!(
        said.ends_with("tablet: lock 5: done (status 0)\n"),
        "{said}"
    );
    let output = run(&["announce", "9"]);
    let said = String::from_utf8(output.stderr).unwrap();
    assert_eq!(output.status.code(), Some(2), "{said}");
    assert!(said.starts_with("controller: 'announce 9' is no command\nusage"));
    assert!(said.contains("\n  announce N "), "{said}");
    hall.end();
}
