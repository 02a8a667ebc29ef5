//! The subscriber's context, over real sockets.

use super::hall::{Controller, Hall, Log, Peer, bad_data, bad_value};
use super::program;
use super::wire::{added, name, notified, set, subscribe};
use demo::message::{self, Front, Said};
use demo::session::Session;
use melorwyth::Fault;
use melorwyth::record::CONTEXT;
use std::net::{Ipv4Addr, TcpListener};
use std::sync::mpsc;
use std::thread;

const TOO_LONG: usize = CONTEXT + 1;

/// So many bytes, all printable, no two of the first 26 alike.
fn letters(count: usize) -> Vec<u8> {
    (b'A'..=b'Z').cycle().take(count).collect()
}

/// Contexts of 0, 4, 63 and 64 bytes as they are on the wire, each of another channel.
#[test]
fn a_context_comes_back_as_it_was_given() {
    let hall = Hall::open();
    let mut panel = hall.connect(0);
    let mut tablet = hall.connect(1);
    for (channel, count) in (1..).zip([0, 4, CONTEXT - 1, CONTEXT]) {
        let context = letters(count);
        panel.ask(&subscribe(7, channel, &context), 0);
        for value in [1, 2] {
            tablet.ask(&set(8, channel, value), 0);
            panel.expect(&notified(channel as u8, value, &context));
        }
        let line =
            format!("connection 0 subscribed to channel {channel}; context of {count} bytes");
        hall.log.line(&line);
    }
    hall.end();
}

/// The same told by the controller, which gives contexts in hex, as a word, or not at all.
#[test]
fn the_controller_shows_what_comes_back() {
    let hall = Hall::open();
    let mut controller = Controller::new(hall.address);
    let long = "5A".repeat(CONTEXT);
    controller.obey(&format!(
        "as panel subscribe 1 subscribe 2 context 0102fF1b subscribe 3 text stage-left \
         subscribe 4 context {long} as tablet mute 1 mute 2 mute 3 mute 4"
    ));
    controller.hear("notified: channel 4");
    let text = "Z".repeat(CONTEXT);
    let panel = [
        "connected",
        "subscribe 1: done (status 0)",
        "subscribe 2 context 0102FF1B: done (status 0)",
        "subscribe 3 context 73746167652D6C656674: done (status 0)",
        &format!("subscribe 4 context {long}: done (status 0)"),
        "notified: channel 1 is muted; context of 0 bytes",
        "notified: channel 2 is muted; context of 4 bytes, 0102FF1B",
        "notified: channel 3 is muted; context of 10 bytes, 73746167652D6C656674 \"stage-left\"",
        &format!("notified: channel 4 is muted; context of 64 bytes, {long} \"{text}\""),
    ];
    assert_eq!(controller.said("panel"), panel);
    drop(controller);
    let text = hall.end();
    for (channel, count) in [(1, 0), (2, 4), (3, 10), (4, 64)] {
        let line =
            format!("connection 0 subscribed to channel {channel}; context of {count} bytes\n");
        assert!(text.contains(&line), "{text}");
    }
}

/// Contexts of 0 to 64 bytes are read as they came; 65 are a fault, and so is a count that leaves no event parameter.
#[test]
fn a_context_is_read() {
    for count in 0..=CONTEXT {
        let bytes = notified(5, 1, &letters(count));
        let said = Said::Notification {
            channel: 5,
            value: 1,
            context: letters(count),
        };
        let length = 39 + count;
        assert_eq!(message::read(&bytes), Front::Message { length, said });
    }
    let fault = Some(Fault::Data);
    assert_eq!(message::fault(&notified(5, 1, &letters(TOO_LONG))), fault);
    let mut bytes = notified(5, 1, &letters(4));
    for count in [10, 18, 19, 64, 255] {
        bytes[24] = count;
        assert_eq!(message::fault(&bytes), fault, "{count}");
    }
}

/// All three are told of the same change, each with its own.
#[test]
fn each_controller_has_its_own_context() {
    let hall = Hall::open();
    let mut controller = Controller::new(hall.address);
    let long = "00".repeat(CONTEXT);
    controller.obey(&format!(
        "as foyer subscribe 5 text foyer as stage subscribe 5 context 01020304 \
         as desk subscribe 5 context {long} as tablet mute 5"
    ));
    let contexts = [
        ("foyer", "context of 5 bytes, 666F796572 \"foyer\""),
        ("stage", "context of 4 bytes, 01020304"),
        ("desk", &format!("context of 64 bytes, {long}")),
    ];
    for (name, context) in contexts {
        controller.hear(&format!("{name}: notified: channel 5 is muted; {context}"));
        let said = controller.said(name);
        let told = said.iter().filter(|line| line.starts_with("notified"));
        assert_eq!(told.count(), 1, "{said:?}");
    }
    drop(controller);
    hall.end();
}

/// With another context it is the same subscription; left, it may be taken anew with another.
#[test]
fn a_context_tells_no_two_subscriptions_apart() {
    let hall = Hall::open();
    let mut controller = Controller::new(hall.address);
    controller.obey("as panel subscribe 5 text first subscribe 5 text second subscribe 5");
    controller.obey("as tablet mute 5 as panel");
    controller.hear("notified: channel 5 is muted");
    controller.obey("unsubscribe 5 subscribe 5 text second as tablet unmute 5 as panel");
    controller.hear("notified: channel 5 is unmuted");
    let panel = [
        "connected",
        "subscribe 5 context 6669727374: done (status 0)",
        "subscribe 5 context 7365636F6E64: not held, or held already (status 9)",
        "subscribe 5: not held, or held already (status 9)",
        "notified: channel 5 is muted; context of 5 bytes, 6669727374 \"first\"",
        "unsubscribe 5: done (status 0)",
        "subscribe 5 context 7365636F6E64: done (status 0)",
        "notified: channel 5 is unmuted; context of 6 bytes, 7365636F6E64 \"second\"",
    ];
    assert_eq!(controller.said("panel"), panel);
    drop(controller);
    hall.end();
}

/// The amplifier answers 7 to 65 bytes, keeps nothing of them, and goes on; also to a controller of another make.
#[test]
fn one_that_is_too_long_gets_status_7() {
    let hall = Hall::open();
    let mut controller = Controller::new(hall.address);
    controller.obey("overlong 5 as panel mute 5 as tablet subscribe 5 text short overlong 5");
    controller.obey("as panel unmute 5");
    controller.hear("notified");
    let overlong = format!("overlong 5: context of 65 bytes: {}", bad_value());
    let tablet = [
        "connected",
        &overlong,
        "subscribe 5 context 73686F7274: done (status 0)",
        &overlong,
        "notified: channel 5 is unmuted; context of 5 bytes, 73686F7274 \"short\"",
    ];
    assert_eq!(controller.said("tablet"), tablet);
    let mut other = hall.connect(2);
    for count in [TOO_LONG, 128, 255, 256, 1_024] {
        other.ask(&subscribe(1, 5, &letters(count)), 7);
    }
    other.ask(&subscribe(2, 5, &letters(CONTEXT)), 0);
    drop(controller);
    let text = hall.end();
    assert_eq!(text.matches("subscribed to channel 5").count(), 2, "{text}");
    let answered = format!("answered connection 0: {}", bad_value());
    assert_eq!(text.matches(&answered).count(), 2);
}

/// A count that says other than its bytes is status 4: the length goes before the rest.
#[test]
fn a_count_that_lies_gets_status_4() {
    let hall = Hall::open();
    let mut panel = hall.connect(0);
    for (count, given) in [
        (0_u16, 4),
        (3, 4),
        (5, 4),
        (64, 65),
        (65, 64),
        (256, 0),
        (260, 4),
    ] {
        let stated = [&count.to_be_bytes(), &letters(given)[..]].concat();
        let parameters = [&name(5)[..], &stated, &[1, 0, 0]].concat();
        panel.ask(&added(7, &parameters), 4);
    }
    assert!(!hall.end().contains("subscribed"));
}

/// A notification that the amplifier is sent: 64 bytes are taken in, 65 and a count past its entry close.
#[test]
fn a_notification_with_too_much_closes() {
    let hall = Hall::open();
    let mut past = notified(5, 1, &letters(4));
    past[24] = 19;
    for bytes in [notified(5, 1, &letters(TOO_LONG)), past] {
        let mut panel = hall.connect(0);
        for count in [0, 4, CONTEXT] {
            panel.send(&notified(5, 1, &letters(count)));
        }
        panel.ask(&set(7, 5, 1), 0);
        panel.send(&bytes);
        assert!(panel.is_closed());
    }
    let closed = format!("closed connection 0: {}\n", bad_data());
    assert_eq!(hall.end().matches(&closed).count(), 2);
}

/// An amplifier that sends 64 bytes, and then 65.
#[test]
fn the_controller_parts_with_an_amplifier_that_sends_too_much() {
    let listener = TcpListener::bind((Ipv4Addr::LOCALHOST, 0)).unwrap();
    let mut controller = Controller::new(listener.local_addr().unwrap());
    let other = thread::spawn(move || {
        let mut peer = Peer {
            stream: listener.accept().unwrap().0,
        };
        peer.expect(&[0x3B]);
        peer.send(&notified(5, 1, &letters(CONTEXT)));
        peer.send(&notified(5, 2, &letters(TOO_LONG)));
        assert!(peer.is_closed());
    });
    controller.obey("bytes 3B");
    controller.hear(&bad_data());
    other.join().unwrap();
    let said = controller.said("tablet");
    assert!(said[2].starts_with("notified: channel 5 is muted; context of 64 bytes, 41"));
    assert_eq!(said[3..], [bad_data()]);
}

/// What is typed wrong is told, and the next line is done.
#[test]
fn a_wrong_context_that_is_typed_is_told() {
    let hall = Hall::open();
    let lines = Log::default();
    let mut session = Session::new(hall.address, lines.clone());
    let (typing, typed) = mpsc::channel();
    for line in [
        "subscribe 5 context 010",
        "subscribe 5 context 0102",
        "quit",
    ] {
        typing.send(line.to_string()).unwrap();
    }
    session.converse(&typed).unwrap();
    lines
        .line("tablet: subscribe 5: 'context' takes hex digits, two a byte, and this has 3 digits");
    lines.line("tablet: subscribe 5 context 0102: done (status 0)");
    drop(session);
    assert_eq!(hall.end().matches("subscribed to channel 5").count(), 1);
}

/// The program itself: 64 bytes are sent, 65 are not, and it prints its commands.
#[test]
fn the_program_refuses_a_context_that_is_too_long() {
    let hall = Hall::open();
    let port = hall.address.port().to_string();
    let run = |context: &str| {
        let words = ["subscribe", "5", "context", context, "quit"];
        let mut command = program(env!("CARGO_BIN_EXE_controller"));
        command.arg(&port).args(words).output().unwrap()
    };
    let output = run(&"ab".repeat(CONTEXT));
    let said = String::from_utf8(output.stdout).unwrap();
    assert_eq!(output.status.code(), Some(0), "{said}");
    assert!(said.ends_with("ABAB: done (status 0)\n"), "{said}");
    let output = run(&"ab".repeat(TOO_LONG));
    let said = String::from_utf8(output.stderr).unwrap();
    assert_eq!(output.status.code(), Some(2), "{said}");
    assert!(
        said.starts_with(
            "controller: subscribe 5: a context has at most 64 bytes, and this has 65;"
        )
    );
    assert!(said.contains("\n  subscribe N context HEX, "), "{said}");
    assert_eq!(hall.end().matches("opened connection").count(), 1);
}
