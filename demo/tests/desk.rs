//! The amplifier over real sockets.

mod announce;
mod context;
mod hall;
mod reset;
mod watch;
mod wire;

use demo::script;
use demo::session::{Next, Session};
use hall::{Hall, Log, PATIENCE, Peer, bad_data, program};
use std::io::{BufRead, BufReader, Write};
use std::process::{Command, Stdio};
use std::thread;
use std::time::{Duration, Instant};
use wire::{
    asked, get, identifications, lock, message, milliseconds, notified, reply, response, seconds,
    set, subscribe,
};

/// A tick may come late on a busy machine, never early.
const LATE: u32 = 450;

fn pause(milliseconds: u64) {
    thread::sleep(Duration::from_millis(milliseconds));
}

/// Messages of three controllers, one byte of each in turn, are answered as whole ones.
#[test]
fn bytes_cut_one_by_one_and_mixed() {
    let hall = Hall::open();
    let mut peers: Vec<Peer> = (0..3).map(|n| hall.connect(n)).collect();
    let talks: Vec<Vec<u8>> = (1..=3).map(talk).collect();
    for place in 0..3 * talks[0].len() {
        let (k, n) = (place / 3, place % 3);
        peers[n].send(&talks[n][k..=k]);
    }
    let both = message(3, &[7, 8].map(|handle| response(handle, 0, 0, &[])));
    for (n, peer) in peers.iter_mut().enumerate() {
        let channel = n + 1;
        peer.expect(&seconds(30));
        peer.expect(&both);
        peer.expect(&reply(9, 0, 1, &[1]));
        hall.log
            .line(&format!("connection {n} locked channel {channel}"));
        hall.log
            .line(&format!("connection {n} muted channel {channel}"));
    }
    hall.end();
}

/// A heartbeat of 30 s; lock and set in one message; get.
fn talk(channel: u32) -> Vec<u8> {
    let beat = seconds(30);
    let two = message(1, &[lock(7, channel), set(8, channel, 1)]);
    let one = asked(&get(9, channel));
    [beat, two, one].concat()
}

/// The technician's question, with 200 ms for 30 s.
#[test]
fn a_dead_controller_is_closed_at_three_heartbeats() {
    let hall = Hall::open();
    let mut tablet = hall.connect(0);
    let mut technician = hall.connect(1);
    tablet.beat(200);
    tablet.ask(&lock(7, 5), 0);
    let heard = hall.log.time("connection 0 locked channel 5");
    technician.ask(&lock(1, 5), 3);
    let since = format!("connection 0 silent since {heard} ms");
    let silent = hall.log.time(&since);
    technician.ask(&lock(2, 5), 3);
    let (closed, line) = hall.log.line("closed connection 0");
    technician.ask(&lock(3, 5), 0);
    assert!((400..400 + LATE).contains(&(silent - heard)));
    assert!((600..600 + LATE).contains(&(closed - heard)), "{line}");
    let silence = closed - heard;
    let why = format!("nothing heard for {silence} ms (3 x 200 ms); channel 5 is free");
    assert_eq!(line, format!("closed connection 0: {why}"));
    // it sent its own heartbeat meanwhile
    tablet.expect(&milliseconds(200));
    tablet.expect(&milliseconds(200));
    assert!(tablet.is_closed());
    let answered = "answered connection 1: held by another connection (status 3)";
    assert!(hall.log.has(answered));
    assert!(hall.end().contains("connection 1 locked channel 5"));
}

/// A dying radio lets a byte through now and then.
#[test]
fn half_a_message_does_not_put_closing_off() {
    let hall = Hall::open();
    let mut tablet = hall.connect(0);
    tablet.beat(200);
    tablet.ask(&lock(7, 5), 0);
    let heard = hall.log.time("connection 0 locked channel 5");
    let half = &asked(&lock(8, 5))[..13];
    for byte in half {
        // the amplifier may have closed it already
        let _ = tablet.stream.write(&[*byte]);
        pause(40);
    }
    let (closed, line) = hall.log.line("closed connection 0");
    assert!((600..600 + LATE).contains(&(closed - heard)), "{line}");
    assert!(line.contains("undecided bytes dropped; channel 5 is free"));
    hall.end();
}

#[test]
fn a_controller_that_is_heard_stays() {
    let hall = Hall::open();
    let mut tablet = hall.connect(0);
    for _ in 0..12 {
        tablet.beat(300);
        pause(100);
    }
    tablet.ask(&lock(7, 5), 0);
    assert!(!hall.end().contains("nothing heard"));
}

/// The clock goes round between the last message and the closure.
#[test]
fn the_clock_may_go_round() {
    let hall = Hall::open_at(u32::MAX - 300);
    let mut tablet = hall.connect(0);
    tablet.beat(200);
    let (heard, _) = hall.log.line("set its heartbeat to 200 ms");
    let (closed, line) = hall.log.line("closed connection 0");
    assert!(closed < heard, "the clock did not go round");
    let silence = closed.wrapping_sub(heard);
    assert!((600..600 + LATE).contains(&silence), "{line}");
    assert!(tablet_end(&mut tablet));
    hall.end();
}

/// Two keep-alives at most, and the end.
fn tablet_end(tablet: &mut Peer) -> bool {
    let beat = milliseconds(200);
    tablet.expect(&beat);
    tablet.expect(&beat);
    tablet.is_closed()
}

#[test]
fn a_ninth_connection_is_refused() {
    let hall = Hall::open();
    let mut peers: Vec<Peer> = (0..8).map(|n| hall.connect(n)).collect();
    peers[3].ask(&lock(7, 5), 0);
    let mut ninth = Peer::connect(hall.address);
    assert!(ninth.is_closed());
    hall.log.line("refused a connection: all 8 are open");
    for (n, peer) in peers.iter_mut().enumerate() {
        peer.ask(&lock(8, 5), if n == 3 { 0 } else { 3 });
    }
    // the one that hangs up makes room, and frees its lock
    drop(peers.remove(3));
    let (_, line) = hall.log.line("closed connection 3");
    assert_eq!(
        line,
        "closed connection 3: the controller hung up; channel 5 is free"
    );
    let mut next = hall.connect(3);
    next.ask(&lock(9, 5), 0);
    let text = hall.end();
    assert_eq!(text.matches("refused a connection").count(), 1);
    assert_eq!(text.matches("the amplifier ends").count(), 8);
}

#[test]
fn a_fault_closes_its_connection_alone() {
    let hall = Hall::open();
    let [mut panel, mut first, mut typed, mut data] = [0, 1, 2, 3].map(|n| hall.connect(n));
    panel.ask(&lock(7, 5), 0);
    first.ask(&lock(7, 6), 0);
    // what follows the fault is not run, what came before is answered
    let after = asked(&set(9, 6, 1));
    first.send(&[&[0x3A], &after[..]].concat());
    let strange = message(5, &[lock(9, 8)]);
    typed.send(&[asked(&lock(8, 7)), strange, after].concat());
    typed.expect(&reply(8, 0, 0, &[]));
    let mut short = asked(&lock(8, 8));
    short[13] += 1;
    data.send(&short);
    for peer in [&mut first, &mut typed, &mut data] {
        assert!(peer.is_closed());
    }
    let closed = |n: u8| hall.log.line(&format!("closed connection {n}")).1;
    assert_eq!(
        closed(1),
        "closed connection 1: the first byte is not 3B (fault 1); channel 6 is free"
    );
    assert_eq!(
        closed(2),
        "closed connection 2: pduType is above 4 (fault 4); channel 7 is free"
    );
    assert_eq!(closed(3), format!("closed connection 3: {}", bad_data()));
    panel.send(&asked(&get(1, 6)));
    panel.expect(&reply(1, 0, 1, &[2]));
    panel.ask(&lock(2, 5), 0);
    panel.ask(&lock(3, 6), 0);
    hall.end();
}

#[test]
fn a_subscriber_is_notified() {
    let hall = Hall::open();
    let mut panel = hall.connect(0);
    let mut tablet = hall.connect(1);
    panel.ask(&subscribe(7, 1, &[1, 2, 3, 4]), 0);
    tablet.ask(&set(8, 1, 1), 0);
    // the scope paper's example, with the context's count
    panel.expect(&[
        0x3B, 0, 1, 0, 0, 0, 0x2A, 2, 0, 1, 0, 0, 0, 0x21, 0, 0, 0, 9, 0, 3, 0, 1, 2, 0, 4, 1, 2,
        3, 4, 0, 0, 0x10, 1, 0, 1, 0, 1, 0, 4, 0, 1, 1, 1,
    ]);
    let notification = |value| notified(1, value, &[1, 2, 3, 4]);
    // to the present value: no change; to another: one; of another channel: none
    tablet.ask(&set(9, 1, 1), 0);
    tablet.ask(&set(10, 2, 1), 0);
    tablet.ask(&set(11, 1, 2), 0);
    hall.log.line("notified connection 0: channel 1 is unmuted");
    panel.expect(&notification(2));
    // its own reply comes before its own notification
    panel.ask(&set(12, 1, 1), 0);
    panel.expect(&notification(1));
    let text = hall.end();
    assert!(text.contains("connection 0 subscribed to channel 1; context of 4 bytes\n"));
    assert_eq!(text.matches("notified connection 0").count(), 3);
}

/// One that reads nothing is closed, and the others are served meanwhile.
#[test]
fn a_controller_that_takes_nothing_is_closed() {
    let hall = Hall::open();
    let mut deaf = hall.connect(0);
    let mut panel = hall.connect(1);
    let many = identifications(1);
    let talking = thread::spawn(move || while deaf.stream.write_all(&many).is_ok() {});
    let mut slowest = Duration::ZERO;
    let begun = Instant::now();
    while !hall.log.has("closed connection 0") && begun.elapsed() < PATIENCE {
        let start = Instant::now();
        panel.ask(&lock(1, 5), 0);
        slowest = slowest.max(start.elapsed());
        pause(5);
    }
    let (_, line) = hall.log.line("closed connection 0");
    talking.join().unwrap();
    assert_eq!(
        line,
        "closed connection 0: it does not take what it is sent"
    );
    assert!(slowest < Duration::from_secs(2), "{slowest:?}");
    hall.end();
}

/// Numbers, threads and places are given back.
#[test]
fn a_hundred_come_and_go() {
    let hall = Hall::open();
    for k in 0..100 {
        let mut peer = hall.connect(0);
        peer.ask(&lock(k, 5), 0);
        peer.send(&[0]);
        assert!(peer.is_closed());
    }
    assert_eq!(hall.end().matches("fault 1").count(), 100);
}

#[test]
fn the_end_is_clean() {
    let hall = Hall::open();
    let mut tablet = hall.connect(0);
    let mut panel = hall.connect(1);
    tablet.ask(&lock(7, 5), 0);
    let address = hall.address;
    let text = hall.end();
    assert!(tablet.is_closed() && panel.is_closed());
    assert!(std::net::TcpStream::connect(address).is_err());
    let lines: Vec<&str> = text.lines().map(|line| &line[13..]).collect();
    let last = [
        "closed connection 0: the amplifier ends; channel 5 is free",
        "closed connection 1: the amplifier ends",
        "ended",
    ];
    assert!(lines.ends_with(&last), "{text}");
}

#[test]
fn a_restart_loses_everything() {
    let hall = Hall::open();
    let mut tablet = hall.connect(0);
    tablet.ask(&lock(7, 5), 0);
    tablet.ask(&set(8, 5, 1), 0);
    hall.end();
    let hall = Hall::open();
    let mut tablet = hall.connect(0);
    let mut panel = hall.connect(1);
    tablet.send(&asked(&get(1, 5)));
    tablet.expect(&reply(1, 0, 1, &[2]));
    panel.ask(&lock(2, 5), 0);
    hall.end();
}

/// The controller's own program, with both the tablet and the technician.
#[test]
fn the_controller_plays_the_question() {
    let hall = Hall::open();
    let lines = Log::default();
    let question = "as panel subscribe 5 \
        as tablet beat 300ms lock 5 mute 5 wait 1200 bytes 3B00 dead \
        as technician await 5 unmute 5 get 5 \
        as panel wait 200 quit";
    let mut session = Session::new(hall.address, lines.clone());
    let next = session.obey(script::parse(question).unwrap()).unwrap();
    assert_eq!(next, Next::Quit);
    for words in [
        "panel: subscribe 5: done (status 0)",
        "tablet: beat 300 ms: answered",
        "panel: notified: channel 5 is muted; context of 0 bytes",
        "technician: lock 5: held by another connection (status 3)",
        "tablet: the amplifier keeps alive, 300 ms",
        "tablet: closed by the amplifier",
        "technician: lock 5: done (status 0)",
        "technician: let in after ",
        "technician: get 5: done (status 0), unmuted",
        "panel: notified: channel 5 is unmuted; context of 0 bytes",
    ] {
        lines.line(words);
    }
    drop(session);
    let text = hall.end();
    let order = [
        "connection 1 locked channel 5",
        "notified connection 0: channel 5 is muted",
        "closed connection 1: nothing heard for ",
        "connection 2 locked channel 5",
        "notified connection 0: channel 5 is unmuted",
    ];
    let places: Vec<Option<usize>> = order.iter().map(|words| text.find(words)).collect();
    assert!(
        places.iter().all(Option::is_some) && places.is_sorted(),
        "{text}"
    );
}

/// The program itself, interrupted as by Ctrl-C.
#[test]
fn an_interrupt_ends_the_program() {
    let mut command = program(env!("CARGO_BIN_EXE_amplifier"));
    let mut amplifier = command.arg("0").stdout(Stdio::piped()).spawn().unwrap();
    let mut lines = BufReader::new(amplifier.stdout.take().unwrap()).lines();
    let listening = lines.next().unwrap().unwrap();
    let (_, address) = listening.split_once("listening on ").unwrap();
    let mut tablet = Peer::connect(address.parse().unwrap());
    tablet.ask(&lock(7, 5), 0);
    let id = amplifier.id().to_string();
    let killing = ["-c", "kill -INT \"$1\"", "kill", &id];
    assert!(Command::new("sh").args(killing).status().unwrap().success());
    assert!(tablet.is_closed());
    let rest: Vec<String> = lines.map(Result::unwrap).collect();
    assert!(rest.last().unwrap().ends_with("ms  ended"), "{rest:?}");
    assert!(
        rest.iter()
            .any(|line| line.contains("the amplifier ends; channel 5 is free"))
    );
    assert_eq!(amplifier.wait().unwrap().code(), Some(0));
}
