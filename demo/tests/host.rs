//! A host that is a program of its own, over real sockets: examples/run builds one and names it by MELORWYTH_HOST.
//! Without that there is nothing to drive, and the tests say so and pass.

// the amplifier's own tests use the rest of these two
#[allow(dead_code)]
mod hall;
mod running;
#[allow(dead_code)]
mod wire;

use hall::{Controller, PATIENCE, until};
use running::{Host, ask_value, eight, pause, rest, status};
use std::io::Write;
use std::thread;
use std::time::{Duration, Instant};
use wire::{asked, get, identifications, lock, message, milliseconds, notified, reply};
use wire::{response, set, subscribe};

/// How late it may be on a busy machine; it is never early.
const LATE: Duration = Duration::from_secs(2);

/// A time that was read twice in whole milliseconds may seem so much shorter.
const WHOLE: Duration = Duration::from_millis(1);

/// Each byte of a lock command waits for another's command to be answered.
#[test]
fn bytes_cut_one_by_one_and_mixed() {
    let Some(host) = Host::start() else { return };
    let (mut tablet, mut panel) = (host.connect(), host.connect());
    for (k, byte) in (0..).zip(asked(&lock(7, 5))) {
        panel.ask(&set(k, 5, 1 + k as u8 % 2), 0);
        tablet.send(&[byte]);
    }
    tablet.expect(&reply(7, 0, 0, &[]));
    panel.ask(&lock(99, 5), 3);
    panel.ask(&set(100, 5, 1), 3);
    ask_value(&mut tablet, 8, 5, 1);
    host.end();
}

/// More than one read of the host's, cut within a message.
#[test]
fn many_messages_in_one_piece() {
    let Some(host) = Host::start() else { return };
    let mut tablet = host.connect();
    let (mut piece, mut replies) = (Vec::new(), Vec::new());
    for k in 0..150 {
        let channel = 1 + k % 8;
        piece.extend(message(1, &[lock(3 * k, channel), get(3 * k + 1, channel)]));
        piece.extend(asked(&lock(3 * k + 2, 9)));
        let both = [response(3 * k, 0, 0, &[]), response(3 * k + 1, 0, 1, &[2])];
        replies.extend(message(3, &both));
        replies.extend(reply(3 * k + 2, 5, 0, &[]));
    }
    // and a message of type 0, which has no reply
    piece.extend(message(0, &[set(1_000, 5, 1)]));
    tablet.send(&piece);
    tablet.expect(&replies);
    ask_value(&mut tablet, 1_001, 5, 1);
    host.end();
}

/// The technician's question, with 200 ms for 30 s.
#[test]
fn a_dead_controller_is_closed_at_three_heartbeats() {
    let Some(host) = Host::start() else { return };
    let (mut tablet, mut technician) = (host.connect(), host.connect());
    tablet.beat(200);
    let sent = Instant::now();
    tablet.ask(&lock(7, 5), 0);
    let answered = Instant::now();
    tablet.send(&asked(&lock(8, 5))[..13]);
    let mut refused = 0;
    loop {
        let given = status(&mut technician, &lock(refused, 5));
        assert!(answered.elapsed() < Duration::from_millis(600) + LATE);
        if given == 0 {
            break;
        }
        assert_eq!(given, 3);
        refused += 1;
        pause(10);
    }
    let closed = sent.elapsed() + WHOLE;
    assert!(closed >= Duration::from_millis(600), "{closed:?}");
    assert!(refused > 0);
    host.wait_for("closed connection 0: silence", 1);
    // it was sent its own heartbeat meanwhile, and nothing else
    let heard = rest(&mut tablet);
    let mut beats = (0..=2).map(|count| milliseconds(200).repeat(count));
    assert!(beats.any(|beats| heard == beats), "{heard:?}");
    host.end();
}

#[test]
fn without_a_heartbeat_it_stays_until_it_hangs_up() {
    let Some(host) = Host::start() else { return };
    let (mut tablet, mut technician) = (host.connect(), host.connect());
    tablet.ask(&lock(7, 5), 0);
    for k in 0..8 {
        technician.ask(&lock(k, 5), 3);
        pause(100);
    }
    ask_value(&mut tablet, 8, 5, 2);
    drop(tablet);
    host.wait_for("closed connection 0: hung up", 1);
    technician.ask(&lock(9, 5), 0);
    host.end();
}

/// One of its own after it fell quiet; and whoever is heard now and then stays.
#[test]
fn a_quiet_connection_is_sent_its_heartbeat() {
    let Some(host) = Host::start() else { return };
    let mut tablet = host.connect();
    let (times, quiet) = (6, Duration::from_millis(400));
    let begun = Instant::now();
    for _ in 0..times {
        let sent = Instant::now();
        tablet.beat(400);
        tablet.expect(&milliseconds(400));
        let came = sent.elapsed() + WHOLE;
        assert!(came >= quiet, "{came:?}");
    }
    // a clock that runs in great steps is late in each
    assert!(begun.elapsed() < times * quiet + LATE);
    tablet.ask(&lock(7, 5), 0);
    assert!(!host.end().contains("silence"));
}

#[test]
fn a_ninth_connection_is_refused() {
    let Some(host) = Host::start() else { return };
    let mut peers = eight(&host);
    for count in 1..=2 {
        assert!(host.connect().is_closed());
        host.wait_for("refused a ninth connection", count);
    }
    for (channel, peer) in (1..).zip(&mut peers) {
        peer.ask(&lock(2, channel), 0);
        peer.ask(&lock(3, 1 + channel % 8), 3);
    }
    drop(peers.remove(3));
    host.wait_for("closed connection 3: hung up", 1);
    let mut next = host.connect();
    next.ask(&lock(4, 4), 0);
    let from = next.stream.local_addr().unwrap();
    host.wait_for(&format!("opened connection 3 for {from}"), 1);
    let text = host.end();
    assert_eq!(text.matches("the host ends").count(), 8);
}

/// Three messages of a lock: one whose first byte is not 3B, one of no type, one whose entry does not fill it.
fn faults() -> [(Vec<u8>, u8); 3] {
    let lock = asked(&lock(9, 8));
    let (mut start, mut kind, mut data) = (lock.clone(), lock.clone(), lock);
    start[0] += 1;
    kind[7] = 5;
    data[13] += 1;
    [(start, 1), (kind, 4), (data, 6)]
}

/// What came before the fault is answered, and what comes behind it is neither run nor given to the next of its number.
#[test]
fn a_fault_closes_its_connection_alone() {
    let Some(host) = Host::start() else { return };
    let mut panel = host.connect();
    panel.ask(&lock(1, 8), 0);
    for (k, (faulty, fault)) in (0..).zip(faults()) {
        let (before, behind) = (2 * k + 1, 2 * k + 2);
        let mut tablet = host.connect();
        let piece = [asked(&lock(2, before)), faulty, asked(&lock(3, behind))];
        tablet.send(&piece.concat());
        assert_eq!(rest(&mut tablet), reply(2, 0, 0, &[]));
        host.wait_for(&format!("closed connection 1: fault {fault}"), 1);
        let mut next = host.connect();
        next.ask(&lock(4, 7), 0);
        for channel in [before, behind, 8] {
            panel.ask(&lock(5, channel), 0);
        }
        drop(next);
        host.wait_for("closed connection 1: hung up", 1 + k as usize);
    }
    host.end();
}

/// All that waits is sent after the reply, and before the next message of the same piece is run.
#[test]
fn subscribers_are_notified_with_their_contexts() {
    let Some(host) = Host::start() else { return };
    let (mut panel, mut tablet) = (host.connect(), host.connect());
    let longest = [0xC7; 64];
    panel.ask(&subscribe(1, 5, &longest), 0);
    for channel in 5..=7 {
        tablet.ask(&subscribe(1, channel, &[channel as u8; 3]), 0);
    }
    let change = [set(2, 5, 1), set(3, 6, 1), set(4, 7, 1)];
    tablet.send(&[message(1, &change), asked(&get(5, 5))].concat());
    let done: Vec<Vec<u8>> = (2..=4).map(|k| response(k, 0, 0, &[])).collect();
    tablet.expect(&message(3, &done));
    for channel in 5..=7 {
        tablet.expect(&notified(channel, 1, &[channel; 3]));
    }
    tablet.expect(&reply(5, 0, 1, &[1]));
    panel.expect(&notified(5, 1, &longest));
    // to the present value: no change
    tablet.ask(&set(6, 5, 1), 0);
    drop(tablet);
    host.wait_for("closed connection 1: hung up", 1);
    panel.ask(&set(7, 5, 2), 0);
    panel.expect(&notified(5, 2, &longest));
    panel.ask(&lock(8, 5), 0);
    host.end();
}

/// One that reads nothing is closed, and the others are served meanwhile.
#[test]
fn a_controller_that_does_not_read_stops_nobody() {
    let Some(host) = Host::start() else { return };
    let (mut deaf, mut panel) = (host.connect(), host.connect());
    deaf.ask(&lock(1, 5), 0);
    let many = identifications(1);
    // where it is never closed, the talking is to have an end
    deaf.stream.set_write_timeout(Some(PATIENCE)).unwrap();
    let talking = thread::spawn(move || while deaf.stream.write_all(&many).is_ok() {});
    let (begun, mut slowest) = (Instant::now(), Duration::ZERO);
    while host.count("closed connection 0: does not read") == 0 {
        assert!(begun.elapsed() < PATIENCE);
        let start = Instant::now();
        ask_value(&mut panel, 2, 5, 2);
        slowest = slowest.max(start.elapsed());
        pause(5);
    }
    panel.ask(&lock(3, 5), 0);
    talking.join().unwrap();
    assert!(slowest < LATE, "{slowest:?}");
    host.end();
}

/// Replies that nobody takes any more end nothing but their own connection.
#[test]
fn a_controller_that_leaves_without_reading_ends_nothing() {
    let Some(host) = Host::start() else { return };
    let mut panel = host.connect();
    panel.ask(&lock(1, 8), 0);
    let many = asked(&lock(2, 5)).repeat(500);
    let ways = ["hung up", "broken off"].map(|why| format!("closed connection 1: {why}"));
    for k in 1..=20 {
        let mut tablet = host.connect();
        tablet.ask(&lock(1, 5), 0);
        tablet.send(&many);
        drop(tablet);
        until("its closure", || host.count_all(&ways) == k);
    }
    panel.ask(&lock(2, 5), 0);
    panel.ask(&lock(3, 8), 0);
    host.end();
}

/// The desk's own controller, with both the tablet and the technician.
#[test]
fn the_controller_plays_the_question() {
    let Some(host) = Host::start() else { return };
    let mut controller = Controller::new(host.address);
    controller.obey("as panel subscribe 5 text foyer");
    controller.obey("as tablet beat 200ms lock 5 mute 5 bytes 3B0001000000 dead");
    let count = |controller: &Controller, name: &str, words: &[&str]| {
        let said = controller.said(name);
        let told = |line: &&String| words.iter().all(|words| line.contains(words));
        said.iter().filter(told).count()
    };
    until("the lock", || {
        controller.obey("as technician lock 5 wait 50");
        count(&controller, "technician", &["lock 5: ", "status 0"]) == 1
    });
    controller.obey("unmute 5 get 5 wait 50");
    for (name, words, times) in [
        ("tablet", &["5: ", "status 0"][..], 2),
        ("tablet", &["closed by the amplifier"], 1),
        ("technician", &["get 5: ", "status 0", "unmuted"], 1),
        ("panel", &["notified: ", "\"foyer\""], 2),
    ] {
        let told = controller.said(name);
        assert_eq!(count(&controller, name, words), times, "{told:?}");
    }
    assert!(count(&controller, "technician", &["lock 5: ", "status 3"]) > 0);
    drop(controller);
    host.end();
}
