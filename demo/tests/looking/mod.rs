//! What the page's stream of events tells, held to the amplifier's own lines.

use crate::hall::{Peer, until};
use crate::json::Json;
use crate::visit::{Shown, Stream, served};
use crate::wire::{asked, lock, seconds, set, subscribe};
use demo::board::LINES;
use demo::page::{PACE, WATCHERS};
use std::time::{Duration, Instant};

/// What the system holds for a browser that reads nothing is filled by then, also where all is emulated.
const LONGEST: Duration = Duration::from_secs(180);

fn strip(message: &Json, channel: usize) -> &Json {
    message.at("channels").index(channel - 1)
}

fn state(message: &Json, channel: usize) -> &str {
    strip(message, channel).at("state").as_str()
}

/// What a connection's row says; nothing where it is not open.
fn row(message: &Json, n: u64, name: &str) -> Option<String> {
    let mut connections = message.at("connections").as_list().iter();
    let connection = connections.find(|connection| connection.at("n").as_u64() == n)?;
    let mut rows = connection.at("rows").as_list().iter();
    let row = rows.find(|row| row.index(0).as_str() == name);
    Some(row.unwrap().index(1).as_str().to_string())
}

fn said(message: &Json) -> Vec<(u64, String)> {
    let lines = message.at("lines").as_list().iter();
    lines
        .map(|line| (line.at("n").as_u64(), line.at("text").as_str().to_string()))
        .collect()
}

/// The technician's question: every figure is the record's, and the strip is free from the tick that closes.
#[test]
fn a_dead_tablet_is_seen_to_lapse() {
    let shown = Shown::open();
    let mut tablet = shown.hall.connect(0);
    tablet.beat(500);
    tablet.ask(&lock(7, 5), 0);
    let heard = shown.hall.log.time("connection 0 locked channel 5");
    let mut stream = shown.watch();
    let mut silences = Vec::new();
    let free = loop {
        let message = stream.message();
        if state(&message, 5) == "free" {
            break message;
        }
        silences.push(is_lapsing(&message, heard));
    };
    assert!(silences.len() >= 5, "{silences:?}");
    assert!(silences.is_sorted() && silences.last() > silences.first());
    let (closed, line) = shown.hall.log.line("closed connection 0");
    assert!(line.contains("(3 x 500 ms); channel 5 is free"));
    let strip = strip(&free, 5);
    assert_eq!(strip.at("since").as_str(), format!("since {closed} ms"));
    assert_eq!(strip.at("left").as_str(), "");
    assert!(strip.at("holder").is_null());
    assert_eq!(strip.at("limit").as_u64(), 0);
    assert!(free.at("connections").as_list().is_empty());
    shown.end();
}

/// One message while it lapses; answers the silence.
fn is_lapsing(message: &Json, heard: u32) -> u64 {
    let strip = strip(message, 5);
    assert_eq!(strip.at("state").as_str(), "locked by connection 0");
    assert_eq!(strip.at("since").as_str(), format!("since {heard} ms"));
    assert_eq!(strip.at("limit").as_u64(), 1_500);
    let silence = strip.at("silence").as_u64();
    // of the same record: the reading less the silence is when it was heard
    assert_eq!(message.at("reading").as_u64() - silence, u64::from(heard));
    let tenths = (1_500 - silence).div_ceil(100);
    let left = format!(
        "free in {}.{} s if nothing more is heard",
        tenths / 10,
        tenths % 10
    );
    assert_eq!(strip.at("left").as_str(), left);
    let told = |name| row(message, 0, name).unwrap();
    assert_eq!(told("silence"), format!("{silence} ms of 1500 ms"));
    assert_eq!(told("last heard"), format!("at {heard} ms"));
    silence
}

/// Its bytes do not stop the bar, and are said not to count.
#[test]
fn half_a_message_is_told() {
    let shown = Shown::open();
    let mut tablet = shown.hall.connect(0);
    tablet.send(&seconds(2));
    tablet.expect(&seconds(2));
    tablet.ask(&lock(7, 5), 0);
    let heard = shown.hall.log.time("connection 0 locked channel 5");
    let mut stream = shown.watch();
    tablet.send(&asked(&lock(8, 5))[..6]);
    let undecided = |message: &Json| row(message, 0, "undecided").unwrap();
    let six = "6 bytes of an unfinished message: they do not count as heard";
    let message = stream.until(six, |message| undecided(message) == six);
    let told = row(&message, 0, "last heard").unwrap();
    assert_eq!(told, format!("at {heard} ms"));
    tablet.send(&asked(&lock(8, 5))[6..]);
    stream.until("none", |message| undecided(message) == "no bytes");
    shown.end();
}

#[test]
fn without_a_heartbeat_nothing_runs() {
    let shown = Shown::open();
    let mut tablet = shown.hall.connect(0);
    tablet.ask(&lock(7, 8), 0);
    let message = shown.watch().message();
    let strip = strip(&message, 8);
    let words = "no heartbeat: only the host's close or the controller frees it";
    assert_eq!(strip.at("left").as_str(), words);
    assert_eq!(strip.at("state").as_str(), "locked by connection 0");
    assert_eq!(strip.at("limit").as_u64(), 0);
    assert_eq!(row(&message, 0, "heartbeat").unwrap(), "none");
    for name in ["silence", "last heard"] {
        assert_eq!(row(&message, 0, name).unwrap(), "not counted: no heartbeat");
    }
    assert_eq!(
        row(&message, 0, "keep-alive").unwrap(),
        "none is sent: no heartbeat"
    );
    shown.end();
}

#[test]
fn a_connection_is_told() {
    let shown = Shown::open();
    let mut panel = shown.hall.connect(0);
    let mut tablet = shown.hall.connect(1);
    tablet.send(&seconds(30));
    tablet.expect(&seconds(30));
    for channel in [1, 8] {
        tablet.ask(&subscribe(2, channel, &[]), 0);
        tablet.ask(&lock(3, channel), 0);
    }
    panel.beat(60_000);
    panel.ask(&set(1, 2, 1), 0);
    let message = shown.watch().message();
    let (opened, _) = shown.hall.log.line("opened connection 1");
    for (name, told) in [
        ("address", tablet.stream.local_addr().unwrap().to_string()),
        ("open since", format!("{opened} ms")),
        ("heartbeat", "30 s, set in seconds".to_string()),
        ("undecided", "no bytes".to_string()),
        ("holds", "channels 1, 8".to_string()),
        ("subscriptions", "2: channels 1, 8".to_string()),
    ] {
        assert_eq!(row(&message, 1, name).unwrap(), told);
    }
    let due = row(&message, 1, "keep-alive").unwrap();
    assert!(due.starts_with("the next is due in "), "{due}");
    let told = |name| row(&message, 0, name).unwrap();
    assert_eq!(told("heartbeat"), "60000 ms, set in milliseconds");
    assert_eq!(told("subscriptions"), "none");
    assert_eq!(strip(&message, 2).at("mute").as_str(), "muted");
    assert_eq!(strip(&message, 1).at("mute").as_str(), "unmuted");
    assert_eq!(
        message.at("address").as_str(),
        shown.hall.address.to_string()
    );
    shown.end();
}

/// The counter goes round between the last message and the closure.
#[test]
fn the_clock_may_go_round() {
    let begin = u32::MAX - 400;
    let shown = Shown::on(served(PACE), begin, |desk| desk);
    let mut tablet = shown.hall.connect(0);
    tablet.beat(300);
    let heard = shown.hall.log.time("set its heartbeat to 300 ms");
    let round = |message: &Json| message.at("reading").as_u64() < u64::from(begin);
    let message = shown.watch().until("its going round", round);
    let told = row(&message, 0, "last heard").unwrap();
    assert_eq!(told, format!("at {heard} ms"));
    shown.end();
}

/// The lines are those of the desk, each once; of many the last are kept.
#[test]
fn lines_are_the_desks_and_bounded() {
    let shown = Shown::open();
    let mut early = shown.watch();
    let mut lines = said(&early.message());
    let mut tablet = shown.hall.connect(0);
    for k in 0..300 {
        tablet.ask(&set(k, 5, 1 + k as u8 % 2), 0);
        if k % 100 == 0 {
            lines.extend(said(&early.message()));
        }
    }
    let late = said(&shown.watch().message());
    assert_eq!(late.len(), LINES);
    lines.extend(said(&early.until("the last line", |message| {
        said(message).last() == late.last()
    })));
    let text = shown.hall.log.text();
    let desk: Vec<&str> = text.lines().map(|line| &line[13..]).collect();
    let own = |(n, line): &(u64, String)| line == desk[*n as usize - 1];
    assert!(lines.iter().chain(&late).all(own), "{lines:?} {text}");
    assert!(lines.is_sorted_by(|one, next| one.0 < next.0));
    assert!(late.is_sorted_by(|one, next| one.0 + 1 == next.0));
    shown.end();
}

/// A browser that reads nothing is left, and neither the amplifier nor another browser waits for it.
#[test]
fn a_browser_that_takes_nothing_is_dropped() {
    let shown = Shown::paced(Duration::ZERO);
    let mut panel = shown.hall.connect(0);
    let deaf = shown.watch();
    let mut other = shown.watch();
    let mut slowest = Duration::ZERO;
    let start = Instant::now();
    let (mut k, mut reading) = (0, 0);
    while shown.page.board.watchers() == 2 && start.elapsed() < LONGEST {
        let asked = Instant::now();
        panel.ask(&set(k, 5, 1 + k as u8 % 2), 0);
        slowest = slowest.max(asked.elapsed());
        let message = other.message();
        let next = message.at("reading").as_u64();
        assert!(next >= reading);
        (k, reading) = (k + 1, next);
    }
    assert_eq!(shown.page.board.watchers(), 1);
    assert!(slowest < Duration::from_secs(2), "{slowest:?}");
    drop(deaf);
    // whoever comes again has all that is kept
    assert!(!said(&shown.watch().message()).is_empty());
    shown.end();
}

/// A stream that is cut off in the middle leaves nothing behind.
#[test]
fn watchers_come_and_go() {
    let shown = Shown::open();
    for _ in 0..3 {
        // a browser that has gone is noticed by the next message but one
        let mut streams: Vec<Stream> = (0..WATCHERS).map(|_| shown.watch()).collect();
        streams.iter_mut().for_each(|stream| drop(stream.message()));
        drop(streams);
        until("their end", || shown.page.board.watchers() == 0);
    }
    let mut tablet: Peer = shown.hall.connect(0);
    tablet.ask(&lock(1, 5), 0);
    shown.end();
}
