//! The form that restarts, by the bytes that a browser would send.

use crate::hall::{Peer, free_port, until};
use crate::json::Json;
use crate::visit::{Answer, Shown, served};
use crate::wire::{arm, asked, lock, set, subscribe};
use demo::desk::Desk;
use demo::page::PACE;
use demo::restart::Key;
use std::net::{Ipv4Addr, UdpSocket};
use std::sync::atomic::{AtomicBool, Ordering};
use std::thread;
use std::time::Duration;

const KEY: Key = *b"\x00front desk key\xFF";
const HEX: &str = "0066726F6E74206465736B206B6579FF";
const OTHER: &str = "0066726F6E74206465736B206B6558FF";

fn armed(shown: &Shown, port: u16) -> Peer {
    let mut installer = shown.hall.connect(0);
    installer.ask(&arm(1, KEY, "", port), 0);
    installer
}

fn told(answer: &Answer, status: u16, line: &str) {
    assert_eq!(
        (answer.status, answer.body.as_str()),
        (status, &*format!("{line}\n"))
    );
}

fn reset_state(shown: &Shown) -> String {
    let message = shown.watch().message();
    message.at("reset").at("state").as_str().to_string()
}

fn lost(message: &Json) -> Vec<&str> {
    let lost = message.at("restart").at("lost").as_list().iter();
    lost.map(Json::as_str).collect()
}

const UNARMED: &str = "not armed: no reset key is set";

/// The front desk has the key alone, and no connection.
#[test]
fn the_form_restarts_the_rack() {
    let shown = Shown::open();
    let mut stream = shown.watch();
    assert!(stream.message().at("restart").is_null());
    let mut tablet = armed(&shown, free_port());
    tablet.ask(&set(2, 5, 1), 0);
    tablet.ask(&lock(3, 5), 0);
    tablet.ask(&subscribe(4, 1, &[]), 0);
    tablet.send(&asked(&lock(5, 5))[..6]);
    let undecided = || shown.page.board.rack().unwrap().guests[0].undecided;
    until("six bytes", || undecided() == 6);
    let ended = "closed connection 0; 1 subscription ended; 6 undecided bytes dropped; \
        channel 5 is free; channel 5 is unmuted";
    let answer = shown.post(&format!("key={HEX}"));
    told(&answer, 200, &format!("reset by key: {ended}"));
    assert!(tablet.is_closed());
    let message = stream.until("what was lost", |message| !message.at("restart").is_null());
    let (at, _) = shown.hall.log.line("reset by key");
    assert_eq!(message.at("restart").at("at").as_u64(), u64::from(at));
    let key = "the reset key: it is not armed until one is set again";
    assert_eq!(lost(&message).join("; "), format!("{ended}; {key}"));
    shown.end();
}

/// Before a key is set and after a restart nothing is sent; another key changes nothing.
#[test]
fn the_form_says_why_not() {
    let shown = Shown::open();
    let right = format!("key={HEX}");
    assert_eq!(reset_state(&shown), UNARMED);
    told(&shown.post(&right), 409, UNARMED);
    let port = free_port();
    let mut tablet = armed(&shown, port);
    let state = format!("armed on UDP port {port}: listening on 127.0.0.1:{port}");
    assert_eq!(reset_state(&shown), state);
    let wrong = "a datagram of 24 bytes changed nothing: this is not the key that was set last";
    told(&shown.post(&format!("key={OTHER}")), 403, wrong);
    tablet.ask(&lock(2, 5), 0);
    assert_eq!(shown.post(&right).status, 200);
    told(&shown.post(&right), 409, UNARMED);
    shown.end();
}

/// What is no key is not sent, and what is said of it does not repeat it.
#[test]
fn what_is_no_key_is_explained() {
    let shown = Shown::open();
    let _tablet = armed(&shown, free_port());
    for (body, line) in [
        ("key=", "a key is 32 hex digits, and this has 0"),
        (
            &format!("key={}", &HEX[1..]),
            "a key is 32 hex digits, and this has 31",
        ),
        (
            &format!("key={HEX}0"),
            "a key is 32 hex digits, and this has 33",
        ),
        (
            &format!("key={HEX}&more=1"),
            "a key is 32 hex digits, 0 to 9 and A to F; this has something else",
        ),
        ("KEY=00", "a form with a key is wanted"),
        ("", "a form with a key is wanted"),
    ] {
        told(&shown.post(body), 400, line);
    }
    assert!(!shown.end().contains("datagram of"));
}

/// The switch is off; the port is another's: the form says so, and sends nothing.
#[test]
fn a_datagram_that_nobody_would_hear_is_not_sent() {
    let shown = Shown::on(served(PACE), 0, Desk::without_reset);
    let port = free_port();
    let _tablet = armed(&shown, port);
    let off = format!("armed on UDP port {port}; the reset switch is off: not listening");
    told(&shown.post(&format!("key={HEX}")), 409, &off);
    shown.end();
    let shown = Shown::open();
    let taken = UdpSocket::bind((Ipv4Addr::LOCALHOST, 0)).unwrap();
    let port = taken.local_addr().unwrap().port();
    let _tablet = armed(&shown, port);
    let taken = format!("armed on UDP port {port}; the port cannot be had: not listening");
    told(&shown.post(&format!("key={HEX}")), 409, &taken);
    assert_eq!(reset_state(&shown), taken);
    shown.end();
}

/// A page of another's in the same browser may send a form here; a browser says whose it is.
#[test]
fn another_page_cannot_send_the_form() {
    let shown = Shown::open();
    let mut tablet = armed(&shown, free_port());
    let (at, port) = (shown.at, shown.at.port());
    let length = 4 + HEX.len();
    for (origin, status) in [
        ("http://rack.example".to_string(), 403),
        ("null".to_string(), 403),
        (String::new(), 403),
        (format!("https://{at}"), 403),
        (format!("http://127.0.0.1:{}", port ^ 1), 403),
        (format!("http://{at}"), 200),
    ] {
        let head = format!("POST /restart HTTP/1.1\r\nHost: {at}\r\nContent-Length: {length}");
        let request = format!("{head}\r\nOrigin: {origin}\r\n\r\nkey={HEX}");
        assert_eq!(shown.ask(&request).status, status, "{origin}");
    }
    assert!(tablet.is_closed());
    shown.end();
}

/// Two at once, each with an answer of its own.
#[test]
fn two_forms_are_told_apart() {
    let shown = Shown::open();
    let _tablet = armed(&shown, free_port());
    thread::scope(|both| {
        let others: Vec<_> = (0..4)
            .map(|_| both.spawn(|| shown.post(&format!("key={OTHER}")).status))
            .collect();
        assert!(others.into_iter().all(|other| other.join().unwrap() == 403));
        let one = both.spawn(|| shown.post(&format!("key={HEX}")).status);
        assert_eq!(one.join().unwrap(), 200);
    });
    shown.end();
}

/// Others send datagrams to the same port meanwhile: the answer is that of the form's own.
#[test]
fn others_datagrams_are_not_its_own() {
    let shown = Shown::open();
    let port = free_port();
    let _tablet = armed(&shown, port);
    let sent = AtomicBool::new(false);
    thread::scope(|both| {
        both.spawn(|| {
            let socket = UdpSocket::bind((Ipv4Addr::LOCALHOST, 0)).unwrap();
            while !sent.load(Ordering::Relaxed) {
                // where nobody listens any more the system says so
                let _ = socket.send_to(&[0; 23], (Ipv4Addr::LOCALHOST, port));
                thread::sleep(Duration::from_millis(1));
            }
        });
        until("another's", || shown.hall.log.has("a datagram of 23 bytes"));
        let answers = [OTHER, HEX].map(|key| shown.post(&format!("key={key}")).status);
        sent.store(true, Ordering::Relaxed);
        assert_eq!(answers, [403, 200]);
    });
    shown.end();
}

/// Neither in an answer nor in a stream nor in a line, right or wrong, in hex or as it is.
#[test]
fn the_key_is_never_shown() {
    let shown = Shown::open();
    let mut stream = shown.watch();
    let _tablet = armed(&shown, free_port());
    let queried = format!("/restart?key={HEX}");
    let paths = ["/", "/page.js", "/page.css", "/nowhere", &queried];
    let got = paths.map(|path| shown.get(path));
    let posted = [
        format!("key={HEX}0"),
        format!("key={HEX} "),
        HEX.to_string(),
        format!("key={OTHER}"),
        format!("key={HEX}"),
        format!("key={HEX}"),
    ]
    .map(|body| shown.post(&body));
    let answers = got.into_iter().chain(posted);
    let mut seen: String = answers.map(|answer| answer.head + &answer.body).collect();
    let message = stream.until("the restart", |message| !message.at("restart").is_null());
    seen += &format!("{message}{:?}", shown.page.board);
    seen += &shown.end();
    has_no_key(&seen.to_lowercase());
}

/// Not even a quarter of one.
fn has_no_key(seen: &str) {
    let keys = [HEX, OTHER].concat().to_lowercase();
    for place in (0..keys.len()).step_by(8) {
        assert!(!seen.contains(&keys[place..place + 8]));
    }
    assert!(!seen.contains("front desk"));
}
