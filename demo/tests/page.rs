//! The page's server over real sockets, by bytes that a browser would send and by others.

#[allow(dead_code)]
mod hall;
#[path = "chromium/json.rs"]
#[allow(dead_code)]
mod json;
mod looking;
mod programs;
mod restarting;
mod visit;
#[allow(dead_code)]
mod wire;

use demo::page::request::{BODY, FIRST, LINE, LINES};
use demo::page::{VISITORS, WATCHERS};
use hall::until;
use std::io::Write;
use std::net::{TcpStream, UdpSocket};
use std::time::{Duration, Instant};
use visit::{Answer, Shown, Stream, ask, rest};
use wire::{get, lock, reply};

/// What every answer says: keep nothing, take nothing from elsewhere, be shown in no other page.
fn is_guarded(answer: &Answer) {
    assert_eq!(answer.header("Cache-Control"), Some("no-store"));
    assert_eq!(answer.header("Connection"), Some("close"));
    let policy = answer.header("Content-Security-Policy").unwrap();
    assert!(policy.starts_with("default-src 'none'; script-src 'self'; "));
    assert!(policy.ends_with("frame-ancestors 'none'"));
    assert_eq!(answer.header("X-Content-Type-Options"), Some("nosniff"));
}

/// Nothing of it comes from elsewhere, and nothing runs that is not in its own file.
#[test]
fn the_page_is_three_files() {
    let shown = Shown::open();
    for (path, kind) in [
        ("/", "html"),
        ("/page.css", "css"),
        ("/page.js", "javascript"),
    ] {
        let answer = shown.get(path);
        assert_eq!(answer.status, 200);
        is_guarded(&answer);
        let kind = format!("text/{kind}; charset=utf-8");
        assert_eq!(answer.header("Content-Type"), Some(kind.as_str()));
        for elsewhere in [
            "http:",
            "https:",
            "//",
            "@import",
            "url(",
            "innerHTML",
            "style=",
        ] {
            let mut lines = answer.body.lines().map(str::trim_start);
            let found = lines.find(|line| line.contains(elsewhere) && !line.starts_with("//"));
            assert_eq!(found, None, "{path}: {elsewhere}");
        }
    }
    shown.end();
}

/// Each is refused by its status, and the amplifier and the page go on.
fn refused(shown: &Shown, request: &str, status: u16) {
    let answer = shown.ask(request);
    let told: String = request.chars().take(60).collect();
    assert_eq!(answer.status, status, "{told:?}: {}", answer.body);
    is_guarded(&answer);
}

#[test]
fn wrong_paths_are_refused() {
    let shown = Shown::open();
    let host = format!(" HTTP/1.1\r\nHost: {}\r\n\r\n", shown.at);
    for path in [
        "/nowhere",
        "/page.html",
        "/page.js/",
        "//",
        "/../page.js",
        "/?",
        "/restart?key=00",
        "*",
        "page.js",
        "http://127.0.0.1/",
        "/%70age.js",
        "/events/",
        "/EVENTS",
        "/\u{FC}",
    ] {
        refused(&shown, &format!("GET {path}{host}"), 404);
        refused(&shown, &format!("POST {path}{host}"), 404);
        refused(&shown, &format!("HEAD {path}{host}"), 404);
    }
    shown.end();
}

/// The method that is taken there is named.
fn not_allowed(shown: &Shown, method: &str, path: &str, allow: &str) {
    let host = format!("Host: {}\r\n", shown.at);
    let answer = shown.ask(&format!("{method} {path} HTTP/1.1\r\n{host}\r\n"));
    assert_eq!(answer.status, 405, "{method} {path}");
    assert_eq!(answer.header("Allow"), Some(allow));
    is_guarded(&answer);
    // an answer to HEAD has no body
    assert_eq!(answer.body.is_empty(), method == "HEAD");
}

/// GET alone, but for the restart.
#[test]
fn wrong_methods_are_refused() {
    let shown = Shown::open();
    for method in ["POST", "PUT", "DELETE", "OPTIONS", "HEAD", "get", "BREW"] {
        not_allowed(&shown, method, "/", "GET");
        not_allowed(&shown, method, "/page.css", "GET");
        not_allowed(&shown, method, "/events", "GET");
    }
    shown.end();
}

#[test]
fn the_restart_takes_post_alone() {
    let shown = Shown::open();
    for method in ["GET", "PUT", "DELETE", "OPTIONS", "HEAD", "post", "BREW"] {
        not_allowed(&shown, method, "/restart", "POST");
    }
    shown.end();
}

#[test]
fn what_is_no_request_is_refused() {
    let shown = Shown::open();
    let at = shown.at;
    let host = format!("Host: {at}\r\n");
    for (request, status) in [
        ("", 400),
        ("\r\n\r\n", 400),
        ("GET /\r\n\r\n", 400),
        ("GET  / HTTP/1.1\r\n\r\n", 400),
        ("GET / HTTP/1.1 x\r\n\r\n", 400),
        ("GET / http/1.1\r\n\r\n", 400),
        ("GET / HTTP/2\r\n\r\n", 505),
        ("GET / HTTP/1.10\r\n\r\n", 505),
        (&format!("GET / HTTP/1.1\r\n{host}"), 400),
        (&format!("GET / HTTP/1.1\r\n{host}no colon\r\n\r\n"), 400),
        (&format!("GET / HTTP/1.1\r\n{host}a: \x07\r\n\r\n"), 400),
        (&format!("GET /\0 HTTP/1.1\r\n{host}\r\n"), 400),
        // a line may end without a carriage return, and HTTP/1.0 is taken
        (&format!("GET / HTTP/1.0\nHost: {at}\n\n"), 200),
    ] {
        refused(&shown, request, status);
    }
    let bytes = [b"GET /\xFF HTTP/1.1\r\n", host.as_bytes(), b"\r\n"].concat();
    assert_eq!(ask(at, &bytes).status, 400);
    shown.end();
}

/// A page that another's name leads here is not told anything.
#[test]
fn a_host_that_is_missing_or_anothers_is_refused() {
    let shown = Shown::open();
    let (at, port) = (shown.at, shown.at.port());
    refused(&shown, "GET / HTTP/1.1\r\n\r\n", 400);
    refused(&shown, "GET / HTTP/1.0\r\n\r\n", 400);
    refused(
        &shown,
        &format!("GET / HTTP/1.1\r\nHost: {at}\r\nhost: {at}\r\n\r\n"),
        400,
    );
    for (host, status) in [
        (format!("127.0.0.1:{port}"), 200),
        (format!("localhost:{port}"), 200),
        (format!("LocalHost:{port}"), 200),
        ("127.0.0.1".to_string(), 421),
        ("localhost".to_string(), 421),
        (format!("127.0.0.1:{}", port ^ 1), 421),
        (format!("rack.example:{port}"), 421),
        (format!("127.0.0.1:{port}.rack.example"), 421),
        (String::new(), 421),
    ] {
        for path in ["/", "/page.js"] {
            refused(
                &shown,
                &format!("GET {path} HTTP/1.1\r\nHost: {host}\r\n\r\n"),
                status,
            );
        }
    }
    shown.end();
}

/// Each limit is reached without harm, and one more is refused.
#[test]
fn lines_have_their_limits() {
    let shown = Shown::open();
    let host = format!("Host: {}\r\n", shown.at);
    let first = |length: usize| format!("GET /{} HTTP/1.1\r\n{host}\r\n", "a".repeat(length));
    // the words around it, and the line's own end
    let most = FIRST - "GET / HTTP/1.1\r".len();
    refused(&shown, &first(most), 404);
    refused(&shown, &first(most + 1), 414);
    refused(&shown, &"G".repeat(1_000_000), 414);
    let line = |length: usize| format!("GET / HTTP/1.1\r\n{host}a: {}\r\n\r\n", "b".repeat(length));
    refused(&shown, &line(LINE - "a: \r".len()), 200);
    refused(&shown, &line(LINE - "a: \r".len() + 1), 431);
    let lines = |count: usize| format!("GET / HTTP/1.1\r\n{host}{}\r\n", "a: b\r\n".repeat(count));
    refused(&shown, &lines(LINES - 1), 200);
    refused(&shown, &lines(LINES), 431);
    refused(&shown, &lines(100_000), 431);
    shown.end();
}

#[test]
fn a_body_has_its_limits() {
    let shown = Shown::open();
    let host = format!("POST /restart HTTP/1.1\r\nHost: {}\r\n", shown.at);
    let long = "a".repeat(BODY);
    for (rest, status) in [
        ("\r\nkey=00", 411),
        (
            "Transfer-Encoding: chunked\r\n\r\n6\r\nkey=00\r\n0\r\n\r\n",
            411,
        ),
        (
            "Content-Length: 6\r\nTransfer-Encoding: chunked\r\n\r\nkey=00",
            411,
        ),
        ("Content-Length: -1\r\n\r\n", 400),
        ("Content-Length: \r\n\r\n", 400),
        ("Content-Length: 6\r\nContent-Length: 6\r\n\r\nkey=00", 400),
        ("Content-Length: 7\r\n\r\nkey=00", 400),
        ("Content-Length: 99999999999999999999999\r\n\r\n", 413),
        (&format!("Content-Length: {}\r\n\r\n{long}a", BODY + 1), 413),
        // taken, and found to be no key
        (&format!("Content-Length: {BODY}\r\n\r\n{long}"), 400),
        ("Content-Length: 0\r\n\r\n", 400),
    ] {
        refused(&shown, &format!("{host}{rest}"), status);
    }
    assert_eq!(shown.post("key=\u{FC}").status, 400);
    shown.end();
}

/// A request that does not come is not waited for, and others are answered meanwhile.
#[test]
fn the_slow_are_not_waited_for() {
    let shown = Shown::open();
    let mut panel = shown.hall.connect(0);
    let begun = |k: usize| {
        let mut stream = TcpStream::connect(shown.at).unwrap();
        stream.write_all(&b"GET / HTTP/1.1\r\nHost: "[..k]).unwrap();
        stream
    };
    let mut slow: Vec<TcpStream> = (0..VISITORS - 4).map(begun).collect();
    let start = Instant::now();
    assert_eq!(shown.get("/").status, 200);
    panel.ask(&lock(1, 5), 0);
    assert!(start.elapsed() < Duration::from_secs(1));
    for stream in &mut slow {
        // a byte now and then does not help
        stream.write_all(b"G").unwrap();
        assert_eq!(rest(stream).status, 408);
    }
    shown.end();
}

/// Those that are too many are told so; when some have gone others are answered.
#[test]
fn visitors_are_bounded() {
    let shown = Shown::open();
    let held: Vec<TcpStream> = (0..VISITORS)
        .map(|_| TcpStream::connect(shown.at).unwrap())
        .collect();
    until("too many", || shown.get("/").status == 503);
    drop(held);
    until("room again", || shown.get("/").status == 200);
    shown.end();
}

#[test]
fn watchers_are_bounded() {
    let shown = Shown::open();
    let mut watching: Vec<Stream> = (0..WATCHERS).map(|_| shown.watch()).collect();
    let answer = shown.get("/events");
    assert_eq!(answer.status, 503);
    is_guarded(&answer);
    // the page itself is there all the same
    assert_eq!(shown.get("/").status, 200);
    for stream in &mut watching {
        stream.message();
        stream.message();
    }
    assert_eq!(shown.page.board.watchers(), WATCHERS);
    drop(watching);
    until("their end", || shown.page.board.watchers() == 0);
    shown.watch().message();
    shown.end();
}

/// Bytes that follow a rule, so that a failure comes again.
struct Bytes(u64);

impl Bytes {
    fn next(&mut self) -> usize {
        self.0 = self
            .0
            .wrapping_mul(6_364_136_223_846_793_005)
            .wrapping_add(1_442_695_040_888_963_407);
        (self.0 >> 33) as usize
    }

    /// A request with a few bytes changed, left out or put in.
    fn spoiled(&mut self, request: &str) -> Vec<u8> {
        let mut bytes = request.as_bytes().to_vec();
        for _ in 0..=self.next() % 4 {
            let place = self.next() % bytes.len();
            match self.next() % 3 {
                0 => bytes[place] = self.next() as u8,
                1 => drop(bytes.remove(place)),
                _ => bytes.insert(place, self.next() as u8),
            }
        }
        bytes
    }
}

/// Whatever is sent is answered by a status, and the amplifier answers every command between.
#[test]
fn no_request_stops_the_amplifier() {
    let shown = Shown::open();
    let mut panel = shown.hall.connect(0);
    let at = shown.at;
    let requests = [
        format!("GET / HTTP/1.1\r\nHost: {at}\r\nOrigin: http://{at}\r\n\r\n"),
        format!("POST /restart HTTP/1.1\r\nHost: {at}\r\nContent-Length: 6\r\n\r\nkey=00"),
        format!(
            "GET /page.css HTTP/1.1\r\nHost: localhost:{}\r\nAccept: */*\r\n\r\n",
            at.port()
        ),
    ];
    let mut bytes = Bytes(20);
    for k in 0..400 {
        let request = bytes.spoiled(&requests[k % 3]);
        let answer = ask(at, &request);
        assert!(
            [200, 400, 404, 405, 411, 413, 421, 505].contains(&answer.status),
            "{answer:?}"
        );
        panel.send(&wire::asked(&get(k as u32, 5)));
        panel.expect(&reply(k as u32, 0, 1, &[2]));
    }
    assert_eq!(shown.get("/").status, 200);
    assert!(!shown.end().contains("panicked"));
}

/// No address of this machine but its own loopback address leads to the page.
#[test]
fn only_the_loopback_address_is_listened_on() {
    let shown = Shown::open();
    assert!(shown.at.ip().is_loopback());
    // the address by which others would be reached; nothing is sent
    let socket = UdpSocket::bind("0.0.0.0:0").unwrap();
    let own = socket
        .connect("192.0.2.1:9")
        .and_then(|()| socket.local_addr());
    match own.map(|own| own.ip()) {
        Ok(own) if !own.is_loopback() => {
            assert!(TcpStream::connect((own, shown.at.port())).is_err());
        }
        _ => eprintln!("this machine has no other address"),
    }
    shown.end();
}

/// A stream gets the last figures and ends; one who has not asked yet is not waited for.
#[test]
fn the_end_is_told_and_clean() {
    let shown = Shown::open();
    let mut tablet = shown.hall.connect(0);
    tablet.ask(&lock(1, 5), 0);
    let mut stream = shown.watch();
    stream.message();
    let at = shown.at;
    let _idle = TcpStream::connect(at).unwrap();
    let start = Instant::now();
    shown.end();
    assert!(start.elapsed() < Duration::from_secs(2));
    let mut last = stream.message();
    while let Some(message) = stream.next_message() {
        assert!(!last.at("ended").as_bool());
        last = message;
    }
    assert!(last.at("ended").as_bool());
    let lines = last.at("lines").as_list();
    assert_eq!(lines.last().unwrap().at("text").as_str(), "ended");
    assert_eq!(last.at("channels").index(4).at("state").as_str(), "free");
    assert!(TcpStream::connect(at).is_err());
}
