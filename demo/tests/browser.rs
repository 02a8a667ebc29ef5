//! The page in a real browser: a headless Chromium, where there is one; else the tests say that they are skipped.

mod chromium;
#[allow(dead_code)]
mod hall;
mod seeing;
#[allow(dead_code)]
mod visit;
#[allow(dead_code)]
mod wire;

use chromium::Browser;
use chromium::json::{self, Json, quoted};
use chromium::tab::Tab;
use demo::board::LINES;
use demo::page::{PACE, Page, WATCHERS};
use demo::restart::Key;
use demo::script;
use demo::session::Session;
use hall::{Log, free_port, until};
use std::net::TcpListener;
use std::thread;
use visit::{Shown, Stream};
use wire::{arm, lock, set};

const KEY: Key = *b"\x00front desk key\xFF";
const HEX: &str = "0066726F6E74206465736B206B6579FF";
const OTHER: &str = "0066726F6E74206465736B206B6558FF";

/// The page in a window, in contact; nothing where there is no browser.
fn looked_at(shown: &Shown, width: u32) -> Option<(Browser, Tab)> {
    let browser = Browser::start()?;
    let tab = browser.open(&format!("http://{}/", shown.at));
    tab.size(width, 900);
    in_contact(&tab);
    Some((browser, tab))
}

fn in_contact(tab: &Tab) {
    says(tab, "#contact", "in contact");
    tab.until(
        "eight strips",
        "document.querySelectorAll('#channels .strip').length === 8",
    );
    assert!(!is(tab, "document.body.classList.contains('stale')"));
}

fn is(tab: &Tab, script: &str) -> bool {
    tab.evaluate(script).as_bool()
}

/// Waits until an element says this.
fn says(tab: &Tab, selector: &str, text: &str) {
    let element = format!("document.querySelector({})", quoted(selector));
    let script = format!("{element}.textContent.trim() === {}", quoted(text));
    tab.until(&format!("{selector}: {text}"), &script);
}

/// What a connection's row says.
fn row_says(tab: &Tab, n: u8, name: &str, text: &str) {
    let rows = format!("[...document.querySelectorAll('[data-connection=\"{n}\"] dt')]");
    let row = format!("{rows}.find((dt) => dt.textContent === {})", quoted(name));
    let script = format!("{row}.nextElementSibling.textContent === {}", quoted(text));
    tab.until(&format!("connection {n}, {name}: {text}"), &script);
}

fn strip(channel: u32, part: &str) -> String {
    format!("#channels .strip[data-channel=\"{channel}\"] {part}")
}

/// Everything came from the page's own server, and nothing was complained of but this.
fn is_clean(shown: &Shown, tab: &Tab, known: &str) {
    let own = format!("http://{}/", shown.at);
    let elsewhere = |url: &String| !url.starts_with(&own) && url != "data:,";
    assert_eq!(tab.requested().into_iter().find(elsewhere), None);
    let strange = |complaint: &String| known.is_empty() || !complaint.contains(known);
    assert_eq!(tab.complaints().into_iter().find(strange), None);
}

/// After each message the page keeps what channel 5 shows then, as one would see it.
const KEEP: &str = "
    window.kept = [];
    const strip = document.querySelector('.strip[data-channel=\"5\"]');
    const [state, since, left, bar] = ['.state', '.since', '.left', '.bar'].map((part) => strip.querySelector(part));
    const keep = () => kept.push({
        reading: parseInt(document.getElementById('reading').textContent),
        state: state.textContent,
        since: since.textContent,
        left: left.textContent,
        bar: bar.getBoundingClientRect().height > 4,
        now: Number(bar.getAttribute('aria-valuenow')),
        most: Number(bar.getAttribute('aria-valuemax')),
        told: bar.getAttribute('aria-valuetext'),
        share: bar.querySelector('.filled').getBoundingClientRect().width / bar.clientWidth || 0,
    });
    const all = { childList: true, characterData: true, subtree: true };
    new MutationObserver(keep).observe(document.getElementById('reading'), all);
    0";

/// The technician's question, with a heartbeat of 2 s: bar and seconds move, and the tick that closes frees.
#[test]
fn the_technicians_question() {
    let shown = Shown::open();
    let Some((_browser, tab)) = looked_at(&shown, 1_280) else {
        return;
    };
    says(&tab, "#nobody", "no controller is connected");
    says(&tab, &strip(5, ".state"), "free");
    tab.evaluate(KEEP);
    let address = shown.hall.address;
    let playing = thread::spawn(move || {
        // the program's end would hang up
        let question = script::QUESTION.replace("quit", "leave");
        let question = script::parse(&question).unwrap();
        Session::new(address, Log::default()).obey(question)
    });
    says(&tab, &strip(5, ".state"), "locked by connection 0");
    says(&tab, &strip(5, ".mute"), "muted");
    let half = "6 bytes of an unfinished message: they do not count as heard";
    row_says(&tab, 0, "undecided", half);
    row_says(&tab, 0, "heartbeat", "2 s, set in seconds");
    playing.join().unwrap().unwrap();
    says(&tab, "#nobody", "no controller is connected");
    says(&tab, &strip(5, ".mute"), "unmuted");
    is_lapsing(&shown, tab.evaluate("kept").as_list());
    let (_, last) = shown.hall.log.line("closed connection 1");
    says(&tab, "#events li .text", &last);
    is_clean(&shown, &tab, "");
    shown.end();
}

/// What was seen of channel 5 while the tablet lapsed, against the amplifier's lines.
fn is_lapsing(shown: &Shown, kept: &[Json]) {
    let heard = shown.hall.log.time("connection 0 locked channel 5");
    let closed = shown.hall.log.time("closed connection 0");
    let held = |moment: &Json| moment.at("state").as_str() == "locked by connection 0";
    let first = kept.iter().position(held).unwrap();
    let locked = kept[first..].iter().take_while(|moment| held(moment));
    let locked: Vec<&Json> = locked.collect();
    assert!(locked.len() >= 20, "{}", locked.len());
    for moment in &locked {
        is_moment(moment, heard);
        assert!(moment.at("reading").as_u64() < u64::from(closed));
    }
    let silences: Vec<u64> = locked.iter().map(|m| m.at("now").as_u64()).collect();
    assert!(silences.is_sorted_by(|one, next| one < next));
    assert!(silences[0] < 1_000 && silences[silences.len() - 1] > 5_000);
    let free = &kept[first + locked.len()];
    assert_eq!(free.at("state").as_str(), "free");
    assert_eq!(free.at("since").as_str(), format!("since {closed} ms"));
    assert_eq!(free.at("left").as_str(), "");
    assert!(!free.at("bar").as_bool());
}

/// One moment: the bar, the seconds and the clock are those of one record.
fn is_moment(moment: &Json, heard: u32) {
    let (now, most) = (moment.at("now").as_u64(), moment.at("most").as_u64());
    assert_eq!(most, 6_000);
    assert_eq!(moment.at("reading").as_u64() - now, u64::from(heard));
    let Json::Number(share) = *moment.at("share") else {
        panic!("{moment}");
    };
    assert!((share - now as f64 / 6_000.0).abs() < 0.02, "{moment}");
    let tenths = (most - now).div_ceil(100);
    let left = format!("{}.{} s", tenths / 10, tenths % 10);
    let left = format!("free in {left} if nothing more is heard");
    assert_eq!(moment.at("left").as_str(), left);
    assert_eq!(moment.at("told").as_str(), left);
    assert!(moment.at("bar").as_bool());
}

#[test]
fn without_a_heartbeat_there_is_no_bar() {
    let shown = Shown::open();
    let Some((_browser, tab)) = looked_at(&shown, 1_280) else {
        return;
    };
    let mut tablet = shown.hall.connect(0);
    tablet.ask(&lock(1, 8), 0);
    says(&tab, &strip(8, ".state"), "locked by connection 0");
    let words = "no heartbeat: only the host's close or the controller frees it";
    says(&tab, &strip(8, ".left"), words);
    let bar = format!(
        "document.querySelector({}).hidden",
        quoted(&strip(8, ".bar"))
    );
    assert!(is(&tab, &bar));
    tab.until("the title", "document.title === '1 locked - the rack'");
    drop(tablet);
    says(&tab, &strip(8, ".state"), "free");
    shown.end();
}

/// From the chair, by keys alone: a wrong key, then the right one; neither is to be seen anywhere.
#[test]
fn the_restart_by_keys_alone() {
    let shown = Shown::open();
    let Some((_browser, tab)) = looked_at(&shown, 1_280) else {
        return;
    };
    says(&tab, "#armed", "not armed: no reset key is set");
    let port = free_port();
    let mut tablet = shown.hall.connect(0);
    tablet.ask(&arm(1, KEY, "", port), 0);
    tablet.ask(&set(2, 5, 1), 0);
    tablet.ask(&lock(3, 5), 0);
    let armed = format!("armed on UDP port {port}: listening on 127.0.0.1:{port}");
    says(&tab, "#armed", &armed);
    says(&tab, &strip(5, ".state"), "locked by connection 0");
    to_the_key(&tab);
    send(&tab, &OTHER[1..], "a key is 32 hex digits, and this has 31");
    let wrong = "a datagram of 24 bytes changed nothing: this is not the key that was set last";
    send(&tab, OTHER, wrong);
    assert!(is(&tab, "document.getElementById('lost').hidden"));
    let line = "closed connection 0; channel 5 is free; channel 5 is unmuted";
    send(&tab, HEX, &format!("reset by key: {line}"));
    assert!(tablet.is_closed());
    let at = shown.hall.log.time("reset by key");
    says(&tab, "#lost .when", &format!("restarted at {at} ms"));
    let lost = tab.evaluate(
        "[...document.querySelectorAll('#lost li')].map((li) => li.textContent).join('; ')",
    );
    let key = "the reset key: it is not armed until one is set again";
    assert_eq!(lost.as_str(), format!("{line}; {key}"));
    says(&tab, "#armed", "not armed: no reset key is set");
    says(&tab, &strip(5, ".state"), "free");
    says(&tab, &strip(5, ".mute"), "unmuted");
    // what the browser says of an answer that is no 200
    is_clean(&shown, &tab, "Failed to load resource");
    shown.end();
}

/// Presses Tab until the key's field has the focus.
fn to_the_key(tab: &Tab) {
    let there = |tab: &Tab| is(tab, "document.activeElement.id === 'key'");
    let mut presses = 0;
    while !there(tab) {
        assert!(presses < 5, "the field is not reached");
        tab.key("Tab");
        presses += 1;
    }
    let hidden = "document.activeElement.type === 'password'";
    assert!(is(tab, hidden), "what is typed would be shown");
    let outline = "getComputedStyle(document.activeElement).outlineStyle !== 'none'";
    assert!(is(tab, outline), "the focus is not seen");
}

/// Types a key into the field, which has the focus, and sends it by Enter; then it is nowhere.
fn send(tab: &Tab, key: &str, answer: &str) {
    tab.type_text(key);
    let typed = tab.evaluate("document.getElementById('key').value");
    assert_eq!(typed.as_str(), key);
    tab.key("Enter");
    says(tab, "#answer", answer);
    let seen = "document.documentElement.outerHTML + document.getElementById('key').value \
        + location.href + document.cookie + JSON.stringify([{...localStorage}, {...sessionStorage}])";
    let seen = tab.evaluate(seen).as_str().to_lowercase();
    assert!(!seen.contains(&key[..8].to_lowercase()));
    assert!(!seen.contains(&key[key.len() - 8..].to_lowercase()));
}

/// The newest first, and no more than are kept.
#[test]
fn the_events_are_bounded() {
    let shown = Shown::open();
    let Some((_browser, tab)) = looked_at(&shown, 1_280) else {
        return;
    };
    let mut tablet = shown.hall.connect(0);
    for k in 0..LINES as u32 {
        tablet.ask(&set(k, 5, 1 + k as u8 % 2), 0);
    }
    tablet.ask(&lock(1, 5), 0);
    says(&tab, "#events li .text", "connection 0 locked channel 5");
    let (at, _) = shown.hall.log.line("connection 0 locked channel 5");
    says(&tab, "#events li .at", &format!("{at} ms"));
    let count = tab.evaluate("document.querySelectorAll('#events li').length");
    assert_eq!(count.as_u64(), LINES as u64);
    shown.end();
}

/// One too many gets no stream; it asks again by itself, until there is room.
#[test]
fn one_too_many_comes_again() {
    let shown = Shown::open();
    let watching: Vec<Stream> = (0..WATCHERS).map(|_| shown.watch()).collect();
    let Some(browser) = Browser::start() else {
        return;
    };
    let tab = browser.open(&format!("http://{}/", shown.at));
    let asked = || {
        let urls = tab.requested();
        urls.iter().filter(|url| url.ends_with("/events")).count()
    };
    until("a second try", || asked() >= 2);
    says(&tab, "#contact", "no contact with the amplifier yet");
    drop(watching);
    in_contact(&tab);
    is_clean(&shown, &tab, "503");
    shown.end();
}

/// The amplifier ends and another begins: the figures are said to be old, and then they are those of the other.
#[test]
fn contact_is_lost_and_found() {
    let shown = Shown::open();
    let Some((_browser, tab)) = looked_at(&shown, 1_280) else {
        return;
    };
    let mut tablet = shown.hall.connect(0);
    tablet.ask(&lock(1, 5), 0);
    says(&tab, &strip(5, ".state"), "locked by connection 0");
    let at = shown.at;
    shown.end();
    says(
        &tab,
        "#contact",
        "the amplifier has ended: these are its last figures",
    );
    assert!(is(&tab, "document.body.classList.contains('stale')"));
    says(&tab, "#events li .text", "ended");
    let page = Page::on(TcpListener::bind(at).unwrap(), PACE).unwrap();
    let shown = Shown::on(page, 0, |desk| desk);
    in_contact(&tab);
    let lines = "document.querySelectorAll('#events li').length === 2";
    tab.until("the lines of the other", lines);
    says(
        &tab,
        "#events li .text",
        &format!("the page is at http://{at}/"),
    );
    shown.end();
}
