//! Whether the page can be read: on a narrow screen, in a dark hall, on paper; and its picture.

use crate::chromium::json::{Json, quoted};
use crate::chromium::tab::Tab;
use crate::hall::{Peer, free_port};
use crate::visit::Shown;
use crate::wire::{arm, asked, lock, seconds, set, subscribe};
use crate::{KEY, is, looked_at, row_says, says, strip};
use std::{env, fs};

/// Where it names a file the picture of the page is written there.
const VARIABLE: &str = "MELORWYTH_PICTURE";

/// The busiest that there is: eight connections, each with a lock, four subscriptions and half a message.
fn crowd(shown: &Shown) -> Vec<Peer> {
    (1..=8).map(|channel| busy(shown, channel)).collect()
}

/// Every other one has the longest heartbeat in seconds.
fn busy(shown: &Shown, channel: u8) -> Peer {
    let mut peer = shown.hall.connect(channel - 1);
    if channel.is_multiple_of(2) {
        peer.send(&seconds(65_535));
        peer.expect(&seconds(65_535));
    }
    peer.ask(&lock(1, channel.into()), 0);
    for other in 1..=4 {
        peer.ask(&subscribe(2, other, &[]), 0);
    }
    peer.send(&asked(&lock(3, 1))[..usize::from(channel)]);
    peer
}

/// What stands out on the right, or is cut off there.
const OUTSIDE: &str = "[...document.querySelectorAll('body *')]
    .filter((element) => element.getBoundingClientRect().right > document.documentElement.clientWidth + 0.5
        || element.scrollWidth > element.clientWidth + 1 && getComputedStyle(element).overflowX !== 'visible')
    .map((element) => element.tagName + '.' + element.className)
    .join(' ')";

#[test]
fn nothing_scrolls_sideways() {
    let shown = Shown::open();
    let Some((_browser, tab)) = looked_at(&shown, 360) else {
        return;
    };
    let _peers = crowd(&shown);
    says(
        &tab,
        &strip(8, ".left"),
        "free in 2 d 7 h if nothing more is heard",
    );
    row_says(&tab, 7, "subscriptions", "4: channels 1, 2, 3, 4");
    for width in [360, 412, 768, 1_280, 1_920] {
        tab.size(width, 740);
        let script = "[document.documentElement.scrollWidth, document.documentElement.clientWidth]";
        let widths = tab.evaluate(script);
        let [content, window] = [0, 1].map(|k| widths.index(k).as_u64());
        assert!(
            content <= window && window <= u64::from(width),
            "{width}: {widths}"
        );
        assert_eq!(tab.evaluate(OUTSIDE).as_str(), "", "{width}");
    }
    shown.end();
}

/// The least contrast of any text that is seen, and the brightness of the ground, both as WCAG counts them.
const CONTRAST: &str = "(() => {
    const parts = (colour) => colour.match(/[\\d.]+/g).map(Number);
    const linear = (value) => value <= 0.04045 ? value / 12.92 : ((value + 0.055) / 1.055) ** 2.4;
    const light = ([r, g, b]) => 0.2126 * linear(r / 255) + 0.7152 * linear(g / 255) + 0.0722 * linear(b / 255);
    const ground = (element) => {
        const own = element ? parts(getComputedStyle(element).backgroundColor) : [255, 255, 255];
        return own[3] === 0 ? ground(element.parentElement) : light(own);
    };
    const written = (element) => [...element.childNodes].some((node) => node.nodeType === 3 && node.data.trim());
    const seen = [...document.querySelectorAll('body *')].filter((e) => written(e) && e.checkVisibility());
    const ratio = (a, b) => (Math.max(a, b) + 0.05) / (Math.min(a, b) + 0.05);
    const ratios = seen.map((e) => ratio(light(parts(getComputedStyle(e).color)), ground(e)));
    const sizes = seen.map((e) => parseFloat(getComputedStyle(e).fontSize));
    return [seen.length, Math.min(...ratios), ground(document.body), Math.min(...sizes)];
})()";

/// How many texts are seen, their least contrast, the brightness of the ground, the smallest size.
fn contrast(tab: &Tab) -> [f64; 4] {
    let told = tab.evaluate(CONTRAST);
    [0, 1, 2, 3].map(|k| match told.index(k) {
        Json::Number(number) => *number,
        other => panic!("{other} is no number"),
    })
}

#[test]
fn it_is_read_in_the_dark_and_on_paper() {
    let shown = Shown::open();
    let Some((_browser, tab)) = looked_at(&shown, 1_280) else {
        return;
    };
    let _peers = crowd(&shown);
    says(&tab, &strip(8, ".state"), "locked by connection 7");
    let [texts, least, ground, size] = contrast(&tab);
    assert!(
        texts > 100.0 && least >= 7.0 && size >= 16.0,
        "{texts} {least} {size}"
    );
    assert!(ground < 0.02, "{ground}");
    tab.media("print");
    let [texts, least, ground, _] = contrast(&tab);
    assert!(
        texts > 100.0 && least >= 7.0 && ground > 0.95,
        "{texts} {least} {ground}"
    );
    assert!(!is(
        &tab,
        "document.getElementById('restart').checkVisibility()"
    ));
    let bar = "document.querySelector('.strip[data-channel=\"8\"] .bar').getBoundingClientRect().height > 4";
    assert!(is(&tab, bar));
    tab.media("screen");
    shown.end();
    tab.until("its end", "document.body.classList.contains('stale')");
    let [_, least, ground, _] = contrast(&tab);
    assert!(least >= 4.5 && ground < 0.02, "{least} {ground}");
}

/// A tablet that has died with half a message, a panel without a heartbeat, one that watches: the page of docs/DESK.md.
#[test]
fn a_picture_is_taken() {
    let shown = Shown::open();
    let Some((_browser, tab)) = looked_at(&shown, 1_280) else {
        return;
    };
    let mut installer = shown.hall.connect(0);
    installer.ask(&arm(1, KEY, "", free_port()), 0);
    installer.ask(&lock(2, 2), 0);
    let mut tablet = shown.hall.connect(1);
    tablet.send(&seconds(2));
    tablet.expect(&seconds(2));
    tablet.ask(&set(1, 5, 1), 0);
    tablet.ask(&lock(2, 5), 0);
    tablet.send(&asked(&lock(3, 5))[..6]);
    let mut technician = shown.hall.connect(2);
    technician.ask(&subscribe(1, 5, b"foyer"), 0);
    technician.ask(&lock(2, 5), 3);
    // "free in 2.5 s if .."
    let left = quoted(&strip(5, ".left"));
    let left = format!("document.querySelector({left}).textContent.split(' ')[2]");
    tab.until(
        "a bar that is half full",
        &format!("parseFloat({left}) <= 2.5"),
    );
    let picture = tab.picture();
    assert!(picture.starts_with(b"\x89PNG\r\n\x1A\n") && picture.len() > 20_000);
    if let Some(path) = env::var_os(VARIABLE) {
        fs::write(path, picture).unwrap();
    }
    shown.end();
}
