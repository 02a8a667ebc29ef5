//! What the comparison has to find, and what it has to let pass. Where there is no tshark nothing is tried.

use wireshark::slips::{self, Slip};
use wireshark::tshark;

fn unfound(slips: &[Slip]) -> Option<Vec<String>> {
    tshark::version()
        .ok()
        .map(|_| slips::unfound(slips).unwrap())
}

#[test]
fn right_messages_pass() {
    let slips = slips::right();
    let names: Vec<String> = slips.iter().map(|slip| slip.name.clone()).collect();
    assert!(unfound(&slips).is_none_or(|unfound| unfound == names));
}

#[test]
fn every_flipped_byte_is_found() {
    let slips = slips::flipped();
    assert!(slips.len() > 400);
    assert_eq!(unfound(&slips).unwrap_or_default(), Vec::<String>::new());
}

#[test]
fn every_older_context_is_found() {
    let slips = slips::older();
    // the starred notification as it was before its context had a count
    let starred = [
        0x3B, 0, 1, 0, 0, 0, 0x28, 2, 0, 1, 0, 0, 0, 0x1F, 0, 0, 0, 9, 0, 3, 0, 1, 2, 1, 2, 3, 4,
        0, 0, 0x10, 1, 0, 1, 0, 1, 0, 4, 0, 1, 1, 1,
    ];
    assert_eq!(slips[0].bytes, starred);
    assert_eq!(unfound(&slips).unwrap_or_default(), Vec::<String>::new());
}
