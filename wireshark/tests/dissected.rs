//! Messages laid out by hand, through tshark: no archive is needed. Where there is no tshark nothing is tried.

use wireshark::capture::{Capture, Side};
use wireshark::comparison::{Sent, compare};
use wireshark::message::{Entry, Message};
use wireshark::tshark;

fn told(sent: &[Sent], file: &[u8]) -> Option<Vec<String>> {
    tshark::version().ok()?;
    let verdict = compare(sent, &tshark::page(file).unwrap());
    let differences = verdict.differences.into_iter();
    Some(differences.map(|difference| difference.told).collect())
}

fn captured(sent: &[Sent]) -> Capture {
    let mut capture = Capture::default();
    capture.open();
    for sent in sent {
        capture.send(0, sent.from, &sent.message.bytes());
    }
    capture
}

fn sent(from: Side, message: Message) -> Sent {
    Sent {
        stream: 0,
        from,
        message,
    }
}

fn beats(values: &[u16]) -> Vec<Sent> {
    let each = values.iter();
    each.map(|value| sent(Side::Controller, Message::Seconds(*value)))
        .collect()
}

fn notification(context: &[u8]) -> Entry {
    Entry::Notification {
        target: 9,
        method: (3, 1),
        count: 2,
        context: context.to_vec(),
        emitter: 4_097,
        event: (1, 1),
        parameters: vec![0, 4, 0, 1, 1, 1],
    }
}

/// The starred notification, and then one for each length.
#[test]
fn contexts_of_every_length_are_dissected() {
    let notified = |entries| sent(Side::Device, Message::Entries { kind: 2, entries });
    let starred = notified(vec![notification(&[1, 2, 3, 4])]);
    let bytes = [
        0x3B, 0, 1, 0, 0, 0, 42, 2, 0, 1, 0, 0, 0, 33, 0, 0, 0, 9, 0, 3, 0, 1, 2, 0, 4, 1, 2, 3, 4,
        0, 0, 0x10, 1, 0, 1, 0, 1, 0, 4, 0, 1, 1, 1,
    ];
    assert_eq!(starred.message.bytes(), bytes);
    let lengths: Vec<Entry> = (0..=64)
        .map(|length| notification(&vec![length; usize::from(length)]))
        .collect();
    let mut all = vec![starred];
    all.extend(lengths.chunks(1).map(|one| notified(one.to_vec())));
    all.extend(lengths.chunks(20).map(|many| notified(many.to_vec())));
    let told = told(&all, captured(&all).file());
    assert_eq!(told.unwrap_or_default(), Vec::<String>::new());
}

#[test]
fn a_message_too_many_or_too_few_is_found() {
    let (three, two) = (beats(&[1, 2, 3]), beats(&[1, 2]));
    let Some(found) = told(&two, captured(&three).file()) else {
        return;
    };
    assert_eq!(found, ["frame 8, from the controller: shown and not sent"]);
    let found = told(&three, captured(&two).file()).unwrap();
    assert_eq!(
        found,
        ["message 2, from the controller: sent and not shown"]
    );
    let found = told(&beats(&[2, 1]), captured(&two).file()).unwrap();
    assert_eq!(found.len(), 2);
    assert!(
        found[0].ends_with(
            "time 2s (2 bytes at 10), tshark shows ocp1.heartbeat.time 1s (2 bytes at 10)"
        )
    );
}

/// Seconds are not milliseconds, though the number is the same.
#[test]
fn the_other_form_is_found() {
    let milliseconds = [sent(Side::Controller, Message::Milliseconds(2))];
    let told = told(&beats(&[2]), captured(&milliseconds).file());
    assert!(told.is_none_or(|told| told.len() == 1 && told[0].contains("ocp1.size")));
}

#[test]
fn a_response_to_what_was_not_asked_is_found_where_the_device_sends_it() {
    let entries = vec![Entry::Response {
        handle: 7,
        status: 0,
        count: 0,
        parameters: Vec::new(),
    }];
    let response = Message::Entries { kind: 3, entries };
    for (from, differences) in [(Side::Controller, 0), (Side::Device, 1)] {
        let all = [sent(from, response.clone())];
        let told = told(&all, captured(&all).file());
        assert!(told.is_none_or(|told| told.len() == differences));
    }
}

/// The file has its header, three frames of an opening, then two for each keep-alive, which is acknowledged.
#[test]
fn a_broken_capture_is_found() {
    let all = beats(&[1, 2, 3]);
    let file = captured(&all).file().to_vec();
    let second = 24 + 3 * 70 + 82 + 70;
    assert_eq!(file.len(), second + 2 * (82 + 70));
    // in turn: the IPv4 checksum, the TCP checksum, the heartbeat
    for place in [40, 66, 81] {
        let mut broken = file.clone();
        broken[second + place] ^= 1;
        let told = told(&all, &broken);
        assert!(told.is_none_or(|told| told[0].to_lowercase().contains("checksum")));
    }
    let lost = [&file[..second], &file[second + 82..]].concat();
    let again = [&file[..second + 152], &file[second..]].concat();
    for broken in [lost, again] {
        let told = told(&all, &broken);
        assert!(told.is_none_or(|told| told[0].contains("TCP Analysis Flags")));
    }
}
