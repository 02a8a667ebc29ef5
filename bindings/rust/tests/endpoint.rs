//! The endpoint with its record and area in one.

mod asking;

use asking::{adding, arming, asking, keep_alive, reply, setting, status};
use melorwyth::record::{AREA, DATAGRAM, LONGEST_REPLY, OUTPUT, SENTINEL};
use melorwyth::{
    Endpoint, Fault, Heartbeat, Outcome, Record, Refusal, SendingKind, Status, number,
};

/// Record and area as they are now.
fn state(endpoint: &Endpoint) -> (Record, [u8; AREA]) {
    (*endpoint.record(), *endpoint.area())
}

/// One with so many connections.
fn opened(connections: u8) -> Endpoint {
    let mut endpoint = Endpoint::fresh(0);
    for n in 0..connections {
        assert_eq!(endpoint.open(), Ok(n));
    }
    endpoint
}

#[test]
fn a_fresh_one_is_at_its_reading_and_closed() {
    let endpoint = Endpoint::fresh(4_000_000_000);
    let device = &endpoint.record().device;
    assert_eq!(device.reading, 4_000_000_000);
    assert!(device.connections.iter().all(|connection| !connection.live));
    assert_eq!(device.mutes, [number::UNMUTED; 8]);
    assert_eq!(device.holders, [0; 8]);
    assert!(!device.mechanism.armed);
    assert_eq!(endpoint.area(), &[0; AREA]);
}

#[test]
fn the_ninth_connection_is_refused() {
    let mut endpoint = opened(8);
    let before = state(&endpoint);
    assert_eq!(endpoint.open(), Err(Refusal::TableFull));
    assert!(state(&endpoint) == before);
    // The lowest that is free is opened.
    endpoint.close(3).expect("open");
    assert_eq!(endpoint.open(), Ok(3));
}

#[test]
fn a_connection_that_is_not_open_is_refused() {
    let mut endpoint = opened(2);
    let before = state(&endpoint);
    let mut output = [7; OUTPUT];
    for n in [2, 7, 8, 255] {
        assert_eq!(endpoint.close(n), Err(Refusal::NoConnection));
        let delivered = endpoint.deliver(n, &[0x3B], &mut output);
        assert_eq!(delivered, Err(Refusal::NoConnection));
    }
    assert!(state(&endpoint) == before);
    assert_eq!(output, [7; OUTPUT]);
}

#[test]
fn an_output_too_short_is_refused() {
    let mut endpoint = opened(1);
    let before = state(&endpoint);
    let mut output = [7; OUTPUT - 1];
    assert_eq!(endpoint.take(&mut output), Err(Refusal::NoRoom));
    let lock = asking(1, number::OBJECT_FIRST_MUTE, number::METHOD_LOCK);
    assert_eq!(
        endpoint.deliver(0, &lock, &mut output),
        Err(Refusal::NoRoom)
    );
    assert!(state(&endpoint) == before);
    assert_eq!(output, [7; OUTPUT - 1]);
}

#[test]
fn a_message_is_decided_by_its_last_byte() {
    let message = asking(5, number::OBJECT_FIRST_MUTE, number::METHOD_LOCK);
    for cut in 1..message.len() {
        let mut endpoint = opened(1);
        let mut output = [0; OUTPUT];
        let first = endpoint.deliver(0, &message[..cut], &mut output);
        let first = first.expect("taken");
        assert_eq!((first.taken, first.outcome), (cut, Outcome::More));
        assert_eq!(endpoint.record().held[0], cut as u16);
        assert_eq!(endpoint.area()[..cut], message[..cut]);
        // More is offered than belongs to the message.
        let mut rest = message[cut..].to_vec();
        rest.extend(&message);
        let second = endpoint.deliver(0, &rest, &mut output).expect("taken");
        assert_eq!(second.taken, message.len() - cut);
        let Outcome::Message(reply) = second.outcome else {
            panic!("{second:?}")
        };
        assert_eq!(
            melorwyth::read_entry(reply, 0).map(|entry| entry.handle),
            Ok(5)
        );
        assert_eq!(endpoint.record().held, [0; 8]);
    }
}

#[test]
fn a_reply_is_the_front_of_the_output_and_no_more() {
    let mut endpoint = opened(1);
    let mut output = [0xEE; OUTPUT];
    let get = asking(9, number::object_channel(4), number::METHOD_GET);
    let delivery = endpoint.deliver(0, &get, &mut output).expect("taken");
    let Outcome::Message(reply) = delivery.outcome else {
        panic!("{delivery:?}")
    };
    let length = reply.len();
    assert_eq!(melorwyth::read_message(reply).map(|m| m.length), Ok(length));
    assert_eq!(melorwyth::entry_part(reply, 0), [number::UNMUTED]);
    assert!(output[length..].iter().all(|byte| *byte == 0xEE));
}

#[test]
fn the_longest_reply_fits() {
    let mut endpoint = opened(1);
    let class = |handle| asking::command(handle, 4_097, number::METHOD_CLASS, 0, &[]);
    let message = asking::commands(&(0..119).map(class).collect::<Vec<_>>());
    assert_eq!(reply(&mut endpoint, 0, &message).len(), LONGEST_REPLY);
}

#[test]
fn commands_that_want_no_reply_get_an_empty_one() {
    let mut endpoint = opened(1);
    let mut message = asking(1, 4_097, number::METHOD_LOCK);
    message[7] = number::TYPE_COMMAND;
    assert_eq!(reply(&mut endpoint, 0, &message), []);
    assert_eq!(endpoint.record().device.holders[0], 1);
}

#[test]
fn every_fault_closes_and_is_told() {
    let sound = asking(1, 4_097, number::METHOD_LOCK);
    for (place, byte, fault) in [
        (0, 0x3A, Fault::Start),
        (2, 2, Fault::Version),
        (6, 8, Fault::Size),
        (7, 5, Fault::Type),
        (9, 0, Fault::Count),
        (13, 18, Fault::Data),
    ] {
        let mut endpoint = opened(1);
        let mut output = [0; OUTPUT];
        let mut message = sound.clone();
        message[place] = byte;
        let delivery = endpoint.deliver(0, &message, &mut output).expect("taken");
        assert_eq!(delivery.outcome, Outcome::Closed(fault));
        assert!(!endpoint.record().device.connections[0].live);
        assert_eq!(endpoint.close(0), Err(Refusal::NoConnection));
    }
}

#[test]
fn silent_connections_are_closed_at_three_heartbeats() {
    let mut endpoint = opened(4);
    for (n, milliseconds) in [(0, 1_000), (2, 999), (3, 1_000)] {
        let beat = Heartbeat::Milliseconds(milliseconds);
        reply(&mut endpoint, n, &keep_alive(beat));
    }
    let closures = endpoint.tick(2_999).expect("time");
    assert_eq!((closures.mask(), closures.len()), (0b100, 1));
    assert_eq!(endpoint.tick(2_998), Err(Refusal::ClockBack));
    let closures = endpoint.tick(3_000).expect("time");
    assert_eq!(closures.into_iter().collect::<Vec<_>>(), [0, 3]);
    for n in 0..=255 {
        assert_eq!(closures.contains(n), n == 0 || n == 3, "{n}");
    }
    assert!(endpoint.record().device.connections[1].live);
    assert!(endpoint.tick(4_000).expect("time").is_empty());
}

#[test]
fn what_is_to_be_sent_is_taken_until_there_is_nothing() {
    let mut endpoint = opened(3);
    let mut output = [0xEE; OUTPUT];
    assert_eq!(
        status(&mut endpoint, 2, &adding(5, b"rack")),
        Status::CarriedOut
    );
    let beat = Heartbeat::Seconds(9);
    reply(&mut endpoint, 1, &keep_alive(beat));
    assert_eq!(endpoint.take(&mut output), Ok(None));
    assert!(endpoint.tick(9_000).expect("time").is_empty());
    assert_eq!(
        status(&mut endpoint, 0, &setting(5, number::MUTED)),
        Status::CarriedOut
    );

    let sending = endpoint.take(&mut output).expect("room").expect("a change");
    assert_eq!(
        (sending.connection, sending.kind),
        (2, SendingKind::Notification)
    );
    assert_eq!(melorwyth::entry_context(sending.message, 0), b"rack");
    assert_eq!(
        melorwyth::entry_part(sending.message, 0),
        [0, 4, 0, 1, 1, 1]
    );
    let sending = endpoint.take(&mut output).expect("room").expect("one due");
    assert_eq!(
        (sending.connection, sending.kind),
        (1, SendingKind::KeepAlive)
    );
    assert_eq!(sending.message, keep_alive(beat));
    assert_eq!(endpoint.take(&mut output), Ok(None));
}

#[test]
fn a_datagram_of_sentinel_and_key_resets() {
    let key = *b"sixteen bytes !!";
    let mut datagram = [SENTINEL.as_slice(), &key].concat();
    assert_eq!(datagram.len(), DATAGRAM);
    let mut endpoint = opened(2);
    assert_eq!(endpoint.datagram(&datagram), Ok(false));
    assert_eq!(
        status(&mut endpoint, 1, &arming(&key, 5_000)),
        Status::CarriedOut
    );
    let mechanism = endpoint.record().device.mechanism;
    assert_eq!((mechanism.armed, mechanism.port), (true, 5_000));

    datagram.push(0);
    assert_eq!(endpoint.datagram(&datagram), Ok(false));
    assert!(endpoint.record().device.connections[1].live);
    datagram.pop();
    assert_eq!(endpoint.datagram(&datagram), Ok(true));
    assert!(state(&endpoint) == state(&Endpoint::fresh(0)));
}

#[test]
fn a_key_is_in_no_log() {
    let key = [0xA7; 16];
    let mut endpoint = opened(1);
    assert_eq!(
        status(&mut endpoint, 0, &arming(&key, 5_000)),
        Status::CarriedOut
    );
    // The rest of another is still undecided, and lies in the area.
    let mut output = [0; OUTPUT];
    let half = &arming(&key, 5_001)[..44];
    endpoint.deliver(0, half, &mut output).expect("taken");
    assert!(endpoint.area().windows(16).any(|bytes| bytes == key));
    let text = format!("{endpoint:?}");
    assert!(
        text.contains("port: 5000") && text.contains("silence"),
        "{text}"
    );
    assert!(!text.contains(&0xA7.to_string()), "{text}");
}
