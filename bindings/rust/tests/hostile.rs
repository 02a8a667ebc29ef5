//! Records and areas that no call handed back are refused, and nothing is changed.

mod asking;

use melorwyth::record::{AREA, OUTPUT};
use melorwyth::{Endpoint, Record, Refusal, call, number};

/// A record and area with two connections, a lock, a subscription and undecided bytes.
fn used() -> (Record, [u8; AREA]) {
    let mut endpoint = Endpoint::fresh(0);
    let mut output = [0; OUTPUT];
    for _ in 0..2 {
        endpoint.open().expect("free");
    }
    let lock = asking::asking(1, number::OBJECT_FIRST_MUTE, number::METHOD_LOCK);
    asking::reply(&mut endpoint, 0, &lock);
    asking::reply(&mut endpoint, 1, &asking::adding(2, b"abc"));
    endpoint
        .deliver(1, &lock[..12], &mut output)
        .expect("taken");
    endpoint.into_parts()
}

/// One record for each rule that is broken.
fn broken() -> Vec<Record> {
    let edits: [fn(&mut Record); 9] = [
        |record| record.device.mutes[7] = 3,
        |record| record.device.holders[1] = 8,
        |record| record.device.connections[5].silence = 1,
        |record| record.device.connections[0].form = 1,
        |record| record.device.subscriptions[0].context[3] = 1,
        |record| record.device.subscriptions[1] = record.device.subscriptions[0],
        |record| record.device.subscriptions[31].waiting = true,
        |record| record.device.mechanism.port = 1,
        |record| record.held[0] = 2_049,
    ];
    let (sound, _) = used();
    edits
        .iter()
        .map(|edit| {
            let mut record = sound;
            edit(&mut record);
            record
        })
        .collect()
}

/// Every call that is lent record and area is refused by that number, and changes nothing.
fn all_refuse(record: Record, area: &[u8], number: u8) {
    let mut lent = area.to_vec();
    let mut output = [7; OUTPUT];
    let piece = [0x3B, 0];
    let delivered = call::deliver(record, &mut lent, 0, &piece, &mut output);
    let ticked = call::tick(record, &mut lent, 1);
    let closed = call::close(record, &mut lent, 0);
    let reset = call::datagram(record, &mut lent, &piece);
    let refused = [
        (delivered.number, delivered.record),
        (ticked.number, ticked.record),
        (closed.number, closed.record),
        (reset.number, reset.record),
    ];
    assert_eq!(refused, [(number, record); 4]);
    assert_eq!((lent.as_slice(), output), (area, [7; OUTPUT]));
    let refusal = Refusal::from_numbers(number, 0);
    assert_eq!(Endpoint::resume(record, area).err(), refusal);
}

#[test]
fn a_broken_record_is_refused_whatever_the_area() {
    let (_, area) = used();
    for record in broken() {
        all_refuse(record, &area, 1);
        all_refuse(record, &[], 1);
        let opened = call::open(record);
        assert_eq!((opened.number, opened.record), (1, record));
        let mut output = [7; OUTPUT];
        let taken = call::take(record, &mut output);
        assert_eq!((taken.number, taken.record), (1, record));
        assert_eq!(output, [7; OUTPUT]);
    }
}

#[test]
fn an_area_of_another_length_is_refused() {
    let (record, area) = used();
    let longer = [area.as_slice(), &[0]].concat();
    for wrong in [&[], &area[..AREA - 1], &longer] {
        all_refuse(record, wrong, 2);
        let mut lent = wrong.to_vec();
        assert_eq!(call::clear(&mut lent).done(), Err(Refusal::BadArea));
        assert_eq!(lent, wrong);
    }
}

#[test]
fn an_area_of_another_record_is_refused() {
    let (record, area) = used();
    all_refuse(record, &[0; AREA], 2);
    for place in [0, 12 + AREA / 8, AREA - 1] {
        let mut wrong = area;
        wrong[place] ^= 1;
        all_refuse(record, &wrong, 2);
    }
}

#[test]
fn what_was_kept_goes_on_where_it_was() {
    let (record, area) = used();
    let mut endpoint = Endpoint::resume(record, &area).expect("they go together");
    assert!(endpoint.area() == &area && endpoint.record() == &record);
    // The rest of the lock comes in: the other connection holds it.
    let lock = asking::asking(1, number::OBJECT_FIRST_MUTE, number::METHOD_LOCK);
    let reply = asking::reply(&mut endpoint, 1, &lock[12..]);
    let status = melorwyth::read_entry(&reply, 0).map(|entry| entry.status);
    assert_eq!(status, Ok(number::STATUS_HELD_BY_OTHER));
}

#[test]
fn an_area_is_cleared() {
    let mut area = [0xFF; AREA];
    assert_eq!(call::clear(&mut area).number, number::DONE);
    assert_eq!(area, [0; AREA]);
}
