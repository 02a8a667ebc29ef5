//! Reset by key: every text, length and count of 3.14, every bit of a
//! datagram, every rule of the mechanism, and resets of busy devices.

use super::states::calls_on;
use crate::harness::damage;
use crate::harness::desk::Desk;
use crate::harness::reset::{GOOD_TEXTS, KEYS, WRONG_TEXTS, asking, flipped, setting, stated};
use crate::harness::session::Checked;
use crate::harness::traffic::{command, keep_alive, message};
use crate::record::Mechanism;

/// The most bytes of text that a message can carry.
const LONGEST_TEXT: usize = 2_002;

/// A key of its own for each number.
fn numbered(number: usize) -> [u8; 16] {
    let mut key = KEYS[2];
    key[14..].copy_from_slice(&(number as u16).to_be_bytes());
    key
}

/// Every text by itself, then which key counts: the new one or the one before.
pub fn every_text(desk: &mut Desk<'_, '_>) -> Checked<()> {
    desk.open()?;
    desk.open()?;
    let mut texts: Vec<Vec<u8>> = WRONG_TEXTS.map(<[u8]>::to_vec).to_vec();
    texts.extend(GOOD_TEXTS.map(<[u8]>::to_vec));
    texts.extend(long_texts());
    for round in 0..2 {
        for (place, text) in texts.iter().enumerate() {
            let number = round * texts.len() + place;
            desk.set_key((number % 2) as u8, &setting(&numbered(number), text, 9))?;
            for key in [numbered(number), numbered(number.saturating_sub(1))] {
                let call = desk.resetting(&asking(&key));
                desk.session.check(call)?;
            }
        }
    }
    Ok(())
}

/// A right text with more behind or before it, and runs of one character.
fn long_texts() -> Vec<Vec<u8>> {
    let mut texts = Vec::new();
    for length in [16, 255, 256, 1_000, LONGEST_TEXT] {
        for character in [b'0', b'1', b'.', b' ', 0, 255] {
            texts.push(vec![character; length]);
            let mut behind = b"224.1.2.3".to_vec();
            behind.resize(length, character);
            texts.push(behind.clone());
            behind.rotate_left(9);
            texts.push(behind);
        }
    }
    texts
}

/// Every number from 0 to 299 in each part, and with zeros before it.
pub fn every_part(desk: &mut Desk<'_, '_>) -> Checked<()> {
    desk.open()?;
    let mut entries = Vec::new();
    for number in 0..300 {
        let mut texts = vec![
            format!("{number}.0.0.1"),
            format!("224.{number}.0.1"),
            format!("239.0.{number}.1"),
            format!("232.1.2.{number}"),
        ];
        if number < 120 {
            texts.push(format!("232.1.{number:02}.3"));
            texts.push(format!("232.{number:03}.2.3"));
        }
        for text in texts {
            let parameters = setting(&numbered(entries.len()), text.as_bytes(), 7);
            entries.push(command(1, 1, (3, 14), 2, &parameters));
        }
    }
    for some in entries.chunks(30) {
        desk.deliver(0, &message(1, some))?;
    }
    Ok(())
}

/// Parts of every length, text lengths of every size, every count and many ports.
pub fn every_length(desk: &mut Desk<'_, '_>) -> Checked<()> {
    desk.open()?;
    let mut given = Vec::new();
    for text in [&b""[..], b"224.0.0.1", b"1"] {
        let right = setting(&KEYS[1], text, 1);
        let mut long = right.clone();
        long.extend([0, 0, 9]);
        // Without a byte the count of 2 would close the connection.
        for length in 1..=long.len() {
            given.push((2, long[..length].to_vec()));
        }
        for length in (0..40).chain([255, 256, 265, 65_535]) {
            for port in [0, 1, 12_337] {
                given.push((2, stated(&KEYS[4], length, text, port)));
            }
        }
        for port in (0..16).map(|bit| 1 << bit).chain([0, 65_535, 255]) {
            given.push((2, setting(&KEYS[0], text, port)));
        }
    }
    given.extend(every_count());
    set_keys(desk, &given)
}

/// Every count, and some together with a wrong text or port: 4 comes before 7.
fn every_count() -> Vec<(u8, Vec<u8>)> {
    let mut given = vec![(0, Vec::new())];
    given.extend((1..=255).map(|count| (count, setting(&KEYS[1], b"224.0.0.1", 1))));
    for count in [1, 2, 3, 130, 255] {
        given.push((count, setting(&KEYS[1], b"224.0.0.1", 0)));
        given.push((count, setting(&KEYS[1], b"240.0.0.1", 1)));
        given.push((count, setting(&KEYS[1], b"240.0.0.1", 0)));
    }
    given
}

/// Sets keys one by one, now and then without a reply.
fn set_keys(desk: &mut Desk<'_, '_>, given: &[(u8, Vec<u8>)]) -> Checked<()> {
    for (place, (count, parameters)) in given.iter().enumerate() {
        let entry = command(2, 1, (3, 14), *count, parameters);
        let kind = u8::from(!place.is_multiple_of(16));
        desk.deliver(0, &message(kind, &[entry]))?;
    }
    Ok(())
}

/// 3.14 and its neighbours on every object: only the device manager has it.
pub fn elsewhere(desk: &mut Desk<'_, '_>) -> Checked<()> {
    desk.open()?;
    let right = setting(&KEYS[2], b"224.0.0.1", 1);
    let wrong = setting(&KEYS[2], b"240.0.0.1", 0);
    for target in (0..6).chain(4_096..4_106) {
        for method in [(3, 14), (3, 13), (3, 15), (2, 14), (4, 14), (3, 270)] {
            for (count, parameters) in [(2, &right[..]), (2, &wrong), (2, &wrong[1..]), (0, &[])] {
                let entry = command(target, target, method, count, parameters);
                desk.deliver(0, &message(1, &[entry]))?;
            }
        }
    }
    Ok(())
}

/// Datagrams to a disarmed, an armed and a busy device; the state stays.
pub fn datagrams(desk: &mut Desk<'_, '_>) -> Checked<()> {
    datagrams_of(desk)?;
    desk.open()?;
    for key in [KEYS[2], KEYS[0]] {
        desk.set_key(0, &setting(&key, b"", 65_535))?;
        datagrams_of(desk)?;
    }
    desk.make_busy()?;
    datagrams_of(desk)
}

/// Every length from 0 to 64, every bit of the sentinel and the key changed, and other keys.
fn datagrams_of(desk: &mut Desk<'_, '_>) -> Checked<()> {
    let right = asking(&desk.record.device.mechanism.key);
    let mut all = KEYS.map(|key| asking(&key)).to_vec();
    for length in (0..=64).chain([240, 2_049, 65_507]) {
        for behind in [0, 255] {
            let mut datagram = right.clone();
            datagram.resize(length, behind);
            all.push(datagram);
        }
        all.push(desk.random.bytes(length));
    }
    all.extend((0..192).map(|bit| flipped(&right, bit)));
    let (sentinel, key) = right.split_at(8);
    all.push([key, sentinel].concat());
    all.push(key.to_vec());
    all.push([&[0], &right[..23]].concat());
    all.push([&right[1..], &[0]].concat());
    for datagram in all {
        let call = desk.resetting(&datagram);
        desk.session.check(call)?;
    }
    Ok(())
}

/// Busy devices closed in every way, reset, and used again.
pub fn resets(desk: &mut Desk<'_, '_>) -> Checked<()> {
    for round in 0..8 {
        desk.make_busy()?;
        if round % 2 == 1 {
            desk.set_key(3, &setting(&KEYS[round % 5], GOOD_TEXTS[round], 7))?;
        }
        close_some(desk, round)?;
        let right = asking(&desk.record.device.mechanism.key);
        desk.datagram(&flipped(&right, 191))?;
        desk.datagram(&right)?;
        // The key is gone with the reset.
        desk.datagram(&right)?;
        desk.datagram(&asking(&KEYS[0]))?;
        use_again(desk)?;
    }
    Ok(())
}

/// A closure by the host, by a fault, by silence: none takes the key away.
fn close_some(desk: &mut Desk<'_, '_>, round: usize) -> Checked<()> {
    if round & 1 != 0 {
        desk.close(6)?;
    }
    if round & 2 != 0 {
        desk.deliver(3, &[0])?;
    }
    if round & 4 != 0 {
        desk.tick(10_000)?;
    }
    desk.take()?;
    Ok(())
}

/// Opened, locked, supervised, subscribed to and armed anew, and reset once more.
fn use_again(desk: &mut Desk<'_, '_>) -> Checked<()> {
    desk.tick(3)?;
    desk.take()?;
    desk.open()?;
    desk.open()?;
    for n in 0..2 {
        let lock = command(1, 4_097, (1, 3), 0, &[]);
        desk.deliver(n, &message(1, &[lock]))?;
    }
    desk.deliver(1, &keep_alive(1, 2))?;
    desk.subscribe(1, 3)?;
    let set = command(2, 4_098, (4, 2), 1, &[1]);
    desk.deliver(0, &message(1, &[set]))?;
    desk.tick(2_500)?;
    desk.take()?;
    desk.take()?;
    desk.set_key(1, &setting(&KEYS[0], b"", 1))?;
    desk.datagram(&asking(&KEYS[2]))?;
    desk.datagram(&asking(&KEYS[0]))?;
    Ok(())
}

/// Every rule of the mechanism broken, and kept, on a busy device.
pub fn mechanisms(desk: &mut Desk<'_, '_>) -> Checked<()> {
    desk.make_busy()?;
    let mut all = disarmed();
    all.extend(armed());
    all.extend(damage::mechanisms());
    for mechanism in all {
        let mut record = desk.record;
        record.device.mechanism = mechanism;
        for call in calls_on(desk, record) {
            desk.session.check(call)?;
        }
    }
    Ok(())
}

/// Disarmed with one thing that is not zero.
fn disarmed() -> Vec<Mechanism> {
    let zero = Mechanism::default();
    let mut all = Vec::new();
    for bit in 0..128 {
        let key = flipped(&[0; 16], bit).try_into().unwrap_or_default();
        all.push(Mechanism { key, ..zero });
    }
    for at in 0..4 {
        for value in (1..=255).step_by(9) {
            let mut address = [0; 4];
            address[at] = value;
            all.push(Mechanism { address, ..zero });
        }
    }
    for bit in 0..16 {
        let low = (0..7).map(|by| (1 << bit) + by);
        all.extend(low.map(|port| Mechanism { port, ..zero }));
    }
    all
}

/// Armed with every first part, with and without a port.
fn armed() -> Vec<Mechanism> {
    let mut all = Vec::new();
    for first in 0..=255 {
        // More often where a rule changes.
        let times = if first == 0 || first > 222 { 8 } else { 1 };
        for last in 0..times {
            let port = if last == 7 { 65_535 } else { 1 };
            let mechanism = Mechanism {
                armed: true,
                key: numbered(usize::from(last)),
                address: [first, 0, 0, last],
                port,
            };
            all.push(mechanism);
            if (224..240).contains(&first) {
                all.push(Mechanism {
                    port: 0,
                    ..mechanism
                });
            }
        }
    }
    all
}
