//! What reset by key is tried with: parameters of method 3.14 and datagrams.

use super::random::Random;
use crate::record::Mechanism;

/// What a datagram begins with that asks for a reset.
pub const SENTINEL: [u8; 8] = [0xDE, 0xAF, 0xDA, 0xDA, 0xCA, 0xFE, 0xBA, 0xBE];

/// Few keys, so that the same and an earlier one meet; two differ in one bit.
pub const KEYS: [[u8; 16]; 5] = [
    [0; 16],
    [255; 16],
    [1, 2, 3, 4, 5, 6, 7, 8, 9, 10, 11, 12, 13, 14, 15, 16],
    [1, 2, 3, 4, 5, 6, 7, 8, 9, 10, 11, 12, 13, 14, 15, 17],
    [1, 0, 0, 0, 0, 0, 0, 0, 0, 0, 0, 0, 0, 0, 0, 0],
];

/// Texts that 3.14 takes.
pub const GOOD_TEXTS: [&[u8]; 10] = [
    b"",
    b"224.0.0.0",
    b"224.0.0.1",
    b"239.255.255.255",
    b"225.1.22.133",
    b"230.9.10.99",
    b"231.100.199.200",
    b"238.249.250.254",
    b"234.1.2.3",
    b"239.0.255.0",
];

/// Texts that 3.14 does not take, each wrong in another way.
pub const WRONG_TEXTS: [&[u8]; 60] = [
    b"224",
    b"224.",
    b"224.1",
    b"224.1.2",
    b"224.1.2.",
    b"224.1.2.3.",
    b"224.1.2.3.4",
    b"224.1.2.3.4.5",
    b".224.1.2.3",
    b"224..1.2.3",
    b"224..2.3",
    b"224.1..3",
    b"224.1.2.3..",
    b".",
    b"..",
    b"...",
    b"....",
    b"224...",
    b"0224.1.2.3",
    b"224.01.2.3",
    b"224.1.02.3",
    b"224.1.2.03",
    b"224.00.2.3",
    b"224.1.2.00",
    b"224.1.2.000",
    b"224.1.2.010",
    b"224.1.2.256",
    b"224.256.2.3",
    b"224.1.300.3",
    b"224.1.2.999",
    b"224.1.2.1000",
    b"224.1.2.65537",
    b"480.1.2.3",
    b"224.1.2.4294967297",
    b"224.1.2.18446744073709551617",
    b"+224.1.2.3",
    b"224.+1.2.3",
    b"224.1.2.+3",
    b"224.1.2.-3",
    b"224.-0.2.3",
    b" 224.1.2.3",
    b"224.1.2.3 ",
    b"224. 1.2.3",
    b"224 .1.2.3",
    b" ",
    b"240.0.0.1",
    b"223.255.255.255",
    b"0.0.0.0",
    b"255.255.255.255",
    b"127.0.0.1",
    b"22.4.0.1",
    b"amplifier",
    b"224.1.2.a",
    b"e0.1.2.3",
    b"0xE0.1.2.3",
    b"224,1,2,3",
    b"224:1:2:3",
    b"224.1.2.3\0",
    b"224.1.2.\xFF",
    b"ff02::1",
];

/// Characters that a text is changed by.
const CHARACTERS: &[u8] = b"0123456789..+- :/a\0\xFF";

/// The parameters of 3.14, with any text length.
pub fn stated(key: &[u8; 16], length: u16, text: &[u8], port: u16) -> Vec<u8> {
    let mut bytes = key.to_vec();
    bytes.extend(length.to_be_bytes());
    bytes.extend(text);
    bytes.extend(port.to_be_bytes());
    bytes
}

/// The parameters of 3.14, with the text's own length.
pub fn setting(key: &[u8; 16], text: &[u8], port: u16) -> Vec<u8> {
    stated(key, text.len() as u16, text, port)
}

pub fn any_key(random: &mut Random) -> [u8; 16] {
    let mut key = random.pick(&KEYS);
    if random.chance(20) {
        key.copy_from_slice(&random.bytes(16));
    }
    key
}

fn any_port(random: &mut Random) -> u16 {
    random.pick(&[1, 255, 256, 49_152, 65_001, 65_535])
}

/// Parameters of 3.14, mostly such as it takes.
pub fn any_setting(random: &mut Random) -> Vec<u8> {
    let key = any_key(random);
    let port = any_port(random);
    let text = if random.chance(25) {
        b""
    } else {
        random.pick(&GOOD_TEXTS)
    };
    match random.weighted(&[44, 8, 16, 10, 8, 8, 6]) {
        0 => setting(&key, text, port),
        1 => setting(&key, any_address(random).as_bytes(), port),
        2 => setting(&key, random.pick(&WRONG_TEXTS), port),
        3 => setting(&key, &changed_text(random, text), port),
        4 => setting(&key, text, 0),
        5 => off_by_one(random, &key, text, port),
        _ => {
            let mut bytes = setting(&key, text, port);
            // One byte at least, or the count of 2 would not be well formed.
            bytes.truncate(1 + random.below(19));
            bytes
        }
    }
}

fn any_address(random: &mut Random) -> String {
    let parts = random.bytes(4);
    let first = 224 + parts[0] % 16;
    format!("{first}.{}.{}.{}", parts[1], parts[2], parts[3])
}

/// A text with one character put in, taken out or changed, or far too long.
fn changed_text(random: &mut Random, text: &[u8]) -> Vec<u8> {
    let mut text = text.to_vec();
    let at = random.below(text.len());
    let character = random.pick(CHARACTERS);
    match random.below(9) {
        0 => text.resize(17 + random.below(400), character),
        1..4 => text.insert(at, character),
        _ if text.is_empty() => text.push(character),
        4..6 => {
            text.remove(at);
        }
        _ => text[at] = character,
    }
    text
}

/// A text length one too small or too large.
fn off_by_one(random: &mut Random, key: &[u8; 16], text: &[u8], port: u16) -> Vec<u8> {
    let length = text.len() as u16;
    // Port 0 or 1 reads as text or as a longer port: still the length decides.
    let port = random.pick(&[port, 0, 1, 12_593]);
    let wrong = random.pick(&[length.wrapping_sub(1), length + 1, length + 256]);
    stated(key, wrong, text, port)
}

/// The 24 bytes that reset a device armed with the key.
pub fn asking(key: &[u8; 16]) -> Vec<u8> {
    [&SENTINEL[..], key].concat()
}

/// The bytes with one bit changed.
pub fn flipped(bytes: &[u8], bit: usize) -> Vec<u8> {
    let mut bytes = bytes.to_vec();
    bytes[bit / 8] ^= 1 << (bit % 8);
    bytes
}

/// A datagram for a device with this mechanism: right, nearly right, or any bytes.
pub fn any_datagram(random: &mut Random, mechanism: &Mechanism) -> Vec<u8> {
    let mut right = asking(&mechanism.key);
    match random.weighted(&[14, 16, 16, 8, 10, 8, 14, 14]) {
        0 => right,
        1 => flipped(&right, 64 + random.below(128)),
        2 => flipped(&right, random.below(64)),
        3 => {
            right.push(random.pick(&[0, 255, 16]));
            right
        }
        4 => {
            right.truncate(random.pick(&[23, 23, 8, 16, 0]));
            right
        }
        5 => asking(&random.pick(&KEYS)),
        6 => {
            let length = random.below(65);
            right.truncate(length);
            let more = length - right.len();
            right.extend(random.bytes(more));
            right
        }
        _ => {
            let length = random.pick(&[0, 23, 24, 24, 25, 64]);
            random.bytes(length)
        }
    }
}
