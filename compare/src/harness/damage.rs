//! Records with one field changed, and areas with one byte changed.
//!
//! Some of the changes keep every rule: then the call has to go through.

use super::random::Random;
use super::reset::KEYS;
use super::traffic;
use crate::record::{AREA, CONTEXT, Mechanism, Record, SHARE};

const FORMS: [u8; 5] = [0, 1, 2, 3, 255];
const BEATS: [u64; 13] = [
    0,
    1,
    999,
    1_000,
    1_500,
    2_000,
    65_535_000,
    65_535_001,
    65_536_000,
    u32::MAX as u64,
    1 << 32,
    6_148_914_691_236_517_206,
    u64::MAX,
];
const HELD: [u16; 9] = [0, 1, 9, 10, 20, 2_047, 2_048, 2_049, u16::MAX];
const NUMBERS: [u8; 11] = [0, 1, 2, 3, 5, 6, 7, 8, 9, 128, 255];
const EMITTERS: [u32; 8] = [0, 1, 4_096, 4_097, 4_100, 4_104, 4_105, u32::MAX];
const EVENTS: [u32; 5] = [0, 0x0001_0001, 0x0001_0002, 0x0002_0001, 1];
const WORDS: [u32; 5] = [0, 1, 9, 0x0003_0001, u32::MAX];
const MUTES: [u8; 5] = [0, 1, 2, 3, 255];
const COUNTS: [u8; 9] = [0, 1, 3, 4, 63, 64, 65, 128, 255];
/// Places within a context and past it, whatever its count.
const PLACES: [usize; 7] = [0, 1, 3, 4, 31, 62, 63];
const PORTS: [u16; 5] = [0, 1, 256, 65_001, 65_535];
/// Multicast, not multicast, and none.
const ADDRESSES: [[u8; 4]; 14] = [
    [0, 0, 0, 0],
    [224, 0, 0, 0],
    [239, 255, 255, 255],
    [232, 1, 2, 3],
    [223, 255, 255, 255],
    [240, 0, 0, 0],
    [0, 0, 0, 1],
    [0, 0, 1, 0],
    [0, 1, 0, 0],
    [1, 0, 0, 0],
    [0, 224, 0, 0],
    [96, 224, 239, 224],
    [127, 0, 0, 1],
    [255, 255, 255, 255],
];

/// The record's parts: each number's fields, each entry, the reading, the mechanism.
const PARTS: usize = 8 + 32 + 2;
const MECHANISM: usize = PARTS - 1;

/// Every single-field change of the record, several values each.
pub fn every_change(base: &Record) -> Vec<Record> {
    (0..PARTS).flat_map(|part| changes_of(base, part)).collect()
}

fn changes_of(base: &Record, part: usize) -> Vec<Record> {
    let mut changed = Vec::new();
    match part {
        0..8 => number_changes(base, part, &mut changed),
        8..40 => subscription_changes(base, part - 8, &mut changed),
        40 => {
            for value in [0, 1, u32::MAX, 1 << 31] {
                change(base, &mut changed, |record| record.device.reading = value);
            }
        }
        _ => mechanism_changes(base, &mut changed),
    }
    changed
}

/// What is kept by number: connection, count of bytes, mute and holder.
fn number_changes(base: &Record, n: usize, changed: &mut Vec<Record>) {
    connection_changes(base, n, changed);
    for value in HELD {
        change(base, changed, |record| record.held[n] = value);
    }
    for by in [1, u16::MAX] {
        change(base, changed, |record| {
            record.held[n] = record.held[n].wrapping_add(by);
        });
    }
    for value in MUTES {
        change(base, changed, |record| record.device.mutes[n] = value);
    }
    for value in NUMBERS {
        change(base, changed, |record| record.device.holders[n] = value);
    }
}

/// Keeps a changed copy, if it is a change.
fn change(base: &Record, changed: &mut Vec<Record>, edit: impl Fn(&mut Record)) {
    let mut copy = *base;
    edit(&mut copy);
    if copy != *base {
        changed.push(copy);
    }
}

fn connection_changes(base: &Record, n: usize, changed: &mut Vec<Record>) {
    let before = base.device.connections[n];
    change(base, changed, |record| {
        record.device.connections[n].live = !before.live;
    });
    change(base, changed, |record| {
        record.device.connections[n].due = !before.due;
    });
    for form in FORMS {
        change(base, changed, |record| {
            record.device.connections[n].form = form;
        });
    }
    for beat in BEATS {
        change(base, changed, |record| {
            record.device.connections[n].beat = beat;
        });
    }
    for silence in around(before.beat.saturating_mul(3)) {
        change(base, changed, |record| {
            record.device.connections[n].silence = silence;
        });
    }
    for quiet in around(before.beat) {
        change(base, changed, |record| {
            record.device.connections[n].quiet = quiet;
        });
    }
}

fn around(limit: u64) -> [u64; 8] {
    [
        0,
        1,
        limit.saturating_sub(1),
        limit,
        limit.saturating_add(1),
        1 << 32,
        u64::MAX - 1,
        u64::MAX,
    ]
}

fn subscription_changes(base: &Record, n: usize, changed: &mut Vec<Record>) {
    let before = base.device.subscriptions[n];
    change(base, changed, |record| {
        record.device.subscriptions[n].used = !before.used;
    });
    change(base, changed, |record| {
        record.device.subscriptions[n].waiting = !before.waiting;
    });
    for value in NUMBERS {
        change(base, changed, |record| {
            record.device.subscriptions[n].connection = value;
        });
    }
    for value in EMITTERS {
        change(base, changed, |record| {
            record.device.subscriptions[n].emitter = value;
        });
    }
    for value in EVENTS {
        change(base, changed, |record| {
            record.device.subscriptions[n].event = value;
        });
    }
    for value in WORDS {
        change(base, changed, |record| {
            record.device.subscriptions[n].object = value;
        });
        change(base, changed, |record| {
            record.device.subscriptions[n].method = value;
        });
    }
    for value in COUNTS {
        change(base, changed, |record| {
            record.device.subscriptions[n].context_count = value;
        });
    }
    for (place, by) in PLACES.into_iter().zip([1, 128, 255].into_iter().cycle()) {
        change(base, changed, |record| {
            record.device.subscriptions[n].context[place] ^= by;
        });
    }
}

/// Every field by itself, and whole mechanisms, legal ones among them.
fn mechanism_changes(base: &Record, changed: &mut Vec<Record>) {
    let mechanism = |edit: &dyn Fn(&mut Mechanism), changed: &mut Vec<Record>| {
        change(base, changed, |record| edit(&mut record.device.mechanism));
    };
    mechanism(&|whole| whole.armed = !whole.armed, changed);
    for at in 0..16 {
        mechanism(&|whole| whole.key[at] ^= 1 << (at % 8), changed);
    }
    for key in KEYS {
        mechanism(&|whole| whole.key = key, changed);
    }
    for address in ADDRESSES {
        mechanism(&|whole| whole.address = address, changed);
    }
    for port in PORTS {
        mechanism(&|whole| whole.port = port, changed);
    }
    for whole in mechanisms() {
        mechanism(&|place| *place = whole, changed);
    }
}

/// Armed with every address and port, and disarmed.
pub fn mechanisms() -> Vec<Mechanism> {
    let mut all = vec![Mechanism::default()];
    for address in ADDRESSES {
        for port in [0, 1, 65_535] {
            for key in [KEYS[0], KEYS[2]] {
                all.push(Mechanism {
                    armed: true,
                    key,
                    address,
                    port,
                });
            }
        }
    }
    all
}

/// A twin of one entry in the place of another, whatever its context.
pub fn twin(random: &mut Random, base: &Record) -> Record {
    let mut record = *base;
    let from = random.below(32);
    let to = random.below(32);
    let mut copy = record.device.subscriptions[from];
    if copy.used && random.chance(50) {
        let context = traffic::any_context(random);
        copy.context = [0; CONTEXT];
        copy.context[..context.len()].copy_from_slice(&context);
        copy.context_count = context.len() as u8;
        copy.waiting = !copy.waiting;
    }
    record.device.subscriptions[to] = copy;
    record
}

/// A record with one change at random.
pub fn any_change(random: &mut Random, base: &Record) -> Record {
    if random.chance(10) {
        return twin(random, base);
    }
    let part = if random.chance(12) {
        MECHANISM
    } else {
        random.below(PARTS)
    };
    let changed = changes_of(base, part);
    if changed.is_empty() {
        return *base;
    }
    changed[random.below(changed.len())]
}

/// An area with one change at random, sometimes with a count that goes with it.
pub fn any_area(random: &mut Random, record: &Record, area: &[u8]) -> (Record, Vec<u8>) {
    let mut record = *record;
    let mut area = area.to_vec();
    let n = random.below(8);
    let start = n * SHARE;
    let held = usize::from(record.held[n]).min(SHARE - 1);
    match random.below(10) {
        0 => area.truncate(AREA - 1),
        1 => area.push(random.pick(&[0, 1])),
        2 => area = Vec::new(),
        3 => area[start] = random.byte(),
        4 => area[start + held] = random.byte(),
        5 => area[start + SHARE - 1] = random.pick(&[1, 128, 255]),
        6 => area[start + random.below(SHARE)] = random.byte(),
        7 => area[start + random.below(held + 1)] = random.byte(),
        _ => hold_bytes(random, &mut record, &mut area, n),
    }
    (record, area)
}

/// Lets a connection hold bytes that may be decided already.
fn hold_bytes(random: &mut Random, record: &mut Record, area: &mut [u8], n: usize) {
    if !record.device.connections[n].live {
        return;
    }
    let mut bytes = if random.chance(60) {
        traffic::any_message(random)
    } else {
        traffic::any_damaged(random)
    };
    if random.chance(50) {
        bytes.truncate(random.below(bytes.len() + 1));
    }
    bytes.truncate(2_048);
    let share = &mut area[n * SHARE..(n + 1) * SHARE];
    share.fill(0);
    share[..bytes.len()].copy_from_slice(&bytes);
    record.held[n] = bytes.len() as u16;
}
