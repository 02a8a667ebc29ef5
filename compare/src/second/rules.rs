//! The record rules, and when a lent area is bad.

use super::address;
use super::device::{self, EVENT};
use super::wire::{self, Judgement};
use crate::record::{AREA, CONNECTIONS, Connection, Mechanism, Record, SHARE, Subscription};

const MOST_UNDECIDED: u16 = 2_048;

/// Whether the record keeps every rule.
pub fn hold(record: &Record) -> bool {
    let device = &record.device;
    (0..CONNECTIONS).all(|n| connection(&device.connections[n], record.held[n]))
        && device.holders.iter().all(|holder| lock(record, *holder))
        && device
            .subscriptions
            .iter()
            .all(|entry| subscription(record, entry))
        && no_twins(&device.subscriptions)
        && device.mutes.iter().all(|mute| *mute == 1 || *mute == 2)
        && mechanism(&device.mechanism)
}

fn connection(connection: &Connection, held: u16) -> bool {
    if !connection.live {
        return *connection == Connection::default() && held == 0;
    }
    held <= MOST_UNDECIDED && supervision(connection)
}

fn supervision(connection: &Connection) -> bool {
    if connection.beat == 0 {
        return connection.silence == 0
            && connection.quiet == 0
            && connection.form == 0
            && !connection.due;
    }
    // 128 bits, because the record may carry any H.
    let limit = 3 * u128::from(connection.beat);
    u128::from(connection.silence) < limit
        && connection.quiet < connection.beat
        && (!connection.due || connection.quiet == 0)
        && form(connection)
}

fn form(connection: &Connection) -> bool {
    match connection.form {
        1 => connection.beat.is_multiple_of(1_000) && connection.beat <= 65_535_000,
        2 => connection.beat <= 4_294_967_295,
        _ => false,
    }
}

fn lock(record: &Record, holder: u8) -> bool {
    holder == 0 || is_open(record, holder - 1)
}

/// Whether the number is not above 7 and its connection is open.
pub fn is_open(record: &Record, n: u8) -> bool {
    record
        .device
        .connections
        .get(usize::from(n))
        .is_some_and(|connection| connection.live)
}

fn subscription(record: &Record, entry: &Subscription) -> bool {
    if !entry.used {
        return *entry == Subscription::default();
    }
    is_open(record, entry.connection)
        && device::mute_number(entry.emitter).is_some()
        && entry.event == EVENT
        && context(entry)
}

/// A count of at most 64, and zeros past it.
fn context(entry: &Subscription) -> bool {
    let past = entry.context.get(usize::from(entry.context_count)..);
    past.is_some_and(|past| past.iter().all(|byte| *byte == 0))
}

fn no_twins(entries: &[Subscription]) -> bool {
    let used: Vec<&Subscription> = entries.iter().filter(|entry| entry.used).collect();
    (0..used.len()).all(|a| (0..a).all(|b| !device::same(used[a], used[b])))
}

fn mechanism(mechanism: &Mechanism) -> bool {
    if !mechanism.armed {
        return *mechanism == Mechanism::default();
    }
    let address = mechanism.address;
    mechanism.port != 0 && (address == address::NO_TEXT || address::is_multicast(address))
}

/// Whether the area is as row 2 wants it, for a record that keeps the rules.
pub fn area_is_good(record: &Record, area: &[u8]) -> bool {
    area.len() == AREA && (0..CONNECTIONS).all(|n| share_is_good(record, area, n))
}

fn share_is_good(record: &Record, area: &[u8], n: usize) -> bool {
    let share = &area[n * SHARE..(n + 1) * SHARE];
    let (undecided, rest) = share.split_at(usize::from(record.held[n]));
    wire::judge(undecided) == Judgement::Undecided && rest.iter().all(|byte| *byte == 0)
}
