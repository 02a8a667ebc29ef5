//! What a call changed, told by the record before it and after it.

use crate::events::{Ended, Event, Left, Place, Why};
use crate::words;
use melorwyth::record::{CONNECTIONS, Connection, MUTES, Record, Subscription};
use melorwyth::{Heartbeat, number};

/// What a sound message of connection n changed.
pub fn heard(n: u8, before: &Record, after: &Record) -> Vec<Event> {
    let mut events = supervision(n, &connection(before, n), &connection(after, n));
    events.extend((0..MUTES).filter_map(|k| lock(n, k, before, after)));
    events.extend((0..MUTES).filter_map(|k| set(n, k, before, after)));
    let entries = before.device.subscriptions.iter();
    let entries = entries.zip(&after.device.subscriptions);
    events.extend(entries.flat_map(|(was, is)| subscription(n, was, is)));
    events.extend(arming(n, before, after));
    events
}

/// What a tick changed; bit n of `closed` is set for connection n closed.
pub fn lapsed(before: &Record, after: &Record, closed: u8) -> Vec<Event> {
    let reading = after.device.reading;
    let step = u64::from(reading.wrapping_sub(before.device.reading));
    let lapse = |n: u8| {
        let was = connection(before, n);
        if closed & (1 << n) != 0 {
            let silence = was.silence + step;
            let beat = beat(&was);
            return Some(self::closed(n, Why::Silence { silence, beat }, before));
        }
        let is = connection(after, n);
        let since = reading.wrapping_sub(is.silence as u32);
        (!misses(&was) && misses(&is)).then_some(Event::Silent { n, since })
    };
    (0..CONNECTIONS as u8).filter_map(lapse).collect()
}

/// The closure of a connection that was open before. A fault decided what was undecided.
pub fn closed(n: u8, why: Why, before: &Record) -> Event {
    let holders = &before.device.holders;
    let left = Left {
        undecided: match why {
            Why::Fault(_) => 0,
            _ => before.held[usize::from(n)],
        },
        freed: channels(|k| holders[k] == n + 1),
    };
    Event::Closed { n, why, left }
}

/// What a reset ended: everything that there was before.
pub fn reset(before: &Record) -> Event {
    let numbers = 0..CONNECTIONS as u8;
    let device = &before.device;
    let entries = device.subscriptions.iter();
    Event::Reset(Ended {
        closed: numbers.filter(|n| connection(before, *n).live).collect(),
        left: Left {
            undecided: before.held.iter().sum(),
            freed: channels(|k| device.holders[k] != 0),
        },
        unmuted: channels(|k| device.mutes[k] == number::MUTED),
        subscriptions: entries.filter(|entry| entry.used).count(),
    })
}

/// The notification that was taken: that of the entry which waits no longer.
pub fn notified(n: u8, before: &Record, after: &Record) -> Option<Event> {
    let entries = before.device.subscriptions.iter();
    let mut entries = entries.zip(&after.device.subscriptions);
    let (was, _) = entries.find(|(was, is)| was.waiting && !is.waiting)?;
    let channel = words::channel_of_object(was.emitter);
    let k = usize::from(channel).checked_sub(1)?;
    let value = *after.device.mutes.get(k)?;
    Some(Event::Notified { n, channel, value })
}

/// The keep-alive that was taken.
pub fn kept_alive(n: u8, record: &Record) -> Event {
    let beat = beat(&connection(record, n));
    Event::KeptAlive { n, beat }
}

fn connection(record: &Record, n: u8) -> Connection {
    record.device.connections[usize::from(n)]
}

/// A heartbeat in the form in which it was set.
pub fn beat(connection: &Connection) -> Heartbeat {
    match connection.form {
        number::FORM_SECONDS => Heartbeat::Seconds((connection.beat / 1_000) as u16),
        _ => Heartbeat::Milliseconds(connection.beat as u32),
    }
}

/// The channels of which this holds, told by their places.
pub fn channels(those: impl Fn(usize) -> bool) -> Vec<u8> {
    let places = (0..MUTES).filter(|k| those(*k));
    places.map(counted).collect()
}

/// Channels are numbered from 1.
fn counted(k: usize) -> u8 {
    k as u8 + 1
}

/// Two heartbeats of silence: one was surely missed, whatever its delay.
fn misses(connection: &Connection) -> bool {
    connection.beat > 0 && connection.silence >= 2 * connection.beat
}

fn supervision(n: u8, was: &Connection, is: &Connection) -> Vec<Event> {
    let mut events = Vec::new();
    if misses(was) && !misses(is) {
        events.push(Event::HeardAgain { n });
    }
    if beat(was) != beat(is) {
        events.push(match (is.beat, beat(is)) {
            (0, _) => Event::Unwatched { n },
            (_, beat) => Event::Watched { n, beat },
        });
    }
    events
}

fn lock(n: u8, k: usize, before: &Record, after: &Record) -> Option<Event> {
    let channel = counted(k);
    match (before.device.holders[k], after.device.holders[k]) {
        (was, is) if was == is => None,
        (_, 0) => Some(Event::Unlocked { n, channel }),
        _ => Some(Event::Locked { n, channel }),
    }
}

fn set(n: u8, k: usize, before: &Record, after: &Record) -> Option<Event> {
    let value = after.device.mutes[k];
    let channel = counted(k);
    (before.device.mutes[k] != value).then_some(Event::Set { n, channel, value })
}

/// A key that is set as it was is not seen.
fn arming(n: u8, before: &Record, after: &Record) -> Option<Event> {
    let is = &after.device.mechanism;
    let place = Place::of(is);
    (before.device.mechanism != *is).then_some(Event::Armed { n, place })
}

/// An entry may be left and taken again within one message: another context tells that too, as no command changes it.
fn subscription(n: u8, was: &Subscription, is: &Subscription) -> Vec<Event> {
    let waiting = is.waiting;
    let mut events = Vec::new();
    if (Subscription { waiting, ..*was }) == *is {
        return events;
    }
    if was.used {
        let channel = words::channel_of_object(was.emitter);
        events.push(Event::Unsubscribed { n, channel });
    }
    if is.used {
        events.push(Event::Subscribed {
            n,
            channel: words::channel_of_object(is.emitter),
            bytes: is.context_count,
        });
    }
    events
}

#[cfg(test)]
mod tests {
    use super::*;
    use melorwyth::call::fresh;

    /// Connection 2 is open with a heartbeat of 2 s.
    fn record() -> Record {
        let mut record = fresh(0);
        record.device.connections[2].live = true;
        record.device.connections[2].form = number::FORM_SECONDS;
        record.device.connections[2].beat = 2_000;
        record
    }

    fn entry(emitter: u32) -> Subscription {
        Subscription {
            used: true,
            connection: 2,
            emitter,
            ..fresh(0).device.subscriptions[0]
        }
    }

    fn told(events: &[Event]) -> Vec<String> {
        events.iter().map(Event::to_string).collect()
    }

    #[test]
    fn nothing_changed_is_nothing_told() {
        assert!(heard(2, &record(), &record()).is_empty());
        assert!(lapsed(&record(), &record(), 0).is_empty());
    }

    #[test]
    fn a_message_may_change_much() {
        let mut before = record();
        before.device.holders[0] = 3;
        before.device.subscriptions[0] = entry(4_097);
        before.device.connections[2].silence = 4_000;
        let mut after = record();
        after.device.connections[2].form = number::FORM_MILLISECONDS;
        after.device.holders[4] = 3;
        after.device.mutes[4] = 1;
        after.device.subscriptions[0] = entry(4_101);
        let lines = [
            "connection 2 heard again",
            "connection 2 set its heartbeat to 2000 ms: closed after 6000 ms of silence",
            "connection 2 unlocked channel 1",
            "connection 2 locked channel 5",
            "connection 2 muted channel 5",
            "connection 2 unsubscribed from channel 1",
            "connection 2 subscribed to channel 5; context of 0 bytes",
        ];
        assert_eq!(told(&heard(2, &before, &after)), lines);
    }

    /// Left and taken again in one message with another context; a mark alone is no change.
    #[test]
    fn another_context_is_another_subscription() {
        let mut before = record();
        before.device.subscriptions[0] = entry(4_101);
        let mut after = before;
        after.device.subscriptions[0].waiting = true;
        assert!(heard(2, &before, &after).is_empty());
        after.device.subscriptions[0].context_count = 1;
        let lines = [
            "connection 2 unsubscribed from channel 5",
            "connection 2 subscribed to channel 5; context of 1 byte",
        ];
        assert_eq!(told(&heard(2, &before, &after)), lines);
        let mut written = after;
        written.device.subscriptions[0].context[0] = 7;
        assert_eq!(told(&heard(2, &after, &written)), lines);
    }

    #[test]
    fn supervision_may_be_stopped() {
        let mut after = record();
        after.device.connections[2].beat = 0;
        after.device.connections[2].form = number::FORM_NONE;
        let lines = ["connection 2 set its heartbeat to 0: not supervised"];
        assert_eq!(told(&heard(2, &record(), &after)), lines);
    }

    /// Silence is told once, at two heartbeats.
    #[test]
    fn a_tick_tells_silence_once() {
        let at = |reading, silence| {
            let mut record = record();
            record.device.reading = reading;
            record.device.connections[2].silence = silence;
            record
        };
        let lines = ["connection 2 silent since 10 ms"];
        assert!(lapsed(&at(4_000, 3_990), &at(4_009, 3_999), 0).is_empty());
        assert_eq!(
            told(&lapsed(&at(4_009, 3_999), &at(4_010, 4_000), 0)),
            lines
        );
        assert!(lapsed(&at(4_010, 4_000), &at(4_011, 4_001), 0).is_empty());
    }

    #[test]
    fn a_closing_tick_tells_what_is_free() {
        let mut before = record();
        before.device.reading = u32::MAX;
        before.device.connections[2].silence = 5_999;
        before.device.holders = [0, 3, 1, 0, 3, 0, 0, 0];
        before.held[2] = 1;
        let after = fresh(0);
        let line = "closed connection 2: nothing heard for 6000 ms (3 x 2 s); \
                    1 undecided byte dropped; channels 2, 5 are free";
        assert_eq!(told(&lapsed(&before, &after, 0b100)), [line]);
    }

    #[test]
    fn a_key_is_told_without_itself() {
        let mut before = record();
        before.device.mechanism.armed = true;
        before.device.mechanism.key = [7; 16];
        before.device.mechanism.port = 5_000;
        let mut after = before;
        after.device.mechanism.key[15] = 8;
        let lines = ["connection 2 set the reset key: UDP port 5000"];
        assert_eq!(told(&heard(2, &before, &after)), lines);
        assert_eq!(told(&heard(2, &record(), &before)), lines);
    }

    #[test]
    fn a_reset_ends_everything() {
        let mut before = record();
        before.device.connections[7].live = true;
        before.device.holders = [0, 3, 0, 0, 8, 0, 0, 0];
        before.device.mutes[4] = 1;
        before.device.subscriptions[0] = entry(4_097);
        before.device.subscriptions[31] = entry(4_097);
        before.held = [0, 0, 5, 0, 0, 0, 0, 8];
        let line = "reset by key: closed connections 2, 7; 2 subscriptions ended; \
                    13 undecided bytes dropped; channels 2, 5 are free; channel 5 is unmuted";
        assert_eq!(told(&[reset(&before)]), [line]);
    }

    #[test]
    fn a_notification_is_of_the_entry_that_waited() {
        let mut before = record();
        before.device.mutes[6] = 1;
        before.device.subscriptions[3] = entry(4_103);
        let after = before;
        before.device.subscriptions[3].waiting = true;
        let event = notified(2, &before, &after).unwrap();
        let line = "notified connection 2: channel 7 is muted";
        assert_eq!(event.to_string(), line);
        assert_eq!(notified(2, &after, &after), None);
    }
}
