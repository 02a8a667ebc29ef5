//! What a view says, in the words that the page puts up: JSON on one line.

use super::json;
use crate::board::{Line, Restarted, View};
use crate::rack::{Guest, Rack, Strip, Watch};
use crate::words;

/// What is told of a connection without a heartbeat where a count would stand.
const UNCOUNTED: &str = "not counted: no heartbeat";

/// What a reset always ends.
const KEY_LOST: &str = "the reset key: it is not armed until one is set again";

pub fn message(view: &View) -> String {
    let rack = &view.rack;
    let channels = (1..).zip(&rack.strips);
    let guests = rack.guests.iter().map(|guest| connection(rack, guest));
    let restart = view.restart.as_ref().map(restarted);
    json::object([
        ("address", json::text(&rack.address.to_string())),
        ("reading", rack.reading.to_string()),
        ("ended", view.ended.to_string()),
        ("channels", json::list(channels.map(channel))),
        ("connections", json::list(guests)),
        ("reset", reset(rack)),
        ("restart", restart.unwrap_or("null".to_string())),
        ("lines", json::list(view.lines.iter().map(line))),
    ])
}

fn channel((channel, strip): (u8, &Strip)) -> String {
    let since = strip.since.map(|since| format!("since {since} ms"));
    json::object([
        ("channel", channel.to_string()),
        ("mute", json::text(words::value(strip.value))),
        ("holder", json::number(strip.holder)),
        ("state", json::text(&state(strip))),
        ("since", json::text(&since.unwrap_or_default())),
        ("silence", strip.watch.silence.to_string()),
        ("limit", strip.watch.limit.to_string()),
        ("left", json::text(&when_free(strip))),
    ])
}

fn state(strip: &Strip) -> String {
    match strip.holder {
        Some(n) => format!("locked by connection {n}"),
        None => "free".to_string(),
    }
}

/// The technician's answer; nothing where the channel is free.
fn when_free(strip: &Strip) -> String {
    let Watch { silence, limit } = strip.watch;
    match (strip.holder, limit) {
        (None, _) => String::new(),
        (_, 0) => "no heartbeat: only the host's close or the controller frees it".to_string(),
        _ => {
            let left = words::left(limit - silence);
            format!("free in {left} if nothing more is heard")
        }
    }
}

fn connection(rack: &Rack, guest: &Guest) -> String {
    let row = |(name, text): (&str, String)| json::list([json::text(name), json::text(&text)]);
    json::object([
        ("n", guest.n.to_string()),
        ("name", json::text(&words::connections(&[guest.n]))),
        ("silence", guest.watch.silence.to_string()),
        ("limit", guest.watch.limit.to_string()),
        ("rows", json::list(rows(rack, guest).map(row))),
    ])
}

fn rows(rack: &Rack, guest: &Guest) -> [(&'static str, String); 9] {
    let arrival = guest.arrival;
    [
        ("address", or_unknown(arrival.map(|a| a.from.to_string()))),
        (
            "open since",
            or_unknown(arrival.map(|a| format!("{} ms", a.at))),
        ),
        ("heartbeat", heartbeat(guest)),
        ("silence", silence(guest.watch)),
        ("last heard", last_heard(rack, guest.watch)),
        ("undecided", words::unfinished(guest.undecided)),
        ("holds", words::channels(&guest.holds)),
        ("subscriptions", subscriptions(&guest.subscribed)),
        ("keep-alive", keep_alive(guest.due)),
    ]
}

fn or_unknown(text: Option<String>) -> String {
    text.unwrap_or("unknown".to_string())
}

/// The form is told too: the amplifier's keep-alives have it.
fn heartbeat(guest: &Guest) -> String {
    use melorwyth::Heartbeat::{Milliseconds, Seconds};
    let beat = words::beat(guest.beat);
    match (guest.watch.limit, guest.beat) {
        (0, _) => "none".to_string(),
        (_, Seconds(_)) => format!("{beat}, set in seconds"),
        (_, Milliseconds(_)) => format!("{beat}, set in milliseconds"),
    }
}

fn silence(watch: Watch) -> String {
    match watch {
        Watch { limit: 0, .. } => UNCOUNTED.to_string(),
        Watch { silence, limit } => format!("{silence} ms of {limit} ms"),
    }
}

/// The reading at which its silence began; the counter goes round.
fn last_heard(rack: &Rack, watch: Watch) -> String {
    match watch {
        Watch { limit: 0, .. } => UNCOUNTED.to_string(),
        Watch { silence, .. } => {
            let heard = rack.reading.wrapping_sub(silence as u32);
            format!("at {heard} ms")
        }
    }
}

/// One channel may be subscribed to more than once, so they are counted.
fn subscriptions(subscribed: &[u8]) -> String {
    match subscribed {
        [] => "none".to_string(),
        _ => format!("{}: {}", subscribed.len(), words::channels(subscribed)),
    }
}

fn keep_alive(due: Option<u64>) -> String {
    match due {
        None => "none is sent: no heartbeat".to_string(),
        Some(0) => "one is due now".to_string(),
        Some(due) => format!("the next is due in {}", words::left(due)),
    }
}

fn reset(rack: &Rack) -> String {
    json::object([
        ("armed", rack.reset.place.is_some().to_string()),
        ("state", json::text(&rack.reset.to_string())),
    ])
}

fn restarted(restart: &Restarted) -> String {
    let line = restart.ended.to_string();
    let lost = line.split("; ").chain([KEY_LOST]);
    json::object([
        ("at", restart.at.to_string()),
        ("lost", json::list(lost.map(json::text))),
    ])
}

fn line(line: &Line) -> String {
    json::object([
        ("n", line.n.to_string()),
        ("at", line.at.to_string()),
        ("text", json::text(&line.text)),
    ])
}

#[cfg(test)]
mod tests {
    use super::*;

    fn strip(holder: Option<u8>, silence: u64, limit: u64) -> Strip {
        Strip {
            value: 2,
            holder,
            since: None,
            watch: Watch { silence, limit },
        }
    }

    #[test]
    fn when_a_channel_is_free_is_told() {
        let told = |holder, silence, limit| when_free(&strip(holder, silence, limit));
        assert_eq!(told(None, 0, 0), "");
        let words = "no heartbeat: only the host's close or the controller frees it";
        assert_eq!(told(Some(0), 0, 0), words);
        for (silence, limit, left) in [
            (0, 6_000, "6.0 s"),
            (5_999, 6_000, "0.1 s"),
            (1, 90_000, "1 min 30 s"),
            (0, 12_884_901_885, "149 d 4 h"),
        ] {
            let words = format!("free in {left} if nothing more is heard");
            assert_eq!(told(Some(7), silence, limit), words);
        }
    }

    #[test]
    fn subscriptions_are_counted() {
        assert_eq!(subscriptions(&[]), "none");
        assert_eq!(subscriptions(&[5]), "1: channel 5");
        assert_eq!(subscriptions(&[1, 5, 5]), "3: channels 1, 5, 5");
        assert_eq!(keep_alive(Some(0)), "one is due now");
        assert_eq!(keep_alive(Some(1_000)), "the next is due in 1.0 s");
    }
}
