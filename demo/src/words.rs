//! Plain words for channels, heartbeats, contexts, and what a closure leaves.

use melorwyth::{Heartbeat, number};
use std::net::Ipv4Addr;

/// Channel n is object 4096 + n, a mute.
pub fn object_of_channel(channel: u8) -> u32 {
    number::object_channel(u32::from(channel))
}

/// The channel whose mute an object is, 1 to 8; 0 for an object that is none.
pub fn channel_of_object(object: u32) -> u8 {
    let mut channels = 1..=8;
    let channel = channels.find(|channel| object_of_channel(*channel) == object);
    channel.unwrap_or_default()
}

/// What the value of a mute says of its channel.
pub fn value(value: u8) -> &'static str {
    match value {
        number::MUTED => "muted",
        number::UNMUTED => "unmuted",
        _ => "unknown",
    }
}

/// A heartbeat in its own form.
pub fn beat(beat: Heartbeat) -> String {
    match beat {
        Heartbeat::Seconds(seconds) => format!("{seconds} s"),
        Heartbeat::Milliseconds(milliseconds) => format!("{milliseconds} ms"),
    }
}

/// A time that is left, in the two largest units that it has: rounded up, so that it is never less than it is.
pub fn left(milliseconds: u64) -> String {
    let up = |unit: u64| milliseconds.div_ceil(unit);
    match milliseconds {
        0..60_000 => format!("{}.{} s", up(100) / 10, up(100) % 10),
        60_000..3_600_000 => format!("{} min {} s", up(1_000) / 60, up(1_000) % 60),
        3_600_000..86_400_000 => format!("{} h {} min", up(60_000) / 60, up(60_000) % 60),
        _ => format!("{} d {} h", up(3_600_000) / 24, up(3_600_000) % 24),
    }
}

/// What waits to be whole; it is told because it does not put a closure off.
pub fn unfinished(count: u16) -> String {
    match count {
        0 => "no bytes".to_string(),
        1 => "1 byte of an unfinished message: it does not count as heard".to_string(),
        _ => format!("{count} bytes of an unfinished message: they do not count as heard"),
    }
}

/// Which channels are free now; nothing for none.
pub fn free(channels: &[u8]) -> String {
    channels_are(channels, "free")
}

/// Which channels are unmuted now; nothing for none.
pub fn unmuted(channels: &[u8]) -> String {
    channels_are(channels, "unmuted")
}

fn channels_are(those: &[u8], what: &str) -> String {
    match those {
        [] => String::new(),
        [_] => format!("; {} is {what}", channels(those)),
        _ => format!("; {} are {what}", channels(those)),
    }
}

pub fn channels(those: &[u8]) -> String {
    match those {
        [] => "no channel".to_string(),
        [one] => format!("channel {one}"),
        _ => format!("channels {}", listed(those)),
    }
}

pub fn connections(numbers: &[u8]) -> String {
    match numbers {
        [] => "no connection".to_string(),
        [one] => format!("connection {one}"),
        _ => format!("connections {}", listed(numbers)),
    }
}

pub fn listed(those: &[impl ToString]) -> String {
    let names: Vec<String> = those.iter().map(ToString::to_string).collect();
    names.join(", ")
}

/// How many subscriptions a reset ended; nothing for none.
pub fn subscriptions_ended(count: usize) -> String {
    match count {
        0 => String::new(),
        1 => "; 1 subscription ended".to_string(),
        _ => format!("; {count} subscriptions ended"),
    }
}

/// The group of an address; nothing for zeros, which are none.
pub fn group(address: Ipv4Addr) -> String {
    if address.is_unspecified() {
        String::new()
    } else {
        format!(", group {address}")
    }
}

pub fn context_count(count: usize) -> String {
    match count {
        1 => "context of 1 byte".to_string(),
        _ => format!("context of {count} bytes"),
    }
}

/// A context in hex, and as text where there is nothing in it that a terminal would not print.
pub fn context(bytes: &[u8]) -> String {
    let count = context_count(bytes.len());
    match (bytes, text(bytes)) {
        ([], _) => count,
        (_, Some(text)) => format!("{count}, {} \"{text}\"", hex(bytes)),
        (_, None) => format!("{count}, {}", hex(bytes)),
    }
}

pub fn hex(bytes: &[u8]) -> String {
    bytes.iter().map(|byte| format!("{byte:02X}")).collect()
}

fn text(bytes: &[u8]) -> Option<&str> {
    let printable = |letter: char| letter.is_alphanumeric() || (' '..='~').contains(&letter);
    let text = std::str::from_utf8(bytes).ok()?;
    text.chars().all(printable).then_some(text)
}

/// How many bytes were left without a decision; nothing for none.
pub fn undecided(count: u16) -> String {
    match count {
        0 => String::new(),
        1 => "; 1 undecided byte dropped".to_string(),
        _ => format!("; {count} undecided bytes dropped"),
    }
}

#[cfg(test)]
mod tests {
    use super::*;

    #[test]
    fn channels_are_objects_4097_to_4104() {
        assert_eq!(object_of_channel(1), 4_097);
        assert_eq!(object_of_channel(8), 4_104);
        assert!((1..=8).all(|channel| channel_of_object(object_of_channel(channel)) == channel));
        let others = [0, 1, 4, 4_096, 4_105, u32::MAX];
        assert!(others.iter().all(|object| channel_of_object(*object) == 0));
    }

    #[test]
    fn a_heartbeat_is_told_in_its_form() {
        assert_eq!(beat(Heartbeat::Seconds(2)), "2 s");
        assert_eq!(beat(Heartbeat::Milliseconds(2_000)), "2000 ms");
        assert_eq!(beat(Heartbeat::Seconds(65_535)), "65535 s");
    }

    /// What a terminal would obey, or turn round, is told in hex alone.
    #[test]
    fn a_context_is_told_in_hex_and_as_text() {
        for (bytes, told) in [
            (&b""[..], "context of 0 bytes"),
            (b"A", "context of 1 byte, 41 \"A\""),
            (&[1, 2, 3, 4], "context of 4 bytes, 01020304"),
            (b"foyer 2", "context of 7 bytes, 666F7965722032 \"foyer 2\""),
            ("\u{FC}".as_bytes(), "context of 2 bytes, C3BC \"\u{FC}\""),
            (b"\x1B[2J", "context of 4 bytes, 1B5B324A"),
            ("\u{202E}".as_bytes(), "context of 3 bytes, E280AE"),
            (b"a\n", "context of 2 bytes, 610A"),
            (&[0xC3], "context of 1 byte, C3"),
        ] {
            assert_eq!(context(bytes), told);
        }
    }

    #[test]
    fn a_time_that_is_left_is_never_told_too_short() {
        for (milliseconds, told) in [
            (0, "0.0 s"),
            (1, "0.1 s"),
            (100, "0.1 s"),
            (3_799, "3.8 s"),
            (59_999, "60.0 s"),
            (60_000, "1 min 0 s"),
            (89_001, "1 min 30 s"),
            (3_599_999, "60 min 0 s"),
            (3_600_000, "1 h 0 min"),
            (10_800_000, "3 h 0 min"),
            (86_399_999, "24 h 0 min"),
            (86_400_000, "1 d 0 h"),
            (12_884_901_885, "149 d 4 h"),
        ] {
            assert_eq!(left(milliseconds), told);
        }
    }

    #[test]
    fn unfinished_bytes_are_said_not_to_count() {
        assert_eq!(unfinished(0), "no bytes");
        let told = "1 byte of an unfinished message: it does not count as heard";
        assert_eq!(unfinished(1), told);
        let told = "6 bytes of an unfinished message: they do not count as heard";
        assert_eq!(unfinished(6), told);
    }

    #[test]
    fn what_a_closure_leaves_is_told() {
        assert_eq!(free(&[]), "");
        assert_eq!(free(&[5]), "; channel 5 is free");
        assert_eq!(free(&[2, 5, 8]), "; channels 2, 5, 8 are free");
        assert_eq!(unmuted(&[]), "");
        assert_eq!(unmuted(&[5]), "; channel 5 is unmuted");
        assert_eq!(connections(&[3]), "connection 3");
        assert_eq!(channels(&[]), "no channel");
        assert_eq!(subscriptions_ended(0), "");
        assert_eq!(subscriptions_ended(1), "; 1 subscription ended");
        assert_eq!(subscriptions_ended(32), "; 32 subscriptions ended");
        assert_eq!(undecided(0), "");
        assert_eq!(undecided(1), "; 1 undecided byte dropped");
        assert_eq!(undecided(13), "; 13 undecided bytes dropped");
    }
}
