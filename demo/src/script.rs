//! The controller's small language: words, in arguments or lines.

use crate::message::{Arm, Asking, Subscribe};
use crate::restart::{self, Restart};
use melorwyth::Heartbeat;
use melorwyth::record::CONTEXT;
use std::iter::Peekable;
use std::time::Duration;

/// The technician's question: a tablet locks channel 5, begins a message and dies.
pub const QUESTION: &str = "as tablet beat 2 mute 5 lock 5 bytes 3B0001000000 dead wait 500 as technician await 5 unmute 5 quit";

/// Any key does for a show.
const SHOWN: &str = "000102030405060708090A0B0C0D0E0F";

/// A rack whose controllers have all hung, with every lock held, is restarted from the front desk.
pub fn restarting(port: u16) -> String {
    format!(
        "as installer arm {SHOWN} {port} leave \
         as foyer lock 1 lock 2 lock 3 dead \
         as stage beat 3600 mute 5 lock 4 lock 5 lock 6 dead \
         as balcony lock 7 lock 8 bytes 3B0001000000 dead \
         as technician lock 1 lock 5 lock 8 wait 1000 lock 5 \
         as front-desk restart {SHOWN} {port} \
         as technician await 1 await 2 await 3 await 4 await 5 await 6 await 7 await 8 get 5 quit"
    )
}

pub const HELP: &str =
    "  lock N, unlock N, mute N, unmute N, get N, subscribe N, unsubscribe N   ask channel N, 1 to 8: object 4096 + N
  subscribe N context HEX, subscribe N text WORD   with a context of up to 64 bytes, which each notification brings back
  await N      ask for the lock every second until it is given
  announce N   lock channel N, announcing one parameter without a byte of it: the amplifier closes the connection
  overlong N   subscribe to channel N with a context of 65 bytes, one too many: the amplifier answers status 7
  beat S       set the heartbeat in seconds and keep alive; 'beat 200ms' in milliseconds; 0: no more
  arm KEY PORT [ADDRESS]       set the reset key, 32 hex digits, a UDP port and perhaps a multicast group
  restart KEY PORT [ADDRESS]   send the datagram that resets, by UDP to 127.0.0.1 or to the group
  bytes HEX    send these bytes as they are
  wait MS      go on keeping alive and listening
  dead         say nothing more, but keep the connection open
  leave        hang up, but go on
  as NAME      go on as another controller, on a connection of its own
  question     the technician's question, with a tablet that dies
  quit         hang up";

#[derive(Clone, Debug, PartialEq, Eq)]
pub enum Command {
    Ask(Asking, u8),
    Await(u8),
    Subscribe(Subscribe),
    Announce(u8),
    Overlong(u8),
    Beat(Heartbeat),
    Bytes(Vec<u8>),
    Arm(Arm),
    Restart(Restart),
    Wait(Duration),
    Dead,
    Leave,
    As(String),
    Quit,
}

/// The commands that the words make, or what is wrong with them.
pub fn parse(text: &str) -> Result<Vec<Command>, String> {
    let mut words = text.split_whitespace().peekable();
    let mut commands = Vec::new();
    while let Some(word) = words.next() {
        match word {
            "question" => commands.extend(parse(QUESTION)?),
            _ => commands.push(command(word, &mut words)?),
        }
    }
    Ok(commands)
}

fn command<'a, W>(word: &str, words: &mut Peekable<W>) -> Result<Command, String>
where
    W: Iterator<Item = &'a str>,
{
    match word {
        "dead" => return Ok(Command::Dead),
        "leave" => return Ok(Command::Leave),
        "quit" => return Ok(Command::Quit),
        "subscribe" => return subscribe(words),
        "arm" => return arm(&keyed(words)).map_err(|wrong| format!("arm: {wrong}")),
        "restart" => return restart(&keyed(words)).map_err(|wrong| format!("restart: {wrong}")),
        _ => {}
    }
    let asking = asking(word);
    let others = [
        "await", "announce", "overlong", "beat", "bytes", "wait", "as",
    ];
    if asking.is_none() && !others.contains(&word) {
        return Err(format!("'{word}' is no command"));
    }
    let argument = words.next().unwrap_or_default();
    let parsed = match (word, asking) {
        (_, Some(asking)) => channel(argument).map(|channel| Command::Ask(asking, channel)),
        ("await", _) => channel(argument).map(Command::Await),
        ("announce", _) => channel(argument).map(Command::Announce),
        ("overlong", _) => channel(argument).map(Command::Overlong),
        ("beat", _) => beat(argument).map(Command::Beat),
        ("bytes", _) => bytes(argument).map(Command::Bytes),
        ("wait", _) => wait(argument).map(Command::Wait),
        _ => (!argument.is_empty()).then(|| Command::As(argument.to_string())),
    };
    parsed.ok_or_else(|| format!("'{word} {argument}' is no command"))
}

/// A channel, and perhaps a context: no command is named as its two forms are.
fn subscribe<'a, W>(words: &mut Peekable<W>) -> Result<Command, String>
where
    W: Iterator<Item = &'a str>,
{
    let argument = words.next().unwrap_or_default();
    let Some(channel) = channel(argument) else {
        return Err(format!("'subscribe {argument}' is no command"));
    };
    let context = match words.next_if(|word| ["context", "text"].contains(word)) {
        Some(form) => context(form, words.next().unwrap_or_default()),
        None => Ok(Vec::new()),
    };
    let context = context.map_err(|wrong| format!("subscribe {channel}: {wrong}"))?;
    Ok(Command::Subscribe(Subscribe { channel, context }))
}

/// The bytes of a context in the form that is named: hex digits may be letters, so that a word does not tell its form.
fn context(form: &str, text: &str) -> Result<Vec<u8>, String> {
    let context = match (form, bytes(text)) {
        ("text", _) if text.is_empty() => return Err("'text' takes a word".to_string()),
        ("text", _) => text.as_bytes().to_vec(),
        (_, Some(bytes)) => bytes,
        (_, None) => return Err(not_hex(text)),
    };
    match context.len() {
        length if length > CONTEXT => Err(format!(
            "a context has at most {CONTEXT} bytes, and this has {length}; \
             'overlong' sends one that is too long"
        )),
        _ => Ok(context),
    }
}

fn not_hex(text: &str) -> String {
    let takes = "'context' takes hex digits, two a byte";
    match text.chars().find(|digit| !digit.is_ascii_hexdigit()) {
        Some(other) => format!("{takes}, and '{other}' is none; 'text' takes a word as it is"),
        None => format!("{takes}, and this has {} digits", text.len()),
    }
}

/// The key, the port, and an address if there is one: it begins with a digit, as no command does.
fn keyed<'a, W>(words: &mut Peekable<W>) -> Vec<&'a str>
where
    W: Iterator<Item = &'a str>,
{
    let mut keyed: Vec<&str> = words.by_ref().take(2).collect();
    keyed.extend(words.next_if(|word| word.starts_with(|first: char| first.is_ascii_digit())));
    keyed
}

/// The address is not looked at: the amplifier judges it.
fn arm(words: &[&str]) -> Result<Command, String> {
    let &[key, port, ref address @ ..] = words else {
        return Err("it takes a key, a port and perhaps an address".to_string());
    };
    Ok(Command::Arm(Arm {
        key: restart::key(key)?,
        port: restart::port(port)?,
        address: address.concat(),
    }))
}

fn restart(words: &[&str]) -> Result<Command, String> {
    restart::parse(words).map(Command::Restart)
}

fn asking(word: &str) -> Option<Asking> {
    Some(match word {
        "lock" => Asking::Lock,
        "unlock" => Asking::Unlock,
        "mute" => Asking::Mute,
        "unmute" => Asking::Unmute,
        "get" => Asking::Get,
        "unsubscribe" => Asking::Unsubscribe,
        _ => return None,
    })
}

fn channel(text: &str) -> Option<u8> {
    text.parse()
        .ok()
        .filter(|channel| (1..=8).contains(channel))
}

fn beat(text: &str) -> Option<Heartbeat> {
    Some(match text.strip_suffix("ms") {
        Some(value) => Heartbeat::Milliseconds(value.parse().ok()?),
        None => Heartbeat::Seconds(text.parse().ok()?),
    })
}

fn wait(text: &str) -> Option<Duration> {
    let milliseconds: u32 = text.parse().ok()?;
    Some(Duration::from_millis(u64::from(milliseconds)))
}

/// Two digits a byte.
fn bytes(text: &str) -> Option<Vec<u8>> {
    let digits: Option<Vec<u32>> = text.chars().map(|digit| digit.to_digit(16)).collect();
    let digits = digits.filter(|digits| !digits.is_empty() && digits.len() % 2 == 0)?;
    let pairs = digits.chunks(2);
    Some(pairs.map(|pair| (16 * pair[0] + pair[1]) as u8).collect())
}

#[cfg(test)]
mod tests {
    use super::*;

    #[test]
    fn words_make_commands() {
        let commands = parse(
            "as panel beat 2 beat 200ms lock 5\nannounce 1 announce 8 bytes 3b00fF wait 70 dead quit",
        );
        let expected = vec![
            Command::As("panel".to_string()),
            Command::Beat(Heartbeat::Seconds(2)),
            Command::Beat(Heartbeat::Milliseconds(200)),
            Command::Ask(Asking::Lock, 5),
            Command::Announce(1),
            Command::Announce(8),
            Command::Bytes(vec![0x3B, 0, 0xFF]),
            Command::Wait(Duration::from_millis(70)),
            Command::Dead,
            Command::Quit,
        ];
        assert_eq!(commands, Ok(expected));
        assert_eq!(parse(""), Ok(Vec::new()));
    }

    /// An address is told from the next command by its first digit.
    #[test]
    fn a_key_has_a_port_and_perhaps_an_address() {
        let arm = |port, address: &str| {
            Command::Arm(Arm {
                key: [0x5A; 16],
                port,
                address: address.to_string(),
            })
        };
        let key = "5a".repeat(16);
        let text = format!("arm {key} 0 arm {key} 5000 239.1.2.3 arm {key} 7 1.2 restart {key} 7");
        let commands = parse(&text).unwrap();
        let expected = [arm(0, ""), arm(5_000, "239.1.2.3"), arm(7, "1.2")];
        assert_eq!(commands[..3], expected);
        assert_eq!(restart(&[&key, "7"]), Ok(commands[3].clone()));
        assert_eq!(
            parse(&format!("arm {} 5000", &key[2..])).unwrap_err(),
            "arm: a key is 32 hex digits, and this has 30"
        );
    }

    #[test]
    fn a_subscription_has_perhaps_a_context() {
        let subscribe = |channel, context: &[u8]| {
            let context = context.to_vec();
            Command::Subscribe(Subscribe { channel, context })
        };
        let longest = "ab".repeat(64);
        let text = format!(
            "subscribe 5 lock 5 subscribe 6 context 01fF subscribe 7 text facade \
             subscribe 8 context {longest} subscribe 1 text quit overlong 2 subscribe 3"
        );
        let expected = vec![
            subscribe(5, &[]),
            Command::Ask(Asking::Lock, 5),
            subscribe(6, &[1, 0xFF]),
            subscribe(7, b"facade"),
            subscribe(8, &[0xAB; 64]),
            subscribe(1, b"quit"),
            Command::Overlong(2),
            subscribe(3, &[]),
        ];
        assert_eq!(parse(&text), Ok(expected));
    }

    #[test]
    fn a_context_that_is_none_is_told_so() {
        let long = "ab".repeat(65);
        let too_long = "a context has at most 64 bytes, and this has 65; \
            'overlong' sends one that is too long";
        let hex = "'context' takes hex digits, two a byte";
        let none = |other| format!("{hex}, and '{other}' is none; 'text' takes a word as it is");
        let digits = |count| format!("{hex}, and this has {count} digits");
        for (words, wrong) in [
            (format!("context {long}"), too_long.to_string()),
            (format!("text {}", &long[..65]), too_long.to_string()),
            ("context 010".to_string(), digits(3)),
            (format!("context {}", &long[..127]), digits(127)),
            ("context".to_string(), digits(0)),
            ("context lock 5".to_string(), none('l')),
            ("context 0x01".to_string(), none('x')),
            ("context +1".to_string(), none('+')),
            ("text".to_string(), "'text' takes a word".to_string()),
        ] {
            let refused = parse(&format!("subscribe 5 {words}"));
            assert_eq!(refused, Err(format!("subscribe 5: {wrong}")));
        }
    }

    #[test]
    fn the_restart_is_a_script() {
        let commands = parse(&restarting(5_000)).unwrap();
        let restarts = |command: &Command| matches!(command, Command::Restart(_));
        let place = commands.iter().position(restarts).unwrap();
        let after = &commands[place..];
        assert!((1..=8).all(|channel| after.contains(&Command::Await(channel))));
        assert_eq!(after.last(), Some(&Command::Quit));
    }

    #[test]
    fn the_question_is_a_script() {
        let commands = parse("question").unwrap();
        assert!(commands.contains(&Command::Dead));
        assert!(commands.contains(&Command::Await(5)));
        assert_eq!(commands.last(), Some(&Command::Quit));
    }

    #[test]
    fn other_words_are_refused() {
        for text in [
            "lock",
            "lock 0",
            "lock 9",
            "lock five",
            "announce",
            "announce 0",
            "announce 9",
            "announce lock",
            "subscribe",
            "subscribe 0",
            "subscribe context 01",
            "overlong",
            "overlong 9",
            "context 01",
            "beat",
            "beat -1",
            "beat 65536",
            "beat 4294967296ms",
            "bytes",
            "bytes 3",
            "bytes 3G",
            "bytes +1",
            "wait",
            "wait 1.5",
            "as",
            "arm",
            "arm 00112233445566778899AABBCCDDEEFF",
            "arm 00112233445566778899AABBCCDDEEFF 65536",
            "arm 5000 00112233445566778899AABBCCDDEEFF",
            "restart 00112233445566778899AABBCCDDEEFF 5000 10.0.0.1",
            "restart 00112233445566778899AABBCCDDEEFF 0",
            "shout",
        ] {
            let refused = parse(text).unwrap_err();
            assert!(refused.contains(text.split(' ').next().unwrap()), "{text}");
        }
    }
}
