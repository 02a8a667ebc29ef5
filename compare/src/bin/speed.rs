//! Measures the library's delivery against plain Rust written for speed.
//!
//! `speed` measures both in one run, round by round in turn, on buffers
//! cleared beforehand; the table shows the median of the rounds. With words it
//! only delivers, for `count/run`, which counts the instructions of it: `speed
//! PROGRAM COMMANDS whole|bytes MESSAGES` the table's messages, and `speed
//! PROGRAM KIND COMMANDS ENTRIES MESSAGES` those of one kind of command, to a
//! record with so many entries in use; of no commands an empty piece. `speed
//! library read CALL INDEX TIMES` reads a message of 119 entries by one of the
//! reader's calls, `speed library tick ENTRIES TIMES` ticks a record with so many
//! entries in use, a millisecond each time.

use compare::answer::{MESSAGE, MORE};
use compare::engine::Engine;
use compare::fast;
use compare::harness::random::Random;
use compare::harness::traffic::{adding, blob, command, keep_alive, message, naming};
use compare::record::{AREA, Record};
use compare::second::Second;
#[cfg(feature = "ours")]
use melorwyth::call;
use std::hash::{DefaultHasher, Hash, Hasher};
use std::hint::black_box;
use std::process::ExitCode;
use std::time::{Duration, Instant};

/// So many messages are delivered by each program, an equal share in each round.
const MESSAGES: usize = 10_000;
const ROUNDS: usize = 5;
const SHARE: usize = MESSAGES / ROUNDS;
/// So many different messages are sent again and again.
const POOL: usize = 100;
/// So many entries are in use in the table.
const USED: u32 = 8;
const EVENT: u32 = 0x0001_0001;
/// So many least commands fit a message.
#[cfg(any(feature = "ours", test))]
const MOST: u32 = 119;

/// What a host keeps between calls.
struct Host {
    record: Record,
    area: Vec<u8>,
    output: Vec<u8>,
}

/// Delivers a piece and answers its kind and how many bytes were taken.
type Give<'a> = &'a mut dyn FnMut(&[u8]) -> (u8, usize);

/// Lets the work deliver to connection 0 of a host by one of the programs.
type Program = fn(&mut Host, &mut dyn FnMut(Give));

fn plain(host: &mut Host, work: &mut dyn FnMut(Give)) {
    let Host {
        record,
        area,
        output,
    } = host;
    work(&mut |piece| {
        let answer = fast::deliver(record, area, 0, piece, output);
        (answer.kind, answer.taken)
    });
}

/// The record is turned into the library's before the work and back behind it.
#[cfg(feature = "ours")]
fn library(host: &mut Host, work: &mut dyn FnMut(Give)) {
    let mut record = host.record.into();
    work(&mut |piece| {
        let answer = call::deliver(record, &mut host.area, 0, piece, &mut host.output);
        record = answer.record;
        (answer.kind, answer.taken)
    });
    host.record = record.into();
}

#[cfg(feature = "ours")]
const PROGRAMS: [(&str, Program); 2] = [("library", library), ("plain", plain)];
#[cfg(not(feature = "ours"))]
const PROGRAMS: [(&str, Program); 1] = [("plain", plain)];

/// The command of a kind at its place in all messages; each is carried out.
type Make = fn(u32) -> Vec<u8>;

const KINDS: [(&str, Make); 4] = [
    ("lock", lock),
    ("get", get),
    ("set", set),
    ("add", add_or_remove),
];

fn main() -> ExitCode {
    let words: Vec<String> = std::env::args().skip(1).collect();
    let words: Vec<&str> = words.iter().map(String::as_str).collect();
    let done = match words.as_slice() {
        [] => {
            table();
            Some(())
        }
        ["library", "tick", entries, times] => only_tick(entries, times),
        [program, commands, pieces, messages] => only(program, commands, pieces, messages),
        ["library", "read", call, index, times] => only_read(call, index, times),
        [program, kind, commands, entries, messages] => {
            only_kind(program, kind, commands, entries, messages)
        }
        _ => None,
    };
    match done {
        Some(()) => ExitCode::SUCCESS,
        None => {
            eprintln!("usage: speed [library|plain COMMANDS whole|bytes MESSAGES]");
            eprintln!("       speed library|plain lock|get|set|add COMMANDS ENTRIES MESSAGES");
            eprintln!("       speed library read message|entry|part INDEX TIMES");
            eprintln!("       speed library tick ENTRIES TIMES");
            ExitCode::from(2)
        }
    }
}

/// Delivers and measures nothing.
fn only(program: &str, commands: &str, pieces: &str, messages: &str) -> Option<()> {
    let program = find(&PROGRAMS, program)?;
    let whole = match pieces {
        "whole" => true,
        "bytes" => false,
        _ => return None,
    };
    let pool = pool(commands.parse().ok()?);
    let count = messages.parse().ok()?;
    let mut host = prepared(USED);
    program(&mut host, &mut |give| deliver(give, &pool, whole, count));
    tell_end(host);
    Some(())
}

/// Delivers commands of one kind, or an empty piece each time, and measures nothing.
fn only_kind(
    program: &str,
    kind: &str,
    commands: &str,
    entries: &str,
    messages: &str,
) -> Option<()> {
    let program = find(&PROGRAMS, program)?;
    let make = find(&KINDS, kind)?;
    let commands = commands.parse().ok()?;
    let count = messages.parse().ok()?;
    let mut host = prepared(entries.parse().ok()?);
    if commands == 0 {
        program(&mut host, &mut |give| deliver_nothing(give, count));
    } else {
        let pool = pool_of(make, commands);
        program(&mut host, &mut |give| deliver(give, &pool, true, count));
    }
    tell_end(host);
    Some(())
}

/// Reads so many times, and measures nothing.
#[cfg(feature = "ours")]
fn only_read(call: &str, index: &str, times: &str) -> Option<()> {
    let bytes = longest();
    let index = index.parse().ok()?;
    let times = times.parse().ok()?;
    match call {
        "message" => tell_last(times, || call::read_message(black_box(&bytes))),
        "entry" => tell_last(times, || call::read_entry(black_box(&bytes), index)),
        "part" => tell_last(times, || call::entry_part(black_box(&bytes), index)),
        _ => return None,
    }
    Some(())
}

#[cfg(not(feature = "ours"))]
fn only_read(_: &str, _: &str, _: &str) -> Option<()> {
    None
}

/// Ticks so many times, and measures nothing.
#[cfg(feature = "ours")]
fn only_tick(entries: &str, times: &str) -> Option<()> {
    let mut host = prepared(entries.parse().ok()?);
    let times: u32 = times.parse().ok()?;
    let mut record = host.record.into();
    for reading in 1..=times {
        let answer = call::tick(record, &mut host.area, reading);
        assert_eq!((answer.number, answer.closed), (0, 0));
        record = answer.record;
    }
    host.record = record.into();
    tell_end(host);
    Some(())
}

#[cfg(not(feature = "ours"))]
fn only_tick(_: &str, _: &str) -> Option<()> {
    None
}

/// The last answer, to see that every archive gives the same.
#[cfg(feature = "ours")]
fn tell_last<T: std::fmt::Debug>(times: usize, read: impl Fn() -> T) {
    let mut last = None;
    for _ in 0..times {
        last = black_box(Some(read()));
    }
    println!("{last:?}");
}

/// The message of the most entries: 119 least commands, with different handles.
#[cfg(any(feature = "ours", test))]
fn longest() -> Vec<u8> {
    message(1, &(0..MOST).map(lock).collect::<Vec<_>>())
}

fn find<T: Copy>(named: &[(&str, T)], wanted: &str) -> Option<T> {
    let (_, found) = named.iter().find(|(name, _)| *name == wanted)?;
    Some(*found)
}

/// The end as a number, to see that both programs come to the same.
fn tell_end(host: Host) {
    let mut end = DefaultHasher::new();
    (format!("{:?}", host.record), host.area, host.output).hash(&mut end);
    println!("{:016x}", end.finish());
}

fn table() {
    if std::env::var_os("MELORWYTH_RUN").is_some_and(|run| !run.is_empty()) {
        println!("under an emulator: these times say nothing, ./count counts instructions");
    }
    let names: Vec<&str> = PROGRAMS.iter().map(|(name, _)| *name).collect();
    println!(
        "programs: {}; {MESSAGES} messages each, {ROUNDS} rounds; ns per message, the rounds' median",
        names.join(", ")
    );
    let heads: Vec<String> = names.iter().map(|name| format!("{name:>12}")).collect();
    println!("commands  pieces {}  ratio", heads.concat());
    for whole in [true, false] {
        for commands in [1, 10, 100] {
            case(commands, whole);
        }
    }
}

/// Measures one case and prints its line.
fn case(commands: usize, whole: bool) {
    let pool = pool(commands);
    let mut times = vec![Vec::new(); PROGRAMS.len()];
    let mut ends = Vec::new();
    for round in 0..ROUNDS {
        for turn in 0..PROGRAMS.len() {
            // The order alternates, so that neither always runs first.
            let place = (round + turn) % PROGRAMS.len();
            let mut host = prepared(USED);
            PROGRAMS[place].1(&mut host, &mut |give| {
                let start = Instant::now();
                deliver(give, &pool, whole, SHARE);
                times[place].push(start.elapsed());
            });
            ends.push((host.record, host.area, host.output));
        }
    }
    assert!(
        ends.iter().all(|end| *end == ends[0]),
        "the programs end in different states"
    );
    let medians: Vec<f64> = times
        .iter_mut()
        .map(|times| median(times).as_nanos() as f64 / SHARE as f64)
        .collect();
    let cells: Vec<String> = medians.iter().map(|time| format!("{time:>12.0}")).collect();
    let pieces = if whole { "whole" } else { "bytes" };
    let ratio = match medians.as_slice() {
        [library, plain] => format!("{:>6.2}", library / plain),
        _ => "     -".to_string(),
    };
    println!("{commands:>8}  {pieces:<7}{} {ratio}", cells.concat());
}

fn median(times: &mut [Duration]) -> Duration {
    times.sort();
    times[times.len() / 2]
}

/// Delivers so many messages.
fn deliver(give: Give, pool: &[Vec<u8>], whole: bool, count: usize) {
    for message in pool.iter().cycle().take(count) {
        let step = if whole { message.len() } else { 1 };
        let mut kind = 0;
        for piece in message.chunks(step) {
            kind = all_of(give, piece);
        }
        assert_eq!(kind, MESSAGE);
    }
}

/// Delivers an empty piece so many times.
fn deliver_nothing(give: Give, count: usize) {
    for _ in 0..count {
        assert_eq!(all_of(give, &[]), MORE);
    }
}

/// Delivers a piece, all of which is taken; answers the kind.
#[inline(always)]
fn all_of(give: Give, piece: &[u8]) -> u8 {
    // Neither program may be worked out beforehand or left out.
    let (kind, taken) = black_box(give)(black_box(piece));
    assert_eq!(taken, piece.len());
    kind
}

/// Two supervised connections that share so many subscriptions, up to 32; cleared buffers.
fn prepared(entries: u32) -> Host {
    let mut host = Host {
        record: Second.fresh(0),
        area: vec![0; AREA],
        output: vec![0; 4_096],
    };
    for n in 0..2 {
        host.record = Second.open(host.record).record;
        send(&mut host, n, &keep_alive(1, 30));
        for each in 0..entries / 2 {
            let name = naming(4_097 + each % 8, EVENT, 9 + each / 8, 0x0003_0001);
            let add = command(1, 4, (3, 1), 5, &adding(&name, &context(), 1, [0, 0]));
            send(&mut host, n, &message(0, &[add]));
        }
    }
    host.output.fill(0);
    host
}

/// The context of every subscription, behind its count.
fn context() -> Vec<u8> {
    blob(&[0, 0, 0, 7])
}

fn send(host: &mut Host, n: u8, bytes: &[u8]) {
    let answer = Second.deliver(host.record, &mut host.area, n, bytes, &mut host.output);
    assert_eq!((answer.number, answer.kind), (0, MESSAGE));
    host.record = answer.record;
}

/// Messages of locks, unlocks, sets, gets and class identifications.
fn pool(commands: usize) -> Vec<Vec<u8>> {
    let mut random = Random::new(commands as u64);
    (0..POOL)
        .map(|_| {
            let entries: Vec<Vec<u8>> = (0..commands).map(|_| any_command(&mut random)).collect();
            message(1, &entries)
        })
        .collect()
}

fn any_command(random: &mut Random) -> Vec<u8> {
    let handle = random.word();
    let mute = 4_097 + random.word() % 8;
    match random.below(5) {
        0 => command(handle, mute, (1, 3), 0, &[]),
        1 => command(handle, mute, (1, 4), 0, &[]),
        2 => command(handle, mute, (4, 2), 1, &[random.pick(&[1, 2])]),
        3 => command(handle, mute, (4, 1), 0, &[]),
        _ => command(handle, mute, (1, 1), 0, &[]),
    }
}

/// Messages of so many commands of one kind.
fn pool_of(make: Make, commands: u32) -> Vec<Vec<u8>> {
    (0..POOL as u32)
        .map(|at| {
            let places = at * commands..(at + 1) * commands;
            message(1, &places.map(make).collect::<Vec<_>>())
        })
        .collect()
}

fn lock(place: u32) -> Vec<u8> {
    command(place, 4_097 + place % 8, (1, 3), 0, &[])
}

fn get(place: u32) -> Vec<u8> {
    command(place, 4_097 + place % 8, (4, 1), 0, &[])
}

/// Muted, then unmuted: every set changes its mute, and the pool can begin again.
fn set(place: u32) -> Vec<u8> {
    let mute = 4_097 + place / 2 % 8;
    command(place, mute, (4, 2), 1, &[1 + (place % 2) as u8])
}

/// Added, then removed, so that the pool can begin again.
fn add_or_remove(place: u32) -> Vec<u8> {
    let name = naming(4_097 + place / 2 % 8, EVENT, 99, 0x0003_0001);
    match place % 2 {
        0 => command(place, 4, (3, 1), 5, &adding(&name, &context(), 1, [0, 0])),
        _ => command(place, 4, (3, 2), 2, &name),
    }
}

#[cfg(test)]
mod tests {
    use super::*;

    /// The pool's commands one by one, twice over.
    fn one_by_one(make: Make, entries: u32, mut seen: impl FnMut(Record, &Host)) {
        let mut host = prepared(entries);
        for message in pool_of(make, 1).iter().cycle().take(2 * POOL) {
            let before = host.record;
            send(&mut host, 0, message);
            seen(before, &host);
        }
    }

    #[test]
    fn so_many_entries_are_used() {
        for entries in [0, USED, 32] {
            let used = prepared(entries).record.device.subscriptions;
            assert_eq!(
                used.iter().filter(|entry| entry.used).count(),
                entries as usize
            );
        }
    }

    #[test]
    fn every_command_is_carried_out() {
        for (kind, make) in KINDS {
            one_by_one(make, USED, |_, host| {
                assert_eq!(host.output[18], 0, "{kind}")
            });
        }
        one_by_one(lock, 32, |_, host| assert_eq!(host.output[18], 0));
    }

    #[test]
    fn every_set_changes_a_mute() {
        one_by_one(set, USED, |before, host| {
            assert_ne!(before.device.mutes, host.record.device.mutes);
        });
    }

    #[test]
    fn the_longest_message_has_119_entries() {
        let bytes = longest();
        assert_eq!(Second.read_message(&bytes).count, 119);
        let last = Second.read_entry(&bytes, 118);
        assert_eq!((last.number, last.handle), (0, 118));
        assert_ne!(Second.read_entry(&bytes, 119).number, 0);
    }

    #[test]
    fn fifty_commands_of_each_kind_fit() {
        for (kind, make) in KINDS {
            let mut host = prepared(USED);
            for message in pool_of(make, 50) {
                send(&mut host, 0, &message);
                assert_eq!(host.output[8..10], [0, 50], "{kind}");
            }
        }
    }
}
