//! The session that is played: what comes between controllers and the device, of each kind and up to its limits.

use crate::capture::SEGMENT;
use crate::hall::{Cutting, Hall};
use crate::message::{
    COMMAND, COMMAND_WANTING_REPLY, Entry, NOTIFICATION, Pair, RESPONSE, counted, laid,
};
use compare::engine::Engine;

pub const LONGEST_CONTEXT: usize = 64;
/// The least command has 17 bytes, and as many as 119 fit.
pub const MOST_COMMANDS: usize = 119;
/// What the longest message has for entries.
pub const LONGEST_DATA: usize = 2_039;
const DEVICE_MANAGER: u32 = 1;
const SUBSCRIPTION_MANAGER: u32 = 4;
const MUTES: [u32; 8] = [4_097, 4_098, 4_099, 4_100, 4_101, 4_102, 4_103, 4_104];
const SUBSCRIPTIONS: usize = 32;
const CHANGED: Pair = (1, 1);
const CLASS: Pair = (1, 1);
const LOCKABLE: Pair = (1, 2);
const LOCK: Pair = (1, 3);
const UNLOCK: Pair = (1, 4);
const GET: Pair = (4, 1);
const SET: Pair = (4, 2);
const ADD: Pair = (3, 1);
const REMOVE: Pair = (3, 2);
const SET_RESET_KEY: Pair = (3, 14);
const SECONDS: u8 = 1;
const MILLISECONDS: u8 = 2;
/// Cut only where a segment is full.
const TOGETHER: Cutting = Cutting::Pieces(SEGMENT);
const KEY: [u8; 16] = *b"\x00a key of 16 by\xFF";

type Played = Result<(), String>;

/// Plays all of it.
pub fn play<E: Engine>(engine: &E) -> Result<Hall<'_, E>, String> {
    let mut hall = Hall::new(engine)?;
    play_methods(&mut hall)?;
    play_statuses(&mut hall)?;
    play_contexts(&mut hall)?;
    play_heartbeats(&mut hall)?;
    play_limits(&mut hall)?;
    play_heard(&mut hall)?;
    play_cuttings(&mut hall)?;
    Ok(hall)
}

/// Emitter and event, subscriber's object and method.
fn naming(emitter: u32, event: Pair, object: u32, method: Pair) -> Vec<u8> {
    [
        emitter.to_be_bytes(),
        laid(event),
        object.to_be_bytes(),
        laid(method),
    ]
    .concat()
}

/// The parameters of 3.1.
pub fn adding(name: &[u8], context: &[u8], mode: u8) -> Vec<u8> {
    [name, &counted(context), &[mode, 0, 0]].concat()
}

/// The parameters of 3.14.
pub fn resetting(address: &str, port: u16) -> Vec<u8> {
    [&KEY[..], &counted(address.as_bytes()), &port.to_be_bytes()].concat()
}

/// A context of that many bytes, unlike that of any other length; a 3B among them is nothing special.
pub fn context(length: usize) -> Vec<u8> {
    (0..length)
        .map(|k| (0x3B + 7 * k + 31 * (length % 2) * k) as u8)
        .collect()
}

/// A message of type 1 for each command, and its reply before the next.
fn ask<E: Engine>(hall: &mut Hall<E>, n: u8, commands: &[Entry]) -> Played {
    for command in commands {
        let message = hall.written(COMMAND_WANTING_REPLY, std::slice::from_ref(command))?;
        hall.say(n, &[message], Cutting::Each)?;
    }
    Ok(())
}

/// Entries in messages of so many.
fn say_in_messages<E: Engine>(
    hall: &mut Hall<E>,
    n: u8,
    kind: u8,
    entries: &[Entry],
    many: usize,
    cutting: Cutting,
) -> Played {
    let parts = entries.chunks(many);
    let messages: Result<Vec<_>, String> = parts.map(|part| hall.written(kind, part)).collect();
    hall.say(n, &messages?, cutting)
}

/// Every method of every object, in an order in which each is done with status 0.
fn methods<E: Engine>(hall: &mut Hall<E>) -> Vec<Entry> {
    let mut all = Vec::new();
    for manager in [DEVICE_MANAGER, SUBSCRIPTION_MANAGER] {
        all.push(hall.command(manager, CLASS, 0, &[]));
        all.push(hall.command(manager, LOCKABLE, 0, &[]));
    }
    for mute in MUTES {
        for method in [CLASS, LOCKABLE, LOCK, GET] {
            all.push(hall.command(mute, method, 0, &[]));
        }
        all.push(hall.command(mute, SET, 1, &[1]));
        all.push(hall.command(mute, GET, 0, &[]));
        all.push(hall.command(mute, SET, 1, &[2]));
        all.push(hall.command(mute, UNLOCK, 0, &[]));
    }
    let name = naming(MUTES[0], CHANGED, 9, (3, 1));
    let manager = SUBSCRIPTION_MANAGER;
    all.push(hall.command(manager, ADD, 5, &adding(&name, &context(4), 1)));
    all.push(hall.command(manager, REMOVE, 2, &name));
    all.push(hall.command(DEVICE_MANAGER, SET_RESET_KEY, 2, &resetting("", 5_000)));
    let group = resetting("239.1.2.3", 65_535);
    all.push(hall.command(DEVICE_MANAGER, SET_RESET_KEY, 2, &group));
    all
}

/// Every method of every object: one in a message, then many, and the same without reply.
fn play_methods<E: Engine>(hall: &mut Hall<E>) -> Played {
    let n = hall.open()?;
    for kind in [COMMAND_WANTING_REPLY, COMMAND] {
        for many in [1, 7, 40] {
            let commands = methods(hall);
            say_in_messages(hall, n, kind, &commands, many, Cutting::Each)?;
        }
    }
    hall.close(n)
}

/// Commands that are answered by statuses other than 0, each status in several ways.
fn play_statuses<E: Engine>(hall: &mut Hall<E>) -> Played {
    let (holder, n) = (hall.open()?, hall.open()?);
    let lock = hall.command(MUTES[0], LOCK, 0, &[]);
    ask(hall, holder, &[lock])?;
    let strange = strange_commands()
        .into_iter()
        .chain(strange_subscriptions());
    let command =
        |(target, method, count, rest): Strange| hall.command(target, method, count, &rest);
    let commands: Vec<Entry> = strange.map(command).collect();
    ask(hall, n, &commands)?;
    play_full_table(hall, n)?;
    hall.close(holder)?;
    hall.close(n)
}

/// Target, method, parameter count and parameters.
type Strange = (u32, Pair, u8, Vec<u8>);

/// Statuses 3, 5, 11, 8, 4, 7 and 9. Where the dissector takes parameters apart their lengths are right, as it would
/// find others malformed, and the count is wrong.
fn strange_commands() -> [Strange; 21] {
    let name = naming(MUTES[1], CHANGED, 9, (3, 1));
    [
        (MUTES[0], LOCK, 0, vec![]),
        (MUTES[0], UNLOCK, 0, vec![]),
        (MUTES[0], SET, 1, vec![1]),
        (5, CLASS, 0, vec![]),
        (4_105, GET, 0, vec![]),
        (u32::MAX, (u16::MAX, u16::MAX), u8::MAX, vec![1, 2, 3]),
        (MUTES[0], (4, 3), 0, vec![]),
        (SUBSCRIPTION_MANAGER, GET, 0, vec![]),
        (DEVICE_MANAGER, (1, 6), 0, vec![]),
        (DEVICE_MANAGER, LOCK, 0, vec![]),
        (SUBSCRIPTION_MANAGER, UNLOCK, 0, vec![]),
        (MUTES[1], GET, 1, vec![1]),
        (MUTES[1], SET, 2, vec![1, 2]),
        (MUTES[1], SET, 1, vec![0; 300]),
        (SUBSCRIPTION_MANAGER, REMOVE, 1, name.clone()),
        (DEVICE_MANAGER, SET_RESET_KEY, 1, KEY.to_vec()),
        (MUTES[1], SET, 1, vec![3]),
        (
            DEVICE_MANAGER,
            SET_RESET_KEY,
            2,
            resetting("127.0.0.1", 5_000),
        ),
        (DEVICE_MANAGER, SET_RESET_KEY, 2, resetting("", 0)),
        (MUTES[1], UNLOCK, 0, vec![]),
        (SUBSCRIPTION_MANAGER, REMOVE, 2, name),
    ]
}

/// Status 6 for the emitter and for the event, and 7 for the mode and for contexts above 64.
fn strange_subscriptions() -> [Strange; 5] {
    let name = naming(MUTES[1], CHANGED, 9, (3, 1));
    let of_manager = naming(DEVICE_MANAGER, CHANGED, 9, (3, 1));
    let of_event = naming(MUTES[1], (1, 2), 9, (3, 1));
    [
        adding(&of_manager, &[], 1),
        adding(&of_event, &context(64), 1),
        adding(&name, &context(1), 2),
        adding(&name, &context(65), 1),
        adding(&name, &context(1_000), 1),
    ]
    .map(|parameters| (SUBSCRIPTION_MANAGER, ADD, 5, parameters))
}

/// 32 subscriptions, one of them once more, and one too many.
fn play_full_table<E: Engine>(hall: &mut Hall<E>, n: u8) -> Played {
    for object in (0..SUBSCRIPTIONS as u32).chain([0, 99]) {
        let name = naming(MUTES[7], CHANGED, object, (object as u16, 1));
        let add = hall.command(SUBSCRIPTION_MANAGER, ADD, 5, &adding(&name, &context(2), 1));
        ask(hall, n, &[add])?;
    }
    Ok(())
}

/// Subscriptions with contexts of 0 to 64 bytes, as many at a time as there are entries, and what they are sent:
/// a message each, then many in a segment and some over two.
fn play_contexts<E: Engine>(hall: &mut Hall<E>) -> Played {
    let (n, setter) = (hall.open()?, hall.open()?);
    let lengths: Vec<usize> = (0..=LONGEST_CONTEXT).collect();
    for (kind, cutting) in [(COMMAND_WANTING_REPLY, Cutting::Each), (COMMAND, TOGETHER)] {
        for batch in lengths.chunks(SUBSCRIPTIONS) {
            play_batch(hall, (n, setter), batch, (kind, cutting))?;
        }
    }
    hall.close(n)?;
    hall.close(setter)
}

/// The name of the subscription whose context has that length.
fn subscriber(length: usize) -> Vec<u8> {
    let mute = MUTES[length % MUTES.len()];
    naming(mute, CHANGED, 9 + 1_000 * length as u32, (length as u16, 3))
}

fn play_batch<E: Engine>(
    hall: &mut Hall<E>,
    who: (u8, u8),
    lengths: &[usize],
    how: (u8, Cutting),
) -> Played {
    let (n, setter) = who;
    let name = |length: &usize| subscriber(*length);
    let add = |length: &usize| adding(&subscriber(*length), &context(*length), 1);
    manage(hall, n, how, (ADD, 5), lengths.iter().map(add))?;
    for value in [1, 2] {
        let sets = MUTES.map(|mute| hall.command(mute, SET, 1, &[value]));
        let message = hall.written(COMMAND_WANTING_REPLY, &sets)?;
        hall.say(setter, &[message], Cutting::Each)?;
        let taken = hall.take(how.1)?;
        if taken != lengths.len() {
            return Err(format!(
                "{taken} notifications for {} subscriptions",
                lengths.len()
            ));
        }
    }
    manage(hall, n, how, (REMOVE, 2), lengths.iter().map(name))
}

/// A message of a method of the subscription manager for each of the parameters.
fn manage<E: Engine>(
    hall: &mut Hall<E>,
    n: u8,
    how: (u8, Cutting),
    method: (Pair, u8),
    parameters: impl Iterator<Item = Vec<u8>>,
) -> Played {
    let mut messages = Vec::new();
    for parameters in parameters {
        let command = hall.command(SUBSCRIPTION_MANAGER, method.0, method.1, &parameters);
        messages.push(hall.written(how.0, &[command])?);
    }
    hall.say(n, &messages, how.1)
}

/// Heartbeats in both forms: set, answered, and sent when they are due.
fn play_heartbeats<E: Engine>(hall: &mut Hall<E>) -> Played {
    let n = hall.open()?;
    let seconds = [0, 1, 2, 30, 255, 256, 65_535].map(|value| (SECONDS, value));
    let milliseconds = [0, 1, 255, 256, 2_000, 65_535, 65_536, 67_536, u32::MAX];
    let milliseconds = milliseconds.map(|value| (MILLISECONDS, value));
    for (form, value) in seconds.into_iter().chain(milliseconds) {
        let beat = hall.keep_alive(form, value)?;
        hall.say(n, &[beat], Cutting::Each)?;
        let mut left = u64::from(value) * if form == SECONDS { 1_000 } else { 1 };
        while left > 0 {
            // the longest step that a tick takes
            let step = left.min(0x7FFF_FFFF);
            hall.tick(step as u32)?;
            left -= step;
        }
        let due = usize::from(value > 0);
        let taken = hall.take(Cutting::Each)?;
        if taken != due {
            return Err(format!(
                "{taken} keep-alives taken at heartbeat {value} of form {form}"
            ));
        }
    }
    hall.close(n)
}

/// As many commands as fit, of which the first have the longest reply, and the longest message of each type.
fn play_limits<E: Engine>(hall: &mut Hall<E>) -> Played {
    let n = hall.open()?;
    for method in [CLASS, LOCKABLE, LOCK, GET, UNLOCK] {
        for kind in [COMMAND_WANTING_REPLY, COMMAND] {
            let mutes = MUTES.iter().cycle().take(MOST_COMMANDS);
            let commands: Vec<Entry> = mutes
                .map(|mute| hall.command(*mute, method, 0, &[]))
                .collect();
            let message = hall.written(kind, &commands)?;
            hall.say(n, &[message], Cutting::Each)?;
        }
    }
    let filling: Vec<u8> = (0..LONGEST_DATA).map(|k| k as u8).collect();
    let longest = [
        (
            COMMAND_WANTING_REPLY,
            hall.command(MUTES[7], SET, 1, &filling[17..]),
        ),
        (COMMAND, hall.command(MUTES[7], SET, 1, &filling[17..])),
        (NOTIFICATION, notification(64, 255, &filling[23 + 64..])),
        (RESPONSE, response(u32::MAX, 0, 255, &filling[10..])),
    ];
    for (kind, entry) in longest {
        let message = hall.written(kind, &[entry])?;
        hall.say(n, &[message], Cutting::Each)?;
    }
    hall.close(n)
}

fn notification(length: usize, count: u8, parameters: &[u8]) -> Entry {
    Entry::Notification {
        target: 9 + length as u32,
        method: (length as u16, 1),
        count,
        context: context(length),
        emitter: MUTES[length % MUTES.len()],
        event: (1, length as u16),
        parameters: parameters.to_vec(),
    }
}

fn response(handle: u32, status: u8, count: u8, parameters: &[u8]) -> Entry {
    Entry::Response {
        handle,
        status,
        count,
        parameters: parameters.to_vec(),
    }
}

/// Notifications and responses that controllers send: the device reads them, and does no more.
fn play_heard<E: Engine>(hall: &mut Hall<E>) -> Played {
    let n = hall.open()?;
    let all: Vec<Entry> = (0..=LONGEST_CONTEXT)
        .map(|length| match length % 3 {
            0 => notification(length, 1, &[]),
            1 => notification(length, 2, &[0, 4, 0, 1, 2, 1]),
            _ => notification(length, 255, &[length as u8]),
        })
        .collect();
    for many in [1, 5, 13] {
        say_in_messages(hall, n, NOTIFICATION, &all, many, Cutting::Each)?;
    }
    let all: Vec<Entry> = (0..=255)
        .map(|status| match status % 2 {
            0 => response(u32::from(status), status, 0, &[]),
            _ => response(
                u32::MAX - u32::from(status),
                status,
                status,
                &[status, 0x3B],
            ),
        })
        .collect();
    for many in [1, 100] {
        say_in_messages(hall, n, RESPONSE, &all, many, TOGETHER)?;
    }
    hall.close(n)
}

/// Messages of all types in a row, cut into segments of many lengths wherever that may be.
fn play_cuttings<E: Engine>(hall: &mut Hall<E>) -> Played {
    for length in [13, 17, 26, 27, 64, 100, 333, 536, 1_000, SEGMENT] {
        let n = hall.open()?;
        let commands = methods(hall);
        let mut messages = vec![hall.keep_alive(SECONDS, 30)?];
        for (number, part) in commands.chunks(9).enumerate() {
            messages.push(hall.written(COMMAND_WANTING_REPLY, part)?);
            messages.push(hall.written(COMMAND, &part[..number % 3 + 1])?);
            messages.push(hall.written(NOTIFICATION, &[notification(7 * number, 1, &[])])?);
            messages.push(hall.keep_alive(MILLISECONDS, 70_000 + number as u32)?);
        }
        hall.say(n, &messages, Cutting::Pieces(length))?;
        hall.close(n)?;
    }
    Ok(())
}
