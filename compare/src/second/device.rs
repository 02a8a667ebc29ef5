//! Our objects: what a command does, and its status.

use super::reader::Command;
use super::reset;
use super::wire;
use crate::record::{CONTEXT, Device, Subscription};

/// Event 1.1.
pub const EVENT: u32 = 0x0001_0001;
const FIRST_MUTE: u32 = 4_097;
const LAST_MUTE: u32 = 4_104;
const CLASS_VERSION: u16 = 1;

#[derive(Clone, Copy, Debug, PartialEq, Eq)]
enum Object {
    DeviceManager,
    SubscriptionManager,
    Mute(usize),
}

#[derive(Clone, Copy, Debug, PartialEq, Eq)]
enum Method {
    ClassIdentification,
    Lockable,
    Lock,
    Unlock,
    Get,
    Set,
    Add,
    Remove,
    SetResetKey,
}

/// What a response carries besides its handle.
#[derive(Clone, Debug, PartialEq, Eq)]
pub struct Reply {
    pub status: u8,
    pub count: u8,
    pub parameters: Vec<u8>,
}

impl Reply {
    fn bare(status: u8) -> Reply {
        Reply {
            status,
            count: 0,
            parameters: Vec::new(),
        }
    }

    fn one(parameter: Vec<u8>) -> Reply {
        Reply {
            status: 0,
            count: 1,
            parameters: parameter,
        }
    }
}

/// Which of the eight mutes the object is.
pub fn mute_number(object: u32) -> Option<usize> {
    if (FIRST_MUTE..=LAST_MUTE).contains(&object) {
        Some((object - FIRST_MUTE) as usize)
    } else {
        None
    }
}

/// Known by connection, emitter, event and subscriber.
pub fn same(a: &Subscription, b: &Subscription) -> bool {
    a.connection == b.connection
        && a.emitter == b.emitter
        && a.event == b.event
        && a.object == b.object
        && a.method == b.method
}

/// Runs one command of connection `n`.
pub fn run(device: &mut Device, n: u8, command: &Command, parameters: &[u8]) -> Reply {
    let Some(object) = object(command.target) else {
        return Reply::bare(5);
    };
    let Some(method) = method(object, command.level, command.index) else {
        return Reply::bare(11);
    };
    match status(device, n, object, method, command.count, parameters) {
        0 => carry_out(device, n, object, method, parameters),
        status => Reply::bare(status),
    }
}

fn object(number: u32) -> Option<Object> {
    match number {
        1 => Some(Object::DeviceManager),
        4 => Some(Object::SubscriptionManager),
        _ => mute_number(number).map(Object::Mute),
    }
}

fn method(object: Object, level: u16, index: u16) -> Option<Method> {
    match (object, level, index) {
        (_, 1, 1) => Some(Method::ClassIdentification),
        (_, 1, 2) => Some(Method::Lockable),
        (_, 1, 3) => Some(Method::Lock),
        (_, 1, 4) => Some(Method::Unlock),
        (Object::Mute(_), 4, 1) => Some(Method::Get),
        (Object::Mute(_), 4, 2) => Some(Method::Set),
        (Object::SubscriptionManager, 3, 1) => Some(Method::Add),
        (Object::SubscriptionManager, 3, 2) => Some(Method::Remove),
        (Object::DeviceManager, 3, 14) => Some(Method::SetResetKey),
        _ => None,
    }
}

/// The first status that applies, for an object and method there are.
fn status(
    device: &Device,
    n: u8,
    object: Object,
    method: Method,
    count: u8,
    parameters: &[u8],
) -> u8 {
    if not_implemented(object, method) {
        return 8;
    }
    if !parameters_fit(method, count, parameters) {
        return 4;
    }
    if held_by_another(device, n, object, method) {
        return 3;
    }
    if wrong_emitter(method, parameters) {
        return 6;
    }
    if wrong_value(method, parameters) {
        return 7;
    }
    if wrong_state(device, n, object, method, parameters) {
        return 9;
    }
    if method == Method::Add && free_entry(device).is_none() {
        return 10;
    }
    0
}

fn not_implemented(object: Object, method: Method) -> bool {
    let manager = !matches!(object, Object::Mute(_));
    manager && matches!(method, Method::Lock | Method::Unlock)
}

fn parameters_fit(method: Method, count: u8, parameters: &[u8]) -> bool {
    let length = parameters.len();
    match method {
        Method::Set => count == 1 && length == 1,
        Method::Add => count == 5 && adding(parameters).is_some_and(|add| add.last == [0, 0]),
        Method::Remove => count == 2 && length == 16,
        Method::SetResetKey => count == 2 && reset::setting(parameters).is_some(),
        _ => count == 0 && length == 0,
    }
}

fn held_by_another(device: &Device, n: u8, object: Object, method: Method) -> bool {
    let Object::Mute(mute) = object else {
        return false;
    };
    let holder = device.holders[mute];
    matches!(method, Method::Set | Method::Lock | Method::Unlock) && holder != 0 && holder != n + 1
}

fn wrong_emitter(method: Method, parameters: &[u8]) -> bool {
    if !matches!(method, Method::Add | Method::Remove) {
        return false;
    }
    mute_number(four(parameters, 0)).is_none() || four(parameters, 4) != EVENT
}

fn wrong_value(method: Method, parameters: &[u8]) -> bool {
    match method {
        Method::Add => {
            adding(parameters).is_none_or(|add| add.mode != 1 || add.context.len() > CONTEXT)
        }
        Method::Set => parameters[0] != 1 && parameters[0] != 2,
        Method::SetResetKey => reset::armed_by(parameters).is_none(),
        _ => false,
    }
}

fn wrong_state(device: &Device, n: u8, object: Object, method: Method, parameters: &[u8]) -> bool {
    match (object, method) {
        (Object::Mute(mute), Method::Unlock) => device.holders[mute] == 0,
        (_, Method::Add) => find(device, n, parameters).is_some(),
        (_, Method::Remove) => find(device, n, parameters).is_none(),
        _ => false,
    }
}

/// The entry that add's or remove's parameters name.
fn find(device: &Device, n: u8, parameters: &[u8]) -> Option<usize> {
    let named = named(n, parameters);
    device
        .subscriptions
        .iter()
        .position(|entry| entry.used && same(entry, &named))
}

/// The subscription that the first 16 bytes of parameters name.
fn named(n: u8, parameters: &[u8]) -> Subscription {
    Subscription {
        used: true,
        waiting: false,
        connection: n,
        emitter: four(parameters, 0),
        event: four(parameters, 4),
        object: four(parameters, 8),
        method: four(parameters, 12),
        ..Subscription::default()
    }
}

/// What 3.1 has behind the name.
struct Adding<'a> {
    context: &'a [u8],
    mode: u8,
    last: [u8; 2],
}

/// Cuts the parameters of 3.1 as the context's count says; none if their length is wrong.
fn adding(parameters: &[u8]) -> Option<Adding<'_>> {
    let (count, rest) = parameters.get(16..)?.split_at_checked(2)?;
    let (context, rest) = rest.split_at_checked(usize::from(wire::short(count)))?;
    let [mode, a, b] = *rest else {
        return None;
    };
    Some(Adding {
        context,
        mode,
        last: [a, b],
    })
}

fn four(bytes: &[u8], at: usize) -> u32 {
    wire::integer(&bytes[at..at + 4])
}

fn free_entry(device: &Device) -> Option<usize> {
    device.subscriptions.iter().position(|entry| !entry.used)
}

/// Does what a command with status 0 asks.
fn carry_out(
    device: &mut Device,
    n: u8,
    object: Object,
    method: Method,
    parameters: &[u8],
) -> Reply {
    match (method, object) {
        (Method::ClassIdentification, _) => return Reply::one(class_identification(object)),
        (Method::Lockable, _) => return Reply::one(vec![lockable(object)]),
        (Method::Get, Object::Mute(mute)) => return Reply::one(vec![device.mutes[mute]]),
        (Method::Set, Object::Mute(mute)) => set(device, mute, parameters[0]),
        (Method::Lock, Object::Mute(mute)) => device.holders[mute] = n + 1,
        (Method::Unlock, Object::Mute(mute)) => device.holders[mute] = 0,
        (Method::Add, _) => add(device, n, parameters),
        (Method::Remove, _) => remove(device, n, parameters),
        (Method::SetResetKey, _) => set_reset_key(device, parameters),
        _ => {}
    }
    Reply::bare(0)
}

fn class_identification(object: Object) -> Vec<u8> {
    let fields: &[u16] = match object {
        Object::DeviceManager => &[1, 3, 1],
        Object::SubscriptionManager => &[1, 3, 4],
        Object::Mute(_) => &[1, 1, 1, 2],
    };
    class_bytes(fields, CLASS_VERSION)
}

/// Field count, fields and version, two bytes each.
pub fn class_bytes(fields: &[u16], version: u16) -> Vec<u8> {
    let mut numbers = vec![fields.len() as u16];
    numbers.extend(fields);
    numbers.push(version);
    numbers
        .iter()
        .flat_map(|number| number.to_be_bytes())
        .collect()
}

fn lockable(object: Object) -> u8 {
    match object {
        Object::Mute(_) => 1,
        _ => 0,
    }
}

fn set(device: &mut Device, mute: usize, value: u8) {
    if device.mutes[mute] == value {
        return;
    }
    device.mutes[mute] = value;
    for entry in &mut device.subscriptions {
        if entry.used && mute_number(entry.emitter) == Some(mute) {
            entry.waiting = true;
        }
    }
}

fn add(device: &mut Device, n: u8, parameters: &[u8]) {
    if let Some(free) = free_entry(device)
        && let Some(Adding { context, .. }) = adding(parameters)
    {
        let mut entry = named(n, parameters);
        entry.context_count = context.len() as u8;
        entry.context[..context.len()].copy_from_slice(context);
        device.subscriptions[free] = entry;
    }
}

/// The latest key counts, whoever set the one before.
fn set_reset_key(device: &mut Device, parameters: &[u8]) {
    if let Some(mechanism) = reset::armed_by(parameters) {
        device.mechanism = mechanism;
    }
}

fn remove(device: &mut Device, n: u8, parameters: &[u8]) {
    if let Some(held) = find(device, n, parameters) {
        device.subscriptions[held] = Subscription::default();
    }
}
