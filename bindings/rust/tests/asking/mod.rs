//! What a controller sends, and an endpoint that it is sent to.
#![allow(dead_code)]

use melorwyth::record::{BUFFER, OUTPUT};
use melorwyth::{Endpoint, Heartbeat, Outcome, Status, number};

/// One command: its size, handle, target, method, parameter count and parameters.
pub fn command(handle: u32, target: u32, method: u32, count: u8, parameters: &[u8]) -> Vec<u8> {
    let mut entry = Vec::new();
    for word in [17 + parameters.len() as u32, handle, target, method] {
        entry.extend(word.to_be_bytes());
    }
    entry.push(count);
    entry.extend(parameters);
    entry
}

/// One message of commands that want a reply.
pub fn commands(entries: &[Vec<u8>]) -> Vec<u8> {
    let kind = number::TYPE_COMMAND_WANTING_REPLY;
    let mut buffer = [0; BUFFER];
    let (first, others) = entries.split_first().expect("at least one");
    let mut length = melorwyth::start(&mut buffer, kind, first).expect("a command");
    for entry in others {
        length = melorwyth::append(&mut buffer, kind, entry).expect("a command");
    }
    buffer[..length].to_vec()
}

/// The command without parameters, as a message.
pub fn asking(handle: u32, target: u32, method: u32) -> Vec<u8> {
    commands(&[command(handle, target, method, 0, &[])])
}

/// Mutes or unmutes channel n.
pub fn setting(channel: u32, value: u8) -> Vec<u8> {
    let target = number::object_channel(channel);
    commands(&[command(1, target, number::METHOD_SET, 1, &[value])])
}

/// Subscribes to channel n, with a context.
pub fn adding(channel: u32, context: &[u8]) -> Vec<u8> {
    let mut parameters = Vec::new();
    let emitter = number::object_channel(channel);
    for word in [emitter, number::EVENT_CHANGE, 77, 0x0003_0009] {
        parameters.extend(word.to_be_bytes());
    }
    parameters.extend((context.len() as u16).to_be_bytes());
    parameters.extend(context);
    parameters.extend([1, 0, 0]);
    let target = number::OBJECT_SUBSCRIPTION_MANAGER;
    commands(&[command(2, target, number::METHOD_ADD, 5, &parameters)])
}

/// Arms reset by key, with no group.
pub fn arming(key: &[u8; 16], port: u16) -> Vec<u8> {
    let mut parameters = key.to_vec();
    parameters.extend([0, 0]);
    parameters.extend(port.to_be_bytes());
    let target = number::OBJECT_DEVICE_MANAGER;
    commands(&[command(3, target, number::METHOD_RESET_KEY, 2, &parameters)])
}

pub fn keep_alive(heartbeat: Heartbeat) -> Vec<u8> {
    let mut buffer = [0; BUFFER];
    let length = melorwyth::keep_alive(&mut buffer, heartbeat).expect("a keep-alive");
    buffer[..length].to_vec()
}

/// Delivers a whole message; gives its reply.
pub fn reply(endpoint: &mut Endpoint, n: u8, message: &[u8]) -> Vec<u8> {
    let mut output = [0xEE; OUTPUT];
    let delivery = endpoint.deliver(n, message, &mut output).expect("taken");
    assert_eq!(delivery.taken, message.len());
    match delivery.outcome {
        Outcome::Message(reply) => reply.to_vec(),
        other => panic!("no message: {other:?}"),
    }
}

/// The status of the first response.
pub fn status(endpoint: &mut Endpoint, n: u8, message: &[u8]) -> Status {
    let reply = reply(endpoint, n, message);
    Status::from_number(melorwyth::read_entry(&reply, 0).expect("a response").status)
}
