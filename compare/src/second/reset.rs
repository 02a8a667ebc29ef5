//! Reset by key: what method 3.14 sets, and which datagram asks for a reset.

use super::address;
use super::wire;
use crate::record::Mechanism;

/// What a datagram begins with that asks for a reset.
pub const SENTINEL: [u8; 8] = [0xDE, 0xAF, 0xDA, 0xDA, 0xCA, 0xFE, 0xBA, 0xBE];

/// The parameters of 3.14.
#[derive(Clone, Copy, Debug, PartialEq, Eq)]
pub struct Setting<'a> {
    pub key: [u8; 16],
    pub text: &'a [u8],
    pub port: u16,
}

/// Cuts the parameters as the text length says; none if their lengths are wrong.
pub fn setting(parameters: &[u8]) -> Option<Setting<'_>> {
    let (key, rest) = parameters.split_at_checked(16)?;
    let (length, rest) = rest.split_at_checked(2)?;
    let (text, port) = rest.split_at_checked(usize::from(wire::short(length)))?;
    if port.len() != 2 {
        return None;
    }
    Some(Setting {
        key: key.try_into().ok()?,
        text,
        port: wire::short(port),
    })
}

/// The mechanism that the parameters arm; none if a length, the text or the port is wrong.
pub fn armed_by(parameters: &[u8]) -> Option<Mechanism> {
    let Setting { key, text, port } = setting(parameters)?;
    let address = address::read(text)?;
    (port != 0).then_some(Mechanism {
        armed: true,
        key,
        address,
        port,
    })
}

/// Whether the mechanism is armed and the datagram is the sentinel and its key.
pub fn asks(mechanism: &Mechanism, datagram: &[u8]) -> bool {
    mechanism.armed && datagram == [&SENTINEL[..], &mechanism.key].concat()
}
