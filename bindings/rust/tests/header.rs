//! The header's numbers: each has its name and value here, and none is left out.

use melorwyth::record::{
    AREA, BUFFER, CONNECTIONS, CONTEXT, DATAGRAM, KEY, LONGEST_REPLY, MUTES, OUTPUT, SENTINEL,
    SUBSCRIPTIONS,
};
use melorwyth::{Fault, Refusal, VERSION, check_version, number, version};

const HEADER: &str = include_str!("../../../include/melorwyth.h");

/// A name less the prefix, and its value.
type Named = (&'static str, u64);

/// What the header defines as a number.
fn defined() -> Vec<Named> {
    let number = |text: &str| match text.strip_prefix("0x") {
        Some(digits) => u64::from_str_radix(digits, 16).ok(),
        None => text.parse().ok(),
    };
    let line = |line: &'static str| {
        let mut words = line.strip_prefix("#define MELORWYTH_")?.split(' ');
        Some((words.next()?, number(words.next()?)?))
    };
    HEADER.lines().filter_map(line).collect()
}

/// Each constant by its own name.
macro_rules! named {
    ($($name:ident),+ $(,)?) => {
        vec![$((stringify!($name), u64::from($name))),+]
    };
}

fn numbers() -> Vec<Named> {
    use number::*;
    named![
        VERSION,
        DONE,
        DELIVER_MORE,
        DELIVER_MESSAGE,
        DELIVER_CLOSED,
        TAKE_NOTHING,
        TAKE_NOTIFICATION,
        TAKE_KEEP_ALIVE,
        TYPE_COMMAND,
        TYPE_COMMAND_WANTING_REPLY,
        TYPE_NOTIFICATION,
        TYPE_RESPONSE,
        TYPE_KEEP_ALIVE,
        FORM_NONE,
        FORM_SECONDS,
        FORM_MILLISECONDS,
        OBJECT_DEVICE_MANAGER,
        OBJECT_SUBSCRIPTION_MANAGER,
        OBJECT_FIRST_MUTE,
        OBJECT_LAST_MUTE,
        METHOD_CLASS,
        METHOD_LOCKABLE,
        METHOD_LOCK,
        METHOD_UNLOCK,
        METHOD_ADD,
        METHOD_REMOVE,
        METHOD_RESET_KEY,
        METHOD_GET,
        METHOD_SET,
        EVENT_CHANGE,
        PROPERTY_MUTE,
        MUTED,
        UNMUTED,
    ]
}

fn statuses() -> Vec<Named> {
    use number::*;
    named![
        STATUS_CARRIED_OUT,
        STATUS_HELD_BY_OTHER,
        STATUS_MALFORMED,
        STATUS_NO_OBJECT,
        STATUS_STRANGE_EMITTER,
        STATUS_BAD_VALUE,
        STATUS_FORBIDDEN,
        STATUS_OUT_OF_TURN,
        STATUS_NO_FREE_ENTRY,
        STATUS_NO_METHOD,
    ]
}

fn sizes() -> Vec<Named> {
    let size = |name, value: usize| (name, value as u64);
    vec![
        size("CONNECTIONS", CONNECTIONS),
        size("SUBSCRIPTIONS", SUBSCRIPTIONS),
        size("MUTES", MUTES),
        size("CONTEXT", CONTEXT),
        size("AREA", AREA),
        size("OUTPUT", OUTPUT),
        size("LONGEST_REPLY", LONGEST_REPLY),
        size("BUFFER", BUFFER),
        size("KEY", KEY),
        size("DATAGRAM", DATAGRAM),
    ]
}

fn refusals_and_faults() -> Vec<Named> {
    let refusal = |name, refusal: Refusal| (name, u64::from(refusal.number()));
    let fault = |name, fault: Fault| (name, u64::from(fault.number()));
    vec![
        refusal("REFUSAL_BAD_RECORD", Refusal::BadRecord),
        refusal("REFUSAL_BAD_AREA", Refusal::BadArea),
        refusal("REFUSAL_NO_CONNECTION", Refusal::NoConnection),
        refusal("REFUSAL_NO_ROOM", Refusal::NoRoom),
        refusal("REFUSAL_TABLE_FULL", Refusal::TableFull),
        refusal("REFUSAL_CLOCK_BACK", Refusal::ClockBack),
        refusal("REFUSAL_FAULT", Refusal::Fault(Fault::Data)),
        refusal("REFUSAL_SHORT", Refusal::Short),
        refusal("REFUSAL_TOO_LONG", Refusal::TooLong),
        refusal("REFUSAL_BAD_ENTRY", Refusal::BadEntry),
        refusal("REFUSAL_NO_ENTRY", Refusal::NoEntry),
        fault("FAULT_START", Fault::Start),
        fault("FAULT_VERSION", Fault::Version),
        fault("FAULT_SIZE", Fault::Size),
        fault("FAULT_TYPE", Fault::Type),
        fault("FAULT_COUNT", Fault::Count),
        fault("FAULT_DATA", Fault::Data),
    ]
}

#[test]
fn every_number_of_the_header_is_the_same_here() {
    let mut header = defined();
    let mut here = [numbers(), statuses(), sizes(), refusals_and_faults()].concat();
    assert!(header.len() > 50, "the header is not read");
    header.sort();
    here.sort();
    assert_eq!(header, here);
}

#[test]
fn the_sentinel_is_the_headers() {
    let bytes: Vec<String> = SENTINEL
        .iter()
        .map(|byte| format!("0x{byte:02X}"))
        .collect();
    let line = format!("#define MELORWYTH_SENTINEL {{{}}}", bytes.join(", "));
    assert!(HEADER.lines().any(|other| other == line), "{line}");
}

#[test]
fn a_channel_is_an_object_as_in_the_header() {
    assert!(HEADER.contains("#define MELORWYTH_OBJECT_CHANNEL(n) (4096u + (n))"));
    assert_eq!(number::object_channel(1), number::OBJECT_FIRST_MUTE);
    assert_eq!(number::object_channel(8), number::OBJECT_LAST_MUTE);
}

#[test]
fn the_archive_is_of_this_version() {
    assert_eq!(version(), VERSION);
    assert_eq!(check_version(), Ok(()));
    // The crate's own version is the same three numbers.
    let [_, major, minor, patch] = VERSION.to_be_bytes();
    assert_eq!(
        env!("CARGO_PKG_VERSION"),
        format!("{major}.{minor}.{patch}")
    );
}
