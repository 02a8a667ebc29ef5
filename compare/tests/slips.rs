//! The comparison can fail: each program below makes one slip, and the
//! gate's runs have to find it.
//!
//! The first difference ends a run, so a slip need only be right about when
//! it shows.

use compare::answer::{
    CLOSED, Cleared, Closed, Delivered, Entry, MESSAGE, MORE, NOTIFICATION, Opened, Part, Reading,
    Reset, Taken, Ticked, Written,
};
use compare::engine::Engine;
use compare::harness::gate;
use compare::harness::reset::{SENTINEL, asking};
use compare::harness::traffic::{blob, framed, message, naming};
use compare::record::{AREA, CONTEXT, Device, Mechanism, Record, Subscription};
use compare::second::{Second, address, rules};
use std::ops::Range;

mod older;

// one list, so that no slip is named and not tried
macro_rules! slips {
    ($($slip:ident,)*) => {
        #[derive(Clone, Copy, Debug, PartialEq, Eq)]
        enum Slip {
            $($slip,)*
        }

        use Slip::*;

        const ALL: &[Slip] = &[$($slip,)*];
    };
}

slips! {
    FreshMuted,
    ClearLeavesTheLastByte,
    OpenGivesTheHighest,
    CloseKeepsLocks,
    CloseKeepsEntries,
    CloseKeepsUndecidedBytes,
    SilenceIn32Bits,
    LimitIn32Bits,
    QuietIn32Bits,
    OverrunTold,
    ThreeHIsStillSilence,
    ClosesOnlyPastThreeH,
    DueOnlyPastH,
    QuietGrowsWhileDue,
    QuietStandsAtATick,
    SilenceStartsAnew,
    ClosedIsCounted,
    ZeroHeartbeatCloses,
    HalfRoundPasses,
    TickIgnoresTheArea,
    RunsBeforeTheCheck,
    AnyByteIsHeard,
    NotificationsClearQuiet,
    RepliesKeepQuiet,
    ZeroKeepsTheForm,
    TakesOneTooMany,
    LargestMessageFaulty,
    TouchesTheOutputBehind,
    TouchesTheOutputWithoutReply,
    EmptyPieceIsRefused,
    RoomForTheReplyIsEnough,
    OtherHoldersMaySet,
    SetToTheSameMarks,
    ContextTellsTwinsApart,
    TwinTakesTheNewContext,
    AddTakesAContextOf65,
    EmptyContextRefused,
    ValueBeforeEmitter,
    LongContextBeforeLength,
    FourContextBytesKept,
    ContextKeptPastItsCount,
    OlderContextNotCleared,
    RemoveLeavesTheContext,
    CloseLeavesTheContext,
    FullTableBeforeTwin,
    HandlesNotCopied,
    TwinsUnseen,
    ClosedHolderUnseen,
    OddSecondsUnseen,
    DueWithQuietUnseen,
    FreeEntryContextUnseen,
    FreeEntryContextCountUnseen,
    ContextCountAbove64Unseen,
    BytesPastTheCountUnseen,
    UndecidedAtMost2049,
    LastByteOfTheAreaUnseen,
    DecidedBytesUnseen,
    ConnectionBeforeRecord,
    KeepAlivesFirst,
    HighestEntryFirst,
    TakeKeepsQuiet,
    FourContextBytesSent,
    AllContextBytesSent,
    ContextSentWithoutItsCount,
    ReaderLooksBehind,
    CountWithoutBytesTaken,
    ReaderTakesCountWithoutBytes,
    DeliveryTakesCountWithoutBytes,
    WriterTakesCountWithoutBytes,
    ResponseWithoutBytesTaken,
    NotificationOfTwoWithoutBytesTaken,
    NotificationOfOneWithBytesTaken,
    RunsBeforeACountWithoutBytes,
    LongContextTaken,
    ContextOf65Taken,
    ReaderTakesALongContext,
    DeliveryTakesALongContext,
    WriterTakesALongContext,
    ContextOf64Refused,
    ContextPastItsEntryTaken,
    ContextCountIn8Bits,
    LeastNotificationOf25,
    StatusAndCountSwapped,
    KeepAliveHasAnEntry,
    PartFromTheEntry,
    RefusedPartHasAPlace,
    ReadsBeforeTheCheck,
    EntryBehindIsRead,
    PartOfTheEntryBefore,
    PartToTheEndOfTheMessage,
    PartFrom23,
    ContextFromItsCount,
    ContextWithItsCount,
    EmptyContextNowhere,
    ContextOfACommand,
    RefusedContextHasAPlace,
    ContextOfTheEntryBefore,
    TooLongBeforeBadEntry,
    AppendTouchesBehind,
    CommandTypesMixed,
    SecondsCutTo16Bits,
    SetResetKeyNotImplemented,
    SilentCommandSetsNoKey,
    EarlierKeyCounts,
    AddressStaysWithoutText,
    PortTurnedRound,
    EmptyTextRefused,
    PortZeroTaken,
    FirstPart240Taken,
    FirstPart223Taken,
    LeadingZeroTaken,
    SignTaken,
    FifthPartTaken,
    BytesBehindThePortTaken,
    ValueBeforeLength,
    CloseClearsTheKey,
    TickClearsTheKey,
    FaultClearsTheKey,
    KeyIn15Bytes,
    SentinelIn7Bytes,
    LongerDatagramResets,
    ResetsWhileDisarmed,
    ZeroKeyIsNoKey,
    ResetLosesTheReading,
    ResetLeavesUndecidedBytes,
    ResetKeepsTheirCount,
    ResetKeepsConnections,
    ResetKeepsMutes,
    ResetStaysArmed,
    WrongKeyDisarms,
    DatagramIgnoresTheArea,
    AreaBeforeRecord,
    ArmedPortZeroUnseen,
    ArmedAddressUnseen,
    DisarmedKeyUnseen,
    DisarmedAddressUnseen,
    DisarmedPortUnseen,
}

#[test]
fn every_slip_is_found() {
    for &slip in ALL {
        match gate::gate(&Slipping(slip), &Second) {
            Ok(_) => panic!("{slip:?} was not found"),
            Err(difference) => {
                let text = difference.to_string();
                println!("{slip:?}: {}", text.lines().next().unwrap_or_default());
            }
        }
    }
}

#[test]
fn a_clock_that_matters_is_found_where_both_programs_have_it() {
    for slip in [SilenceStartsAnew, QuietStandsAtATick] {
        let difference = gate::gate(&Slipping(slip), &Slipping(slip)).expect_err("a slip");
        assert_eq!(
            difference.reason, "ticks do not come to the one of all their steps",
            "{slip:?}"
        );
    }
}

/// Whoever takes a count without bytes, or runs what stands before one, with what is told of it; and a part that
/// goes on behind its entry.
const COUNTS_AND_BYTES: [(Slip, &str); 9] = [
    (CountWithoutBytesTaken, READING),
    (ReaderTakesCountWithoutBytes, READING),
    (DeliveryTakesCountWithoutBytes, DELIVERY),
    (WriterTakesCountWithoutBytes, WRITING),
    (ResponseWithoutBytesTaken, READING),
    (NotificationOfTwoWithoutBytesTaken, READING),
    (NotificationOfOneWithBytesTaken, READING),
    (RunsBeforeACountWithoutBytes, DELIVERY),
    (PartToTheEndOfTheMessage, PART),
];
const READING: &str = "a message is not read as its counts and bytes say";
const DELIVERY: &str = "a delivery is not what the counts and bytes say";
const WRITING: &str = "an entry is not written as its count and bytes say";
const PART: &str = "an entry's count and part do not agree";

/// Whoever goes wrong about a context, with what is told of it.
const CONTEXTS: [(Slip, &str); 26] = [
    (LongContextTaken, READING),
    (ContextOf65Taken, READING),
    (ReaderTakesALongContext, READING),
    (DeliveryTakesALongContext, DELIVERY),
    (WriterTakesALongContext, WRITING),
    (ContextOf64Refused, READING),
    (ContextPastItsEntryTaken, READING),
    (ContextCountIn8Bits, READING),
    (LeastNotificationOf25, READING),
    (PartFrom23, PART),
    (ContextFromItsCount, PLACE),
    (ContextWithItsCount, PLACE),
    (EmptyContextNowhere, PLACE),
    (ContextOfACommand, PLACE),
    (RefusedContextHasAPlace, PLACE),
    (ContextOfTheEntryBefore, PLACE),
    (ContextTellsTwinsApart, COMMAND),
    (TwinTakesTheNewContext, COMMAND),
    (AddTakesAContextOf65, COMMAND),
    (EmptyContextRefused, COMMAND),
    (ValueBeforeEmitter, COMMAND),
    (LongContextBeforeLength, COMMAND),
    (FourContextBytesKept, COMMAND),
    (FourContextBytesSent, SENDING),
    (AllContextBytesSent, SENDING),
    (ContextSentWithoutItsCount, SENDING),
];
const PLACE: &str = "an entry's context and its count do not agree";
const COMMAND: &str = "a command is not run as its context says";
const SENDING: &str = "a notification is not sent with its context";

#[test]
fn a_count_without_bytes_is_found_where_both_programs_take_it() {
    both_are_found(&COUNTS_AND_BYTES);
}

#[test]
fn a_wrong_context_is_found_where_both_programs_have_it() {
    both_are_found(&CONTEXTS);
}

fn both_are_found(slips: &[(Slip, &str)]) {
    for (slip, reason) in slips {
        let difference = gate::gate(&Slipping(*slip), &Slipping(*slip)).expect_err("a slip");
        assert_eq!(difference.reason, *reason, "{slip:?}");
    }
}

#[test]
fn a_difference_is_told_with_seed_step_call_and_both_results() {
    let difference = gate::gate(&Slipping(CloseKeepsLocks), &Second).expect_err("a slip");
    let text = difference.to_string();
    let seed = format!("seed {}, step {}", difference.seed, difference.step);
    for part in [seed.as_str(), "call: ", "left: ", "right: ", "holder"] {
        assert!(text.contains(part), "{text}");
    }
}

/// The message cut behind entry index, by the sizes that its entries give.
fn up_to_entry(bytes: &[u8], index: usize) -> Vec<u8> {
    let mut end = 10;
    for _ in 0..=index.min(bytes.len()) {
        let Some(size) = bytes.get(end..end + 4) else {
            break;
        };
        let size = size
            .iter()
            .fold(0, |size, byte| size << 8 | usize::from(*byte));
        end = bytes.len().min(end + size);
    }
    framed(
        1,
        end as u32 - 1,
        bytes[7],
        index as u16 + 1,
        &bytes[10..end],
    )
}

/// The second program with one slip.
struct Slipping(Slip);

impl Slipping {
    /// The record as a program sees it that misses one rule.
    fn seen(&self, record: &Record) -> Record {
        let mut seen = *record;
        let device = &mut seen.device;
        match self.0 {
            TwinsUnseen => hide_twins(&mut seen),
            ClosedHolderUnseen => {
                for holder in &mut device.holders {
                    if (1..=8).contains(holder) && !device.connections[*holder as usize - 1].live {
                        *holder = 0;
                    }
                }
            }
            OddSecondsUnseen => {
                for connection in &mut device.connections {
                    if connection.form == 1 && connection.beat % 1_000 != 0 {
                        connection.form = 2;
                    }
                }
            }
            DueWithQuietUnseen => {
                for connection in &mut device.connections {
                    if connection.due && connection.quiet < connection.beat {
                        connection.quiet = 0;
                    }
                }
            }
            ThreeHIsStillSilence => {
                for connection in &mut device.connections {
                    if connection.beat > 0
                        && connection.beat.checked_mul(3) == Some(connection.silence)
                    {
                        connection.silence -= 1;
                    }
                }
            }
            UndecidedAtMost2049 => {
                for held in &mut seen.held {
                    if *held == 2_049 {
                        *held = 2_048;
                    }
                }
            }
            _ => {
                for entry in &mut device.subscriptions {
                    self.see_context(entry);
                }
                self.see_mechanism(&mut seen);
            }
        }
        seen
    }

    /// The entry as a program sees it that misses a rule of its context.
    fn see_context(&self, entry: &mut Subscription) {
        let count = usize::from(entry.context_count).min(CONTEXT);
        match self.0 {
            FreeEntryContextUnseen if !entry.used => entry.context = [0; CONTEXT],
            FreeEntryContextCountUnseen if !entry.used => entry.context_count = 0,
            ContextCountAbove64Unseen if entry.used => entry.context_count = count as u8,
            BytesPastTheCountUnseen if entry.used => entry.context[count..].fill(0),
            _ => {}
        }
    }

    /// The mechanism is seen otherwise only where no other rule is broken.
    fn see_mechanism(&self, record: &mut Record) {
        let mut seen = *record;
        let mechanism = &mut seen.device.mechanism;
        let multicast = address::is_multicast(mechanism.address);
        match self.0 {
            ArmedPortZeroUnseen if mechanism.armed => mechanism.port = mechanism.port.max(1),
            ArmedAddressUnseen if mechanism.armed && !multicast => mechanism.address = [0; 4],
            DisarmedKeyUnseen if !mechanism.armed => mechanism.key = [0; 16],
            DisarmedAddressUnseen if !mechanism.armed => mechanism.address = [0; 4],
            DisarmedPortUnseen if !mechanism.armed => mechanism.port = 0,
            _ => {}
        }
        if seen != *record && rules::hold(&seen) {
            *record = seen;
        }
    }

    /// What a datagram is to a program that compares too little of it.
    fn datagram_seen(&self, mechanism: &Mechanism, datagram: &[u8]) -> Vec<u8> {
        let right = asking(&mechanism.key);
        let seen = match self.0 {
            KeyIn15Bytes => datagram.len() == 24 && datagram[..23] == right[..23],
            SentinelIn7Bytes => {
                let front = datagram.len() == 24 && datagram[..7] == SENTINEL[..7];
                front && datagram[8..] == mechanism.key
            }
            LongerDatagramResets => datagram.len() == 25 && datagram[..24] == right,
            _ => false,
        };
        if seen { right } else { datagram.to_vec() }
    }

    /// What a program makes of 3.14 that takes or refuses too much, if it is the only command.
    fn setting_slips(
        &self,
        before: &Mechanism,
        piece: &[u8],
        answer: &mut Delivered,
    ) -> Option<u8> {
        let (count, parameters) = only_command(piece, SET_RESET_KEY)?;
        let (text, port) = text_and_port(parameters)?;
        let after = &mut answer.record.device.mechanism;
        let set = *after != *before;
        let exact = parameters.len() == 20 + text.len();
        match self.0 {
            SetResetKeyNotImplemented => return Some(8),
            SilentCommandSetsNoKey if piece[7] == 0 => *after = *before,
            EarlierKeyCounts if before.armed => *after = *before,
            AddressStaysWithoutText if set && text.is_empty() => after.address = before.address,
            PortTurnedRound if set => after.port = after.port.swap_bytes(),
            ValueBeforeLength if count != 2 && exact && port == 0 => return Some(7),
            BytesBehindThePortTaken if count == 2 && !exact => return Some(0),
            _ if count != 2 || !exact => {}
            EmptyTextRefused if text.is_empty() => return Some(7),
            PortZeroTaken if port == 0 && address::read(text).is_some() => return Some(0),
            _ if port != 0 && address::read(&self.text_seen(text)).is_some() => return Some(0),
            _ => {}
        }
        None
    }

    /// The status that a program gives to 3.1 that tests out of order, or its context by another rule.
    fn add_status(&self, before: &Device, n: u8, piece: &[u8]) -> Option<u8> {
        let (count, parameters) = only_command(piece, ADD)?;
        let stated = parameters.get(16..18)?;
        let stated = usize::from(u16::from_be_bytes([stated[0], stated[1]]));
        let exact = parameters.len() == 21 + stated;
        if self.is(LongContextBeforeLength) && stated > CONTEXT && !exact {
            return Some(7);
        }
        if count != 5 || !exact || !parameters.ends_with(&[0, 0]) {
            return None;
        }
        let wrong = parameters[18 + stated] != 1;
        let (mute, event) = parameters[..8].split_at(4);
        if mute[..3] != [0, 0, 0x10] || !(1..=8).contains(&mute[3]) || event != [0, 1, 0, 1] {
            let first = self.is(ValueBeforeEmitter) && (wrong || stated > CONTEXT);
            return first.then_some(7);
        }
        let mut entries = before.subscriptions.iter();
        let full = entries.clone().all(|entry| entry.used);
        let twin = entries.find(|entry| is_named(entry, n, parameters));
        let other = |entry: &Subscription| held(entry) != &parameters[18..18 + stated];
        match self.0 {
            _ if wrong => None,
            AddTakesAContextOf65 if stated == 65 => Some(0),
            _ if stated > CONTEXT => None,
            EmptyContextRefused if stated == 0 => Some(7),
            ContextTellsTwinsApart if twin.is_some_and(other) => Some(0),
            FullTableBeforeTwin if twin.is_some() && full => Some(10),
            _ => None,
        }
    }

    /// What a program leaves in the entry that 3.1 names, if it is the only command and well formed.
    fn add_slips(&self, before: &Device, n: u8, piece: &[u8], after: &mut Device) -> Option<()> {
        let (_, parameters) = only_command(piece, ADD)?;
        let context = parameters.get(18..parameters.len().checked_sub(3)?)?;
        let mut entries = after.subscriptions.iter_mut().zip(&before.subscriptions);
        let (entry, was) = entries.find(|(entry, _)| is_named(entry, n, parameters))?;
        match self.0 {
            TwinTakesTheNewContext if was.used && context.len() <= CONTEXT => hold(entry, context),
            _ if was.used => {}
            FourContextBytesKept => hold(entry, &context[..context.len().min(4)]),
            ContextKeptPastItsCount => {
                let behind = &parameters[18..parameters.len().min(18 + CONTEXT)];
                entry.context[..behind.len()].copy_from_slice(behind);
            }
            _ => {}
        }
        Some(())
    }

    /// What a message leaves of contexts that it should not.
    fn context_slips(&self, before: &Device, after: &mut Device) {
        let mut older = [0; CONTEXT];
        for (entry, was) in after.subscriptions.iter_mut().zip(&before.subscriptions) {
            match self.0 {
                RemoveLeavesTheContext if was.used && !entry.used => entry.context = was.context,
                OlderContextNotCleared if entry.used && !was.used => {
                    let count = usize::from(entry.context_count);
                    entry.context[count..].copy_from_slice(&older[count..]);
                    older = entry.context;
                }
                _ => {}
            }
        }
    }

    /// The context that a notification is sent with, if it is another; none for one without a count.
    fn sent(&self, entry: &Subscription) -> Option<Vec<u8>> {
        match self.0 {
            FourContextBytesSent => Some(blob(&entry.context[..4])),
            AllContextBytesSent => Some(blob(&entry.context)),
            ContextSentWithoutItsCount => Some(held(entry).to_vec()),
            _ => None,
        }
    }

    /// What a text is to a program that takes too many; empty if no slip is made.
    fn text_seen(&self, text: &[u8]) -> Vec<u8> {
        let seen = match (self.0, String::from_utf8_lossy(text)) {
            (FirstPart240Taken, seen) => seen.replacen("240.", "239.", 1),
            (FirstPart223Taken, seen) => seen.replacen("223.", "224.", 1),
            (LeadingZeroTaken, seen) => seen.replacen(".0", ".", 1),
            (SignTaken, seen) => seen.replace('+', ""),
            (FifthPartTaken, seen) => seen.rsplit_once('.').unwrap_or_default().0.to_string(),
            _ => return b"none".to_vec(),
        };
        if seen.is_empty() || text.is_empty() {
            return b"none".to_vec();
        }
        seen.into_bytes()
    }

    fn is(&self, slip: Slip) -> bool {
        self.0 == slip
    }

    /// How all calls of the program judge entries.
    fn judges(&self) -> older::Judges {
        match self.0 {
            CountWithoutBytesTaken => |shape| older::without_bytes(shape).then_some(true),
            ResponseWithoutBytesTaken => {
                |shape| (shape.kind == 3 && older::without_bytes(shape)).then_some(true)
            }
            NotificationOfTwoWithoutBytesTaken => |shape| {
                let two = (shape.kind, shape.count) == (2, 2);
                (two && older::without_bytes(shape)).then_some(true)
            },
            NotificationOfOneWithBytesTaken => |shape| {
                let one = (shape.kind, shape.count) == (2, 1) && shape.context <= CONTEXT;
                (one && shape.behind > shape.context).then_some(true)
            },
            LongContextTaken => |shape| older::long_context(shape).then_some(true),
            ContextOf65Taken => {
                |shape| (shape.context == 65 && older::long_context(shape)).then_some(true)
            }
            ContextOf64Refused => |shape| (shape.context == 64).then_some(false),
            ContextPastItsEntryTaken => |shape| {
                let past = shape.context > shape.behind && shape.context <= CONTEXT;
                past.then_some(true)
            },
            ContextCountIn8Bits => |shape| {
                let low = shape.context % 256;
                let taken = shape.context > 255 && low <= CONTEXT && shape.fits(low);
                taken.then_some(true)
            },
            LeastNotificationOf25 => |shape| (shape.kind == 2 && shape.behind < 2).then_some(false),
            _ => |_| None,
        }
    }

    /// How the call judges entries: some slip in one of them alone.
    fn judges_in(&self, bare: Slip, long: Slip) -> older::Judges {
        if self.is(bare) {
            |shape| older::without_bytes(shape).then_some(true)
        } else if self.is(long) {
            |shape| older::long_context(shape).then_some(true)
        } else {
            self.judges()
        }
    }

    /// The bytes as the reader sees them.
    fn read_seen(&self, bytes: &[u8]) -> Vec<u8> {
        let judges = self.judges_in(ReaderTakesCountWithoutBytes, ReaderTakesALongContext);
        older::message(judges, bytes)
    }

    /// How the writer judges the entry that it is given.
    fn write_judges(&self) -> older::Judges {
        self.judges_in(WriterTakesCountWithoutBytes, WriterTakesALongContext)
    }

    /// Delivers what is held and the piece as the program sees them.
    fn deliver_seen(
        &self,
        record: Record,
        area: &mut [u8],
        n: u8,
        piece: &[u8],
        output: &mut [u8],
    ) -> Delivered {
        let Some(held) = undecided(&record, area, n) else {
            return Second.deliver(record, area, n, piece, output);
        };
        let before = area.to_vec();
        let bytes = [&area[held.clone()], piece].concat();
        let judges = self.judges_in(DeliveryTakesCountWithoutBytes, DeliveryTakesALongContext);
        let seen = older::message(judges, &bytes);
        let (front, piece) = seen.split_at(held.len());
        area[held].copy_from_slice(front);
        let answer = Second.deliver(record, area, n, piece, output);
        if answer.number != 0 {
            area.copy_from_slice(&before);
        }
        answer
    }
}

/// Where the undecided bytes of an open connection stand in an area of the right length.
fn undecided(record: &Record, area: &[u8], n: u8) -> Option<Range<usize>> {
    let held = usize::from(*record.held.get(usize::from(n))?);
    let start = 2_049 * usize::from(n);
    (area.len() == AREA && held <= 2_048).then_some(start..start + held)
}

/// The device that has run the commands before the first count without bytes, if there is one.
fn run_before(record: &Record, area: &[u8], n: u8, piece: &[u8]) -> Option<Device> {
    let bytes = [&area[undecided(record, area, n)?], piece].concat();
    let kind = *bytes.get(7)?;
    let entries = older::entries(&bytes);
    let bare: older::Judges = |shape| older::without_bytes(shape).then_some(true);
    let count = entries.iter().position(|place| {
        let entry = &bytes[place.clone()];
        older::entry(bare, kind, entry) != entry
    })?;
    let end = entries[count].start;
    let front = framed(1, end as u32 - 1, kind, count as u16, &bytes[10..end]);
    let mut alone = *record;
    alone.held = [0; 8];
    let answer = Second.deliver(alone, &mut [0; AREA], n, &front, &mut [0; 4_096]);
    (answer.kind == MESSAGE).then_some(answer.record.device)
}

/// A count of the record and the step do not fit 64 bits.
fn runs_over(record: &Record, step: u32) -> bool {
    record.device.connections.iter().any(|connection| {
        let count = connection.silence.max(connection.quiet);
        count.checked_add(u64::from(step)).is_none()
    })
}

fn hide_twins(record: &mut Record) {
    let entries = &mut record.device.subscriptions;
    for at in 1..entries.len() {
        let (before, rest) = entries.split_at_mut(at);
        let entry = &mut rest[0];
        let twin = before.iter().any(|other| {
            let mut same = *other;
            same.context_count = entry.context_count;
            same.context = entry.context;
            same.waiting = entry.waiting;
            entry.used && same == *entry
        });
        if twin {
            *entry = Default::default();
        }
    }
}

/// The mute and value of the set that is the piece's only command.
fn only_set(piece: &[u8]) -> Option<(usize, u8)> {
    first_set(piece).filter(|_| piece[9] == 1)
}

/// The mute and value of the set that is the piece's first command.
fn first_set(piece: &[u8]) -> Option<(usize, u8)> {
    let whole = piece.len() >= 28 && piece[7] < 2 && piece[13] == 18;
    let set = whole && piece[22..26] == [0, 4, 0, 2] && piece[18..20] == [0, 0];
    (set && piece[20] == 0x10 && (1..=8).contains(&piece[21]))
        .then(|| (usize::from(piece[21]) - 1, piece[27]))
}

/// Objects and methods as a command names them.
const SET_RESET_KEY: [u8; 8] = [0, 0, 0, 1, 0, 3, 0, 14];
const ADD: [u8; 8] = [0, 0, 0, 4, 0, 3, 0, 1];

/// The count and the parameters of the piece's only command, if it is of that object and method.
fn only_command(piece: &[u8], name: [u8; 8]) -> Option<(u8, &[u8])> {
    let whole = piece.len() >= 27 && piece[7] < 2 && piece[8..10] == [0, 1];
    let length = 1 + usize::from(u16::from_be_bytes([*piece.get(5)?, *piece.get(6)?]));
    let named = whole && piece[18..26] == name;
    named.then(|| {
        piece
            .get(27..length)
            .map(|parameters| (piece[26], parameters))
    })?
}

/// Whether the entry is in use, of connection n, and the parameters name it.
fn is_named(entry: &Subscription, n: u8, parameters: &[u8]) -> bool {
    let name = naming(entry.emitter, entry.event, entry.object, entry.method);
    entry.used && entry.connection == n && parameters.starts_with(&name)
}

/// The context that the entry holds.
fn held(entry: &Subscription) -> &[u8] {
    &entry.context[..usize::from(entry.context_count)]
}

/// Gives the entry another context.
fn hold(entry: &mut Subscription, context: &[u8]) {
    entry.context = [0; CONTEXT];
    entry.context[..context.len()].copy_from_slice(context);
    entry.context_count = context.len() as u8;
}

/// The message of one notification, with these bytes for the context and its count.
fn sent_with(bytes: &[u8], context: &[u8]) -> Vec<u8> {
    let count = usize::from(u16::from_be_bytes([bytes[23], bytes[24]]));
    let rest = [&bytes[14..23], context, &bytes[25 + count..]].concat();
    let size = 4 + rest.len() as u32;
    message(2, &[[&size.to_be_bytes()[..], &rest].concat()])
}

/// The text that the text length tells, and the port behind it.
fn text_and_port(parameters: &[u8]) -> Option<(&[u8], u16)> {
    let (length, rest) = parameters.get(16..)?.split_at_checked(2)?;
    let length = usize::from(u16::from_be_bytes([length[0], length[1]]));
    let (text, rest) = rest.split_at_checked(length)?;
    let port = rest.get(..2)?;
    Some((text, u16::from_be_bytes([port[0], port[1]])))
}

impl Engine for Slipping {
    fn fresh(&self, reading: u32) -> Record {
        let mut record = Second.fresh(reading);
        if self.is(FreshMuted) {
            record.device.mutes[7] = 1;
        }
        record
    }

    fn clear(&self, area: &mut [u8]) -> Cleared {
        let last = area.last().copied();
        let answer = Second.clear(area);
        if self.is(ClearLeavesTheLastByte)
            && let (Some(place), Some(last)) = (area.last_mut(), last)
        {
            *place = last;
        }
        answer
    }

    fn open(&self, record: Record) -> Opened {
        let mut answer = Second.open(self.seen(&record));
        if self.is(OpenGivesTheHighest) && answer.number == 0 {
            let connections = &record.device.connections;
            let highest = connections.iter().rposition(|connection| !connection.live);
            answer.connection = highest.unwrap_or_default() as u8;
        }
        answer
    }

    fn close(&self, record: Record, area: &mut [u8], n: u8) -> Closed {
        let before = area.to_vec();
        if self.is(LastByteOfTheAreaUnseen) && area.len() == AREA {
            area[AREA - 1] = 0;
        }
        if self.is(ConnectionBeforeRecord) && !rules::is_open(&record, n) {
            return Closed { record, number: 3 };
        }
        let mut answer = Second.close(self.seen(&record), area, n);
        if answer.number != 0 {
            area.copy_from_slice(&before);
            return answer;
        }
        match self.0 {
            CloseKeepsLocks => answer.record.device.holders = record.device.holders,
            CloseKeepsEntries => answer.record.device.subscriptions = record.device.subscriptions,
            CloseKeepsUndecidedBytes => area.copy_from_slice(&before),
            CloseLeavesTheContext => {
                let entries = answer.record.device.subscriptions.iter_mut();
                for (entry, was) in entries.zip(&record.device.subscriptions) {
                    entry.context = was.context;
                }
            }
            CloseClearsTheKey => answer.record.device.mechanism = Mechanism::default(),
            _ => {}
        }
        answer
    }

    fn tick(&self, record: Record, area: &mut [u8], reading: u32) -> Ticked {
        let step = reading.wrapping_sub(record.device.reading);
        if self.is(HalfRoundPasses) && step == 1 << 31 && rules::hold(&record) {
            return Ticked {
                record,
                ..Ticked::default()
            };
        }
        if self.is(TickIgnoresTheArea) && area.len() == AREA {
            area.fill(0);
        }
        let mut answer = Second.tick(self.seen(&record), area, reading);
        if self.is(OverrunTold) && runs_over(&record, step) {
            answer.number = 7;
        }
        if answer.number != 0 {
            return answer;
        }
        if self.is(TickClearsTheKey) && answer.closed != 0 {
            answer.record.device.mechanism = Mechanism::default();
        }
        for n in 0..8 {
            let before = record.device.connections[n];
            let after = &mut answer.record.device.connections[n];
            let silence = before.silence + u64::from(step);
            let quiet = before.quiet + u64::from(step);
            let limit = 3 * before.beat;
            match self.0 {
                SilenceIn32Bits => after.silence &= 0xFFFF_FFFF,
                QuietIn32Bits if quiet >= 1 << 32 && after.due && !before.due => {
                    after.due = false;
                    after.quiet = quiet & 0xFFFF_FFFF;
                }
                LimitIn32Bits if before.beat > 0 && silence >= (limit & 0xFFFF_FFFF) => {
                    answer.closed |= 1 << n;
                }
                ClosesOnlyPastThreeH if before.beat > 0 && silence == limit => {
                    answer.closed &= !(1 << n);
                }
                DueOnlyPastH if before.beat > 0 && quiet == before.beat => after.due = before.due,
                QuietGrowsWhileDue if before.due => after.quiet += u64::from(step),
                QuietStandsAtATick if after.quiet > before.quiet => after.quiet = before.quiet,
                SilenceStartsAnew if after.silence > 0 => after.silence = u64::from(step),
                ClosedIsCounted if before.beat == 0 => after.silence += u64::from(step),
                ZeroHeartbeatCloses if before.live && before.beat == 0 => answer.closed |= 1 << n,
                _ => {}
            }
        }
        answer
    }

    fn deliver(
        &self,
        record: Record,
        area: &mut [u8],
        n: u8,
        piece: &[u8],
        output: &mut [u8],
    ) -> Delivered {
        if self.is(EmptyPieceIsRefused) && piece.is_empty() {
            return Delivered {
                record,
                number: 9,
                ..Delivered::default()
            };
        }
        let ran = match self.0 {
            RunsBeforeACountWithoutBytes => run_before(&record, area, n, piece),
            _ => None,
        };
        let mut answer = self.deliver_seen(self.seen(&record), area, n, piece, output);
        let at = usize::from(n).min(7);
        let before = record.device;
        if answer.number == 0
            && answer.kind == MESSAGE
            && record.held[at] == 0
            && let Some(status) = self
                .setting_slips(&before.mechanism, piece, &mut answer)
                .or_else(|| self.add_status(&before, n, piece))
            && answer.length > 0
        {
            output[18] = status;
        }
        if answer.number == 0 && answer.kind == MESSAGE {
            let after = &mut answer.record.device;
            self.add_slips(&before, n, piece, after);
            self.context_slips(&before, after);
        }
        let set = only_set(piece);
        let connection = &mut answer.record.device.connections[at];
        let message = answer.number == 0 && answer.kind == MESSAGE;
        match self.0 {
            RunsBeforeTheCheck if answer.fault == 6 => {
                if let Some((mute, value @ 1..=2)) = first_set(piece) {
                    answer.record.device.mutes[mute] = value;
                }
            }
            RunsBeforeACountWithoutBytes if answer.fault == 6 => {
                if let Some(ran) = ran {
                    answer.record.device.mutes = ran.mutes;
                }
            }
            AnyByteIsHeard if answer.kind == MORE && answer.taken > 0 => connection.silence = 0,
            NotificationsClearQuiet if message && answer.length == 0 => connection.quiet = 0,
            RepliesKeepQuiet if message && answer.length > 0 => {
                connection.quiet = before.connections[at].quiet;
            }
            ZeroKeepsTheForm if message && connection.beat == 0 => {
                connection.form = before.connections[at].form;
            }
            TakesOneTooMany if answer.taken < piece.len() => answer.taken += 1,
            LargestMessageFaulty if message && answer.taken == 2_049 => answer.kind = 3,
            TouchesTheOutputBehind if message && answer.length > 0 => output[answer.length] = 0,
            TouchesTheOutputWithoutReply if message && answer.length == 0 => output[0] = 0x3B,
            RoomForTheReplyIsEnough if answer.number == 4 && output.len() >= 2_628 => {
                answer.number = 0;
            }
            OtherHoldersMaySet if message && set.is_some() && answer.length > 0 => {
                output[18] = if output[18] == 3 { 0 } else { output[18] };
            }
            SetToTheSameMarks if message => {
                if let Some((mute, value)) = set
                    && before.mutes[mute] == value
                {
                    for entry in &mut answer.record.device.subscriptions {
                        entry.waiting |= entry.emitter == 4_097 + mute as u32;
                    }
                }
            }
            FaultClearsTheKey if answer.kind == CLOSED => {
                answer.record.device.mechanism = Mechanism::default();
            }
            HandlesNotCopied if answer.length >= 20 => output[14..18].fill(0),
            DecidedBytesUnseen if answer.number == 2 && rules::hold(&record) => {
                let decided = area.len() == AREA
                    && (0..8).all(|n| {
                        let start = 2_049 * n + usize::from(record.held[n]);
                        area[start..2_049 * (n + 1)].iter().all(|byte| *byte == 0)
                    });
                if decided {
                    answer.number = 0;
                }
            }
            _ => {}
        }
        answer
    }

    fn take(&self, record: Record, output: &mut [u8]) -> Taken {
        let given = output.to_vec();
        let mut answer = Second.take(self.seen(&record), output);
        if answer.number != 0 {
            return answer;
        }
        let device = &record.device;
        if let Some(entry) = device.subscriptions.iter().find(|entry| entry.waiting)
            && let Some(context) = self.sent(entry)
        {
            let sent = sent_with(&output[..answer.length], &context);
            output.copy_from_slice(&given);
            output[..sent.len()].copy_from_slice(&sent);
            answer.length = sent.len();
        }
        let due = device.connections.iter().position(|other| other.due);
        let highest = device.subscriptions.iter().rposition(|entry| entry.waiting);
        match self.0 {
            KeepAlivesFirst if answer.kind == NOTIFICATION && due.is_some() => {
                answer.connection = due.unwrap_or_default() as u8;
                answer.kind = 2;
            }
            HighestEntryFirst if highest.is_some() => {
                answer.connection = device.subscriptions[highest.unwrap_or_default()].connection;
            }
            TakeKeepsQuiet if answer.kind == NOTIFICATION => {
                let at = usize::from(answer.connection);
                answer.record.device.connections[at].quiet = device.connections[at].quiet;
            }
            _ => {}
        }
        answer
    }

    fn datagram(&self, record: Record, area: &mut [u8], datagram: &[u8]) -> Reset {
        let (before, device) = (area.to_vec(), record.device);
        let mechanism = &device.mechanism;
        if self.is(AreaBeforeRecord) && area.len() != AREA {
            return Reset {
                record,
                number: 2,
                reset: 0,
            };
        }
        let seen = self.datagram_seen(mechanism, datagram);
        let mut answer = Second.datagram(self.seen(&record), area, &seen);
        if answer.number != 0 {
            if self.is(DatagramIgnoresTheArea) && answer.number == 2 {
                answer.number = 0;
            }
            return answer;
        }
        let reset = answer.reset == 1;
        let after = &mut answer.record.device;
        match self.0 {
            ResetsWhileDisarmed if !mechanism.armed && datagram == asking(&[0; 16]) => {
                answer.reset = 1;
            }
            ZeroKeyIsNoKey if mechanism.key == [0; 16] => answer.reset = 0,
            ResetLosesTheReading if reset => after.reading = 0,
            ResetLeavesUndecidedBytes if reset => area.copy_from_slice(&before),
            ResetKeepsTheirCount if reset => answer.record.held = record.held,
            ResetKeepsConnections if reset => after.connections = device.connections,
            ResetKeepsMutes if reset => after.mutes = device.mutes,
            ResetStaysArmed if reset => after.mechanism = device.mechanism,
            WrongKeyDisarms if !reset && datagram.starts_with(&SENTINEL) => {
                after.mechanism = Mechanism::default();
            }
            _ => {}
        }
        answer
    }

    fn read_message(&self, bytes: &[u8]) -> Reading {
        let mut answer = Second.read_message(&self.read_seen(bytes));
        if self.is(ReaderLooksBehind) && answer.number == 0 {
            answer.length = bytes.len();
        }
        answer
    }

    fn read_entry(&self, bytes: &[u8], index: usize) -> Entry {
        let seen = self.read_seen(bytes);
        let mut answer = Second.read_entry(&seen, index);
        if seen != bytes && answer.number == 0 {
            // The count that stands there, not the one that is seen.
            let (place, _) = older::layout(bytes[7]).unwrap_or_default();
            answer.count = bytes[older::entries(bytes)[index].start + place];
        }
        match self.0 {
            StatusAndCountSwapped if answer.kind == 3 => {
                (answer.status, answer.count) = (answer.count, answer.status);
            }
            KeepAliveHasAnEntry if answer.number == 12 && bytes[7] == 4 && index == 0 => {
                answer.number = 0;
            }
            ReadsBeforeTheCheck if answer.fault == 6 => {
                let front = Second.read_entry(&up_to_entry(bytes, index), index);
                if front.number == 0 {
                    answer = front;
                }
            }
            EntryBehindIsRead if answer.number == 0 => {
                let behind = Second.read_entry(bytes, index + 1);
                if behind.number == 0 {
                    answer = behind;
                }
            }
            _ => {}
        }
        answer
    }

    fn entry_part(&self, bytes: &[u8], index: usize) -> Part {
        let mut answer = Second.entry_part(&self.read_seen(bytes), index);
        match self.0 {
            PartFromTheEntry if answer.length > 0 => answer.start -= 1,
            RefusedPartHasAPlace if answer.start == 0 => answer.start = 10,
            PartOfTheEntryBefore if answer.start != 0 && index > 0 => {
                answer = Second.entry_part(bytes, index - 1);
            }
            PartToTheEndOfTheMessage if answer.start != 0 => {
                answer.length = Second.read_message(bytes).length - answer.start;
            }
            PartFrom23 => {
                let context = Second.entry_context(bytes, index);
                answer.start -= context.length;
                answer.length += context.length;
            }
            _ => {}
        }
        answer
    }

    fn entry_context(&self, bytes: &[u8], index: usize) -> Part {
        let mut answer = Second.entry_context(&self.read_seen(bytes), index);
        let refused = Second.read_entry(bytes, index).number != 0;
        match self.0 {
            ContextFromItsCount if answer.start != 0 => answer.start -= 2,
            ContextWithItsCount if answer.start != 0 => {
                answer.start -= 2;
                answer.length += 2;
            }
            EmptyContextNowhere if answer.length == 0 => answer = Part::default(),
            ContextOfACommand if answer.start == 0 && !refused => answer.start = 10,
            RefusedContextHasAPlace if refused => answer.start = 10,
            ContextOfTheEntryBefore if answer.start != 0 && index > 0 => {
                answer = Second.entry_context(bytes, index - 1);
            }
            _ => {}
        }
        answer
    }

    fn start(&self, buffer: &mut [u8], kind: u8, entry: &[u8]) -> Written {
        let judges = self.write_judges();
        let mut answer = Second.start(buffer, kind, &older::entry(judges, kind, entry));
        if answer.number == 0 {
            buffer[10..answer.length].copy_from_slice(entry);
        }
        if self.is(TooLongBeforeBadEntry) && answer.number == 11 && entry.len() > 2_039 {
            answer.number = 10;
        }
        answer
    }

    fn append(&self, buffer: &mut [u8], kind: u8, entry: &[u8]) -> Written {
        let before = buffer.get(7).copied().unwrap_or_default();
        let given = buffer.to_vec();
        buffer.copy_from_slice(&older::message(self.judges(), &given));
        let judges = self.write_judges();
        let mut answer = Second.append(buffer, kind, &older::entry(judges, kind, entry));
        if answer.number == 0 {
            let end = answer.length - entry.len();
            buffer[10..end].copy_from_slice(&given[10..end]);
            buffer[end..answer.length].copy_from_slice(entry);
        } else {
            buffer.copy_from_slice(&given);
        }
        match self.0 {
            AppendTouchesBehind if answer.number == 0 => {
                if let Some(behind) = buffer.get_mut(answer.length) {
                    *behind = 0;
                }
            }
            CommandTypesMixed if answer.number == 11 && before < 2 && kind < 2 => {
                answer = Second.append(buffer, before, entry);
            }
            _ => {}
        }
        answer
    }

    fn keep_alive(&self, buffer: &mut [u8], form: u8, value: u32) -> Written {
        if self.is(SecondsCutTo16Bits) && form == 1 {
            return Second.keep_alive(buffer, form, value & 0xFFFF);
        }
        Second.keep_alive(buffer, form, value)
    }
}
