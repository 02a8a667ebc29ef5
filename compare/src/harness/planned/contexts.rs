//! Every context count beside as many bytes, one fewer and one more (document 02 (i)):
//! in notifications, in 3.1 up to the notification that is sent, and in records.

use super::entries::{Tried, go_through, two_locks};
use super::states::calls_on;
use crate::answer::{Delivered, MESSAGE, NOTIFICATION, Taken};
use crate::harness::call::{Answer, Call};
use crate::harness::counts::Tries;
use crate::harness::desk::Desk;
use crate::harness::session::Checked;
use crate::harness::told::told;
use crate::harness::traffic::{adding, blob, command, message, naming, notification, stated};
use crate::record::{CONTEXT, Record, Subscription};

const COUNTS: [u16; 10] = [0, 1, 2, 63, 64, 65, 255, 256, LONGEST as u16, 65_535];
/// The longest context of a 3.1 that is a message by itself.
const LONGEST: usize = 2_001;
const EVENT: u32 = 0x0001_0001;
/// The subscriber's.
const OBJECT: u32 = 9;
const METHOD: u32 = 0x0003_0001;
const MUTE: u32 = 4_100;
/// Mute 4,100 among the mutes.
const AT: usize = 3;
/// The first two entries that are free when a subscription is tried; others are in use before them and between them.
const FREE: usize = 1;
const NEXT: usize = 3;

/// As many bytes as the count says, one fewer, one more, and as many as its lower byte says.
fn lengths(count: u16) -> Vec<usize> {
    let count = usize::from(count);
    let mut lengths = vec![count % 256, count, count + 1];
    lengths.extend(count.checked_sub(1));
    lengths.sort();
    lengths.dedup();
    lengths
}

/// A notification by its parameter count, its context's count, and how many bytes it has for context and parameters.
#[derive(Clone, Copy, Debug)]
struct Notified {
    count: u8,
    stated: u16,
    length: usize,
    rest: usize,
}

impl Notified {
    /// How many event parameter bytes it has, as the context's count says; none if the context is wrong.
    fn left(self) -> Option<usize> {
        let context = usize::from(self.stated);
        let left = (self.length + self.rest).checked_sub(context)?;
        (context <= CONTEXT).then_some(left)
    }

    /// The rule as documents 02 (i) and (v) leave it, of neither program.
    fn is_sound(self) -> bool {
        self.left()
            .is_some_and(|left| self.count > 0 && (self.count == 1) == (left == 0))
    }
}

/// Notifications with each context count, right and lying, and each of 0 to 2 event parameter bytes.
pub fn notifications(desk: &mut Desk<'_, '_>) -> Checked<()> {
    two_locks(desk)?;
    for stated in COUNTS {
        for length in lengths(stated) {
            for (rest, count) in [0, 1, 2].into_iter().flat_map(|r| [1, 2].map(|c| (r, c))) {
                let notified = Notified {
                    count,
                    stated,
                    length,
                    rest,
                };
                notify(desk, notified)?;
            }
        }
    }
    Ok(())
}

fn notify(desk: &mut Desk<'_, '_>, notified: Notified) -> Checked<()> {
    let random = &mut desk.random;
    let context = stated(notified.stated, &random.bytes(notified.length));
    let rest = random.bytes(notified.rest);
    let tried = Tried {
        kind: 2,
        bytes: notification(random, notified.count, &context, &rest),
        sound: notified.is_sound(),
        tries: Tries::Contexts,
        spoiled: notified.left().is_none(),
    };
    go_through(desk, &tried)
}

/// A 3.1 by all that gives it its status.
#[derive(Clone, Copy, Debug)]
struct Adding {
    count: u8,
    emitter: u32,
    event: u32,
    stated: u16,
    length: usize,
    mode: u8,
    pair: [u8; 2],
}

impl Adding {
    /// The first status that applies, by documents 01 and 02 (i), where no entry is a twin and one is free.
    fn status(self) -> u8 {
        if self.count != 5 || self.length != usize::from(self.stated) || self.pair != [0, 0] {
            4
        } else if !(4_097..=4_104).contains(&self.emitter) || self.event != EVENT {
            6
        } else if self.mode != 1 || self.length > CONTEXT {
            7
        } else {
            0
        }
    }

    fn entry(self, context: &[u8]) -> Vec<u8> {
        let name = naming(self.emitter, self.event, OBJECT, METHOD);
        let context = stated(self.stated, context);
        let parameters = adding(&name, &context, self.mode, self.pair);
        command(7, 4, (3, 1), self.count, &parameters)
    }
}

/// 3.1 with a context of so many bytes, and nothing else to refuse it for.
fn right(length: usize) -> Adding {
    Adding {
        count: 5,
        emitter: MUTE,
        event: EVENT,
        stated: length as u16,
        length,
        mode: 1,
        pair: [0, 0],
    }
}

/// 3.2 of the subscription to that mute.
fn removing(emitter: u32) -> Vec<u8> {
    let name = naming(emitter, EVENT, OBJECT, METHOD);
    command(7, 4, (3, 2), 2, &name)
}

/// 3.1 with each context count, right and lying, and each other thing right and wrong; then every context that is taken.
pub fn subscriptions(desk: &mut Desk<'_, '_>) -> Checked<()> {
    two_locks(desk)?;
    desk.subscribe(1, 3)?;
    desk.deliver(1, &message(0, &[removing(4_098)]))?;
    for stated in COUNTS {
        for length in lengths(stated).into_iter().filter(|l| *l <= LONGEST) {
            every_status(desk, stated, length)?;
        }
    }
    for length in 0..=CONTEXT {
        from_add_to_take(desk, length)?;
        shorter_behind(desk, length)?;
    }
    Ok(())
}

/// The rest of 3.1 right and wrong, one and several at once; the state stays.
fn every_status(desk: &mut Desk<'_, '_>, stated: u16, length: usize) -> Checked<()> {
    let names = [(MUTE, EVENT), (4_105, EVENT), (MUTE, EVENT + 1)];
    let pairs = [[0, 0], [0, 1], [1, 0]];
    let before = desk.record;
    for (emitter, event) in names {
        for (pair, mode) in pairs.into_iter().flat_map(|p| [1, 2, 0].map(|m| (p, m))) {
            for count in [5, 4, 6] {
                let tried = Adding {
                    count,
                    emitter,
                    event,
                    stated,
                    mode,
                    length,
                    pair,
                };
                let context = desk.random.bytes(length);
                let status = tried.status();
                let wanted = match status {
                    0 => with_entry(before, FREE, emitter, &context),
                    _ => before,
                };
                run(desk, &[(tried.entry(&context), status)], wanted)?;
                desk.record = before;
            }
        }
    }
    Ok(())
}

/// The record with this subscription of connection 0 in that entry.
fn with_entry(mut record: Record, at: usize, emitter: u32, context: &[u8]) -> Record {
    let mut entry = Subscription {
        used: true,
        waiting: false,
        connection: 0,
        context_count: context.len() as u8,
        emitter,
        event: EVENT,
        object: OBJECT,
        method: METHOD,
        context: [0; CONTEXT],
    };
    entry.context[..context.len()].copy_from_slice(context);
    record.device.subscriptions[at] = entry;
    record
}

/// Runs commands of connection 0, each of handle 7 and with its status; the record wanted is still to be heard and answered.
fn run(desk: &mut Desk<'_, '_>, commands: &[(Vec<u8>, u8)], mut wanted: Record) -> Checked<()> {
    let (entries, statuses): (Vec<Vec<u8>>, Vec<u8>) = commands.iter().cloned().unzip();
    let bytes = message(1, &entries);
    let call = desk.delivering(0, &bytes);
    let outcome = desk.advance(call.clone())?;
    let connection = &mut wanted.device.connections[0];
    (connection.silence, connection.quiet) = (0, 0);
    let response = |status: u8| [0, 0, 0, 10, 0, 0, 0, 7, status, 0].to_vec();
    let responses: Vec<Vec<u8>> = statuses.into_iter().map(response).collect();
    let reply = message(3, &responses);
    let wanted = Delivered {
        record: wanted,
        number: 0,
        kind: MESSAGE,
        fault: 0,
        taken: bytes.len(),
        length: reply.len(),
    };
    let kept = outcome.answer == Answer::Delivered(wanted)
        && outcome.output == [&reply, &call.output()[reply.len()..]].concat()
        && outcome.area.iter().all(|byte| *byte == 0);
    desk.session
        .demand(kept, "a command is not run as its context says", call)
}

/// Adds, adds twins with the same context and with others, sets, takes, and removes; the state stays.
fn from_add_to_take(desk: &mut Desk<'_, '_>, length: usize) -> Checked<()> {
    let before = desk.record;
    let context = desk.random.bytes(length);
    let add = right(length).entry(&context);
    let added = with_entry(before, FREE, MUTE, &context);
    run(desk, &[(add.clone(), 0)], added)?;
    run(desk, &[(add, 9)], added)?;
    for (other, status) in [(length, 9), (0, 9), (CONTEXT, 9), (CONTEXT + 1, 7)] {
        let twin = right(other).entry(&desk.random.bytes(other));
        run(desk, &[(twin, status)], added)?;
    }
    let set = command(7, MUTE, (4, 2), 1, &[1]);
    let mut waiting = added;
    waiting.device.mutes[AT] = 1;
    waiting.device.subscriptions[FREE].waiting = true;
    run(desk, &[(set, 0)], waiting)?;
    take(desk, &context)?;
    let mut removed = before;
    removed.device.mutes[AT] = 1;
    run(desk, &[(removing(MUTE), 0)], removed)?;
    desk.record = before;
    Ok(())
}

/// A shorter context behind a longer one, added in one message, and in the entry that the longer one has left.
fn shorter_behind(desk: &mut Desk<'_, '_>, length: usize) -> Checked<()> {
    let before = desk.record;
    let long = desk.random.bytes(length);
    let short = &long[..length / 2];
    let add = right(length).entry(&long);
    let next = Adding {
        emitter: MUTE + 1,
        ..right(short.len())
    };
    let added = with_entry(before, FREE, MUTE, &long);
    let both = with_entry(added, NEXT, MUTE + 1, short);
    run(desk, &[(add, 0), (next.entry(short), 0)], both)?;
    let again = right(short.len()).entry(short);
    let wanted = with_entry(both, FREE, MUTE, short);
    run(desk, &[(removing(MUTE), 0), (again, 0)], wanted)?;
    desk.record = before;
    Ok(())
}

/// Takes the notification of mute 4,100 muted, which has this context, and reads it.
fn take(desk: &mut Desk<'_, '_>, context: &[u8]) -> Checked<()> {
    let call = desk.taking();
    let mut wanted = desk.record;
    wanted.device.subscriptions[FREE].waiting = false;
    let mut entry = (29 + context.len() as u32).to_be_bytes().to_vec();
    entry.extend([0, 0, 0, 9, 0, 3, 0, 1, 2]);
    entry.extend(blob(context));
    entry.extend([0, 0, 0x10, 4, 0, 1, 0, 1]);
    entry.extend([0, 4, 0, 1, 1, 1]);
    let bytes = message(2, &[entry.clone()]);
    let outcome = desk.advance(call.clone())?;
    let wanted = Taken {
        record: wanted,
        number: 0,
        kind: NOTIFICATION,
        connection: 0,
        length: bytes.len(),
    };
    let kept = outcome.answer == Answer::Taken(wanted)
        && outcome.output == [&bytes, &call.output()[bytes.len()..]].concat();
    desk.session
        .demand(kept, "a notification is not sent with its context", call)?;
    let kept = desk.ask_for(&bytes, 0)?.agrees(&told(2, &entry, 10));
    let call = Call::EntryContext { bytes, index: 0 };
    desk.session
        .demand(kept, "a context sent is not read back", call)
}

/// Entries in use and free, with every count and with a byte in every place: those that break a rule are refused by 1.
pub fn records(desk: &mut Desk<'_, '_>) -> Checked<()> {
    desk.make_busy()?;
    desk.close(6)?;
    let subscriptions = desk.record.device.subscriptions;
    let places = subscriptions.iter().enumerate();
    let free = places.clone().find(|(_, entry)| !entry.used);
    let used = [0, 4, 64].into_iter().flat_map(|count| {
        let mut places = places.clone();
        places.find(|(_, entry)| entry.used && entry.context_count == count)
    });
    for (at, entry) in used.chain(free) {
        for context_count in 0..=255 {
            let entry = Subscription {
                context_count,
                ..*entry
            };
            hold(desk, at, entry)?;
        }
        for place in 0..CONTEXT {
            let mut entry = *entry;
            entry.context[place] ^= 1 << (place % 8);
            hold(desk, at, entry)?;
        }
    }
    Ok(())
}

/// Makes the six calls on the record with this entry; the state stays.
fn hold(desk: &mut Desk<'_, '_>, at: usize, entry: Subscription) -> Checked<()> {
    let mut record = desk.record;
    record.device.subscriptions[at] = entry;
    let most = if entry.used { CONTEXT } else { 0 };
    let count = usize::from(entry.context_count);
    let past = entry.context.iter().skip(count.min(most));
    let kept = count <= most && past.copied().all(|byte| byte == 0);
    for call in calls_on(desk, record) {
        let outcome = desk.session.check(call.clone())?;
        let told = outcome.answer.number() != 1;
        desk.session.demand(
            kept == told,
            "a context's rule is not kept by a record",
            call,
        )?;
    }
    Ok(())
}
