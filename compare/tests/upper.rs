//! The crate's own code over the library: every call of the gate's runs, made by its endpoint and its
//! functions with results, has to come to what the library's call itself answers.
#![cfg(feature = "ours")]

use compare::answer::{
    self, Cleared, Closed, Delivered, Entry, Opened, Part, Reading, Reset, Taken, Ticked, Written,
};
use compare::engine::Engine;
use compare::harness::gate;
use compare::ours::Ours;
use compare::record::{AREA, Record, SHARE};
use melorwyth::{Closures, Endpoint, Heartbeat, Outcome, Refusal, SendingKind};

#[test]
fn the_endpoint_comes_to_what_the_calls_do() {
    match gate::gate(&Upper, &Ours) {
        Ok(counts) => assert_eq!(counts.failures(), Vec::<String>::new()),
        Err(difference) => panic!("{difference}"),
    }
}

/// The library by the crate's upper layer.
struct Upper;

/// Resumes an endpoint, lets it make a call, and gives record and area back as it left them.
fn resumed<T>(
    record: &mut Record,
    area: &mut [u8],
    call: impl FnOnce(&mut Endpoint) -> Result<T, Refusal>,
) -> Result<T, Refusal> {
    let mut endpoint = Endpoint::resume((*record).into(), area)?;
    let result = call(&mut endpoint);
    let (left, bytes) = endpoint.into_parts();
    *record = left.into();
    area.copy_from_slice(&bytes);
    result
}

/// The same for a call that is lent no area, with one that goes with the record.
fn without_area<T>(
    record: &mut Record,
    call: impl FnOnce(&mut Endpoint) -> Result<T, Refusal>,
) -> Result<T, Refusal> {
    let mut area = fitting(record);
    let before = area.clone();
    let result = resumed(record, &mut area, call);
    assert_eq!(area, before, "an area was changed that was not lent");
    result
}

/// As many undecided bytes as the record counts: the front of a message as long as can be.
fn fitting(record: &Record) -> Vec<u8> {
    let mut message = vec![0; SHARE];
    message[..10].copy_from_slice(&[0x3B, 0, 1, 0, 0, 8, 0, 0, 0, 1]);
    let mut area = vec![0; AREA];
    for (share, held) in area.chunks_mut(SHARE).zip(record.held) {
        let held = usize::from(held).min(SHARE);
        share[..held].copy_from_slice(&message[..held]);
    }
    area
}

/// A refusal's numbers; 0 for none.
fn number<T>(result: &Result<T, Refusal>) -> u8 {
    result.as_ref().err().map_or(0, |refusal| refusal.number())
}

fn fault<T>(result: &Result<T, Refusal>) -> u8 {
    match result {
        Err(Refusal::Fault(fault)) => fault.number(),
        _ => 0,
    }
}

/// The closures' mask, which all their other calls have to agree with.
fn mask(closures: Closures) -> u8 {
    let numbers: Vec<u8> = closures.iter().collect();
    let contained: Vec<u8> = (0..=u8::MAX).filter(|n| closures.contains(*n)).collect();
    assert_eq!(numbers, contained);
    assert_eq!(numbers.len(), closures.len());
    assert_eq!(numbers.is_empty(), closures.is_empty());
    assert_eq!(
        numbers.iter().fold(0, |all, n| all | 1 << n),
        closures.mask()
    );
    closures.mask()
}

/// Where a part stands in the bytes that it is of.
fn place(bytes: &[u8], part: &[u8]) -> Part {
    Part {
        start: part.as_ptr() as usize - bytes.as_ptr() as usize,
        length: part.len(),
    }
}

fn written(result: Result<usize, Refusal>) -> Written {
    Written {
        number: number(&result),
        fault: fault(&result),
        length: result.unwrap_or(0),
    }
}

impl Engine for Upper {
    fn fresh(&self, reading: u32) -> Record {
        let (record, area) = Endpoint::fresh(reading).into_parts();
        assert_eq!(area, [0; AREA]);
        record.into()
    }

    /// There is no such call above: an endpoint clears its area itself.
    fn clear(&self, area: &mut [u8]) -> Cleared {
        Ours.clear(area)
    }

    fn open(&self, mut record: Record) -> Opened {
        let result = without_area(&mut record, |endpoint| endpoint.open());
        Opened {
            record,
            number: number(&result),
            connection: result.unwrap_or(0),
        }
    }

    fn close(&self, mut record: Record, area: &mut [u8], n: u8) -> Closed {
        let result = resumed(&mut record, area, |endpoint| endpoint.close(n));
        Closed {
            record,
            number: number(&result),
        }
    }

    fn tick(&self, mut record: Record, area: &mut [u8], reading: u32) -> Ticked {
        let result = resumed(&mut record, area, |endpoint| endpoint.tick(reading));
        Ticked {
            record,
            number: number(&result),
            closed: result.map_or(0, mask),
        }
    }

    fn deliver(
        &self,
        mut record: Record,
        area: &mut [u8],
        n: u8,
        piece: &[u8],
        output: &mut [u8],
    ) -> Delivered {
        let front = output.as_ptr();
        let result = resumed(&mut record, area, |endpoint| {
            endpoint.deliver(n, piece, output)
        });
        let mut answer = Delivered {
            record,
            number: number(&result),
            ..Delivered::default()
        };
        if let Ok(delivery) = result {
            answer.taken = delivery.taken;
            answer.kind = match delivery.outcome {
                Outcome::More => answer::MORE,
                Outcome::Message(reply) => {
                    assert_eq!(reply.as_ptr(), front);
                    answer.length = reply.len();
                    answer::MESSAGE
                }
                Outcome::Closed(fault) => {
                    answer.fault = fault.number();
                    answer::CLOSED
                }
            };
        }
        answer
    }

    fn take(&self, mut record: Record, output: &mut [u8]) -> Taken {
        let front = output.as_ptr();
        let result = without_area(&mut record, |endpoint| endpoint.take(output));
        let mut answer = Taken {
            record,
            number: number(&result),
            ..Taken::default()
        };
        if let Ok(Some(sending)) = result {
            assert_eq!(sending.message.as_ptr(), front);
            answer.connection = sending.connection;
            answer.length = sending.message.len();
            answer.kind = match sending.kind {
                SendingKind::Notification => answer::NOTIFICATION,
                SendingKind::KeepAlive => answer::KEEP_ALIVE,
            };
        }
        answer
    }

    fn datagram(&self, mut record: Record, area: &mut [u8], datagram: &[u8]) -> Reset {
        let result = resumed(&mut record, area, |endpoint| endpoint.datagram(datagram));
        Reset {
            record,
            number: number(&result),
            reset: result.map_or(0, u8::from),
        }
    }

    fn read_message(&self, bytes: &[u8]) -> Reading {
        let result = melorwyth::read_message(bytes);
        let mut answer = Reading {
            number: number(&result),
            fault: fault(&result),
            ..Reading::default()
        };
        if let Ok(message) = result {
            answer.kind = message.kind;
            answer.count = message.count;
            answer.length = message.length;
            (answer.form, answer.value) = match message.heartbeat {
                None => (0, 0),
                Some(Heartbeat::Seconds(value)) => (1, u32::from(value)),
                Some(Heartbeat::Milliseconds(value)) => (2, value),
            };
        }
        answer
    }

    fn read_entry(&self, bytes: &[u8], index: usize) -> Entry {
        let result = melorwyth::read_entry(bytes, index);
        let refused = Entry {
            number: number(&result),
            fault: fault(&result),
            ..Entry::default()
        };
        result.map_or(refused, Entry::from)
    }

    fn entry_part(&self, bytes: &[u8], index: usize) -> Part {
        place(bytes, melorwyth::entry_part(bytes, index))
    }

    fn entry_context(&self, bytes: &[u8], index: usize) -> Part {
        place(bytes, melorwyth::entry_context(bytes, index))
    }

    fn start(&self, buffer: &mut [u8], kind: u8, entry: &[u8]) -> Written {
        written(melorwyth::start(buffer, kind, entry))
    }

    fn append(&self, buffer: &mut [u8], kind: u8, entry: &[u8]) -> Written {
        written(melorwyth::append(buffer, kind, entry))
    }

    /// A form that is none and seconds that are too many cannot be said above.
    fn keep_alive(&self, buffer: &mut [u8], form: u8, value: u32) -> Written {
        let heartbeat = match (form, u16::try_from(value)) {
            (1, Ok(seconds)) => Heartbeat::Seconds(seconds),
            (2, _) => Heartbeat::Milliseconds(value),
            _ => return Ours.keep_alive(buffer, form, value),
        };
        written(melorwyth::keep_alive(buffer, heartbeat))
    }
}
