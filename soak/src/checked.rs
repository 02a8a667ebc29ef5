//! Every call of the desk, held to the second program, the record rules and the clock.

use crate::shared::Shared;
use crate::supervision::Supervision;
use compare::engine::Engine;
use compare::record::{AREA, Record};
use compare::second::{Second, rules};
use demo::witness::{Call, Came, Delivered, Taken, Witness};
use melorwyth::record::OUTPUT;
use melorwyth::{Endpoint, Refusal, SendingKind, number};
use std::sync::Arc;

/// The number of a refusal or 0, then what the answer says.
type Answer = [usize; 5];

/// The second program beside the library: the same calls, on a record, an area and an output of its own.
#[derive(Debug)]
pub struct Checked {
    record: Record,
    area: Vec<u8>,
    output: Vec<u8>,
    supervision: Supervision,
    shared: Arc<Shared>,
}

impl Checked {
    pub fn new(shared: Arc<Shared>) -> Checked {
        Checked {
            record: Record::default(),
            area: vec![0; AREA],
            output: vec![0; OUTPUT],
            supervision: Supervision::new(0),
            shared,
        }
    }

    /// Plays the call on the second program.
    fn play(&mut self, call: &Call) -> Answer {
        let (record, area) = (self.record, &mut self.area[..]);
        match *call {
            Call::Fresh { reading } => {
                self.record = Second.fresh(reading);
                self.supervision = Supervision::new(reading);
                [0; 5]
            }
            Call::Open { .. } => {
                let answer = Second.open(record);
                self.record = answer.record;
                row(answer.number, [answer.connection.into(), 0, 0, 0])
            }
            Call::Close { n, .. } => {
                let answer = Second.close(record, area, n);
                self.record = answer.record;
                row(answer.number, [0; 4])
            }
            Call::Tick { reading, .. } => {
                let answer = Second.tick(record, area, reading);
                self.record = answer.record;
                row(answer.number, [answer.closed.into(), 0, 0, 0])
            }
            Call::Deliver { n, piece, .. } => self.deliver(n, piece),
            Call::Take { .. } => self.take(),
            Call::Datagram { datagram, .. } => {
                let answer = Second.datagram(record, area, datagram);
                self.record = answer.record;
                row(answer.number, [answer.reset.into(), 0, 0, 0])
            }
        }
    }

    fn deliver(&mut self, n: u8, piece: &[u8]) -> Answer {
        let answer = Second.deliver(self.record, &mut self.area, n, piece, &mut self.output);
        self.record = answer.record;
        let (kind, fault) = (answer.kind.into(), answer.fault.into());
        row(answer.number, [kind, fault, answer.taken, answer.length])
    }

    fn take(&mut self) -> Answer {
        let answer = Second.take(self.record, &mut self.output);
        self.record = answer.record;
        let (kind, n) = (answer.kind.into(), answer.connection.into());
        row(answer.number, [kind, n, answer.length, 0])
    }

    /// Whether both left the same, and what the rules say of it.
    fn compare(&self, endpoint: &Endpoint, output: &[u8]) -> Result<(), &'static str> {
        let record = Record::from(*endpoint.record());
        if !rules::hold(&record) {
            return Err("the record breaks a rule");
        }
        if record != self.record {
            return Err("the records differ");
        }
        if endpoint.area()[..] != self.area[..] {
            return Err("the areas differ");
        }
        if output != self.output {
            return Err("the outputs differ");
        }
        Ok(())
    }

    /// The clock's view of the call.
    fn supervise(&mut self, call: &Call, endpoint: &Endpoint) -> Result<(), String> {
        let device = &endpoint.record().device;
        match *call {
            Call::Open { answer: Ok(n) } | Call::Close { n, answer: Ok(()) } => {
                self.supervision.anew(n);
            }
            Call::Deliver { n, answer, .. } => match answer.map(|answer| answer.came) {
                Ok(Came::Message { .. }) => {
                    let beat = device.connections[usize::from(n)].beat;
                    self.supervision.heard(n, beat);
                }
                Ok(Came::Closed(_)) => self.supervision.anew(n),
                _ => {}
            },
            Call::Tick {
                reading,
                answer: Ok(closed),
            } => {
                let freed = self
                    .supervision
                    .tick(reading, closed.mask(), &device.holders)?;
                self.shared.freed(freed);
            }
            Call::Datagram {
                answer: Ok(true), ..
            } => (0..8).for_each(|n| self.supervision.anew(n)),
            _ => {}
        }
        self.supervision.note(device.holders);
        Ok(())
    }
}

impl Witness for Checked {
    fn saw(&mut self, call: Call, endpoint: &Endpoint, output: &[u8]) {
        let told = told(&call);
        let played = self.play(&call);
        self.shared.count(&call);
        if told != played {
            return self
                .shared
                .fail(format!("{call:?}: told {told:?}, second {played:?}"));
        }
        if let Err(what) = self.compare(endpoint, output) {
            return self.shared.fail(format!("{call:?}: {what}"));
        }
        if let Err(what) = self.supervise(&call, endpoint) {
            self.shared.fail(format!("{call:?}: {what}"));
        }
    }
}

fn row(number: u8, [a, b, c, d]: [usize; 4]) -> Answer {
    [number.into(), a, b, c, d]
}

/// The library's answer in the same numbers.
fn told(call: &Call) -> Answer {
    match *call {
        Call::Fresh { .. } => [0; 5],
        Call::Open { answer } => of(answer, |n| [n.into(), 0, 0, 0]),
        Call::Close { answer, .. } => of(answer, |()| [0; 4]),
        Call::Tick { answer, .. } => of(answer, |closed| [closed.mask().into(), 0, 0, 0]),
        Call::Deliver { answer, .. } => of(answer, delivered),
        Call::Take { answer } => of(answer, taken),
        Call::Datagram { answer, .. } => of(answer, |reset| [reset.into(), 0, 0, 0]),
    }
}

fn of<T>(answer: Result<T, Refusal>, values: impl Fn(T) -> [usize; 4]) -> Answer {
    match answer {
        Ok(answer) => row(0, values(answer)),
        Err(refusal) => row(refusal.number(), [0; 4]),
    }
}

fn delivered(Delivered { taken, came }: Delivered) -> [usize; 4] {
    match came {
        Came::More => [number::DELIVER_MORE.into(), 0, taken, 0],
        Came::Message { reply } => [number::DELIVER_MESSAGE.into(), 0, taken, reply],
        Came::Closed(fault) => [
            number::DELIVER_CLOSED.into(),
            fault.number().into(),
            taken,
            0,
        ],
    }
}

fn taken(taken: Option<Taken>) -> [usize; 4] {
    let Some(Taken { n, kind, length }) = taken else {
        return [0; 4];
    };
    let kind = match kind {
        SendingKind::Notification => number::TAKE_NOTIFICATION,
        SendingKind::KeepAlive => number::TAKE_KEEP_ALIVE,
    };
    [kind.into(), n.into(), length, 0]
}

#[cfg(test)]
mod tests {
    use super::*;

    /// A desk's beginning, with one connection open.
    fn begun() -> (Checked, Arc<Shared>, Endpoint, Vec<u8>) {
        let shared = Arc::new(Shared::default());
        let mut checked = Checked::new(shared.clone());
        let mut endpoint = Endpoint::fresh(7);
        let output = vec![0; OUTPUT];
        checked.saw(Call::Fresh { reading: 7 }, &endpoint, &output);
        let answer = endpoint.open();
        checked.saw(Call::Open { answer }, &endpoint, &output);
        assert_eq!(shared.failure(), None);
        (checked, shared, endpoint, output)
    }

    fn failure(check: impl Fn(&mut Checked, &mut Endpoint, &mut Vec<u8>)) -> String {
        let (mut checked, shared, mut endpoint, mut output) = begun();
        check(&mut checked, &mut endpoint, &mut output);
        shared.failure().expect("a wrong call is told")
    }

    #[test]
    fn right_calls_pass() {
        let (mut checked, shared, mut endpoint, mut output) = begun();
        for piece in [&[0x3B, 0, 1][..], &[9, 9, 9, 9, 9, 9, 9, 9]] {
            let answer = endpoint.deliver(0, piece, &mut output).map(Delivered::from);
            let n = 0;
            checked.saw(Call::Deliver { n, piece, answer }, &endpoint, &output);
        }
        let answer = endpoint.tick(9);
        let reading = 9;
        checked.saw(Call::Tick { reading, answer }, &endpoint, &output);
        assert_eq!(shared.failure(), None);
        assert_eq!(shared.calls(), 5);
    }

    #[test]
    fn another_answer_is_told() {
        let told = failure(|checked, endpoint, output| {
            endpoint.open().unwrap();
            checked.saw(Call::Open { answer: Ok(2) }, endpoint, output);
        });
        assert!(told.contains("second [0, 1, 0, 0, 0]"), "{told}");
    }

    #[test]
    fn another_record_is_told() {
        let told = failure(|checked, endpoint, output| {
            endpoint.open().unwrap();
            endpoint.open().unwrap();
            checked.saw(Call::Open { answer: Ok(1) }, endpoint, output);
        });
        assert!(told.contains("the records differ"), "{told}");
    }

    #[test]
    fn another_area_is_told() {
        let told = failure(|checked, endpoint, output| {
            let answer = endpoint.deliver(0, &[0x3B, 0], output).map(Delivered::from);
            let (n, piece) = (0, &[0x3B, 1][..]);
            checked.saw(Call::Deliver { n, piece, answer }, endpoint, output);
        });
        assert!(told.contains("the areas differ"), "{told}");
    }

    #[test]
    fn another_output_is_told() {
        let told = failure(|checked, endpoint, output| {
            output[4_095] = 1;
            let answer = endpoint.open();
            checked.saw(Call::Open { answer }, endpoint, output);
        });
        assert!(told.contains("the outputs differ"), "{told}");
    }
}
