//! The scope paper's bench examples and rules, and those of the requests that
//! landed, run on the second program.

use compare::answer::{CLOSED, KEEP_ALIVE, MESSAGE, MORE, NOTIFICATION};
use compare::engine::Engine;
use compare::record::{AREA, Mechanism, Record, Subscription};
use compare::second::device::class_bytes;
use compare::second::listing::list;
use compare::second::wire;
use compare::second::{Second, address, rules};

const TWO_SECONDS: &str = "3B 00 01 00 00 00 0B 04 00 01 00 02";
const TWO_THOUSAND: &str = "3B 00 01 00 00 00 0D 04 00 01 00 00 07 D0";
const LOCK: &str = "3B 00 01 00 00 00 1A 01 00 01 00 00 00 11 00 00 00 07 \
                    00 00 10 01 00 01 00 03 00";
const LOCKED: &str = "3B 00 01 00 00 00 13 03 00 01 00 00 00 0A 00 00 00 07 00 00";
const REFUSED: &str = "3B 00 01 00 00 00 13 03 00 01 00 00 00 0A 00 00 00 07 03 00";
const MUTED: &str = "3B 00 01 00 00 00 2A 02 00 01 00 00 00 21 00 00 00 09 00 03 00 01 02 \
                     00 04 01 02 03 04 00 00 10 01 00 01 00 01 00 04 00 01 01 01";

fn hex(text: &str) -> Vec<u8> {
    text.split_whitespace()
        .map(|pair| u8::from_str_radix(pair, 16).expect("a pair of hexadecimal digits"))
        .collect()
}

/// A command entry.
fn command(handle: u32, target: u32, method: (u16, u16), count: u8, rest: &[u8]) -> Vec<u8> {
    let mut bytes = (17 + rest.len() as u32).to_be_bytes().to_vec();
    bytes.extend(handle.to_be_bytes());
    bytes.extend(target.to_be_bytes());
    bytes.extend(method.0.to_be_bytes());
    bytes.extend(method.1.to_be_bytes());
    bytes.push(count);
    bytes.extend(rest);
    bytes
}

/// The parameters of an add of event 1.1, mode 1.
fn adding(emitter: u32, object: u32, context: &[u8]) -> Vec<u8> {
    let mut bytes = naming(emitter, object);
    bytes.extend((context.len() as u16).to_be_bytes());
    bytes.extend(context);
    bytes.extend([1, 0, 0]);
    bytes
}

/// The parameters of a remove of event 1.1 with subscriber method 3.1.
fn naming(emitter: u32, object: u32) -> Vec<u8> {
    let mut bytes = emitter.to_be_bytes().to_vec();
    bytes.extend([0, 1, 0, 1]);
    bytes.extend(object.to_be_bytes());
    bytes.extend([0, 3, 0, 1]);
    bytes
}

/// A host with one device.
struct Bench {
    record: Record,
    area: Vec<u8>,
    output: Vec<u8>,
}

impl Bench {
    /// A fresh device with this many connections open.
    fn open(count: usize) -> Bench {
        let mut bench = Bench {
            record: Second.fresh(0),
            area: vec![0; AREA],
            output: vec![0xEE; 4_096],
        };
        for n in 0..count {
            let answer = Second.open(bench.record);
            assert_eq!((answer.number, usize::from(answer.connection)), (0, n));
            bench.record = answer.record;
        }
        bench
    }

    fn deliver(&mut self, n: u8, piece: &[u8]) -> (u8, u8, usize, Vec<u8>) {
        let answer = Second.deliver(self.record, &mut self.area, n, piece, &mut self.output);
        assert_eq!(answer.number, 0);
        self.keep(answer.record);
        let reply = self.output[..answer.length].to_vec();
        (answer.kind, answer.fault, answer.taken, reply)
    }

    /// Delivers a whole message and hands back the reply.
    fn send(&mut self, n: u8, message: &[u8]) -> Vec<u8> {
        let (kind, fault, taken, reply) = self.deliver(n, message);
        assert_eq!((kind, fault, taken), (MESSAGE, 0, message.len()));
        reply
    }

    /// Runs one command and hands back the response's status, count and parameters.
    fn ask(&mut self, n: u8, entry: Vec<u8>) -> (u8, u8, Vec<u8>) {
        let reply = self.send(n, &wire::message(1, &[entry]));
        (reply[18], reply[19], reply[20..].to_vec())
    }

    fn status(&mut self, n: u8, target: u32, method: (u16, u16), count: u8, rest: &[u8]) -> u8 {
        let (status, given, parameters) = self.ask(n, command(7, target, method, count, rest));
        assert!(status == 0 || (given == 0 && parameters.is_empty()));
        status
    }

    fn tick(&mut self, reading: u32) -> u8 {
        let answer = Second.tick(self.record, &mut self.area, reading);
        assert_eq!(answer.number, 0);
        self.keep(answer.record);
        answer.closed
    }

    fn take(&mut self) -> (u8, u8, Vec<u8>) {
        let answer = Second.take(self.record, &mut self.output);
        assert_eq!(answer.number, 0);
        self.keep(answer.record);
        let message = self.output[..answer.length].to_vec();
        (answer.kind, answer.connection, message)
    }

    /// After every call the record rules hold and the area is good.
    fn keep(&mut self, record: Record) {
        assert!(rules::hold(&record));
        assert!(rules::area_is_good(&record, &self.area));
        self.record = record;
    }
}

#[test]
fn keep_alives_are_read_answered_and_written() {
    for (text, form, value, beat) in [(TWO_SECONDS, 1, 2, 2_000), (TWO_THOUSAND, 2, 2_000, 2_000)] {
        let bytes = hex(text);
        let reading = Second.read_message(&bytes);
        assert_eq!((reading.number, reading.kind, reading.count), (0, 4, 1));
        assert_eq!((reading.form, reading.value), (form, value));
        assert_eq!(reading.length, bytes.len());
        let mut bench = Bench::open(1);
        assert_eq!(bench.send(0, &bytes), bytes);
        let connection = bench.record.device.connections[0];
        assert_eq!((connection.form, connection.beat), (form, beat));
        let mut buffer = vec![9; 2_049];
        let written = Second.keep_alive(&mut buffer, form, value);
        assert_eq!((written.number, written.length), (0, bytes.len()));
        assert_eq!(buffer[..bytes.len()], bytes);
        assert!(buffer[bytes.len()..].iter().all(|byte| *byte == 9));
    }
}

#[test]
fn a_lock_is_answered_and_refused_to_another() {
    let mut bench = Bench::open(2);
    assert_eq!(bench.send(0, &hex(LOCK)), hex(LOCKED));
    assert_eq!(bench.send(1, &hex(LOCK)), hex(REFUSED));
    assert_eq!(bench.send(0, &hex(LOCK)), hex(LOCKED));
    assert_eq!(bench.record.device.holders[0], 1);
    assert_eq!(bench.status(1, 4_097, (4, 2), 1, &[9]), 3);
    assert_eq!(bench.status(1, 4_097, (1, 4), 0, &[]), 3);
    assert_eq!(bench.status(0, 4_097, (1, 4), 0, &[]), 0);
    assert_eq!(bench.status(0, 4_097, (1, 4), 0, &[]), 9);
    assert_eq!(bench.send(1, &hex(LOCK)), hex(LOCKED));
}

#[test]
fn the_reply_leaves_the_rest_of_the_output() {
    let mut bench = Bench::open(1);
    bench.send(0, &hex(LOCK));
    assert!(bench.output[20..].iter().all(|byte| *byte == 0xEE));
}

#[test]
fn a_mute_notifies_its_subscriber() {
    let mut bench = Bench::open(1);
    let add = adding(4_097, 9, &[1, 2, 3, 4]);
    assert_eq!(bench.status(0, 4, (3, 1), 5, &add), 0);
    assert_eq!(bench.take(), (0, 0, vec![]));
    assert_eq!(bench.status(0, 4_097, (4, 2), 1, &[1]), 0);
    assert_eq!(bench.take(), (NOTIFICATION, 0, hex(MUTED)));
    assert_eq!(bench.take(), (0, 0, vec![]));
}

#[test]
fn a_class_is_laid_out_as_the_source_document_says() {
    assert_eq!(class_bytes(&[1, 3], 1), hex("00 02 00 01 00 03 00 01"));
    let mut bench = Bench::open(1);
    for (target, class) in [
        (1, "00 03 00 01 00 03 00 01 00 01"),
        (4, "00 03 00 01 00 03 00 04 00 01"),
        (4_104, "00 04 00 01 00 01 00 01 00 02 00 01"),
    ] {
        let answer = bench.ask(0, command(1, target, (1, 1), 0, &[]));
        assert_eq!(answer, (0, 1, hex(class)));
        let lockable = u8::from(target == 4_104);
        let answer = bench.ask(0, command(1, target, (1, 2), 0, &[]));
        assert_eq!(answer, (0, 1, vec![lockable]));
    }
}

#[test]
fn the_counter_goes_round_and_does_not_go_back() {
    let mut area = vec![0; AREA];
    let step = |first: u32, then: u32, area: &mut Vec<u8>| {
        Second.tick(Second.fresh(first), area, then).number
    };
    assert_eq!(step(4_294_967_000, 200, &mut area), 0);
    assert_eq!(step(5, 5 + ((1 << 31) - 1), &mut area), 0);
    assert_eq!(step(5, 5 + (1 << 31), &mut area), 6);
    assert_eq!(step(5, 4, &mut area), 6);

    let mut bench = Bench::open(1);
    bench.record.device.reading = 4_294_967_000;
    bench.send(0, &hex(TWO_SECONDS));
    bench.tick(200);
    assert_eq!(bench.record.device.connections[0].silence, 496);
}

#[test]
fn two_seconds_close_at_six() {
    let mut bench = Bench::open(1);
    bench.send(0, &hex(TWO_SECONDS));
    assert_eq!(bench.tick(5_999), 0);
    assert_eq!(bench.record.device.connections[0].silence, 5_999);
    assert!(bench.record.device.connections[0].live);
    assert_eq!(bench.tick(6_000), 1);
    assert!(!bench.record.device.connections[0].live);
}

#[test]
fn the_technicians_lock_is_free_after_ninety_seconds() {
    let mut bench = Bench::open(2);
    bench.send(0, &wire::keep_alive(wire::Heartbeat::Seconds(30)));
    assert_eq!(bench.status(0, 4_100, (1, 3), 0, &[]), 0);
    assert_eq!(bench.tick(89_999), 0);
    assert_eq!(bench.status(1, 4_100, (1, 3), 0, &[]), 3);
    assert_eq!(bench.tick(90_000), 1);
    assert_eq!(bench.status(1, 4_100, (1, 3), 0, &[]), 0);
    assert_eq!(bench.record.device.holders[3], 2);
}

#[test]
fn silence_is_counted_beyond_32_bits() {
    let mut bench = Bench::open(1);
    bench.send(
        0,
        &wire::keep_alive(wire::Heartbeat::Milliseconds(u32::MAX)),
    );
    let mut reading = 0_u32;
    for _ in 0..6 {
        reading = reading.wrapping_add((1 << 31) - 1);
        assert_eq!(bench.tick(reading), 0);
    }
    assert_eq!(
        bench.record.device.connections[0].silence,
        6 * ((1 << 31) - 1)
    );
    // 3 x 4,294,967,295 less 6 x 2,147,483,647 leaves 3.
    assert_eq!(bench.tick(reading.wrapping_add(2)), 0);
    assert_eq!(bench.tick(reading.wrapping_add(3)), 1);
}

#[test]
fn quiet_brings_one_keep_alive_in_its_form() {
    for text in [TWO_SECONDS, TWO_THOUSAND] {
        let mut bench = Bench::open(2);
        bench.send(1, &hex(text));
        bench.tick(1_999);
        assert_eq!(bench.take(), (0, 0, vec![]));
        bench.tick(2_000);
        bench.tick(2_500);
        assert_eq!(bench.record.device.connections[1].quiet, 0);
        assert_eq!(bench.take(), (KEEP_ALIVE, 1, hex(text)));
        assert_eq!(bench.take(), (0, 0, vec![]));
    }
}

#[test]
fn only_what_the_device_sends_clears_quiet() {
    let mut bench = Bench::open(1);
    bench.send(0, &hex(TWO_SECONDS));
    bench.tick(1_000);
    let response = wire::message(3, &[hex("00 00 00 0A 00 00 00 01 00 00")]);
    assert_eq!(bench.send(0, &hex(MUTED)), []);
    assert_eq!(bench.send(0, &response), []);
    let unasked = wire::message(0, &[command(1, 4_097, (4, 2), 1, &[1])]);
    assert_eq!(bench.send(0, &unasked), []);
    let connection = bench.record.device.connections[0];
    assert_eq!((connection.silence, connection.quiet), (0, 1_000));
    bench.send(0, &hex(LOCK));
    assert_eq!(bench.record.device.connections[0].quiet, 0);
}

#[test]
fn undecided_bytes_are_not_heard() {
    let mut bench = Bench::open(1);
    bench.send(0, &hex(TWO_SECONDS));
    bench.tick(1_000);
    let before = bench.record.device;
    let lock = hex(LOCK);
    assert_eq!(bench.deliver(0, &lock[..26]), (MORE, 0, 26, vec![]));
    assert_eq!(bench.record.device, before);
    assert_eq!(bench.area[..26], lock[..26]);
    assert_eq!(bench.record.held[0], 26);
    assert_eq!(bench.deliver(0, &lock[26..]), (MESSAGE, 0, 1, hex(LOCKED)));
    assert!(bench.area.iter().all(|byte| *byte == 0));
}

#[test]
fn a_zero_heartbeat_stops_supervision() {
    let mut bench = Bench::open(1);
    bench.send(0, &hex(TWO_SECONDS));
    bench.tick(3_000);
    for zero in [
        wire::keep_alive(wire::Heartbeat::Seconds(0)),
        wire::keep_alive(wire::Heartbeat::Milliseconds(0)),
    ] {
        assert_eq!(bench.send(0, &zero), zero);
        let connection = bench.record.device.connections[0];
        assert_eq!((connection.form, connection.beat), (0, 0));
        assert_eq!((connection.silence, connection.quiet), (0, 0));
        assert!(connection.live && !connection.due);
    }
    assert_eq!(bench.tick(1 << 30), 0);
    assert_eq!(bench.take(), (0, 0, vec![]));
}

#[test]
fn notifications_come_by_entry_and_before_keep_alives() {
    let mut bench = Bench::open(3);
    bench.send(0, &hex(TWO_SECONDS));
    for (n, emitter, object) in [(2, 4_098, 5), (1, 4_097, 6), (0, 4_098, 7)] {
        let add = adding(emitter, object, &vec![1; object as usize]);
        assert_eq!(bench.status(n, 4, (3, 1), 5, &add), 0);
    }
    bench.tick(2_000);
    assert_eq!(bench.status(1, 4_098, (4, 2), 1, &[1]), 0);
    assert_eq!(bench.status(1, 4_098, (4, 2), 1, &[2]), 0);
    assert_eq!(bench.status(1, 4_097, (4, 2), 1, &[1]), 0);
    let mut seen = Vec::new();
    loop {
        let (kind, connection, message) = bench.take();
        if kind == 0 {
            break;
        }
        seen.push((kind, connection, message.iter().rev().nth(1).copied()));
    }
    // The last entry's notification speaks on connection 0 and clears its due.
    let expected = [
        (NOTIFICATION, 2, Some(2)),
        (NOTIFICATION, 1, Some(1)),
        (NOTIFICATION, 0, Some(2)),
    ];
    assert_eq!(seen, expected);
}

#[test]
fn a_set_to_the_present_value_marks_nothing() {
    let mut bench = Bench::open(1);
    let add = adding(4_097, 9, &[]);
    assert_eq!(bench.status(0, 4, (3, 1), 5, &add), 0);
    assert_eq!(bench.status(0, 4_097, (4, 2), 1, &[2]), 0);
    assert_eq!(bench.take().0, 0);
}

#[test]
fn a_twin_is_refused_whatever_its_context() {
    let mut bench = Bench::open(2);
    assert_eq!(bench.status(0, 4, (3, 1), 5, &adding(4_097, 9, &[1])), 0);
    let entry = bench.record.device.subscriptions[0];
    for context in [&[1][..], &[2], &[], &[1; 64]] {
        assert_eq!(bench.status(0, 4, (3, 1), 5, &adding(4_097, 9, context)), 9);
        assert_eq!(bench.record.device.subscriptions[0], entry);
    }
    assert_eq!(bench.status(1, 4, (3, 1), 5, &adding(4_097, 9, &[1])), 0);
    assert_eq!(bench.status(0, 4, (3, 2), 2, &naming(4_097, 8)), 9);
    assert_eq!(bench.status(0, 4, (3, 2), 2, &naming(4_097, 9)), 0);
    assert_eq!(bench.status(0, 4, (3, 2), 2, &naming(4_097, 9)), 9);
    let mut twins = bench.record;
    twins.device.subscriptions[0] = twins.device.subscriptions[1];
    assert_eq!(Second.open(twins).number, 1);
}

#[test]
fn the_33rd_subscription_finds_no_entry() {
    let mut bench = Bench::open(1);
    for object in 0..32 {
        assert_eq!(
            bench.status(0, 4, (3, 1), 5, &adding(4_097, object, &[])),
            0
        );
    }
    assert_eq!(bench.status(0, 4, (3, 1), 5, &adding(4_097, 32, &[])), 10);
    assert_eq!(bench.status(0, 4, (3, 1), 5, &adding(4_097, 31, &[])), 9);
    assert_eq!(
        bench.status(0, 4, (3, 1), 5, &adding(4_097, 32, &[0; 65])),
        7
    );
    assert_eq!(bench.status(0, 4, (3, 2), 2, &naming(4_097, 11)), 0);
    assert_eq!(bench.status(0, 4, (3, 1), 5, &adding(4_097, 32, &[])), 0);
    assert_eq!(bench.record.device.subscriptions[11].object, 32);
}

#[test]
fn the_ninth_opening_is_refused() {
    let bench = Bench::open(8);
    let answer = Second.open(bench.record);
    assert_eq!((answer.number, answer.connection), (5, 0));
    assert_eq!(answer.record, bench.record);
}

#[test]
fn statuses_come_in_their_order() {
    let mut bench = Bench::open(2);
    assert_eq!(bench.status(0, 2, (9, 9), 3, &[1]), 5);
    assert_eq!(bench.status(0, 4_105, (1, 1), 0, &[]), 5);
    assert_eq!(bench.status(0, 1, (3, 1), 9, &[1]), 11);
    assert_eq!(bench.status(0, 4, (3, 14), 0, &[]), 11);
    assert_eq!(bench.status(0, 4_097, (3, 1), 0, &[]), 11);
    assert_eq!(bench.status(0, 1, (3, 14), 7, &[1, 2]), 4);
    assert_eq!(bench.status(0, 4, (1, 3), 7, &[1]), 8);
    assert_eq!(bench.status(0, 1, (1, 4), 0, &[]), 8);
    assert_eq!(bench.status(0, 1, (1, 1), 1, &[1]), 4);
    assert_eq!(bench.status(0, 4_097, (4, 2), 0, &[]), 4);
    assert_eq!(bench.status(0, 4_097, (4, 2), 1, &[1, 1]), 4);
    assert_eq!(bench.status(0, 4_097, (4, 2), 2, &[1]), 4);
    assert_eq!(bench.status(0, 4_097, (4, 2), 1, &[3]), 7);
    let mut pair = adding(1, 9, &[7, 7]);
    pair[22] = 1;
    assert_eq!(bench.status(0, 4, (3, 1), 5, &pair), 4);
    let mut mode = adding(4_097, 9, &[7, 7]);
    mode[20] = 2;
    assert_eq!(bench.status(0, 4, (3, 1), 5, &mode), 7);
    mode[7] = 2;
    assert_eq!(bench.status(0, 4, (3, 1), 5, &mode), 6);
    assert_eq!(bench.status(0, 4, (3, 2), 2, &naming(1, 9)), 6);
}

#[test]
fn a_failed_command_does_not_stop_the_next_and_a_fault_runs_none() {
    let mut bench = Bench::open(1);
    let entries = [
        command(1, 99, (1, 1), 0, &[]),
        command(2, 4_097, (4, 2), 1, &[1]),
        command(3, 4_097, (4, 1), 0, &[]),
    ];
    let reply = bench.send(0, &wire::message(1, &entries));
    let expected = hex("3B 00 01 00 00 00 28 03 00 03 \
                        00 00 00 0A 00 00 00 01 05 00 \
                        00 00 00 0A 00 00 00 02 00 00 \
                        00 00 00 0B 00 00 00 03 00 01 01");
    assert_eq!(reply, expected);
    let mut faulty = wire::message(1, &[command(2, 4_097, (4, 2), 1, &[2]), entries[0].clone()]);
    let last = faulty.len() - 1;
    faulty[last - 16] = 99;
    let length = faulty.len();
    assert_eq!(bench.deliver(0, &faulty), (CLOSED, 6, length, vec![]));
    assert_eq!(bench.record.device.mutes[0], 1);
    assert!(!bench.record.device.connections[0].live);
}

#[test]
fn faults_are_decided_by_the_first_the_tenth_or_the_last_byte() {
    let cases: [(&str, u8, usize); 8] = [
        ("3A", 1, 1),
        ("3B 00 02 00 00 00 08 05 00 00", 2, 10),
        ("3B 00 01 00 00 00 08 05 00 00", 3, 10),
        ("3B 00 01 00 00 08 01 05 00 00", 3, 10),
        ("3B 00 01 00 00 00 0B 05 00 00", 4, 10),
        ("3B 00 01 00 00 00 0B 01 00 00", 5, 10),
        ("3B 00 01 00 00 00 0B 04 00 02", 5, 10),
        ("3B 00 01 00 00 00 09 01 00 01", 6, 10),
    ];
    for (text, fault, taken) in cases {
        let bytes = hex(text);
        for cut in 0..bytes.len() {
            let mut bench = Bench::open(1);
            let (kind, _, first, _) = bench.deliver(0, &bytes[..cut]);
            assert_eq!((kind, first), (MORE, cut));
            let rest = [&bytes[cut..], &[0; 5]].concat();
            let answer = bench.deliver(0, &rest);
            assert_eq!(answer, (CLOSED, fault, taken - cut, vec![]));
            assert_eq!(Second.read_message(&bytes).fault, fault);
        }
    }
}

#[test]
fn sizes_at_the_limit() {
    for (length, number, fault) in [(2_048, 0, 0), (2_049, 8, 3)] {
        let entry = command(1, 1, (1, 1), 1, &vec![0; length - 9 - 17]);
        let message = wire::message(1, &[entry]);
        assert_eq!(message.len(), length + 1);
        let reading = Second.read_message(&message);
        assert_eq!((reading.number, reading.fault), (number, fault));
    }
    let least = vec![command(1, 4_097, (1, 1), 0, &[]); 119];
    let message = wire::message(1, &least);
    let mut bench = Bench::open(1);
    let reply = bench.send(0, &message);
    assert_eq!(wire::header(&reply).size, 2_627);
    let mut buffer = vec![0; 2_049];
    let written = Second.start(&mut buffer, 1, &least[0]);
    assert_eq!(written.number, 0);
    for entry in &least[1..] {
        assert_eq!(Second.append(&mut buffer, 1, entry).number, 0);
    }
    assert_eq!(buffer[..message.len()], message);
    let written = Second.append(&mut buffer, 1, &least[0]);
    assert_eq!((written.number, written.length), (10, 0));
}

#[test]
fn the_writer_refuses_in_its_order() {
    let entry = command(1, 1, (1, 1), 0, &[]);
    let mut small = vec![0; 2_048];
    assert_eq!(Second.start(&mut small, 9, &entry).number, 4);
    let mut buffer = vec![0; 2_049];
    assert_eq!(Second.start(&mut buffer, 4, &entry).number, 11);
    assert_eq!(Second.start(&mut buffer, 3, &entry).number, 11);
    let long = command(1, 1, (1, 1), 0, &[0; 3_000]);
    assert_eq!(Second.start(&mut buffer, 1, &long).number, 11);
    let long = command(1, 1, (1, 1), 1, &[0; 3_000]);
    assert_eq!(Second.start(&mut buffer, 1, &long).number, 10);
    let written = Second.append(&mut buffer, 1, &entry);
    assert_eq!((written.number, written.fault), (8, 1));
    assert_eq!(Second.keep_alive(&mut buffer, 1, 65_536).number, 11);
    assert_eq!(Second.keep_alive(&mut buffer, 0, 1).number, 11);
    assert_eq!(Second.keep_alive(&mut buffer, 3, 1).number, 11);
    assert_eq!(Second.keep_alive(&mut buffer, 1, 65_535).number, 0);
    assert_eq!(Second.append(&mut buffer, 4, &entry).number, 11);
    assert_eq!(Second.start(&mut buffer, 1, &entry).number, 0);
    assert_eq!(Second.append(&mut buffer, 0, &entry).number, 11);
    assert_eq!(Second.append(&mut buffer, 1, &long).number, 10);
}

#[test]
fn entries_are_read_with_their_parts() {
    let muted = hex(MUTED);
    let entry = Second.read_entry(&muted, 0);
    assert_eq!((entry.number, entry.kind, entry.count), (0, 2, 2));
    assert_eq!((entry.target, entry.level, entry.index), (9, 3, 1));
    assert_eq!((entry.context_count, entry.emitter), (4, 4_097));
    assert_eq!((entry.event_level, entry.event_index), (1, 1));
    let part = Second.entry_part(&muted, 0);
    assert_eq!((part.start, part.length), (37, 6));
    let context = Second.entry_context(&muted, 0);
    assert_eq!((context.start, context.length), (25, 4));
    assert_eq!(Second.read_entry(&muted, 1).number, 12);
    assert_eq!(Second.read_entry(&hex(TWO_SECONDS), 0).number, 12);
    assert_eq!(Second.read_entry(&muted[..42], 0).number, 9);
    for (bytes, index) in [(&muted[..], 1), (&muted[..42], 0), (&hex(TWO_SECONDS), 0)] {
        assert_eq!(Second.entry_part(bytes, index), Default::default());
        assert_eq!(Second.entry_context(bytes, index), Default::default());
    }
    let refused = Second.read_entry(&hex(REFUSED), 0);
    assert_eq!((refused.kind, refused.handle, refused.status), (3, 7, 3));
    assert_eq!(refused.context_count, 0);
    assert_eq!(Second.entry_part(&hex(REFUSED), 0).start, 20);
    assert_eq!(Second.entry_context(&hex(REFUSED), 0), Default::default());
}

#[test]
fn the_listing_prints_the_sample() {
    let mut input = hex(TWO_SECONDS);
    input.extend(hex(LOCK));
    assert_eq!(list(&input), "0 4 1 11\n12 1 1 26\n39 end\n");
    assert_eq!(list(&input[..38]), "0 4 1 11\n12 part 26\n");
    input.push(0);
    assert_eq!(list(&input), "0 4 1 11\n12 1 1 26\n39 stop 1\n");
    assert_eq!(list(&[]), "0 end\n");
}

/// Messages of one entry, in pairs: one whose count and bytes agree, and one whose do not.
const COUNTED: [(&str, &str); 8] = [
    // Get of mute 4097: count 0, and count 1 without a byte.
    (
        "3B 00 01 00 00 00 1A 01 00 01 00 00 00 11 00 00 00 07 00 00 10 01 00 04 00 01 00",
        "3B 00 01 00 00 00 1A 01 00 01 00 00 00 11 00 00 00 07 00 00 10 01 00 04 00 01 01",
    ),
    // Set of mute 4097, without reply: count 1 with a byte, and without.
    (
        "3B 00 01 00 00 00 1B 00 00 01 00 00 00 12 00 00 00 07 00 00 10 01 00 04 00 02 01 01",
        "3B 00 01 00 00 00 1A 00 00 01 00 00 00 11 00 00 00 07 00 00 10 01 00 04 00 02 01",
    ),
    // Get: count 1 with a byte, which gives status 4, and count 0 with one.
    (
        "3B 00 01 00 00 00 1B 01 00 01 00 00 00 12 00 00 00 07 00 00 10 01 00 04 00 01 01 09",
        "3B 00 01 00 00 00 1B 01 00 01 00 00 00 12 00 00 00 07 00 00 10 01 00 04 00 01 00 09",
    ),
    // Response: count 0, and count 1 without a byte.
    (
        "3B 00 01 00 00 00 13 03 00 01 00 00 00 0A 00 00 00 07 00 00",
        "3B 00 01 00 00 00 13 03 00 01 00 00 00 0A 00 00 00 07 00 01",
    ),
    // Response: count 1 with a byte, and count 0 with one.
    (
        "3B 00 01 00 00 00 14 03 00 01 00 00 00 0B 00 00 00 07 00 01 02",
        "3B 00 01 00 00 00 14 03 00 01 00 00 00 0B 00 00 00 07 00 00 02",
    ),
    // Notification: count 1, and count 2 without a byte.
    (
        "3B 00 01 00 00 00 24 02 00 01 00 00 00 1B 00 00 00 09 00 03 00 01 01 \
         00 04 01 02 03 04 00 00 10 01 00 01 00 01",
        "3B 00 01 00 00 00 24 02 00 01 00 00 00 1B 00 00 00 09 00 03 00 01 02 \
         00 04 01 02 03 04 00 00 10 01 00 01 00 01",
    ),
    // Notification: count 2 with a byte, and count 1 with one.
    (
        "3B 00 01 00 00 00 25 02 00 01 00 00 00 1C 00 00 00 09 00 03 00 01 02 \
         00 04 01 02 03 04 00 00 10 01 00 01 00 01 00",
        "3B 00 01 00 00 00 25 02 00 01 00 00 00 1C 00 00 00 09 00 03 00 01 01 \
         00 04 01 02 03 04 00 00 10 01 00 01 00 01 00",
    ),
    // Notification: count 255 with a byte, and without.
    (
        "3B 00 01 00 00 00 25 02 00 01 00 00 00 1C 00 00 00 09 00 03 00 01 FF \
         00 04 01 02 03 04 00 00 10 01 00 01 00 01 00",
        "3B 00 01 00 00 00 24 02 00 01 00 00 00 1B 00 00 00 09 00 03 00 01 FF \
         00 04 01 02 03 04 00 00 10 01 00 01 00 01",
    ),
];

#[test]
fn counts_and_bytes_have_to_agree_when_reading() {
    for (sound, faulty) in COUNTED {
        let (sound, faulty) = (hex(sound), hex(faulty));
        let reading = Second.read_message(&sound);
        assert_eq!((reading.number, reading.length), (0, sound.len()));
        assert_eq!(Second.read_entry(&sound, 0).number, 0);
        let reading = Second.read_message(&faulty);
        assert_eq!((reading.number, reading.fault), (8, 6));
        let entry = Second.read_entry(&faulty, 0);
        assert_eq!((entry.number, entry.fault), (8, 6));
        assert_eq!(Second.entry_part(&faulty, 0), Default::default());
        let (kind, size) = (sound[7], sound[6]);
        let listed = format!("0 {kind} 1 {size}\n{} stop 6\n", sound.len());
        assert_eq!(list(&[sound.clone(), faulty, sound].concat()), listed);
    }
}

#[test]
fn counts_and_bytes_have_to_agree_when_writing() {
    for (sound, faulty) in COUNTED {
        let (sound, faulty) = (hex(sound), hex(faulty));
        let kind = sound[7];
        let mut buffer = vec![9; 2_049];
        assert_eq!(Second.start(&mut buffer, kind, &faulty[10..]).number, 11);
        assert_eq!(buffer, [9; 2_049]);
        let written = Second.start(&mut buffer, kind, &sound[10..]);
        assert_eq!((written.number, written.length), (0, sound.len()));
        assert_eq!(buffer[..sound.len()], sound);
        assert_eq!(Second.append(&mut buffer, kind, &faulty[10..]).number, 11);
        assert_eq!(Second.append(&mut buffer, kind, &sound[10..]).number, 0);
        buffer[..faulty.len()].copy_from_slice(&faulty);
        let written = Second.append(&mut buffer, kind, &sound[10..]);
        assert_eq!((written.number, written.fault), (8, 6));
        assert_eq!(buffer[..faulty.len()], faulty);
    }
}

#[test]
fn a_count_without_bytes_closes_and_runs_nothing() {
    for (sound, faulty) in COUNTED {
        let (sound, faulty) = (hex(sound), hex(faulty));
        let length = faulty.len();
        for cut in 0..length {
            let mut bench = Bench::open(2);
            assert_eq!(bench.status(1, 4_098, (1, 3), 0, &[]), 0);
            bench.send(0, &hex(LOCK));
            bench.send(0, &sound);
            let before = bench.record.device;
            assert_eq!(bench.deliver(0, &faulty[..cut]), (MORE, 0, cut, vec![]));
            let answer = bench.deliver(0, &faulty[cut..]);
            assert_eq!(answer, (CLOSED, 6, length - cut, vec![]));
            let after = bench.record.device;
            assert!(!after.connections[0].live && after.connections[1].live);
            assert_eq!(after.mutes, before.mutes);
            assert_eq!((after.holders[0], after.holders[1]), (0, 2));
        }
    }
    // The first of two commands is sound, and still is not run.
    let mut bench = Bench::open(1);
    let entries = [
        command(1, 4_097, (4, 2), 1, &[1]),
        command(2, 4_098, (4, 2), 1, &[]),
    ];
    let (kind, fault, _, reply) = bench.deliver(0, &wire::message(1, &entries));
    assert_eq!((kind, fault, reply), (CLOSED, 6, vec![]));
    assert_eq!(bench.record.device.mutes, [2; 8]);
}

#[test]
fn a_wrong_count_with_bytes_is_a_status() {
    let mut bench = Bench::open(1);
    let (asked, _) = COUNTED[2];
    let reply = hex("3B 00 01 00 00 00 13 03 00 01 00 00 00 0A 00 00 00 07 04 00");
    assert_eq!(bench.send(0, &hex(asked)), reply);
}

/// A notification of event 1.1 to object 9, method 3.1, with any context count.
fn notifying(count: u8, stated: u16, context: &[u8], rest: &[u8]) -> Vec<u8> {
    let mut bytes = (23 + (context.len() + rest.len()) as u32)
        .to_be_bytes()
        .to_vec();
    bytes.extend([0, 0, 0, 9, 0, 3, 0, 1, count]);
    bytes.extend(stated.to_be_bytes());
    bytes.extend(context);
    bytes.extend([0, 0, 0x10, 1, 0, 1, 0, 1]);
    bytes.extend(rest);
    bytes
}

#[test]
fn a_context_of_every_length_is_kept_sent_and_read() {
    for length in 0..=64 {
        let context: Vec<u8> = (1..=length).collect();
        let mut bench = Bench::open(1);
        assert_eq!(
            bench.status(0, 4, (3, 1), 5, &adding(4_097, 9, &context)),
            0
        );
        let entry = bench.record.device.subscriptions[0];
        let (kept, past) = entry.context.split_at(context.len());
        assert_eq!((entry.context_count, kept), (length, &context[..]));
        assert!(past.iter().all(|byte| *byte == 0));
        assert_eq!(bench.status(0, 4_097, (4, 2), 1, &[1]), 0);
        let rest = [0, 4, 0, 1, 1, 1];
        let sent = wire::message(2, &[notifying(2, length.into(), &context, &rest)]);
        assert_eq!(bench.take(), (NOTIFICATION, 0, sent.clone()));
        let entry = Second.read_entry(&sent, 0);
        assert_eq!((entry.number, entry.context_count), (0, length.into()));
        assert_eq!((entry.emitter, entry.event_level), (4_097, 1));
        let context = Second.entry_context(&sent, 0);
        assert_eq!((context.start, context.length), (25, length.into()));
        let part = Second.entry_part(&sent, 0);
        assert_eq!((part.start, part.length), (33 + usize::from(length), 6));
    }
}

#[test]
fn a_shorter_context_leaves_nothing_of_a_longer_one() {
    let mut bench = Bench::open(1);
    for context in [&[9; 64][..], &[8; 5], &[]] {
        assert_eq!(bench.status(0, 4, (3, 1), 5, &adding(4_097, 9, context)), 0);
        let entry = bench.record.device.subscriptions[0];
        assert!(entry.context.starts_with(context));
        assert!(entry.context[context.len()..].iter().all(|byte| *byte == 0));
        assert_eq!(bench.status(0, 4, (3, 2), 2, &naming(4_097, 9)), 0);
        assert_eq!(bench.record.device.subscriptions[0], Default::default());
    }
}

#[test]
fn statuses_of_an_add_come_in_their_order() {
    let mut bench = Bench::open(1);
    let with = |edit: &dyn Fn(&mut Vec<u8>), mut bytes: Vec<u8>| {
        edit(&mut bytes);
        bytes
    };
    for length in [0, 1, 64, 65, 255, 256, 2_001] {
        let right = adding(4_097, 9, &vec![7; length]);
        assert_eq!(right.len(), 21 + length);
        let long = length > 64;
        let stranger = adding(4_105, 9, &vec![7; length]);
        let mode = with(&|bytes| bytes[18 + length] = 2, right.clone());
        for (count, bytes, status) in [
            (4, &stranger, 4),
            (6, &stranger, 4),
            (
                5,
                &with(&|bytes| bytes[19 + length] = 1, stranger.clone()),
                4,
            ),
            (5, &with(&|bytes| bytes[20 + length] = 1, mode.clone()), 4),
            (5, &with(&|bytes| bytes[17] ^= 1, stranger.clone()), 4),
            (5, &with(&|bytes| bytes[16] ^= 1, mode.clone()), 4),
            (
                5,
                &with(&|bytes| bytes.truncate(20 + length), mode.clone()),
                4,
            ),
            (
                5,
                &with(&|bytes| bytes[18 + length] = 0, stranger.clone()),
                6,
            ),
            (5, &stranger, 6),
            (5, &mode, 7),
            (5, &right, if long { 7 } else { 0 }),
            (5, &right, if long { 7 } else { 9 }),
        ] {
            assert_eq!(
                bench.status(0, 4, (3, 1), count, bytes),
                status,
                "{bytes:?}"
            );
        }
        bench.status(0, 4, (3, 2), 2, &naming(4_097, 9));
    }
    for length in 1..21 {
        let short = &adding(4_105, 9, &[])[..length];
        assert_eq!(bench.status(0, 4, (3, 1), 5, short), 4);
    }
}

/// Notifications of one entry that are not well formed by their context, whatever their parameter count.
fn overlong() -> Vec<Vec<u8>> {
    let mut entries = Vec::new();
    for count in [1, 2] {
        for length in [65, 255, 256, 300] {
            entries.push(notifying(count, length, &vec![7; length.into()], &[]));
            entries.push(notifying(count, length, &vec![7; length.into()], &[1, 2]));
        }
        for (stated, length, rest) in [
            (1, 0, 0),
            (64, 63, 0),
            (10, 1, 8),
            (9, 0, 0),
            (65_535, 4, 0),
        ] {
            entries.push(notifying(count, stated, &vec![7; length], &vec![1; rest]));
        }
        let mut short = notifying(count, 0, &[], &[]);
        short.pop();
        short[3] -= 1;
        entries.push(short);
    }
    entries
}

#[test]
fn a_context_above_64_or_past_its_entry_is_fault_6_and_11() {
    for entry in overlong() {
        let bytes = wire::message(2, std::slice::from_ref(&entry));
        let reading = Second.read_message(&bytes);
        assert_eq!((reading.number, reading.fault), (8, 6), "{bytes:?}");
        assert_eq!(Second.read_entry(&bytes, 0).fault, 6);
        assert_eq!(Second.entry_part(&bytes, 0), Default::default());
        assert_eq!(Second.entry_context(&bytes, 0), Default::default());
        let mut bench = Bench::open(1);
        let length = bytes.len();
        assert_eq!(bench.deliver(0, &bytes), (CLOSED, 6, length, vec![]));
        let mut buffer = vec![9; 2_049];
        assert_eq!(Second.start(&mut buffer, 2, &entry).number, 11);
        let sound = notifying(1, 0, &[], &[]);
        assert_eq!(Second.start(&mut buffer, 2, &sound).number, 0);
        assert_eq!(Second.append(&mut buffer, 2, &entry).number, 11);
        buffer[..length].copy_from_slice(&bytes);
        assert_eq!(Second.append(&mut buffer, 2, &sound).fault, 6);
        let listed = list(&[hex(MUTED), bytes].concat());
        assert_eq!(listed, "0 2 1 42\n43 stop 6\n");
    }
}

#[test]
fn the_least_notification_has_23_bytes() {
    let least = notifying(1, 0, &[], &[]);
    assert_eq!(least.len(), 23);
    let bytes = wire::message(2, &[least.clone(), least]);
    assert_eq!(Second.read_message(&bytes).number, 0);
    for (index, start) in [(0, 25), (1, 48)] {
        let context = Second.entry_context(&bytes, index);
        assert_eq!((context.start, context.length), (start, 0));
        assert_eq!(Second.entry_part(&bytes, index).length, 0);
    }
    let mut bench = Bench::open(1);
    assert_eq!(bench.send(0, &bytes), []);
}

#[test]
fn a_count_that_lies_within_its_entry_is_taken_at_its_word() {
    // Ten bytes behind a count of 2: eight are emitter and event, and eight more are parameters.
    let bytes = wire::message(2, &[notifying(2, 2, &[7; 10], &[])]);
    let entry = Second.read_entry(&bytes, 0);
    assert_eq!((entry.number, entry.context_count), (0, 2));
    assert_eq!(entry.emitter, 0x0707_0707);
    let part = Second.entry_part(&bytes, 0);
    assert_eq!((part.start, part.length), (35, 8));
}

#[test]
fn a_context_keeps_its_rules_in_a_record() {
    let mut bench = Bench::open(1);
    assert_eq!(bench.status(0, 4, (3, 1), 5, &adding(4_097, 9, &[7; 5])), 0);
    let number = |at: usize, edit: &dyn Fn(&mut Subscription)| {
        let mut record = bench.record;
        edit(&mut record.device.subscriptions[at]);
        let mut output = vec![0; 4_096];
        let number = Second.open(record).number;
        assert_eq!(Second.take(record, &mut output).number, number);
        number
    };
    for count in 0..=255 {
        let used = number(0, &|entry| entry.context_count = count);
        assert_eq!(used, u8::from(!(5..=64).contains(&count)));
        let free = number(1, &|entry| entry.context_count = count);
        assert_eq!(free, u8::from(count != 0));
    }
    for place in 0..64 {
        let used = number(0, &|entry| entry.context[place] ^= 1);
        assert_eq!(used, u8::from(place >= 5));
        assert_eq!(number(1, &|entry| entry.context[place] = 1), 1);
    }
    assert_eq!(number(0, &|entry| entry.context = [1; 64]), 1);
    let full = |entry: &mut Subscription| (entry.context_count, entry.context) = (64, [1; 64]);
    assert_eq!(number(0, &full), 0);
}

const KEY: [u8; 16] = [7, 1, 2, 3, 4, 5, 6, 7, 8, 9, 10, 11, 12, 13, 14, 15];
const SENTINEL: &str = "DE AF DA DA CA FE BA BE";

/// The parameters of 3.14.
fn setting(key: [u8; 16], text: &str, port: u16) -> Vec<u8> {
    let mut bytes = key.to_vec();
    bytes.extend((text.len() as u16).to_be_bytes());
    bytes.extend(text.bytes());
    bytes.extend(port.to_be_bytes());
    bytes
}

/// The sentinel and the key.
fn asking(key: [u8; 16]) -> Vec<u8> {
    [hex(SENTINEL), key.to_vec()].concat()
}

impl Bench {
    fn set_key(&mut self, n: u8, key: [u8; 16], text: &str, port: u16) -> u8 {
        self.status(n, 1, (3, 14), 2, &setting(key, text, port))
    }

    /// Hands a datagram over; answers whether it reset the device.
    fn datagram(&mut self, datagram: &[u8]) -> bool {
        let (record, area) = (self.record, self.area.clone());
        let answer = Second.datagram(self.record, &mut self.area, datagram);
        assert_eq!(answer.number, 0);
        if answer.reset == 0 {
            assert!(answer.record == record && self.area == area);
        }
        self.keep(answer.record);
        answer.reset == 1
    }
}

#[test]
fn the_key_is_set_as_the_request_says() {
    let mut bench = Bench::open(1);
    let command = hex("3B 00 01 00 00 00 38 01 00 01 \
                       00 00 00 2F 00 00 00 05 00 00 00 01 00 03 00 0E 02 \
                       07 01 02 03 04 05 06 07 08 09 0A 0B 0C 0D 0E 0F \
                       00 0A 32 33 39 2E 30 2E 32 35 35 2E");
    // The text is cut short of its last part: not an address.
    let mut short = command.clone();
    short.extend(hex("FD E9"));
    let reply = hex("3B 00 01 00 00 00 13 03 00 01 00 00 00 0A 00 00 00 05 07 00");
    assert_eq!(bench.send(0, &short), reply);
    let mut whole = command;
    whole.extend(hex("31 FD E9"));
    (whole[6], whole[13], whole[44]) = (0x39, 0x30, 0x0B);
    let reply = hex("3B 00 01 00 00 00 13 03 00 01 00 00 00 0A 00 00 00 05 00 00");
    assert_eq!(bench.send(0, &whole), reply);
    let mechanism = bench.record.device.mechanism;
    assert!(mechanism.armed);
    assert_eq!(mechanism.key, KEY);
    assert_eq!(
        (mechanism.address, mechanism.port),
        ([239, 0, 255, 1], 65_001)
    );
}

#[test]
fn the_key_resets_a_hung_rack() {
    let mut bench = Bench::open(3);
    bench.send(2, &hex(TWO_SECONDS));
    bench.send(0, &hex(LOCK));
    assert_eq!(bench.status(1, 4, (3, 1), 5, &adding(4_098, 9, &[])), 0);
    assert_eq!(bench.status(0, 4_098, (4, 2), 1, &[1]), 0);
    assert_eq!(bench.set_key(1, KEY, "", 65_001), 0);
    bench.tick(1_500);
    bench.deliver(1, &hex(LOCK)[..20]);
    assert_eq!(bench.record.held[1], 20);
    assert!(bench.datagram(&asking(KEY)));
    assert_eq!(bench.record, Second.fresh(1_500));
    assert!(bench.area.iter().all(|byte| *byte == 0));
    // The mechanism is disarmed, and demand 3 counts anew.
    assert!(!bench.datagram(&asking(KEY)));
    assert!(!bench.datagram(&asking([0; 16])));
    let opened = Second.open(bench.record);
    assert_eq!((opened.number, opened.connection), (0, 0));
    bench.keep(opened.record);
    assert_eq!(bench.send(0, &hex(LOCK)), hex(LOCKED));
    assert_eq!(bench.take(), (0, 0, vec![]));
}

#[test]
fn only_the_sentinel_and_the_key_reset() {
    let mut bench = Bench::open(1);
    assert!(!bench.datagram(&asking(KEY)));
    assert!(!bench.datagram(&asking([0; 16])));
    for key in [KEY, [0; 16]] {
        assert_eq!(bench.set_key(0, key, "224.0.0.1", 1), 0);
        let right = asking(key);
        for length in (0..=64).filter(|length| *length != 24) {
            let mut datagram = right.clone();
            datagram.resize(length, 0);
            assert!(!bench.datagram(&datagram));
        }
        for bit in 0..192 {
            let mut datagram = right.clone();
            datagram[bit / 8] ^= 1 << (bit % 8);
            assert!(!bench.datagram(&datagram));
        }
    }
    assert!(bench.datagram(&asking([0; 16])));
}

#[test]
fn the_latest_key_counts_and_a_closure_leaves_it() {
    let mut bench = Bench::open(3);
    let other = [9; 16];
    assert_eq!(bench.set_key(0, other, "230.1.2.3", 5), 0);
    assert_eq!(bench.set_key(1, KEY, "", 6), 0);
    let mechanism = bench.record.device.mechanism;
    assert_eq!((mechanism.address, mechanism.port), ([0; 4], 6));
    // One that fails leaves the key that counts.
    assert_eq!(bench.set_key(2, other, "", 0), 7);
    bench.send(2, &hex(TWO_SECONDS));
    assert_eq!(bench.tick(6_000), 4);
    assert_eq!(bench.deliver(1, &[0]), (CLOSED, 1, 1, vec![]));
    let closed = Second.close(bench.record, &mut bench.area, 0);
    assert_eq!(closed.number, 0);
    bench.keep(closed.record);
    assert_eq!(bench.record.device.mechanism, mechanism);
    assert!(!bench.datagram(&asking(other)));
    assert!(bench.datagram(&asking(KEY)));
}

#[test]
fn a_command_without_reply_sets_the_key_too() {
    let mut bench = Bench::open(1);
    let unasked = wire::message(0, &[command(1, 1, (3, 14), 2, &setting(KEY, "", 1))]);
    assert_eq!(bench.send(0, &unasked), []);
    assert!(bench.datagram(&asking(KEY)));
}

const WRONG_TEXTS: [&str; 27] = [
    "223.255.255.255",
    "240.0.0.1",
    "0.0.0.0",
    "224",
    "224.0.0",
    "224.0.0.",
    "224.0.0.1.",
    "224.0.0.1.2",
    ".224.0.0.1",
    "224..0.1",
    "224.0.0.01",
    "224.00.0.1",
    "0224.0.0.1",
    "224.0.0.256",
    "224.0.0.+1",
    "224.0.0.-1",
    " 224.0.0.1",
    "224.0.0.1 ",
    "224.0. 0.1",
    "224.0.0.a",
    "224.0.0.1\0",
    "...",
    ".",
    "name",
    "224.0.0.4294967297",
    "224.0.0.é",
    "224,0,0,1",
];

#[test]
fn the_text_is_empty_or_a_multicast_address() {
    let mut bench = Bench::open(1);
    for (text, address) in [
        ("", [0, 0, 0, 0]),
        ("224.0.0.0", [224, 0, 0, 0]),
        ("239.255.255.255", [239, 255, 255, 255]),
        ("231.10.100.9", [231, 10, 100, 9]),
    ] {
        assert_eq!(bench.set_key(0, KEY, text, 65_535), 0);
        assert_eq!(bench.record.device.mechanism.address, address);
    }
    for text in WRONG_TEXTS {
        assert_eq!(bench.set_key(0, KEY, text, 1), 7, "{text}");
    }
    assert_eq!(bench.record.device.mechanism.address, [231, 10, 100, 9]);
}

#[test]
fn every_part_of_up_to_four_digits_is_read_right() {
    for length in 1..=4 {
        for number in 0..10_usize.pow(length) {
            let part = format!("{number:0width$}", width = length as usize);
            let plain = number.to_string() == part && number < 256;
            for place in 1..4 {
                let mut parts = ["224", "1", "2", "3"];
                parts[place] = &part;
                let read = address::read(parts.join(".").as_bytes());
                let mut right = [224, 1, 2, 3];
                right[place] = number as u8;
                assert_eq!(read, plain.then_some(right));
            }
            let read = address::read(format!("{part}.1.2.3").as_bytes());
            let multicast = plain && (224..=239).contains(&number);
            assert_eq!(read, multicast.then_some([number as u8, 1, 2, 3]));
        }
    }
}

#[test]
fn statuses_of_setting_the_key_come_in_their_order() {
    let mut bench = Bench::open(1);
    let right = setting(KEY, "224.0.0.1", 1);
    for (target, status) in [(2, 5), (4, 11), (4_097, 11), (4_104, 11)] {
        assert_eq!(bench.status(0, target, (3, 14), 2, &right), status);
    }
    for method in [(3, 13), (3, 15), (2, 14)] {
        assert_eq!(bench.status(0, 1, method, 2, &right), 11);
    }
    // A wrong count or length comes before a wrong text or port.
    for (count, bytes) in [
        (1, &right[..]),
        (3, &right),
        (2, &right[..28]),
        (2, &right[..1]),
        (0, &[]),
    ] {
        assert_eq!(bench.status(0, 1, (3, 14), count, bytes), 4);
    }
    let wrong = setting(KEY, "240.0.0.1", 0);
    assert_eq!(bench.status(0, 1, (3, 14), 1, &wrong), 4);
    let longer = [&wrong[..], &[0]].concat();
    assert_eq!(bench.status(0, 1, (3, 14), 2, &longer), 4);
    for by in [1, 255] {
        let mut stated = right.clone();
        stated[17] = stated[17].wrapping_add(by);
        assert_eq!(bench.status(0, 1, (3, 14), 2, &stated), 4);
    }
    assert_eq!(bench.status(0, 1, (3, 14), 2, &wrong), 7);
    assert_eq!(bench.set_key(0, KEY, "224.0.0.1", 0), 7);
    assert_eq!(bench.record.device.mechanism, Mechanism::default());
    assert_eq!(bench.status(0, 1, (3, 14), 2, &right), 0);
}

const DISARMED: Mechanism = Mechanism {
    armed: false,
    key: [0; 16],
    address: [0; 4],
    port: 0,
};
const ARMED: Mechanism = Mechanism {
    armed: true,
    key: KEY,
    address: [0; 4],
    port: 1,
};

#[test]
fn a_mechanism_keeps_its_rules() {
    let at = |address| Mechanism { address, ..ARMED };
    let zero = [0; 16];
    numbered(DISARMED, 0);
    numbered(ARMED, 0);
    numbered(at([224, 0, 0, 0]), 0);
    numbered(at([239, 255, 255, 255]), 0);
    numbered(Mechanism { key: zero, ..ARMED }, 0);
    numbered(
        Mechanism {
            port: 65_535,
            ..ARMED
        },
        0,
    );
    numbered(Mechanism { port: 0, ..ARMED }, 1);
    numbered(
        Mechanism {
            port: 0,
            ..at([224, 0, 0, 0])
        },
        1,
    );
    numbered(at([223, 255, 255, 255]), 1);
    numbered(at([240, 0, 0, 0]), 1);
    numbered(at([0, 0, 0, 1]), 1);
    numbered(
        Mechanism {
            key: KEY,
            ..DISARMED
        },
        1,
    );
    numbered(
        Mechanism {
            address: [0, 0, 0, 1],
            ..DISARMED
        },
        1,
    );
    numbered(
        Mechanism {
            address: [224, 0, 0, 0],
            ..DISARMED
        },
        1,
    );
    numbered(
        Mechanism {
            port: 1,
            ..DISARMED
        },
        1,
    );
}

/// Every call that is given a record with this mechanism answers with the number.
fn numbered(mechanism: Mechanism, number: u8) {
    let Bench {
        mut record,
        mut area,
        mut output,
    } = Bench::open(1);
    record.device.mechanism = mechanism;
    let piece = hex(TWO_SECONDS);
    let numbers = [
        Second.open(record).number,
        Second.take(record, &mut output).number,
        Second.tick(record, &mut area, 1).number,
        Second.datagram(record, &mut area, &[]).number,
        Second
            .deliver(record, &mut area, 0, &piece, &mut output)
            .number,
        Second.close(record, &mut area, 0).number,
    ];
    assert_eq!(numbers, [number; 6], "{mechanism:?}");
}

#[test]
fn the_datagram_call_refuses_by_record_and_area_alone() {
    let mut bench = Bench::open(1);
    assert_eq!(bench.set_key(0, KEY, "", 1), 0);
    let mut bad = bench.record;
    bad.device.mutes[0] = 0;
    let mut dirty = bench.area.clone();
    dirty[AREA - 1] = 1;
    for (record, mut area, number) in [
        (bad, dirty.clone(), 1),
        (bad, vec![], 1),
        (bench.record, dirty, 2),
        (bench.record, vec![0; AREA - 1], 2),
        (bench.record, vec![0; AREA + 1], 2),
    ] {
        let before = area.clone();
        let answer = Second.datagram(record, &mut area, &asking(KEY));
        assert_eq!((answer.number, answer.reset), (number, 0));
        assert!(answer.record == record && area == before);
    }
}
