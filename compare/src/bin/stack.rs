//! Measures how much stack each call of the library takes.
//!
//! Every call of the gate's runs is made over a stack painted beforehand; the
//! lowest word that is not the paint's any more tells how deep the call went.

use compare::answer::{
    Cleared, Closed, Delivered, Entry, Opened, Part, Reading, Reset, Taken, Ticked, Written,
};
use compare::engine::Engine;
use compare::harness::call::NAMES;
use compare::harness::gate;
use compare::record::Record;
use compare::second::Second;
use melorwyth::call;
use std::arch::asm;
use std::cell::Cell;
use std::hint::black_box;
use std::mem::MaybeUninit;
use std::process::ExitCode;
use std::slice;

/// So many words are painted for each call: far less than the whole stack.
const WORDS: usize = 8_192;
const PAINT: u64 = 0xA5C3_5A3C_96F0_0F69;
/// The painter's and the finder's own frames: what lies so close is not looked at.
const CLOSE: usize = 256;

/// The library, each call measured.
#[derive(Debug, Default)]
struct Painted {
    deepest: [Cell<usize>; NAMES.len()],
}

impl Painted {
    /// Makes a call of that name.
    #[inline(never)]
    fn measured<T>(&self, name: &str, call: impl FnOnce() -> T) -> T {
        let top = stack_pointer();
        paint(top);
        let answer = below(call);
        let depth = depth(top);
        if let Some(place) = NAMES.iter().position(|other| *other == name) {
            let deepest = &self.deepest[place];
            deepest.set(deepest.get().max(depth));
        }
        answer
    }
}

/// What the call is given by value lies in a frame of its own, below all that is not looked at.
#[inline(never)]
fn below<T>(call: impl FnOnce() -> T) -> T {
    let mut room = MaybeUninit::<[u8; CLOSE]>::uninit();
    black_box(&mut room);
    let answer = call();
    // Still in use, so that nothing of the call lies in it.
    black_box(&mut room);
    answer
}

#[inline(always)]
fn stack_pointer() -> usize {
    let pointer: usize;
    // SAFETY: reads a register and nothing else.
    unsafe { asm!("mov {}, rsp", out(reg) pointer, options(nomem, nostack, preserves_flags)) };
    pointer
}

/// Where the lowest painted word lies.
fn lowest(top: usize) -> *mut u64 {
    (((top - CLOSE) & !7) - 8 * WORDS) as *mut u64
}

#[inline(never)]
fn paint(top: usize) {
    // SAFETY: the words lie in the stack, below every frame in use.
    unsafe { slice::from_raw_parts_mut(black_box(lowest(top)), WORDS) }.fill(PAINT);
}

/// How far below what is not looked at the lowest changed word begins; 0 if none is changed.
#[inline(never)]
fn depth(top: usize) -> usize {
    // SAFETY: the words were painted, and lie below every frame in use.
    let words = unsafe { slice::from_raw_parts(black_box(lowest(top)), WORDS) };
    // Block by block without an early end, which is many words at once.
    let clean = |block: &&[u64]| block.iter().fold(0, |all, word| all | (word ^ PAINT)) == 0;
    let blocks = words.chunks(64).take_while(clean).count();
    match words[64 * blocks..].iter().position(|word| *word != PAINT) {
        Some(place) => top - CLOSE - (lowest(top) as usize + 8 * (64 * blocks + place)),
        None => 0,
    }
}

/// What is painted over is the library's call alone: the records are turned into its own before.
impl Engine for Painted {
    fn fresh(&self, reading: u32) -> Record {
        self.measured("fresh", || call::fresh(reading)).into()
    }

    fn clear(&self, area: &mut [u8]) -> Cleared {
        self.measured("clear", || call::clear(area)).into()
    }

    fn open(&self, record: Record) -> Opened {
        let record = record.into();
        self.measured("open", || call::open(record)).into()
    }

    fn close(&self, record: Record, area: &mut [u8], n: u8) -> Closed {
        let record = record.into();
        self.measured("close", || call::close(record, area, n))
            .into()
    }

    fn tick(&self, record: Record, area: &mut [u8], reading: u32) -> Ticked {
        let record = record.into();
        self.measured("tick", || call::tick(record, area, reading))
            .into()
    }

    fn deliver(
        &self,
        record: Record,
        area: &mut [u8],
        n: u8,
        piece: &[u8],
        output: &mut [u8],
    ) -> Delivered {
        let record = record.into();
        self.measured("deliver", || call::deliver(record, area, n, piece, output))
            .into()
    }

    fn take(&self, record: Record, output: &mut [u8]) -> Taken {
        let record = record.into();
        self.measured("take", || call::take(record, output)).into()
    }

    fn datagram(&self, record: Record, area: &mut [u8], datagram: &[u8]) -> Reset {
        let record = record.into();
        self.measured("datagram", || call::datagram(record, area, datagram))
            .into()
    }

    fn read_message(&self, bytes: &[u8]) -> Reading {
        self.measured("read_message", || call::read_message(bytes))
            .into()
    }

    fn read_entry(&self, bytes: &[u8], index: usize) -> Entry {
        self.measured("read_entry", || call::read_entry(bytes, index))
            .into()
    }

    fn entry_part(&self, bytes: &[u8], index: usize) -> Part {
        self.measured("entry_part", || call::entry_part(bytes, index))
            .into()
    }

    fn entry_context(&self, bytes: &[u8], index: usize) -> Part {
        self.measured("entry_context", || call::entry_context(bytes, index))
            .into()
    }

    fn start(&self, buffer: &mut [u8], kind: u8, entry: &[u8]) -> Written {
        self.measured("start", || call::start(buffer, kind, entry))
            .into()
    }

    fn append(&self, buffer: &mut [u8], kind: u8, entry: &[u8]) -> Written {
        self.measured("append", || call::append(buffer, kind, entry))
            .into()
    }

    fn keep_alive(&self, buffer: &mut [u8], form: u8, value: u32) -> Written {
        self.measured("keep_alive", || call::keep_alive(buffer, form, value))
            .into()
    }
}

/// Whether a call that takes 10,000 bytes and little more is seen to do so.
fn is_measured_right() -> bool {
    let tried = Painted::default();
    tried.measured("fresh", || {
        black_box(&mut [1_u8; 10_000]).iter().sum::<u8>()
    });
    (10_000..11_000).contains(&tried.deepest[0].get())
}

fn main() -> ExitCode {
    if !is_measured_right() {
        println!("FAILED: a stack of known depth is not measured as such");
        return ExitCode::FAILURE;
    }
    let library = Painted::default();
    let calls = match gate::gate(&library, &Second) {
        Ok(counts) => counts.total(),
        Err(difference) => {
            println!("{difference}");
            return ExitCode::FAILURE;
        }
    };
    println!("bytes of stack, the deepest of each call's, over {calls} calls");
    for (name, deepest) in NAMES.iter().zip(&library.deepest) {
        println!("{:>8}  {name}", deepest.get());
    }
    let most = 8 * WORDS;
    if library.deepest.iter().any(|depth| depth.get() >= most) {
        println!("FAILED: a call went past the {most} bytes painted");
        return ExitCode::FAILURE;
    }
    ExitCode::SUCCESS
}
