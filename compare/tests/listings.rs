//! The comparison of listings can fail: each listing below makes one slip, and
//! the thousand inputs have to find it.

use compare::harness::listings::{self, Feed, Input};
use compare::second::wire::{self, Judgement};

mod older;

const ROOM: usize = 16_000;

#[derive(Clone, Copy, Debug, PartialEq, Eq)]
enum Slip {
    None,
    OffsetFromOne,
    HeldBeforeRead,
    StopsBehindTheFirst,
    LosesWhatIsHeld,
    ForgetsTheOffsetHeld,
    SizeWithSync,
    SizeIn8Bits,
    OffsetIn16Bits,
    TypeAndCountChanged,
    GoesOnBehindAFault,
    NoLastLine,
    EndForPart,
    PartForEnd,
    PartCountsTheRead,
    StopsAtAShortRead,
    TakesACountWithoutBytes,
    TakesAResponseWithoutBytes,
    TakesALongContext,
    TakesAContextPastItsEntry,
    ListsTheFaultyMessage,
}

use Slip::*;

const ALL: [Slip; 20] = [
    OffsetFromOne,
    HeldBeforeRead,
    StopsBehindTheFirst,
    LosesWhatIsHeld,
    ForgetsTheOffsetHeld,
    SizeWithSync,
    SizeIn8Bits,
    OffsetIn16Bits,
    TypeAndCountChanged,
    GoesOnBehindAFault,
    NoLastLine,
    EndForPart,
    PartForEnd,
    PartCountsTheRead,
    StopsAtAShortRead,
    TakesACountWithoutBytes,
    TakesAResponseWithoutBytes,
    TakesALongContext,
    TakesAContextPastItsEntry,
    ListsTheFaultyMessage,
];

/// What the bytes held come to, for a program that may take more.
fn judged(held: &[u8], slip: Slip) -> Judgement {
    let judges: older::Judges = match slip {
        TakesACountWithoutBytes => |shape| older::without_bytes(shape).then_some(true),
        TakesAResponseWithoutBytes => {
            |shape| (shape.kind == 3 && older::without_bytes(shape)).then_some(true)
        }
        TakesALongContext => |shape| older::long_context(shape).then_some(true),
        TakesAContextPastItsEntry => |shape| (shape.context > shape.behind).then_some(true),
        _ => |_| Option::None,
    };
    wire::judge(&older::message(judges, held))
}

/// The reads that the input comes in, an empty one behind them.
fn reads(input: &Input) -> Vec<Vec<u8>> {
    let mut left = input.bytes.as_slice();
    let mut reads = Vec::new();
    let lengths = match &input.feed {
        Feed::File => vec![ROOM / 2; input.bytes.len() / (ROOM / 2) + 1],
        Feed::Pieces(pieces) => pieces.clone(),
    };
    for length in lengths {
        let (piece, rest) = left.split_at(length.min(left.len()));
        reads.push(piece.to_vec());
        left = rest;
    }
    reads.retain(|read| !read.is_empty());
    reads.push(Vec::new());
    reads
}

/// A listing read by read, with a slip.
fn slipped(input: &Input, slip: Slip) -> String {
    let mut text = String::new();
    let mut offset = usize::from(slip == OffsetFromOne);
    let mut held = vec![0; if slip == HeldBeforeRead { 10 } else { 0 }];
    for read in reads(input) {
        let end = read.is_empty();
        held.extend(&read);
        loop {
            let shown = if slip == OffsetIn16Bits {
                offset % 65_536
            } else {
                offset
            };
            match judged(&held, slip) {
                Judgement::Sound { length } => {
                    let header = wire::header(&held);
                    let (kind, count) = (u32::from(header.kind), u32::from(header.count));
                    let (kind, count) = if slip == TypeAndCountChanged {
                        (count, kind)
                    } else {
                        (kind, count)
                    };
                    let size = match slip {
                        SizeWithSync => header.size + 1,
                        SizeIn8Bits => header.size % 256,
                        _ => header.size,
                    };
                    text += &format!("{shown} {kind} {count} {size}\n");
                    held.drain(..length);
                    offset += length;
                }
                Judgement::Fault { fault, .. } => {
                    if slip == GoesOnBehindAFault && held.len() > 1 {
                        held.remove(0);
                        offset += 1;
                        continue;
                    }
                    if slip == ListsTheFaultyMessage && fault == 6 {
                        let header = wire::header(&held);
                        text +=
                            &format!("{shown} {} {} {}\n", header.kind, header.count, header.size);
                    }
                    if slip != NoLastLine {
                        text += &format!("{shown} stop {fault}\n");
                    }
                    return text;
                }
                Judgement::Undecided => {
                    if end || (slip == StopsAtAShortRead && read.len() == 3) {
                        let left = if slip == PartCountsTheRead {
                            input.bytes.len()
                        } else {
                            held.len()
                        };
                        let whole = held.is_empty();
                        match slip {
                            NoLastLine => (),
                            EndForPart => text += &format!("{shown} end\n"),
                            PartForEnd => text += &format!("{shown} part {left}\n"),
                            _ if whole => text += &format!("{shown} end\n"),
                            _ => text += &format!("{shown} part {left}\n"),
                        }
                        return text;
                    }
                    break;
                }
            }
        }
        if slip == StopsBehindTheFirst && offset >= 1 {
            return text;
        }
        if slip == LosesWhatIsHeld {
            held.clear();
        }
        if slip == ForgetsTheOffsetHeld && !end {
            offset += held.len();
        }
    }
    text
}

#[test]
fn a_listing_without_a_slip_shows_no_difference() {
    let counts = listings::all(&|input: &Input| Ok(slipped(input, None).into_bytes()), 2)
        .expect("no difference");
    assert_eq!(counts.inputs, 1_000);
    assert_eq!(counts.failures(), Vec::<String>::new());
}

#[test]
fn each_slip_is_found() {
    for slip in ALL {
        let found = listings::all(&|input: &Input| Ok(slipped(input, slip).into_bytes()), 2);
        assert!(found.is_err(), "{slip:?} is not found");
    }
}
