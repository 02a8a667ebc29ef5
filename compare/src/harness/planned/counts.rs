//! Every count beside no byte, one and two: an entry has parameter bytes exactly
//! where its count is above the least (document 02 (v)).

use super::entries::{Tried, go_through, two_locks};
use crate::harness::counts::Tries;
use crate::harness::desk::Desk;
use crate::harness::random::Random;
use crate::harness::session::Checked;
use crate::harness::traffic::{blob, command, notification, response};
use std::cmp::Ordering;

const COUNTS: [u8; 9] = [0, 1, 2, 3, 16, 127, 128, 254, 255];
const LENGTHS: [usize; 3] = [0, 1, 2];

/// An entry by its type, its count and how many parameter bytes it has.
#[derive(Clone, Copy, Debug)]
struct Counted {
    kind: u8,
    count: u8,
    length: usize,
}

impl Counted {
    /// The rule as document 02 (v) leaves it, of neither program.
    fn is_sound(self) -> bool {
        let least = u8::from(self.kind == 2);
        match self.count.cmp(&least) {
            Ordering::Less => false,
            Ordering::Equal => self.length == 0,
            Ordering::Greater => self.length > 0,
        }
    }

    /// Whether nothing is wrong but that the bytes are missing.
    fn is_bare(self) -> bool {
        self.length == 0 && self.count > u8::from(self.kind == 2)
    }

    /// A set of mute 3 to muted, which wants count 1 and one byte; or an entry that asks for nothing.
    fn entry(self, random: &mut Random) -> Vec<u8> {
        let rest = vec![1; self.length];
        match self.kind {
            2 => {
                let context = blob(&random.bytes(4));
                notification(random, self.count, &context, &rest)
            }
            3 => response(random, self.count, &rest),
            _ => command(random.word(), 4_100, (4, 2), self.count, &rest),
        }
    }
}

/// Each type with each count and so many bytes.
pub fn counts(desk: &mut Desk<'_, '_>) -> Checked<()> {
    two_locks(desk)?;
    for kind in 0..4 {
        for (count, length) in COUNTS.into_iter().flat_map(|c| LENGTHS.map(|l| (c, l))) {
            let counted = Counted {
                kind,
                count,
                length,
            };
            let tried = Tried {
                kind,
                bytes: counted.entry(&mut desk.random),
                sound: counted.is_sound(),
                tries: Tries::Counts,
                spoiled: counted.is_bare(),
            };
            go_through(desk, &tried)?;
        }
    }
    Ok(())
}
