//! What bytes are to a program that judges entries by another rule than the right one:
//! the same bytes, with counts of which the right rule says the same.

use std::ops::Range;

/// The longest context.
const CONTEXT: usize = 64;

/// What an entry is judged by, apart from its size.
#[derive(Clone, Copy, Debug)]
pub struct Shape {
    pub kind: u8,
    /// The parameter count.
    pub count: u8,
    /// The context's count; 0 where there is no context.
    pub context: usize,
    /// How many bytes it has behind the least entry, for context and parameters.
    pub behind: usize,
}

impl Shape {
    /// The parameter count that means no parameters.
    fn least(self) -> u8 {
        u8::from(self.kind == 2)
    }

    /// Whether the parameter count fits what is left behind a context of so many bytes.
    pub fn fits(self, context: usize) -> bool {
        let bare = self.behind == context;
        context <= self.behind && self.count >= self.least() && (self.count == self.least()) == bare
    }
}

/// Whether an entry is taken that is not well formed, or refused that is; none where the right rule holds.
pub type Judges = fn(Shape) -> Option<bool>;

/// A count above the least, and no bytes: well formed before document 02 (v).
pub fn without_bytes(shape: Shape) -> bool {
    let right = shape.context <= CONTEXT && shape.behind == shape.context;
    right && shape.count > shape.least()
}

/// A context above 64, and nothing else wrong.
pub fn long_context(shape: Shape) -> bool {
    shape.context > CONTEXT && shape.fits(shape.context)
}

/// Where the count stands in an entry of the type, and how long the least entry is.
pub fn layout(kind: u8) -> Option<(usize, usize)> {
    match kind {
        0 | 1 => Some((16, 17)),
        2 => Some((12, 23)),
        3 => Some((9, 10)),
        _ => None,
    }
}

/// What the entry is judged by, if it has as many bytes as the least.
fn shape(kind: u8, bytes: &[u8]) -> Option<Shape> {
    let (place, least) = layout(kind)?;
    let behind = bytes.len().checked_sub(least)?;
    let context = match kind {
        2 => usize::from(u16::from_be_bytes([bytes[13], bytes[14]])),
        _ => 0,
    };
    Some(Shape {
        kind,
        count: bytes[place],
        context,
        behind,
    })
}

/// The entry as such a program sees it.
pub fn entry(judges: Judges, kind: u8, bytes: &[u8]) -> Vec<u8> {
    let mut seen = bytes.to_vec();
    let (Some(shape), Some((place, _))) = (shape(kind, bytes), layout(kind)) else {
        return seen;
    };
    match judges(shape) {
        Some(true) => {
            let mut context = shape.context;
            if context > CONTEXT.min(shape.behind) {
                seen[13..15].fill(0);
                context = 0;
            }
            seen[place] = shape.least() + u8::from(shape.behind > context);
        }
        // No notification has a count of 0, and no other entry is refused.
        Some(false) => seen[place] = 0,
        None => {}
    }
    seen
}

/// The message at the front as such a program sees it, with what is behind it.
pub fn message(judges: Judges, bytes: &[u8]) -> Vec<u8> {
    let mut seen = bytes.to_vec();
    for place in entries(bytes) {
        let other = entry(judges, bytes[7], &bytes[place.clone()]);
        seen[place].copy_from_slice(&other);
    }
    seen
}

/// Where the entries of the message at the front stand, if it is whole.
pub fn entries(bytes: &[u8]) -> Vec<Range<usize>> {
    let mut places = Vec::new();
    let Some(end) = number(bytes, 3).map(|size| size + 1) else {
        return places;
    };
    let mut start = 10;
    while end <= bytes.len()
        && let Some(size) = number(&bytes[..end], start)
        && size > 0
        && start + size <= end
    {
        places.push(start..start + size);
        start += size;
    }
    places
}

fn number(bytes: &[u8], at: usize) -> Option<usize> {
    let four = bytes.get(at..at + 4)?;
    let joined = |sum, byte: &u8| sum << 8 | usize::from(*byte);
    Some(four.iter().fold(0, joined))
}
