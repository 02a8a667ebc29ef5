//! The listing: a thousand inputs, sound, damaged and cut, and two listings of
//! each held together byte for byte.

use super::random::Random;
use super::traffic;
use crate::second::listing::list;
use std::fmt;
use std::io;
use std::ops::AddAssign;

/// So many inputs the gate lists.
pub const INPUTS: u64 = 1_000;
/// Whatever can come has to come at least so often.
pub const FLOOR: usize = 20;
/// One read of the program never has less room than this: a longer piece would lose its end.
const LARGEST_PIECE: usize = 13_000;

/// How an input was made.
#[derive(Clone, Copy, Debug, PartialEq, Eq)]
pub enum Kind {
    Empty,
    Sound,
    Longest,
    Long,
    Damaged,
    Changed,
    Truncated,
    Garbage,
    /// Sound messages, one with a count without bytes, and more.
    Miscounted,
    /// Sound messages, one with a context above 64 or past its entry, and more.
    Overlong,
}

pub const KINDS: [Kind; 10] = [
    Kind::Empty,
    Kind::Sound,
    Kind::Longest,
    Kind::Long,
    Kind::Damaged,
    Kind::Changed,
    Kind::Truncated,
    Kind::Garbage,
    Kind::Miscounted,
    Kind::Overlong,
];

/// How it is handed to the program.
#[derive(Clone, Debug, PartialEq, Eq)]
pub enum Feed {
    /// A file: each read takes all that there is room for.
    File,
    /// Each read takes one piece; the lengths of the pieces, each at least 1.
    Pieces(Vec<usize>),
}

#[derive(Clone, Debug)]
pub struct Input {
    pub number: u64,
    pub kind: Kind,
    pub bytes: Vec<u8>,
    /// Where the listing has to stop by fault 6, if the way it was made says so.
    pub stop: Option<usize>,
    pub feed: Feed,
}

/// A listing to be compared with the second program's.
pub type Listing<'a> = dyn Fn(&Input) -> io::Result<Vec<u8>> + Sync + 'a;

/// The input of a number: the same each time.
pub fn input(number: u64) -> Input {
    let mut random = Random::new(number);
    let kind = match number % 25 {
        0 => Kind::Empty,
        1 => Kind::Garbage,
        2 | 3 => Kind::Long,
        4 | 5 => Kind::Longest,
        6..=9 => Kind::Changed,
        10..=13 => Kind::Truncated,
        14..=19 => Kind::Damaged,
        20 | 21 => Kind::Miscounted,
        22 => Kind::Overlong,
        _ => Kind::Sound,
    };
    let (bytes, stop) = bytes_of(&mut random, kind);
    let feed = feed_of(&mut random, &bytes);
    Input {
        number,
        kind,
        bytes,
        stop,
        feed,
    }
}

fn messages(random: &mut Random, most: usize) -> Vec<u8> {
    let count = 1 + random.below(most);
    (0..count)
        .flat_map(|_| traffic::any_message(random))
        .collect()
}

/// The bytes, and where the listing has to stop by fault 6 if that is known.
fn bytes_of(random: &mut Random, kind: Kind) -> (Vec<u8>, Option<usize>) {
    let bytes = match kind {
        Kind::Empty => Vec::new(),
        Kind::Sound => messages(random, 12),
        Kind::Longest => longest(random),
        Kind::Long => long(random),
        Kind::Damaged => damaged(random),
        Kind::Changed => {
            let mut bytes = messages(random, 6);
            let at = random.below(bytes.len());
            bytes[at] = random.byte();
            bytes
        }
        Kind::Truncated => {
            let mut bytes = messages(random, 6);
            bytes.truncate(random.below(bytes.len()));
            bytes
        }
        Kind::Garbage => {
            let length = 1 + random.below(60);
            let mut bytes = random.bytes(length);
            if random.chance(50) {
                bytes[0] = 0x3B;
            }
            bytes
        }
        Kind::Miscounted => return spoiled_by(random, traffic::count_without_bytes),
        Kind::Overlong => return spoiled_by(random, traffic::overlong_context),
    };
    (bytes, None)
}

fn longest(random: &mut Random) -> Vec<u8> {
    let mut bytes = messages(random, 2);
    for _ in 0..1 + random.below(4) {
        let (kind, size) = (random.pick(&[0, 1, 2, 3]), random.pick(&[2_047, 2_048]));
        bytes.extend(traffic::of_size(random, kind, size));
    }
    bytes
}

fn long(random: &mut Random) -> Vec<u8> {
    let mut bytes = Vec::new();
    let length = 16_000 + random.below(70_000);
    while bytes.len() < length {
        bytes.extend(traffic::any_message(random));
    }
    match random.below(3) {
        0 => bytes.truncate(length),
        1 => bytes.extend(traffic::any_damaged(random)),
        _ => (),
    }
    bytes
}

fn damaged(random: &mut Random) -> Vec<u8> {
    let mut bytes = messages(random, 4);
    let damaged = if random.chance(40) {
        wrong_header(random)
    } else {
        traffic::any_damaged(random)
    };
    bytes.extend(damaged);
    bytes.extend(messages(random, 3));
    bytes
}

/// Sound messages, one that has fault 6, and more bytes; and where that one begins.
fn spoiled_by(random: &mut Random, faulty: fn(&mut Random) -> Vec<u8>) -> (Vec<u8>, Option<usize>) {
    let mut bytes = messages(random, 4);
    let stop = bytes.len();
    bytes.extend(faulty(random));
    match random.below(3) {
        0 => bytes.extend(random.bytes(30)),
        _ => bytes.extend(messages(random, 3)),
    }
    (bytes, Some(stop))
}

/// A message whose type or count is none: the faults that damage at random seldom makes.
fn wrong_header(random: &mut Random) -> Vec<u8> {
    let mut bytes = traffic::any_message(random);
    if random.chance(50) {
        bytes[7] = random.pick(&[5, 6, 59, 128, 255]);
    } else if bytes[7] == 4 {
        bytes[9] = random.pick(&[0, 2, 255]);
    } else {
        bytes[8..10].fill(0);
    }
    bytes
}

fn feed_of(random: &mut Random, bytes: &[u8]) -> Feed {
    let most = match random.below(6) {
        0 => return Feed::File,
        1 if bytes.len() <= 400 => 1,
        2 if bytes.len() <= 4_000 => 12,
        3 if bytes.len() <= 12_000 => 40,
        4 => 700,
        _ => LARGEST_PIECE,
    };
    let mut pieces = Vec::new();
    let mut left = bytes.len();
    while left > 0 {
        let piece = (1 + random.below(most)).min(left);
        pieces.push(piece);
        left -= piece;
    }
    Feed::Pieces(pieces)
}

/// Where the two listings of an input differ.
#[derive(Clone, Debug, PartialEq, Eq)]
pub struct Difference {
    pub number: u64,
    pub what: String,
}

impl fmt::Display for Difference {
    fn fmt(&self, f: &mut fmt::Formatter<'_>) -> fmt::Result {
        write!(f, "input {}: {}", self.number, self.what)
    }
}

/// What came, by name.
#[derive(Clone, Debug, Default)]
pub struct Counts {
    named: Vec<(String, usize)>,
    pub inputs: usize,
    pub bytes: usize,
    pub lines: usize,
    pub reads: usize,
}

impl Counts {
    fn new() -> Counts {
        let mut counts = Counts::default();
        for kind in KINDS {
            counts.add(&kind_name(kind), 0);
        }
        for end in ["end", "part"] {
            counts.add(end, 0);
        }
        for fault in 1..=6 {
            counts.add(&format!("stop {fault}"), 0);
        }
        for kind in 0..=4 {
            counts.add(&format!("type {kind}"), 0);
        }
        for name in [
            "from a file",
            "in pieces",
            "a byte at a time",
            "ended inside a message",
        ] {
            counts.add(name, 0);
        }
        counts
    }

    fn add(&mut self, name: &str, count: usize) {
        match self.named.iter_mut().find(|(known, _)| known == name) {
            Some((_, sum)) => *sum += count,
            None => self.named.push((name.to_string(), count)),
        }
    }

    fn take(&mut self, input: &Input, text: &str) {
        self.inputs += 1;
        self.bytes += input.bytes.len();
        self.add(&kind_name(input.kind), 1);
        match &input.feed {
            Feed::File => self.add("from a file", 1),
            Feed::Pieces(pieces) => {
                self.add("in pieces", 1);
                self.reads += pieces.len();
                let single = pieces.len() > 1 && pieces.iter().all(|piece| *piece == 1);
                self.add("a byte at a time", usize::from(single));
                self.add("ended inside a message", inside(pieces, text));
            }
        }
        for line in text.lines() {
            self.lines += 1;
            let words: Vec<&str> = line.split(' ').collect();
            match words.as_slice() {
                [_, "end"] => self.add("end", 1),
                [_, "part", _] => self.add("part", 1),
                [_, "stop", fault] => self.add(&format!("stop {fault}"), 1),
                [_, kind, _, _] => self.add(&format!("type {kind}"), 1),
                _ => self.add(line, 1),
            }
        }
    }

    /// A line for each name.
    pub fn table(&self) -> String {
        let mut text = String::new();
        for (name, count) in &self.named {
            text += &format!("{name:<24}{count}\n");
        }
        text + &format!(
            "{} inputs, {} bytes, {} reads in pieces, {} lines\n",
            self.inputs, self.bytes, self.reads, self.lines
        )
    }

    /// What came too seldom.
    pub fn failures(&self) -> Vec<String> {
        let seldom = self.named.iter().filter(|(_, count)| *count < FLOOR);
        seldom
            .map(|(name, count)| format!("{name} came {count} times"))
            .collect()
    }
}

impl AddAssign<&Counts> for Counts {
    fn add_assign(&mut self, other: &Counts) {
        for (name, count) in &other.named {
            self.add(name, *count);
        }
        self.inputs += other.inputs;
        self.bytes += other.bytes;
        self.lines += other.lines;
        self.reads += other.reads;
    }
}

fn kind_name(kind: Kind) -> String {
    format!("{kind:?}").to_lowercase()
}

/// How many pieces end inside a message that is listed.
fn inside(pieces: &[usize], text: &str) -> usize {
    let starts: Vec<usize> = text
        .lines()
        .filter_map(|line| line.split(' ').next()?.parse().ok())
        .collect();
    let listed = starts.last().copied().unwrap_or(0);
    let mut end = 0;
    let mut count = 0;
    for piece in pieces {
        end += piece;
        count += usize::from(end < listed && !starts.contains(&end));
    }
    count
}

/// Holds a listing of one input to the second program's.
pub fn compare(input: &Input, listing: &Listing) -> Result<String, Difference> {
    let differs = |what: String| Difference {
        number: input.number,
        what: format!(
            "{} of {} bytes, {}: {what}",
            kind_name(input.kind),
            input.bytes.len(),
            match &input.feed {
                Feed::File => "from a file".to_string(),
                Feed::Pieces(pieces) => format!("in {} pieces", pieces.len()),
            }
        ),
    };
    let right = list(&input.bytes);
    if let Some(stop) = input.stop
        && !right.ends_with(&format!("\n{stop} stop 6\n"))
    {
        return Err(differs(format!(
            "the second program does not stop by fault 6 at {stop}"
        )));
    }
    let left = listing(input).map_err(|error| differs(error.to_string()))?;
    if left == right.as_bytes() {
        return Ok(right);
    }
    let left = String::from_utf8_lossy(&left).into_owned();
    let mut lines = left.lines();
    let place = right.lines().take_while(|line| lines.next() == Some(line));
    let number = place.count();
    Err(differs(format!(
        "line {}: {:?}, and the second program's {:?}",
        number + 1,
        left.lines().nth(number),
        right.lines().nth(number)
    )))
}

/// Every input whose number leaves this rest.
fn share(listing: &Listing, rest: u64, threads: u64) -> Result<Counts, Difference> {
    let mut counts = Counts::new();
    for number in (0..INPUTS).filter(|number| number % threads == rest) {
        let input = input(number);
        let text = compare(&input, listing)?;
        counts.take(&input, &text);
    }
    Ok(counts)
}

/// All inputs, on so many threads; the first difference of each ends it.
pub fn all(listing: &Listing, threads: u64) -> Result<Counts, Difference> {
    let mut counts = Counts::new();
    let shares: Vec<Result<Counts, Difference>> = std::thread::scope(|scope| {
        let started: Vec<_> = (0..threads)
            .map(|rest| scope.spawn(move || share(listing, rest, threads)))
            .collect();
        started
            .into_iter()
            .map(|thread| thread.join().expect("a thread ended early"))
            .collect()
    });
    for share in shares {
        counts += &share?;
    }
    Ok(counts)
}
