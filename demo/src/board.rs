//! What the desk puts up for whoever looks: its newest rack, its last lines, its last restart.
//!
//! The desk only ever writes here, and holds the lock no longer than that takes; whoever looks copies and goes.

use crate::events::{Ended, Event};
use crate::rack::Rack;
use std::collections::VecDeque;
use std::net::SocketAddr;
use std::sync::{Condvar, Mutex, MutexGuard, PoisonError};
use std::time::Duration;

/// How many lines are kept.
pub const LINES: usize = 200;

#[derive(Debug)]
pub struct Board {
    /// Where it can be looked at.
    pub page: SocketAddr,
    now: Mutex<Now>,
    changed: Condvar,
}

#[derive(Debug, Default)]
struct Now {
    /// How often something was put up.
    version: u64,
    rack: Option<Rack>,
    /// The newest comes last.
    lines: VecDeque<Line>,
    restart: Option<Restarted>,
    /// Who is to be told what his datagram came to, and that.
    awaited: Option<SocketAddr>,
    heard: Option<Heard>,
    watchers: usize,
    ended: bool,
}

/// A line of the desk; they are counted from 1.
#[derive(Clone, Debug, PartialEq, Eq)]
pub struct Line {
    pub n: u64,
    pub at: u32,
    pub text: String,
}

/// A reset by key, and what it ended.
#[derive(Clone, Debug, PartialEq, Eq)]
pub struct Restarted {
    pub at: u32,
    pub ended: Ended,
}

/// What a datagram came to.
#[derive(Clone, Debug, PartialEq, Eq)]
pub struct Heard {
    pub reset: bool,
    pub line: String,
}

/// What there is to be seen, with the lines that were not seen before.
#[derive(Clone, Debug)]
pub struct View {
    pub rack: Rack,
    pub lines: Vec<Line>,
    pub restart: Option<Restarted>,
    pub ended: bool,
}

impl Board {
    pub fn at(page: SocketAddr) -> Board {
        Board {
            page,
            now: Mutex::default(),
            changed: Condvar::new(),
        }
    }

    /// Whatever became of another thread, what it left is whole: no line here can panic.
    fn now(&self) -> MutexGuard<'_, Now> {
        self.now.lock().unwrap_or_else(PoisonError::into_inner)
    }

    fn put(&self, change: impl FnOnce(&mut Now)) {
        let mut now = self.now();
        change(&mut now);
        now.version += 1;
        drop(now);
        self.changed.notify_all();
    }

    pub fn show(&self, rack: Rack) {
        self.put(|now| now.show(rack));
    }

    /// The line, with the rack that stands behind it.
    pub fn say(&self, rack: Rack, text: String) {
        self.put(|now| {
            now.say(rack.reading, text);
            now.show(rack);
        });
    }

    pub fn datagram(&self, from: SocketAddr, event: &Event) {
        let line = event.to_string();
        self.put(|now| {
            let at = now.rack.as_ref().map_or(0, |rack| rack.reading);
            let reset = matches!(event, Event::Reset(_));
            if now.awaited == Some(from) {
                now.heard = Some(Heard { reset, line });
            }
            if let Event::Reset(ended) = event {
                let ended = ended.clone();
                now.restart = Some(Restarted { at, ended });
            }
        });
    }

    /// Nothing more will come.
    pub fn end(&self) {
        self.put(|now| now.ended = true);
    }

    pub fn ended(&self) -> bool {
        self.now().ended
    }

    pub fn rack(&self) -> Option<Rack> {
        self.now().rack.clone()
    }

    /// How many look at it now.
    pub fn watchers(&self) -> usize {
        self.now().watchers
    }

    /// One more looks, unless so many do already.
    pub fn watch(&self, most: usize) -> Option<Watcher<'_>> {
        let mut now = self.now();
        if now.watchers >= most {
            return None;
        }
        now.watchers += 1;
        let (version, line) = (0, 0);
        Some(Watcher {
            board: self,
            version,
            line,
        })
    }

    /// From now on a datagram from this address is awaited, and no other.
    pub fn expect(&self, from: SocketAddr) {
        let mut now = self.now();
        now.awaited = Some(from);
        now.heard = None;
    }

    /// What the datagram that is awaited came to, once it was heard.
    pub fn answer(&self, patience: Duration) -> Option<Heard> {
        let waits = |now: &mut Now| !now.ended && now.heard.is_none();
        let waited = self.changed.wait_timeout_while(self.now(), patience, waits);
        let (now, _) = waited.unwrap_or_else(PoisonError::into_inner);
        now.heard.clone()
    }
}

impl Now {
    fn show(&mut self, rack: Rack) {
        self.rack = Some(match &self.rack {
            Some(before) => rack.following(before),
            None => rack,
        });
    }

    fn say(&mut self, at: u32, text: String) {
        let n = self.lines.back().map_or(1, |last| last.n + 1);
        self.lines.push_back(Line { n, at, text });
        if self.lines.len() > LINES {
            self.lines.pop_front();
        }
    }
}

/// One who looks, and what he has seen.
#[derive(Debug)]
pub struct Watcher<'a> {
    board: &'a Board,
    version: u64,
    line: u64,
}

impl Watcher<'_> {
    /// What is new, once something is; nothing if it takes too long.
    pub fn look(&mut self, patience: Duration) -> Option<View> {
        let seen = self.version;
        let waits = |now: &mut Now| now.version == seen || now.rack.is_none();
        let board = self.board;
        let waited = board
            .changed
            .wait_timeout_while(board.now(), patience, waits);
        let (now, late) = waited.unwrap_or_else(PoisonError::into_inner);
        let rack = now.rack.clone().filter(|_| !late.timed_out())?;
        self.version = now.version;
        let lines = now.lines.iter().filter(|line| line.n > self.line);
        let view = View {
            rack,
            lines: lines.cloned().collect(),
            restart: now.restart.clone(),
            ended: now.ended,
        };
        self.line = now.lines.back().map_or(0, |last| last.n);
        Some(view)
    }
}

impl Drop for Watcher<'_> {
    fn drop(&mut self) {
        self.board.now().watchers -= 1;
    }
}

#[cfg(test)]
mod tests {
    use super::*;
    use crate::rack::{Arrivals, Reset};
    use melorwyth::call::fresh;
    use std::net::Ipv4Addr;
    use std::panic;
    use std::thread;

    const SOON: Duration = Duration::from_millis(20);
    const LONG: Duration = Duration::from_secs(20);
    const HERE: SocketAddr = SocketAddr::new(std::net::IpAddr::V4(Ipv4Addr::LOCALHOST), 65_080);

    fn rack(reading: u32) -> Rack {
        let reset = Reset {
            on: true,
            place: None,
            listening: Vec::new(),
        };
        Rack::of(&fresh(reading), HERE, &Arrivals::default(), reset)
    }

    fn numbers(view: &View) -> Vec<u64> {
        view.lines.iter().map(|line| line.n).collect()
    }

    #[test]
    fn each_line_is_seen_once_and_the_last_are_kept() {
        let board = Board::at(HERE);
        let mut watcher = board.watch(1).unwrap();
        assert!(watcher.look(SOON).is_none());
        board.say(rack(1), "one".to_string());
        board.say(rack(2), "two".to_string());
        let view = watcher.look(SOON).unwrap();
        assert_eq!((numbers(&view), view.rack.reading), (vec![1, 2], 2));
        assert!(watcher.look(SOON).is_none());
        board.show(rack(3));
        let view = watcher.look(SOON).unwrap();
        assert_eq!((numbers(&view), view.rack.reading), (vec![], 3));
        (0..LINES + 1).for_each(|_| board.say(rack(4), "more".to_string()));
        let view = watcher.look(SOON).unwrap();
        assert_eq!(numbers(&view), (4..=LINES as u64 + 3).collect::<Vec<_>>());
    }

    #[test]
    fn watchers_are_counted() {
        let board = Board::at(HERE);
        let first = board.watch(1);
        assert_eq!((first.is_some(), board.watchers()), (true, 1));
        assert!(board.watch(1).is_none());
        drop(first);
        assert_eq!(board.watchers(), 0);
        assert!(board.watch(1).is_some());
    }

    #[test]
    fn an_answer_is_of_its_own_datagram() {
        let board = Board::at(HERE);
        let other = SocketAddr::from((Ipv4Addr::LOCALHOST, 1));
        let ignored = Event::Ignored { length: 24 };
        board.expect(HERE);
        board.datagram(other, &ignored);
        assert_eq!(board.answer(SOON), None);
        thread::scope(|both| {
            let waiting = both.spawn(|| board.answer(LONG));
            board.show(rack(9));
            board.datagram(HERE, &Event::Reset(Ended::default()));
            board.datagram(other, &ignored);
            assert!(waiting.join().unwrap().unwrap().reset);
        });
        // the next who waits is not told of this one
        board.expect(other);
        assert_eq!(board.answer(SOON), None);
        let restart = board.watch(1).unwrap().look(SOON).unwrap().restart;
        assert_eq!(restart.unwrap().at, 9);
    }

    /// Nobody waits for what will not come.
    #[test]
    fn the_end_wakes_all() {
        let board = Board::at(HERE);
        board.show(rack(1));
        thread::scope(|all| {
            let waiting = all.spawn(|| board.answer(LONG));
            let mut watcher = board.watch(1).unwrap();
            watcher.look(SOON).unwrap();
            board.end();
            assert!(watcher.look(LONG).unwrap().ended);
            assert_eq!(waiting.join().unwrap(), None);
        });
    }

    /// What another thread came to does not reach the desk.
    #[test]
    fn a_panic_elsewhere_is_not_felt() {
        let board = Board::at(HERE);
        let panicked = thread::scope(|one| {
            let holding = one.spawn(|| {
                let _now = board.now();
                panic::resume_unwind(Box::new("held while it was locked"));
            });
            holding.join().is_err()
        });
        assert!(panicked);
        board.say(rack(1), "on".to_string());
        assert_eq!(board.watch(1).unwrap().look(SOON).unwrap().lines.len(), 1);
    }
}
