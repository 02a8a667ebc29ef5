//! The page: the board on the loopback address, for a browser.
//!
//! It makes no call on the amplifier. It looks at the board, and sends the datagram that resets as anybody may.

pub mod answer;
mod json;
pub mod refused;
pub mod request;
mod restart;
pub mod text;

use crate::board::{Board, Watcher};
use answer::Answer;
use refused::Refused;
use request::{Incoming, Request};
use std::io;
use std::net::{Ipv4Addr, SocketAddr, TcpListener, TcpStream};
use std::sync::atomic::{AtomicUsize, Ordering};
use std::sync::{Arc, Mutex, PoisonError};
use std::thread::{self, JoinHandle, Scope};
use std::time::Duration;

/// The port that the page takes when none is named; if it is taken, any free one.
pub const PORT: u16 = 65_080;
/// How many requests may be under way, streams among them, and how many streams.
pub const VISITORS: usize = 24;
pub const WATCHERS: usize = 16;
/// How many more are told that they are too many; others are left without a word.
const REFUSED: usize = 8;
/// The least time between two messages of a stream.
pub const PACE: Duration = Duration::from_millis(100);
/// How often it looks for an arrival, and whether it is to end.
const TURN: Duration = Duration::from_millis(10);
/// How long a stream waits for something new before it looks whether it is to end.
const LOOK: Duration = Duration::from_millis(500);

const HTML: &str = "text/html; charset=utf-8";
const CSS: &str = "text/css; charset=utf-8";
const SCRIPT: &str = "text/javascript; charset=utf-8";
const STREAM: &str = "text/event-stream; charset=utf-8";

/// A page that is being served. It ends with its board.
#[derive(Debug)]
pub struct Page {
    pub board: Arc<Board>,
    serving: JoinHandle<()>,
}

impl Page {
    /// On the port named; without one on the usual one, or on any that is free.
    pub fn start(port: Option<u16>) -> io::Result<Page> {
        let listener = match port {
            Some(port) => listen(port),
            None => listen(PORT).or_else(|_| listen(0)),
        };
        Page::on(listener?, PACE)
    }

    pub fn on(listener: TcpListener, pace: Duration) -> io::Result<Page> {
        listener.set_nonblocking(true)?;
        let address = listener.local_addr()?;
        let board = Arc::new(Board::at(address));
        let server = Server {
            listener,
            address,
            board: Arc::clone(&board),
            pace,
            visitors: AtomicUsize::new(0),
            restarting: Mutex::new(()),
        };
        let serving = thread::Builder::new().spawn(move || server.serve())?;
        Ok(Page { board, serving })
    }

    /// Ends the board and waits for all that were being answered.
    pub fn end(self) -> io::Result<()> {
        self.board.end();
        let ended = self.serving.join();
        ended.map_err(|_| io::Error::other("the page's server panicked"))
    }
}

fn listen(port: u16) -> io::Result<TcpListener> {
    TcpListener::bind((Ipv4Addr::LOCALHOST, port))
}

struct Server {
    listener: TcpListener,
    address: SocketAddr,
    board: Arc<Board>,
    pace: Duration,
    visitors: AtomicUsize,
    /// One restart at a time, as the board awaits one datagram.
    restarting: Mutex<()>,
}

/// A place among those that are answered, given back when it is dropped.
struct Visitor<'a> {
    all: &'a AtomicUsize,
    /// How many were there before.
    before: usize,
}

impl Visitor<'_> {
    fn enter(all: &AtomicUsize) -> Visitor<'_> {
        let before = all.fetch_add(1, Ordering::Relaxed);
        Visitor { all, before }
    }
}

impl Drop for Visitor<'_> {
    fn drop(&mut self) {
        self.all.fetch_sub(1, Ordering::Relaxed);
    }
}

impl Server {
    fn serve(&self) {
        thread::scope(|all| {
            while !self.board.ended() {
                match self.listener.accept() {
                    Ok((stream, _)) => self.admit(all, stream),
                    // nobody is there, or there is no place for him now
                    Err(_) => thread::sleep(TURN),
                }
            }
        });
    }

    /// Each has a thread of its own, so that no one waits for another; of those that are too many some are told so.
    fn admit<'s, 'e>(&'e self, all: &'s Scope<'s, 'e>, stream: TcpStream) {
        let visitor = Visitor::enter(&self.visitors);
        if visitor.before >= VISITORS + REFUSED {
            return;
        }
        let attending = move || self.attend(&stream, visitor);
        // where there is no thread to be had he is left
        drop(thread::Builder::new().spawn_scoped(all, attending));
    }

    /// Whatever he does, it ends in time; what he does not take of it is not our concern.
    fn attend(&self, stream: &TcpStream, visitor: Visitor) {
        let set = stream.set_nonblocking(false);
        let taken = set.and_then(|()| match visitor.before < VISITORS {
            true => self.answer(stream),
            false => Answer::from(Refused::Full).send(stream),
        });
        if taken.is_ok() {
            answer::close(stream);
        }
    }

    fn answer(&self, stream: &TcpStream) -> io::Result<()> {
        let mut incoming = Incoming::new(stream, &self.board);
        let request = incoming.request(self.address);
        let head = request.as_ref().is_ok_and(|asked| asked.method == "HEAD");
        match request.and_then(|request| self.wanted(&request, &mut incoming)) {
            Ok(Wanted::Whole(answer)) => answer.send(stream),
            Ok(Wanted::Stream(watcher)) => self.stream(stream, watcher),
            Err(refused) if head => Answer::from(refused).bare().send(stream),
            Err(refused) => Answer::from(refused).send(stream),
        }
    }

    fn wanted(&self, request: &Request, incoming: &mut Incoming) -> Result<Wanted<'_>, Refused> {
        match (request.path.as_str(), request.method.as_str()) {
            ("/restart", "POST") => self.restart(request, incoming).map(Wanted::Whole),
            ("/restart", _) => Err(Refused::Method("POST")),
            ("/events", "GET") => {
                let watcher = self.board.watch(WATCHERS);
                watcher.map(Wanted::Stream).ok_or(Refused::Full)
            }
            (path, method) => file(path, method).map(Wanted::Whole),
        }
    }

    fn restart(&self, request: &Request, incoming: &mut Incoming) -> Result<Answer, Refused> {
        request.from(self.address)?;
        let length = request.length.ok_or(Refused::Length)?;
        let body = incoming.body(length)?;
        let one = self.restarting.lock();
        let _one = one.unwrap_or_else(PoisonError::into_inner);
        Ok(restart::sent(&self.board, &body))
    }

    /// What is new, and no more often than the pace: a busy amplifier makes no busy browser, and a slow one misses
    /// racks and no lines.
    fn stream(&self, stream: &TcpStream, mut watcher: Watcher) -> io::Result<()> {
        let front = answer::front("200 OK", STREAM) + "\r\nretry: 1000\n\n";
        answer::send(stream, front.as_bytes())?;
        loop {
            let view = watcher.look(LOOK);
            if let Some(view) = &view {
                let message = format!("event: rack\ndata: {}\n\n", text::message(view));
                answer::send(stream, message.as_bytes())?;
            }
            if view.map_or(self.board.ended(), |view| view.ended) {
                return Ok(());
            }
            thread::sleep(self.pace);
        }
    }
}

/// What a sound request is answered by.
enum Wanted<'a> {
    Whole(Answer),
    Stream(Watcher<'a>),
}

/// What is the same for everybody, and comes with the program.
fn file(path: &str, method: &str) -> Result<Answer, Refused> {
    let (kind, text) = match path {
        "/" => (HTML, include_str!("page.html")),
        "/page.css" => (CSS, include_str!("page.css")),
        "/page.js" => (SCRIPT, include_str!("page.js")),
        "/events" => return Err(Refused::Method("GET")),
        _ => return Err(Refused::Path),
    };
    match method {
        "GET" => Ok(Answer::new("200 OK", kind, text)),
        _ => Err(Refused::Method("GET")),
    }
}
