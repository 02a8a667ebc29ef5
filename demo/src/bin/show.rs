//! `show [restart]`: the technician's question, or a rack restarted by key, in one terminal: the amplifier's lines
//! and the controllers' side by side.

use demo::board::Board;
use demo::clock::Clock;
use demo::desk::Desk;
use demo::interrupt;
use demo::page::Page;
use demo::script;
use demo::session::Session;
use std::io::{self, IsTerminal, Write};
use std::net::{Ipv4Addr, TcpListener, UdpSocket};
use std::process::ExitCode;
use std::sync::Arc;
use std::sync::atomic::Ordering;
use std::thread;
use std::time::{Duration, Instant};

/// How long a show waits for a page to be opened.
const TIME_TO_OPEN: Duration = Duration::from_secs(10);

/// Standard output for one of two, whose lines are told apart by a name before each.
#[derive(Debug)]
struct Lines {
    name: &'static str,
    begun: Vec<u8>,
}

fn lines_of(name: &'static str) -> Lines {
    let begun = Vec::new();
    Lines { name, begun }
}

impl Write for Lines {
    /// A line is printed when it is whole, so that the two never mix within one.
    fn write(&mut self, bytes: &[u8]) -> io::Result<usize> {
        self.begun.extend_from_slice(bytes);
        while let Some(end) = self.begun.iter().position(|byte| *byte == b'\n') {
            let line: Vec<u8> = self.begun.drain(..=end).collect();
            let mut out = io::stdout().lock();
            write!(out, "{:<12}", self.name)?;
            out.write_all(&line)?;
        }
        Ok(bytes.len())
    }

    fn flush(&mut self) -> io::Result<()> {
        io::stdout().flush()
    }
}

fn main() -> ExitCode {
    let arguments: Vec<String> = std::env::args().skip(1).collect();
    let words: Vec<&str> = arguments.iter().map(String::as_str).collect();
    let played = match words.as_slice() {
        [] => Ok("question".to_string()),
        ["restart"] => free_port().map(script::restarting),
        _ => {
            eprintln!("usage: show [restart]");
            return ExitCode::from(2);
        }
    };
    match played.and_then(|text| run(&text)) {
        Ok(()) => ExitCode::SUCCESS,
        Err(error) => {
            eprintln!("show: {error}");
            ExitCode::FAILURE
        }
    }
}

/// A UDP port that is free now.
fn free_port() -> io::Result<u16> {
    let socket = UdpSocket::bind((Ipv4Addr::LOCALHOST, 0))?;
    Ok(socket.local_addr()?.port())
}

fn run(text: &str) -> io::Result<()> {
    melorwyth::check_version().map_err(io::Error::other)?;
    interrupt::watch();
    let listener = TcpListener::bind((Ipv4Addr::LOCALHOST, 0))?;
    let address = listener.local_addr()?;
    let page = Page::start(None)?;
    let desk = Desk::new(listener, Clock::starting_at(0), lines_of("amplifier"))?;
    let desk = desk.shown_on(Arc::clone(&page.board));
    let commands = script::parse(text).map_err(io::Error::other)?;
    let played = thread::scope(|both| {
        let amplifier = both.spawn(|| desk.run(&interrupt::ENDING));
        let invited = invite(&page.board);
        let asked = invited.and_then(|()| Session::new(address, lines_of("hall")).obey(commands));
        interrupt::ENDING.store(true, Ordering::Relaxed);
        let ended = amplifier.join();
        asked?;
        ended.map_err(|_| io::Error::other("the amplifier panicked"))?
    });
    played.and(page.end())
}

/// Says where to look. A person is given the time to open the page; without one it begins at once.
fn invite(board: &Board) -> io::Result<()> {
    let mut out = io::stdout().lock();
    let person = out.is_terminal();
    let begins = match person {
        true => "; it begins when the page is open, or in 10 s",
        false => "",
    };
    writeln!(out, "look at http://{}/ while it plays{begins}", board.page)?;
    drop(out);
    let start = Instant::now();
    let waits = || !interrupt::ENDING.load(Ordering::Relaxed) && start.elapsed() < TIME_TO_OPEN;
    while person && board.watchers() == 0 && waits() {
        thread::sleep(Duration::from_millis(50));
    }
    Ok(())
}
