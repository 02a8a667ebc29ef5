//! `amplifier [PORT] [no-reset] [page PORT | no-page]`: an amplifier on the loopback address until it is interrupted.

use demo::PORT;
use demo::clock::Clock;
use demo::desk::Desk;
use demo::interrupt;
use demo::page::{self, Page};
use std::io;
use std::net::{Ipv4Addr, TcpListener};
use std::process::ExitCode;
use std::sync::Arc;

/// What the words ask for.
#[derive(Debug)]
struct Wanted {
    port: u16,
    reset: bool,
    page: Shown,
}

#[derive(Debug)]
enum Shown {
    Anywhere,
    At(u16),
    Nowhere,
}

fn main() -> ExitCode {
    let arguments: Vec<String> = std::env::args().skip(1).collect();
    let words: Vec<&str> = arguments.iter().map(String::as_str).collect();
    let Some(wanted) = parse(&words) else {
        eprintln!("usage: amplifier [PORT] [no-reset] [page PORT | no-page]");
        eprintln!(
            "  0: a free port; without: {PORT}, and {} for the page",
            page::PORT
        );
        return ExitCode::from(2);
    };
    match run(wanted) {
        Ok(()) => ExitCode::SUCCESS,
        Err(error) => {
            eprintln!("amplifier: {error}");
            ExitCode::FAILURE
        }
    }
}

fn parse(words: &[&str]) -> Option<Wanted> {
    let (port, words) = match words {
        [first, rest @ ..] if first.starts_with(|c: char| c.is_ascii_digit()) => {
            (first.parse().ok()?, rest)
        }
        _ => (PORT, words),
    };
    let (reset, words) = match words {
        ["no-reset", rest @ ..] => (false, rest),
        _ => (true, words),
    };
    let page = match words {
        [] => Shown::Anywhere,
        ["page", port] => Shown::At(port.parse().ok()?),
        ["no-page"] => Shown::Nowhere,
        _ => return None,
    };
    Some(Wanted { port, reset, page })
}

fn run(wanted: Wanted) -> io::Result<()> {
    melorwyth::check_version().map_err(io::Error::other)?;
    interrupt::watch();
    let listener = TcpListener::bind((Ipv4Addr::LOCALHOST, wanted.port))?;
    let desk = Desk::new(listener, Clock::starting_at(0), io::stdout())?;
    let desk = match wanted.reset {
        true => desk,
        false => desk.without_reset(),
    };
    let Some(page) = page(&wanted.page)? else {
        return desk.run(&interrupt::ENDING);
    };
    let desk = desk.shown_on(Arc::clone(&page.board));
    let ran = desk.run(&interrupt::ENDING);
    ran.and(page.end())
}

/// The amplifier does not hang on its page: only a port that was named has to be had.
fn page(shown: &Shown) -> io::Result<Option<Page>> {
    match shown {
        Shown::Nowhere => Ok(None),
        Shown::At(port) => Page::start(Some(*port)).map(Some),
        Shown::Anywhere => Ok(Page::start(None)
            .inspect_err(|error| eprintln!("amplifier: no page: {error}"))
            .ok()),
    }
}
