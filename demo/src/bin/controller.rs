//! `controller [PORT] [COMMAND ..]`: commands from the arguments, then from standard input.

use demo::PORT;
use demo::script::{self, HELP};
use demo::session::{Next, Session};
use std::io::{self, BufRead, Read};
use std::net::{Ipv4Addr, SocketAddr};
use std::process::ExitCode;
use std::sync::mpsc::{self, Receiver};
use std::thread;

/// The longest line that is read.
const LINE: u64 = 4_096;

fn main() -> ExitCode {
    let mut words: Vec<String> = std::env::args().skip(1).collect();
    let port = words.first().and_then(|word| word.parse().ok());
    if port.is_some() {
        words.remove(0);
    }
    let commands = match script::parse(&words.join(" ")) {
        Ok(commands) => commands,
        Err(wrong) => {
            eprintln!("controller: {wrong}\nusage: controller [PORT] [COMMAND ..]\n{HELP}");
            return ExitCode::from(2);
        }
    };
    let address = SocketAddr::from((Ipv4Addr::LOCALHOST, port.unwrap_or(PORT)));
    match run(address, commands) {
        Ok(()) => ExitCode::SUCCESS,
        Err(error) => {
            eprintln!("controller: {error}");
            ExitCode::FAILURE
        }
    }
}

fn run(address: SocketAddr, commands: Vec<script::Command>) -> io::Result<()> {
    melorwyth::check_version().map_err(io::Error::other)?;
    let mut session = Session::new(address, io::stdout());
    match session.obey(commands)? {
        Next::Quit => Ok(()),
        Next::More => session.converse(&typed()),
    }
}

/// The lines of standard input; a thread waits for them.
fn typed() -> Receiver<String> {
    let (sender, receiver) = mpsc::sync_channel(1);
    thread::spawn(move || {
        loop {
            let mut line = String::new();
            let read = io::stdin().lock().take(LINE).read_line(&mut line);
            if !matches!(read, Ok(1..)) || sender.send(line).is_err() {
                return;
            }
        }
    });
    receiver
}
