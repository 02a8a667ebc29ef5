//! `restart KEY PORT [HOST-OR-GROUP]`: sends the datagram that resets an amplifier.

use demo::restart::{self, USAGE};
use std::process::ExitCode;

/// UDP answers nothing, so this is how it is seen.
const SEEN: &str = "\
if it worked: the amplifier says 'reset by key', every controller is cut off, every lock can be taken,
              and the port is closed until a key is set again
if it did not: it says 'a datagram of 24 bytes changed nothing' to a key that is not the latest;
              if it says nothing the datagram was lost, or it does not listen there:
              look at its last line 'listening for datagrams', and send it again";

fn main() -> ExitCode {
    let words: Vec<String> = std::env::args().skip(1).collect();
    let words: Vec<&str> = words.iter().map(String::as_str).collect();
    let restart = match restart::parse(&words) {
        Ok(restart) => restart,
        Err(wrong) => {
            eprintln!("restart: {wrong}\n{USAGE}");
            return ExitCode::from(2);
        }
    };
    println!("{restart}");
    match restart.send() {
        Ok(()) => {
            println!("{SEEN}");
            ExitCode::SUCCESS
        }
        Err(error) => {
            eprintln!("restart: {error}");
            ExitCode::FAILURE
        }
    }
}
