//! The form that restarts: the datagram is sent by UDP as from anywhere, and the board tells what it came to.

use super::answer::Answer;
use crate::board::Board;
use crate::restart::{self, Key, Restart};
use std::io;
use std::net::{SocketAddr, SocketAddrV4};
use std::time::Duration;

/// How long the amplifier may take to hear it.
const PATIENCE: Duration = Duration::from_secs(2);

const DONE: &str = "200 OK";
const NO_KEY: &str = "400 Bad Request";
const OTHER_KEY: &str = "403 Forbidden";
const UNARMED: &str = "409 Conflict";
const UNSENT: &str = "502 Bad Gateway";
const UNHEARD: &str = "504 Gateway Timeout";

/// What the form brought about, or why nothing.
pub fn sent(board: &Board, body: &str) -> Answer {
    let answered = key(body).and_then(|key| {
        let to = place(board)?;
        send(board, Restart { key, to })
    });
    answered.unwrap_or_else(|refused| refused)
}

/// What is wrong with a key is said without it.
fn key(body: &str) -> Result<Key, Answer> {
    let text = body.strip_prefix("key=");
    let text = text.ok_or(Answer::said(NO_KEY, "a form with a key is wanted"))?;
    restart::key(text).map_err(|wrong| Answer::said(NO_KEY, wrong))
}

/// Where the amplifier listens: its own address first, a group where it has that alone.
fn place(board: &Board) -> Result<SocketAddrV4, Answer> {
    let rack = board.rack();
    let rack = rack.ok_or(Answer::said(UNARMED, "the amplifier has not begun"))?;
    match rack.reset.listening.first() {
        Some(SocketAddr::V4(to)) => Ok(*to),
        _ => Err(Answer::said(UNARMED, rack.reset.to_string())),
    }
}

fn send(board: &Board, restart: Restart) -> Result<Answer, Answer> {
    let unsent = |error: io::Error| Answer::said(UNSENT, format!("not sent: {error}"));
    let socket = restart::socket().map_err(unsent)?;
    let own = socket.local_addr().map_err(unsent)?;
    board.expect(own);
    restart.send_by(&socket).map_err(unsent)?;
    match board.answer(PATIENCE) {
        Some(heard) if heard.reset => Ok(Answer::said(DONE, heard.line)),
        Some(heard) => Err(Answer::said(
            OTHER_KEY,
            format!("{}: this is not the key that was set last", heard.line),
        )),
        None => Err(Answer::said(
            UNHEARD,
            "it was sent, and the amplifier has not heard it: look at the events, and send it again",
        )),
    }
}
