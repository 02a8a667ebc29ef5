//! A controller at work: commands one after another, keeping alive between.

use crate::clock::Clock;
use crate::message::{self, Arm, Asking, Said, Subscribe};
use crate::restart::Restart;
use crate::script::{self, Command};
use crate::socket::{Heard, Socket, What};
use crate::tablet::Tablet;
use crate::words;
use melorwyth::record::CONTEXT;
use melorwyth::{Heartbeat, Refusal, Status};
use std::fmt::Display;
use std::io::{self, Write};
use std::net::{SocketAddr, TcpStream};
use std::sync::mpsc::{self, Receiver, SyncSender, TryRecvError};
use std::time::{Duration, Instant};

/// How long a reply may take.
const PATIENCE: Duration = Duration::from_secs(5);
/// How often a lock is asked for.
const AGAIN: Duration = Duration::from_secs(1);
/// The longest wait; typed commands are looked for after it.
const TURN: Duration = Duration::from_millis(50);
/// How many pieces may wait.
const WAITING: usize = 16;

/// Whether there is more to do.
#[derive(Clone, Copy, Debug, PartialEq, Eq)]
pub enum Next {
    More,
    Quit,
}

/// What a wait came to.
#[derive(Debug)]
enum Came {
    Said(Said),
    Closed,
    Nothing,
}

#[derive(Debug)]
pub struct Session<W> {
    address: SocketAddr,
    clock: Clock,
    name: String,
    tablets: Vec<Tablet>,
    serial: u64,
    inbox: Receiver<Heard>,
    outside: SyncSender<Heard>,
    lines: W,
}

impl<W: Write> Session<W> {
    pub fn new(address: SocketAddr, lines: W) -> Session<W> {
        let (outside, inbox) = mpsc::sync_channel(WAITING);
        Session {
            address,
            clock: Clock::starting_at(0),
            name: "tablet".to_string(),
            tablets: Vec::new(),
            serial: 0,
            inbox,
            outside,
            lines,
        }
    }

    /// Does the commands in order.
    pub fn obey(&mut self, commands: Vec<Command>) -> io::Result<Next> {
        for command in commands {
            if self.command(command)? == Next::Quit {
                return Ok(Next::Quit);
            }
        }
        Ok(Next::More)
    }

    /// Does what is typed, until there is no more.
    pub fn converse(&mut self, typed: &Receiver<String>) -> io::Result<()> {
        loop {
            match typed.try_recv() {
                Ok(line) => {
                    if self.obey_line(&line)? == Next::Quit {
                        return Ok(());
                    }
                }
                Err(TryRecvError::Empty) => drop(self.attend(TURN, |_| false)?),
                Err(TryRecvError::Disconnected) => return Ok(()),
            }
        }
    }

    fn obey_line(&mut self, line: &str) -> io::Result<Next> {
        match script::parse(line) {
            Ok(commands) => self.obey(commands),
            Err(wrong) => self.say(wrong).map(|()| Next::More),
        }
    }

    fn command(&mut self, command: Command) -> io::Result<Next> {
        match command {
            Command::Ask(asking, channel) => drop(self.ask(asking, channel)?),
            Command::Await(channel) => self.ask_again(channel)?,
            Command::Subscribe(subscribe) => self.subscribe(&subscribe)?,
            Command::Announce(channel) => self.announce(channel)?,
            Command::Overlong(channel) => self.overlong(channel)?,
            Command::Beat(beat) => self.beat(beat)?,
            Command::Bytes(bytes) => {
                self.current()?;
                self.say(format_args!("sends {} bytes as they are", bytes.len()))?;
                self.send(&bytes)?;
            }
            Command::Arm(arm) => self.arm(&arm)?,
            Command::Restart(restart) => self.restart(&restart)?,
            Command::Wait(time) => drop(self.attend(time, |_| false)?),
            Command::Leave => self.leave()?,
            Command::Dead => {
                self.current()?.dead = true;
                self.say("dead: says nothing more, its connection stays open")?;
            }
            Command::As(name) => self.name = name,
            Command::Quit => return Ok(Next::Quit),
        }
        Ok(Next::More)
    }

    /// Asks for the lock until it is given.
    fn ask_again(&mut self, channel: u8) -> io::Result<()> {
        let start = Instant::now();
        let mut waited = None;
        while self.ask(Asking::Lock, channel)? != Status::CarriedOut {
            let asked = start.elapsed().as_millis() % AGAIN.as_millis();
            let rest = AGAIN.saturating_sub(Duration::from_millis(asked as u64));
            self.attend(rest, |_| false)?;
            waited = Some(start);
        }
        match waited.map(|start| start.elapsed().as_millis()) {
            Some(waited) => self.say(format_args!("let in after {waited} ms")),
            None => Ok(()),
        }
    }

    /// Asks for one thing and waits for the reply; answers its status.
    fn ask(&mut self, asking: Asking, channel: u8) -> io::Result<Status> {
        let name = format!("{asking:?} {channel}").to_lowercase();
        let asked = |handle| message::command(handle, asking, channel);
        let (status, parameters) = self.exchange(&name, asked)?;
        let value = match (asking, parameters.as_slice()) {
            (Asking::Get, [value]) => format!(", {}", words::value(*value)),
            _ => String::new(),
        };
        self.say(format_args!("{name}: {status}{value}"))?;
        Ok(status)
    }

    fn subscribe(&mut self, subscribe: &Subscribe) -> io::Result<()> {
        let Subscribe { channel, context } = subscribe;
        let name = match words::hex(context) {
            hex if hex.is_empty() => format!("subscribe {channel}"),
            hex => format!("subscribe {channel} context {hex}"),
        };
        self.ask_plainly(&name, |handle| message::subscribing(handle, subscribe))
    }

    /// Sends a context that `subscribe` does not take; the writer builds it, since only the amplifier looks into a command.
    fn overlong(&mut self, channel: u8) -> io::Result<()> {
        let context = vec![0; CONTEXT + 1];
        let name = format!(
            "overlong {channel}: {}",
            words::context_count(context.len())
        );
        let subscribe = Subscribe { channel, context };
        self.ask_plainly(&name, |handle| message::subscribing(handle, &subscribe))
    }

    /// Sets the reset key, which is not said.
    fn arm(&mut self, arm: &Arm) -> io::Result<()> {
        let name = format!("arm {} {}", arm.port, arm.address);
        let name = name.trim_end();
        self.ask_plainly(name, |handle| message::arming(handle, arm))
    }

    /// Sends a command whose reply has nothing but a status, and tells it.
    fn ask_plainly(
        &mut self,
        name: &str,
        command: impl Fn(u32) -> Result<Vec<u8>, Refusal>,
    ) -> io::Result<()> {
        let (status, _) = self.exchange(name, command)?;
        self.say(format_args!("{name}: {status}"))
    }

    /// Sends a command and waits for its reply: status and parameters.
    fn exchange(
        &mut self,
        name: &str,
        command: impl Fn(u32) -> Result<Vec<u8>, Refusal>,
    ) -> io::Result<(Status, Vec<u8>)> {
        let asked = self.next_handle()?;
        self.send(&command(asked)?)?;
        match self.attend_reply(asked)? {
            Came::Said(Said::Reply {
                status, parameters, ..
            }) => Ok((status, parameters)),
            came => Err(self.missing(name, &came)),
        }
    }

    fn next_handle(&mut self) -> io::Result<u32> {
        let tablet = self.current()?;
        tablet.handle += 1;
        Ok(tablet.handle)
    }

    fn attend_reply(&mut self, asked: u32) -> io::Result<Came> {
        let reply = |said: &Said| matches!(said, Said::Reply { handle, .. } if *handle == asked);
        self.attend(PATIENCE, reply)
    }

    /// Sends what the writer does not build, and tells what comes of it; a closure is what is wanted, and no error.
    fn announce(&mut self, channel: u8) -> io::Result<()> {
        let asked = self.next_handle()?;
        let bytes = message::announcing(asked, channel)?;
        let length = bytes.len();
        let refusal = or_nothing(message::refusal(&bytes));
        self.say(format_args!(
            "announce {channel}: one parameter and no byte of it; the writer says: {refusal}; \
             sends {length} bytes all the same"
        ))?;
        self.send(&bytes)?;
        let came = match self.attend_reply(asked)? {
            Came::Said(Said::Reply { status, .. }) => status.to_string(),
            Came::Closed => "closed".to_string(),
            _ => "neither closed nor answered".to_string(),
        };
        let fault = or_nothing(message::fault(&bytes));
        self.say(format_args!(
            "announce {channel}: {came}; the reader says: {fault}"
        ))
    }

    /// Sends the datagram; that it worked is seen by the connections which the amplifier closes.
    fn restart(&mut self, restart: &Restart) -> io::Result<()> {
        self.say(restart)?;
        if let Err(error) = restart.send() {
            return self.say(error);
        }
        let before = self.tablets.len();
        let until = Instant::now() + PATIENCE;
        while !self.tablets.is_empty() && Instant::now() < until {
            self.attend(TURN, |_| false)?;
        }
        match self.tablets.len() {
            0 => Ok(()),
            left if left == before => self.say("nothing was closed: that was no reset"),
            left => self.say(format!("{left} of {before} connections are still open")),
        }
    }

    fn leave(&mut self) -> io::Result<()> {
        let named = |tablet: &Tablet| tablet.name == self.name;
        match self.tablets.iter().position(named) {
            Some(k) => self.part(k, "hangs up").map(drop),
            None => Ok(()),
        }
    }

    fn beat(&mut self, beat: Heartbeat) -> io::Result<()> {
        let told = words::beat(beat);
        let bytes = self.current()?.set_beat(beat)?;
        self.send(&bytes)?;
        match self.attend(PATIENCE, |said| *said == Said::KeepAlive(beat))? {
            Came::Said(_) => self.say(format_args!("beat {told}: answered")),
            came => Err(self.missing(&format!("beat {told}"), &came)),
        }
    }

    fn missing(&self, what: &str, came: &Came) -> io::Error {
        let why = match came {
            Came::Closed => "the connection was closed",
            _ => "no reply came",
        };
        io::Error::other(format!("{}: {what}: {why}", self.name))
    }

    fn find(&mut self) -> Option<&mut Tablet> {
        let name = &self.name;
        self.tablets.iter_mut().find(|tablet| tablet.name == *name)
    }

    /// The controller that speaks now; it connects when it has no connection.
    fn current(&mut self) -> io::Result<&mut Tablet> {
        if self.find().is_none() {
            let stream = TcpStream::connect(self.address)?;
            self.serial += 1;
            let socket = Socket::start(stream, self.serial, self.outside.clone())?;
            self.tablets.push(Tablet::new(&self.name, socket));
            self.say("connected")?;
        }
        self.find()
            .ok_or_else(|| io::ErrorKind::NotConnected.into())
    }

    fn send(&mut self, bytes: &[u8]) -> io::Result<()> {
        let tablet = self.current()?;
        if tablet.dead {
            return Err(io::Error::other(format!("{} is dead", self.name)));
        }
        // one that cannot be written is soon heard to be gone
        let _ = tablet.socket.send(bytes);
        Ok(())
    }

    /// Sends the keep-alives that are due; answers when to look again.
    fn keep_alive(&mut self) -> Instant {
        let mut next = Instant::now() + TURN;
        for tablet in &mut self.tablets {
            // as above
            let _ = tablet.beat();
            next = tablet.next_beat().map_or(next, |beat| beat.min(next));
        }
        next
    }

    /// Keeps alive and listens until what is wanted is said, or the time is up.
    fn attend(&mut self, time: Duration, wanted: impl Fn(&Said) -> bool) -> io::Result<Came> {
        let until = Instant::now() + time;
        loop {
            let now = Instant::now();
            if now >= until {
                return Ok(Came::Nothing);
            }
            let next = self.keep_alive().min(until);
            if let Ok(heard) = self.inbox.recv_timeout(next.saturating_duration_since(now)) {
                match self.hear(heard, &wanted)? {
                    Came::Nothing => {}
                    came => return Ok(came),
                }
            }
        }
    }

    fn hear(&mut self, heard: Heard, wanted: &impl Fn(&Said) -> bool) -> io::Result<Came> {
        let of = |tablet: &Tablet| tablet.socket.serial == heard.serial;
        let Some(k) = self.tablets.iter().position(of) else {
            return Ok(Came::Nothing);
        };
        match heard.what {
            What::Gone(_) => self.part(k, "closed by the amplifier"),
            What::Piece(bytes) => {
                self.tablets[k].take(&bytes);
                self.listen(k, wanted)
            }
        }
    }

    /// Hears every whole message; answers what was wanted of the one that speaks now.
    fn listen(&mut self, k: usize, wanted: &impl Fn(&Said) -> bool) -> io::Result<Came> {
        let mut came = Came::Nothing;
        loop {
            match self.tablets[k].next_said() {
                Ok(None) => return Ok(came),
                Ok(Some(said)) => {
                    let current = self.tablets[k].name == self.name;
                    self.told(k, &said)?;
                    if current && wanted(&said) {
                        came = Came::Said(said);
                    }
                }
                Err(fault) => return self.part(k, &fault.to_string()),
            }
        }
    }

    /// Ends a connection; answers whether it was the one that speaks now.
    fn part(&mut self, k: usize, why: &str) -> io::Result<Came> {
        let tablet = self.tablets.remove(k);
        self.line(&tablet.name, why)?;
        drop(tablet.socket.hang_up());
        Ok(match tablet.name == self.name {
            true => Came::Closed,
            false => Came::Nothing,
        })
    }

    /// A line for what was not asked for.
    fn told(&mut self, k: usize, said: &Said) -> io::Result<()> {
        let told = match said {
            Said::Reply { .. } => return Ok(()),
            Said::KeepAlive(_) if self.tablets[k].answered() => return Ok(()),
            Said::KeepAlive(beat) => format!("the amplifier keeps alive, {}", words::beat(*beat)),
            Said::Notification {
                channel,
                value,
                context,
            } => {
                let (value, context) = (words::value(*value), words::context(context));
                format!("notified: channel {channel} is {value}; {context}")
            }
            Said::Strange => "a message that no amplifier sends".to_string(),
        };
        let name = self.tablets[k].name.clone();
        self.line(&name, &told)
    }

    fn say(&mut self, what: impl Display) -> io::Result<()> {
        let name = self.name.clone();
        self.line(&name, what)
    }

    fn line(&mut self, name: &str, what: impl Display) -> io::Result<()> {
        let reading = self.clock.reading();
        let line = format!("{reading:>8} ms  {name}: {what}\n");
        self.lines.write_all(line.as_bytes())?;
        self.lines.flush()
    }
}

fn or_nothing(said: Option<impl Display>) -> String {
    said.map_or("nothing".to_string(), |said| said.to_string())
}
