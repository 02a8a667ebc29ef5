//! Chromium's DevTools protocol: JSON in both directions, each message ended by a NUL byte.

use super::json::{self, Json, quoted};
use std::io::{BufRead, BufReader, Write};
use std::process::{ChildStdin, ChildStdout};
use std::sync::atomic::{AtomicU64, Ordering};
use std::sync::{Arc, Condvar, Mutex, MutexGuard, PoisonError};
use std::thread;
use std::time::{Duration, Instant};

/// How long a call may take.
const DEADLINE: Duration = Duration::from_secs(30);

/// The events that are kept: a stream of events would otherwise fill the memory.
const KEPT: [&str; 7] = [
    "Log.entryAdded",
    "Network.requestWillBeSent",
    "Network.webSocketCreated",
    "Network.webTransportCreated",
    "Page.lifecycleEvent",
    "Runtime.consoleAPICalled",
    "Runtime.exceptionThrown",
];

/// What came so far, and why nothing more comes.
#[derive(Debug, Default)]
struct Heard {
    answers: Vec<Json>,
    events: Vec<Json>,
    end: Option<String>,
}

#[derive(Debug, Default)]
struct Ear {
    heard: Mutex<Heard>,
    changed: Condvar,
}

impl Ear {
    /// A test that failed elsewhere does not make this unreadable.
    fn lock(&self) -> MutexGuard<'_, Heard> {
        self.heard.lock().unwrap_or_else(PoisonError::into_inner)
    }

    fn listen(&self, output: ChildStdout) {
        let mut end = "Chromium has ended".to_string();
        for message in BufReader::new(output).split(0) {
            let message = message.map_err(|error| error.to_string());
            if let Err(wrong) = message.and_then(|bytes| self.keep(bytes)) {
                end = format!("Chromium is not understood: {wrong}");
                break;
            }
        }
        self.lock().end = Some(end);
        self.changed.notify_all();
    }

    fn keep(&self, bytes: Vec<u8>) -> Result<(), String> {
        let text = String::from_utf8(bytes).map_err(|error| error.to_string())?;
        let message = json::read(&text).map_err(|wrong| format!("{wrong} of {text}"))?;
        let mut heard = self.lock();
        match message.get("method") {
            None => heard.answers.push(message),
            Some(method) if KEPT.contains(&method.as_str()) => heard.events.push(message),
            Some(_) => return Ok(()),
        }
        self.changed.notify_all();
        Ok(())
    }

    /// Waits until something is found among what came.
    fn wait<T>(
        &self,
        patience: Duration,
        find: impl Fn(&mut Heard) -> Option<T>,
    ) -> Result<T, String> {
        let start = Instant::now();
        let mut heard = self.lock();
        loop {
            if let Some(found) = find(&mut heard) {
                return Ok(found);
            }
            if let Some(end) = &heard.end {
                return Err(end.clone());
            }
            let left = patience.saturating_sub(start.elapsed());
            if left.is_zero() {
                return Err(format!("nothing came in {patience:?}"));
            }
            let waited = self.changed.wait_timeout(heard, left);
            heard = waited.unwrap_or_else(PoisonError::into_inner).0;
        }
    }
}

/// Calls, their answers and the events; of the browser itself where a session is named "".
#[derive(Debug)]
pub struct Pipe {
    input: Mutex<ChildStdin>,
    calls: AtomicU64,
    ear: Arc<Ear>,
}

impl Pipe {
    pub fn new(input: ChildStdin, output: ChildStdout) -> Pipe {
        let ear = Arc::new(Ear::default());
        let listening = Arc::clone(&ear);
        thread::spawn(move || listening.listen(output));
        Pipe {
            input: Mutex::new(input),
            calls: AtomicU64::new(1),
            ear,
        }
    }

    /// The parameters are JSON. A failure says which call it was and what was answered.
    pub fn call(&self, session: &str, method: &str, parameters: &str) -> Result<Json, String> {
        let failed = |wrong: String| format!("{method} {parameters}: {wrong}");
        let n = self.send(session, method, parameters).map_err(failed)?;
        let answer = self.ear.wait(DEADLINE, |heard| {
            let numbered = |answer: &Json| answer.get("id") == Some(&Json::Number(n as f64));
            let place = heard.answers.iter().position(numbered)?;
            Some(heard.answers.swap_remove(place))
        });
        let answer = answer.map_err(failed)?;
        match answer.get("result") {
            Some(result) => Ok(result.clone()),
            None => Err(failed(answer.to_string())),
        }
    }

    /// Asks without waiting; answers the call's number.
    pub fn send(&self, session: &str, method: &str, parameters: &str) -> Result<u64, String> {
        let n = self.calls.fetch_add(1, Ordering::Relaxed);
        let session = match session {
            "" => String::new(),
            session => format!(r#""sessionId":{},"#, quoted(session)),
        };
        let method = quoted(method);
        let asking = format!(r#""method":{method},"params":{parameters}"#);
        let message = format!("{{\"id\":{n},{session}{asking}}}\0");
        let mut input = self.input.lock().unwrap_or_else(PoisonError::into_inner);
        let sent = input.write_all(message.as_bytes());
        sent.map(|()| n).map_err(|error| error.to_string())
    }

    /// Whether it ends within this time.
    pub fn ends(&self, patience: Duration) -> bool {
        let end = |heard: &mut Heard| heard.end.clone();
        self.ear.wait(patience, end).is_ok()
    }

    /// What the kept events of a session so far make, oldest first: of each its method and its parameters.
    pub fn events<T>(&self, session: &str, make: impl Fn(&str, &Json) -> Option<T>) -> Vec<T> {
        told(&self.ear.lock().events, session, make)
    }

    /// Waits until there is such an event.
    pub fn await_event(
        &self,
        session: &str,
        such: impl Fn(&str, &Json) -> bool,
    ) -> Result<(), String> {
        let found = |method: &str, parameters: &Json| such(method, parameters).then_some(());
        self.ear
            .wait(DEADLINE, |heard| told(&heard.events, session, found).pop())
    }
}

fn told<T>(events: &[Json], session: &str, make: impl Fn(&str, &Json) -> Option<T>) -> Vec<T> {
    let session = Json::Text(session.to_string());
    let of = |event: &&Json| event.get("sessionId") == Some(&session);
    let made = |event: &Json| make(event.at("method").as_str(), event.at("params"));
    events.iter().filter(of).filter_map(made).collect()
}
