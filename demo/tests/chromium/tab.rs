//! A page in a tab of its own: what it shows, what it is told by keys, what it asked for and complained of.

use super::base64;
use super::json::{Json, quoted};
use super::pipe::Pipe;
use std::sync::Arc;
use std::thread;
use std::time::{Duration, Instant};

/// How long a page may take to come to something.
const PATIENCE: Duration = Duration::from_secs(20);

#[derive(Debug)]
pub struct Tab {
    pipe: Arc<Pipe>,
    target: String,
    session: String,
}

/// What does not succeed fails the test.
#[allow(dead_code, reason = "a test takes what it needs")]
impl Tab {
    /// What the page asks for and complains of is heard from its first request on.
    #[track_caller]
    pub(super) fn open(pipe: &Arc<Pipe>, url: &str) -> Tab {
        // in a window of its own it is drawn, whatever else is open
        let blank = r#"{"url":"about:blank","newWindow":true}"#;
        let target = done(pipe.call("", "Target.createTarget", blank));
        let target = target.at("targetId").to_string();
        let attaching = format!(r#"{{"targetId":{target},"flatten":true}}"#);
        let session = done(pipe.call("", "Target.attachToTarget", &attaching));
        let session = session.at("sessionId").as_str().to_string();
        let pipe = Arc::clone(pipe);
        let tab = Tab {
            pipe,
            target,
            session,
        };
        for domain in ["Page", "Runtime", "Log", "Network"] {
            tab.call(&format!("{domain}.enable"), "{}");
        }
        tab.call("Page.setLifecycleEventsEnabled", r#"{"enabled":true}"#);
        // keys reach it also where another tab is in front
        tab.call("Emulation.setFocusEmulationEnabled", r#"{"enabled":true}"#);
        tab.go(url);
        tab
    }

    /// Goes to another page, and waits until it is loaded.
    #[track_caller]
    pub fn go(&self, url: &str) {
        let answer = self.call("Page.navigate", &format!(r#"{{"url":{}}}"#, quoted(url)));
        if let Some(error) = answer.get("errorText") {
            panic!("{url}: {error}");
        }
        let loader = answer.at("loaderId");
        let loaded = self.pipe.await_event(&self.session, |method, event| {
            let of = method == "Page.lifecycleEvent" && event.at("loaderId") == loader;
            of && event.at("name").as_str() == "load"
        });
        done(loaded.map_err(|wrong| format!("{url} is not loaded: {wrong}")));
    }

    /// The value of a script, which may be a promise. An exception in it fails the test.
    #[track_caller]
    pub fn evaluate(&self, script: &str) -> Json {
        done(self.evaluated(script))
    }

    fn evaluated(&self, script: &str) -> Result<Json, String> {
        let script = quoted(script);
        let asking =
            format!(r#"{{"expression":{script},"returnByValue":true,"awaitPromise":true}}"#);
        let answer = self.pipe.call(&self.session, "Runtime.evaluate", &asking)?;
        if let Some(thrown) = answer.get("exceptionDetails") {
            return Err(format!("{script} throws {}", exception(thrown)));
        }
        let result = answer.at("result");
        match result.get("value") {
            Some(value) => Ok(value.clone()),
            None if result.at("type").as_str() == "undefined" => Ok(Json::Null),
            None => Err(format!("{script} has no value: {result}")),
        }
    }

    /// The first such element's, without the space around it.
    #[track_caller]
    pub fn text(&self, selector: &str) -> String {
        let element = format!("document.querySelector({})", quoted(selector));
        match self.evaluate(&format!("{element}?.textContent.trim()")) {
            Json::Text(text) => text,
            _ => panic!("there is no {selector} in\n{}", self.shown()),
        }
    }

    /// All that the page shows, for a failure.
    fn shown(&self) -> String {
        let text = match self.evaluated("document.documentElement.innerText") {
            Ok(Json::Text(text)) => text,
            Ok(other) => other.to_string(),
            Err(wrong) => wrong,
        };
        let complaints = self.heard();
        format!("the page, with the complaints {complaints:?}:\n{text}")
    }

    /// Waits until the script is true: where it throws, what it looks for may be yet to come.
    #[track_caller]
    pub fn until(&self, what: &str, script: &str) {
        let start = Instant::now();
        loop {
            let last = match self.evaluated(script) {
                Ok(Json::Bool(true)) => return,
                Ok(Json::Bool(false)) => "it is false".to_string(),
                Ok(other) => panic!("{what}: {script} is neither true nor false, but {other}"),
                Err(wrong) => wrong,
            };
            if start.elapsed() >= PATIENCE {
                panic!("waited for: {what}\n{script}\n{last}\n{}", self.shown());
            }
            thread::sleep(Duration::from_millis(50));
        }
    }

    /// Presses Tab, Enter, Space or Escape.
    #[track_caller]
    pub fn key(&self, name: &str) {
        let (key, number, text) = match name {
            "Tab" => ("Tab", 9, ""),
            "Enter" => ("Enter", 13, "\r"),
            "Space" => (" ", 32, " "),
            "Escape" => ("Escape", 27, ""),
            _ => panic!("{name} is no key here"),
        };
        let code = quoted(name);
        let code = format!(r#""code":{code},"windowsVirtualKeyCode":{number},"#);
        self.press(key, &code, text);
    }

    /// One key after the other, into what has the focus.
    #[track_caller]
    pub fn type_text(&self, text: &str) {
        for key in text.chars().map(String::from) {
            self.press(&key, "", &key);
        }
    }

    /// Down and up; only one with a text writes something.
    #[track_caller]
    fn press(&self, key: &str, code: &str, text: &str) {
        let (key, text) = (quoted(key), quoted(text));
        let down = match text.as_str() {
            r#""""# => r#""rawKeyDown""#.to_string(),
            text => format!(r#""keyDown","text":{text},"unmodifiedText":{text}"#),
        };
        for kind in [down.as_str(), r#""keyUp""#] {
            let event = format!(r#"{{{code}"key":{key},"type":{kind}}}"#);
            self.call("Input.dispatchKeyEvent", &event);
        }
    }

    /// Of the window, in pixels.
    #[track_caller]
    pub fn size(&self, width: u32, height: u32) {
        let size = format!(r#""width":{width},"height":{height}"#);
        let size = format!(r#"{{{size},"deviceScaleFactor":1,"mobile":false}}"#);
        self.call("Emulation.setDeviceMetricsOverride", &size);
    }

    /// "print" or "screen".
    #[track_caller]
    pub fn media(&self, media: &str) {
        let media = format!(r#"{{"media":{}}}"#, quoted(media));
        self.call("Emulation.setEmulatedMedia", &media);
    }

    /// The whole page as a PNG, as in a window that is so tall that no scroll bar takes of its width.
    #[track_caller]
    pub fn picture(&self) -> Vec<u8> {
        let tall = "[innerWidth, innerHeight, document.documentElement.scrollHeight]";
        let tall = self.evaluate(tall);
        let [width, height, whole] = [0, 1, 2].map(|n| tall.index(n).as_u64() as u32);
        self.size(width, whole.max(height));
        let picture = self.capture();
        self.size(width, height);
        picture
    }

    /// What stands out of the window is in it too.
    #[track_caller]
    fn capture(&self) -> Vec<u8> {
        let metrics = self.call("Page.getLayoutMetrics", "{}");
        let content = metrics.at("cssContentSize");
        let (width, height) = (content.at("width"), content.at("height"));
        let clip = format!(r#"{{"x":0,"y":0,"width":{width},"height":{height},"scale":1}}"#);
        let asking = format!(r#"{{"format":"png","captureBeyondViewport":true,"clip":{clip}}}"#);
        let answer = self.call("Page.captureScreenshot", &asking);
        let picture = base64::decode(answer.at("data").as_str());
        picture.expect("a picture in base64")
    }

    /// The errors so far: the console's, the exceptions that nobody caught, the browser's own.
    #[track_caller]
    pub fn complaints(&self) -> Vec<String> {
        self.settle();
        self.heard()
    }

    fn heard(&self) -> Vec<String> {
        self.pipe.events(&self.session, complaint)
    }

    /// The address of all that the page asked for so far.
    #[track_caller]
    pub fn requested(&self) -> Vec<String> {
        self.settle();
        self.pipe.events(&self.session, |method, event| {
            let url = match method {
                "Network.requestWillBeSent" => event.at("request").at("url"),
                "Network.webSocketCreated" | "Network.webTransportCreated" => event.at("url"),
                _ => return None,
            };
            Some(url.as_str().to_string())
        })
    }

    /// A page's events and answers come in order: what it told before this is heard after it.
    #[track_caller]
    fn settle(&self) {
        self.evaluate("0");
    }

    #[track_caller]
    pub fn close(self) {
        let closing = format!(r#"{{"targetId":{}}}"#, self.target);
        done(self.pipe.call("", "Target.closeTarget", &closing));
    }

    #[track_caller]
    fn call(&self, method: &str, parameters: &str) -> Json {
        done(self.pipe.call(&self.session, method, parameters))
    }
}

#[track_caller]
fn done<T>(answer: Result<T, String>) -> T {
    match answer {
        Ok(answer) => answer,
        Err(wrong) => panic!("{wrong}"),
    }
}

/// What an event says, if it is an error.
fn complaint(method: &str, event: &Json) -> Option<String> {
    match method {
        "Log.entryAdded" => entry(event.at("entry")),
        "Runtime.exceptionThrown" => Some(exception(event.at("exceptionDetails"))),
        "Runtime.consoleAPICalled" => console(event),
        _ => None,
    }
}

fn entry(entry: &Json) -> Option<String> {
    let url = entry.get("url").map_or("", Json::as_str);
    let error = entry.at("level").as_str() == "error";
    error.then(|| format!("{} ({url})", entry.at("text").as_str()))
}

fn exception(thrown: &Json) -> String {
    let what = thrown.get("exception").map(described);
    let text = thrown.at("text").as_str();
    format!("{text}: {}", what.unwrap_or_default())
}

fn console(event: &Json) -> Option<String> {
    let error = ["error", "assert"].contains(&event.at("type").as_str());
    let words: Vec<String> = event.at("args").as_list().iter().map(described).collect();
    error.then(|| words.join(" "))
}

/// A value of the page as a word: an error describes itself, a text is as it is.
fn described(value: &Json) -> String {
    match (value.get("description"), value.get("value")) {
        (Some(description), _) => description.as_str().to_string(),
        (None, Some(Json::Text(text))) => text.clone(),
        _ => value.to_string(),
    }
}
