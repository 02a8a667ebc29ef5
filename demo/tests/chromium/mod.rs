//! A headless Chromium, driven by its DevTools protocol: a page is held to what its user sees.

pub mod base64;
pub mod json;
mod pipe;
mod program;
pub mod tab;

use pipe::Pipe;
use std::fs;
use std::io::{self, Write};
use std::path::PathBuf;
use std::process::Child;
use std::sync::Arc;
use std::thread;
use std::time::Duration;
use tab::Tab;

/// How long it may take to end by itself.
const PATIENCE: Duration = Duration::from_secs(3);

/// A running Chromium. Whatever a test comes to, neither it nor its folder outlives it.
#[derive(Debug)]
pub struct Browser {
    folder: PathBuf,
    child: Child,
    pipe: Arc<Pipe>,
}

impl Browser {
    /// Nothing where there is no Chromium; one that is there has to start.
    #[track_caller]
    pub fn start() -> Option<Browser> {
        let program = program::found()?;
        let folder = program::folder();
        let mut child = program::run(&program, &folder).unwrap();
        let (input, output) = (child.stdin.take().unwrap(), child.stdout.take().unwrap());
        let pipe = Arc::new(Pipe::new(input, output));
        let browser = Browser {
            folder,
            child,
            pipe,
        };
        if let Err(wrong) = browser.pipe.call("", "Browser.getVersion", "{}") {
            let program = program.display();
            panic!("{program} does not start: {wrong}\n{}", browser.complaint());
        }
        Some(browser)
    }

    /// A page in a tab of its own, when it is loaded.
    #[track_caller]
    pub fn open(&self, url: &str) -> Tab {
        Tab::open(&self.pipe, url)
    }

    fn complaint(&self) -> String {
        let bytes = fs::read(program::complaint(&self.folder)).unwrap_or_default();
        String::from_utf8_lossy(&bytes).into_owned()
    }

    fn end(&mut self) -> io::Result<()> {
        if self.pipe.send("", "Browser.close", "{}").is_ok() {
            self.pipe.ends(PATIENCE);
        }
        let ended = program::end(&mut self.child);
        self.remove().and(ended)
    }

    /// What was killed a moment ago may still be writing.
    fn remove(&self) -> io::Result<()> {
        for _ in 0..50 {
            if fs::remove_dir_all(&self.folder).is_ok() {
                return Ok(());
            }
            thread::sleep(Duration::from_millis(20));
        }
        fs::remove_dir_all(&self.folder)
    }
}

impl Drop for Browser {
    fn drop(&mut self) {
        // a failure here must not hide the test's own
        if let Err(error) = self.end() {
            let _ = writeln!(io::stderr(), "{}: {error}", self.folder.display());
        }
    }
}
