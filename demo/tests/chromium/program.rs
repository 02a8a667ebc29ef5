//! Where Chromium is, and how it is started.

use std::ffi::{OsStr, OsString};
use std::fs::{self, DirBuilder, File};
use std::io::{self, ErrorKind, Write};
use std::os::unix::fs::{DirBuilderExt, PermissionsExt};
use std::os::unix::process::CommandExt;
use std::path::{Path, PathBuf};
use std::process::{Child, Command, Stdio};
use std::sync::Once;
use std::sync::atomic::{AtomicU32, Ordering};
use std::{env, process};

/// Names the program, or its path; without it, it is `chromium`.
const VARIABLE: &str = "MELORWYTH_CHROMIUM";

/// The protocol is read from descriptor 3 and written to descriptor 4.
const PIPED: &str = r#"exec "$@" 3<&0 4>&1 </dev/null >/dev/null"#;

/// Nothing that asks elsewhere, nothing that differs from one start to the next; scroll bars are shown.
const ARGUMENTS: [&str; 21] = [
    "--headless=new",
    "--remote-debugging-pipe",
    "--disable-gpu",
    "--no-first-run",
    "--no-default-browser-check",
    "--disable-dev-shm-usage",
    "--disable-background-networking",
    "--disable-component-update",
    "--disable-default-apps",
    "--disable-sync",
    "--disable-extensions",
    "--disable-breakpad",
    "--disable-background-timer-throttling",
    "--disable-backgrounding-occluded-windows",
    "--disable-renderer-backgrounding",
    "--metrics-recording-only",
    "--no-proxy-server",
    "--password-store=basic",
    "--force-color-profile=srgb",
    "--lang=en",
    "--mute-audio",
];

/// Where it is; where there is none, says so once.
pub fn found() -> Option<PathBuf> {
    static SAID: Once = Once::new();
    let named = env::var_os(VARIABLE).filter(|name| !name.is_empty());
    let name = named.unwrap_or_else(|| OsString::from("chromium"));
    let found = candidates(&name).into_iter().find(|path| is_program(path));
    if found.is_none() {
        SAID.call_once(|| skipped(&name));
    }
    found
}

/// Not by the test's own output, which is shown only where it fails.
fn skipped(name: &OsStr) {
    let name = name.display();
    let mut shown = io::stderr();
    let why = format!("there is no '{name}' to open pages in; {VARIABLE} may name another");
    writeln!(shown, "SKIPPED: {why}").unwrap();
}

/// A name that is a path stands for itself.
fn candidates(name: &OsStr) -> Vec<PathBuf> {
    if name.as_encoded_bytes().contains(&b'/') {
        return vec![PathBuf::from(name)];
    }
    let paths = env::var_os("PATH").unwrap_or_default();
    env::split_paths(&paths)
        .map(|folder| folder.join(name))
        .collect()
}

fn is_program(path: &Path) -> bool {
    fs::metadata(path).is_ok_and(|told| told.is_file() && told.permissions().mode() & 0o111 != 0)
}

/// Where it makes a socket, whose path in all may have 107 bytes: 75 come after this.
fn place() -> PathBuf {
    let place = env::temp_dir();
    match place.as_os_str().len() {
        0..=32 => place,
        _ => PathBuf::from("/tmp"),
    }
}

/// A new one, for this user alone.
pub fn folder() -> PathBuf {
    static COUNT: AtomicU32 = AtomicU32::new(0);
    loop {
        let n = COUNT.fetch_add(1, Ordering::Relaxed);
        let folder = place().join(format!("melorwyth-chromium-{}-{n}", process::id()));
        match DirBuilder::new().mode(0o700).create(&folder) {
            Ok(()) => return folder,
            // one that was killed may have left it
            Err(error) if error.kind() == ErrorKind::AlreadyExists => {}
            Err(error) => panic!("{}: {error}", folder.display()),
        }
    }
}

/// What it says on its standard error.
pub fn complaint(folder: &Path) -> PathBuf {
    folder.join("stderr")
}

/// In a process group of its own, so that all that it starts can be ended with it.
pub fn run(program: &Path, folder: &Path) -> io::Result<Child> {
    let mut command = Command::new("sh");
    command
        .args(["-c", PIPED, "sh"])
        .arg(program)
        .args(ARGUMENTS);
    if is_root()? {
        command.arg("--no-sandbox");
    }
    let mut data = OsString::from("--user-data-dir=");
    data.push(folder.join("data"));
    command.arg(data).arg("about:blank");
    // what it writes besides goes with the folder
    command.env("HOME", folder).env("TMPDIR", folder);
    for place in ["CACHE_HOME", "CONFIG_HOME", "DATA_HOME", "RUNTIME_DIR"] {
        command.env_remove(format!("XDG_{place}"));
    }
    command.stdin(Stdio::piped()).stdout(Stdio::piped());
    command.stderr(File::create(complaint(folder))?);
    command.process_group(0).spawn()
}

/// Its sandbox does not work for root.
fn is_root() -> io::Result<bool> {
    let told = Command::new("id").arg("-u").output()?;
    Ok(told.stdout.trim_ascii() == b"0")
}

/// Ends all of a group whose first process is not waited for yet, so that the number is still its own.
pub fn end(group: &mut Child) -> io::Result<()> {
    let killing = ["-c", r#"kill -s KILL -- "-$1""#, "kill"];
    let id = group.id().to_string();
    let killed = Command::new("sh").args(killing).arg(id).status();
    group.kill()?;
    group.wait()?;
    match killed?.success() {
        true => Ok(()),
        false => Err(io::Error::other("what it started may live on")),
    }
}
