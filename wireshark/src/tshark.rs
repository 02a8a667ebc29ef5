//! Runs tshark over a capture, in a folder of its own that is removed.

use crate::pdml;
use crate::shown::{self, Page};
use std::fs::{self, DirBuilder, File};
use std::os::unix::fs::DirBuilderExt;
use std::path::PathBuf;
use std::process::{Child, Command, ExitStatus, Stdio};
use std::sync::OnceLock;
use std::time::{Duration, Instant};
use std::{env, io, process, thread};

const PROGRAM: &str = "tshark";
/// Far more than it takes: a dissector may go round for ever.
const LIMIT: Duration = Duration::from_secs(300);

/// A folder that no one else can look into, gone when this is.
#[derive(Debug)]
struct Folder(PathBuf);

impl Folder {
    fn new() -> io::Result<Folder> {
        for number in 0.. {
            let name = format!("melorwyth-wireshark-{}-{number}", process::id());
            let path = env::temp_dir().join(name);
            match DirBuilder::new().mode(0o700).create(&path) {
                Ok(()) => return Ok(Folder(path)),
                Err(error) if error.kind() == io::ErrorKind::AlreadyExists => {}
                Err(error) => return Err(error),
            }
        }
        Err(io::ErrorKind::AlreadyExists.into())
    }

    fn file(&self, name: &str) -> PathBuf {
        self.0.join(name)
    }
}

impl Drop for Folder {
    fn drop(&mut self) {
        // there is nobody to tell that it is still there
        let _ = fs::remove_dir_all(&self.0);
    }
}

/// The first line that it says of itself, or why there is nothing to compare with.
pub fn version() -> Result<String, &'static str> {
    static ASKED: OnceLock<Result<String, &str>> = OnceLock::new();
    ASKED.get_or_init(ask_version).clone()
}

fn ask_version() -> Result<String, &'static str> {
    let said = said_by(&["--version"]).ok_or("tshark is not installed")?;
    // each line is a protocol by its names, one of them that of its fields
    let protocols = said_by(&["-G", "protocols"]).unwrap_or_default();
    let mut names = protocols.split(['\n', '\t']);
    names
        .find(|name| *name == "ocp1")
        .ok_or("this tshark does not dissect OCP.1")?;
    Ok(said.lines().next().unwrap_or_default().to_string())
}

fn said_by(arguments: &[&str]) -> Option<String> {
    let output = Command::new(PROGRAM).args(arguments).output().ok()?;
    let said = String::from_utf8_lossy(&output.stdout).into_owned();
    output.status.success().then_some(said)
}

/// What tshark shows of a capture file.
pub fn page(file: &[u8]) -> Result<Page, String> {
    let text = run(file).map_err(|error| format!("{PROGRAM}: {error}"))?;
    shown::page(&pdml::frames(&text)?)
}

fn run(file: &[u8]) -> io::Result<String> {
    let folder = Folder::new()?;
    fs::write(folder.file("capture.pcap"), file)?;
    let (page, said) = (folder.file("page.pdml"), folder.file("said"));
    let child = Command::new(PROGRAM)
        .args(["-n", "-T", "pdml", "-J", "frame ip tcp ocp1"])
        .args([
            "-o",
            "ip.check_checksum:TRUE",
            "-o",
            "tcp.check_checksum:TRUE",
        ])
        // frames that carry bytes, and those that something is said of
        .args(["-Y", "tcp.len > 0 || _ws.expert"])
        .arg("-r")
        .arg(folder.file("capture.pcap"))
        // whoever runs it, with whatever settings: those that it comes with
        .env("WIRESHARK_CONFIG_DIR", &folder.0)
        .env("HOME", &folder.0)
        .env("LC_ALL", "C")
        .stdin(Stdio::null())
        .stdout(File::create(&page)?)
        .stderr(File::create(&said)?)
        .spawn()?;
    let status = ended(child)?;
    if !status.success() {
        let said = fs::read_to_string(&said).unwrap_or_default();
        return Err(io::Error::other(format!("{status}: {said}")));
    }
    Ok(String::from_utf8_lossy(&fs::read(&page)?).into_owned())
}

fn ended(mut child: Child) -> io::Result<ExitStatus> {
    let started = Instant::now();
    loop {
        if let Some(status) = child.try_wait()? {
            return Ok(status);
        }
        if started.elapsed() > LIMIT {
            child.kill()?;
            child.wait()?;
            return Err(io::ErrorKind::TimedOut.into());
        }
        thread::sleep(Duration::from_millis(20));
    }
}
