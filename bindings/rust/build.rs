//! Links the library's static archive.

use std::env;
use std::path::{Path, PathBuf};
use std::process::Command;

const VARIABLE: &str = "MELORWYTH_ARCHIVE";
const DEFAULT: &str = "../../target/staticlib/libmelorwyth.a";

fn main() {
    println!("cargo:rerun-if-env-changed={VARIABLE}");
    println!("cargo:rerun-if-changed=build.rs");
    let archive = archive();
    println!("cargo:rerun-if-changed={}", archive.display());
    if !archive.is_file() {
        fail(&archive);
    }
    link(&with_weak_handler(&archive).unwrap_or(archive));
}

/// A copy of the archive whose panic handler gives way to the program's own.
///
/// An archive built without std may bring a handler of its own, and two strong
/// ones do not link. Without `objcopy` the archive is linked as it is.
fn with_weak_handler(archive: &Path) -> Option<PathBuf> {
    let folder = PathBuf::from(env::var_os("OUT_DIR")?);
    let copy = folder.join("libmelorwyth.a");
    let done = Command::new(objcopy())
        .arg("--wildcard")
        .arg("--weaken-symbol=*rust_begin_unwind")
        .arg("--weaken-symbol=rust_eh_personality")
        .arg(archive)
        .arg(&copy)
        .status();
    matches!(done, Ok(status) if status.success()).then_some(copy)
}

/// The `objcopy` for the target's processor: that of another cannot read the archive.
fn objcopy() -> String {
    let processor = |name: &str| {
        let triple = env::var(name).unwrap_or_default();
        triple.split('-').next().unwrap_or_default().to_string()
    };
    let target = processor("TARGET");
    if target == processor("HOST") {
        "objcopy".to_string()
    } else {
        format!("{target}-linux-gnu-objcopy")
    }
}

/// A relative name counts from this package's folder.
fn archive() -> PathBuf {
    let named = env::var_os(VARIABLE).map_or_else(|| PathBuf::from(DEFAULT), PathBuf::from);
    let here = env::var_os("CARGO_MANIFEST_DIR").map_or_else(PathBuf::new, PathBuf::from);
    here.join(named)
}

fn fail(archive: &Path) -> ! {
    eprintln!("there is no archive at {}", archive.display());
    eprintln!("build the library's static archive first, or name it by {VARIABLE}");
    std::process::exit(1);
}

fn link(archive: &Path) {
    let folder = archive.parent().unwrap_or(Path::new("."));
    let Some(file) = archive.file_name() else {
        fail(archive)
    };
    println!("cargo:rustc-link-search=native={}", folder.display());
    // The file's whole name is given, so it need not begin with "lib".
    println!(
        "cargo:rustc-link-lib=static:+verbatim={}",
        file.to_string_lossy()
    );
}
