//! `soak [SECONDS [CALLS [SEED]]]`: the desk under load until the first of the two is reached.

use soak::run::{self, Limits};
use std::process::ExitCode;
use std::time::Duration;

/// The short form.
const SECONDS: u64 = 10;
const CALLS: u64 = 100_000_000;

fn main() -> ExitCode {
    let words: Vec<String> = std::env::args().skip(1).collect();
    let numbers: Result<Vec<u64>, _> = words.iter().map(|word| word.parse()).collect();
    let Ok(numbers @ ([] | [_] | [_, _] | [_, _, _])) = numbers.as_deref() else {
        eprintln!("usage: soak [SECONDS [CALLS [SEED]]]");
        return ExitCode::from(2);
    };
    let at = |place: usize, otherwise| numbers.get(place).copied().unwrap_or(otherwise);
    let limits = Limits {
        time: Duration::from_secs(at(0, SECONDS)),
        calls: at(1, CALLS),
    };
    soak(limits, at(2, 1))
}

fn soak(limits: Limits, seed: u64) -> ExitCode {
    if let Err(mismatch) = melorwyth::check_version() {
        eprintln!("soak: {mismatch}");
        return ExitCode::FAILURE;
    }
    let report = match run::run(limits, seed) {
        Ok(report) => report,
        Err(error) => {
            eprintln!("soak: {error}");
            return ExitCode::FAILURE;
        }
    };
    print!("soak: seed {seed}: {report}");
    // an emulator's memory is not the program's
    let native = std::env::var_os("MELORWYTH_RUN").is_none_or(|run| run.is_empty());
    match report.wrong(native) {
        None => ExitCode::SUCCESS,
        Some(wrong) => {
            eprintln!("soak: {wrong}");
            ExitCode::FAILURE
        }
    }
}
