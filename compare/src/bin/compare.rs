//! Compares the library with the second program.
//!
//! `compare` makes the gate's fixed runs and fails if something came too
//! seldom; `compare SEED CALLS` makes one random walk.

use compare::engine::Engine;
use compare::harness::counts::{Counts, FLOOR};
use compare::harness::gate;
use compare::harness::session::Checked;
use compare::harness::verdict;
use compare::second::Second;
use std::process::ExitCode;
use std::time::Instant;

#[cfg(feature = "ours")]
fn left() -> (&'static dyn Engine, &'static str) {
    (&compare::ours::Ours, "the library")
}

/// Without the archive only the harness itself is tried.
#[cfg(not(feature = "ours"))]
fn left() -> (&'static dyn Engine, &'static str) {
    (&Second, "the second program itself (no archive linked)")
}

fn main() -> ExitCode {
    let arguments: Vec<String> = std::env::args().skip(1).collect();
    let numbers: Vec<u64> = arguments.iter().flat_map(|text| text.parse()).collect();
    let (engine, name) = left();
    println!("left: {name}; right: the second program");
    let start = Instant::now();
    match (arguments.len(), numbers.as_slice()) {
        (0, _) => end(gate::gate(engine, &Second), true, start),
        (2, [seed, calls]) => end(gate::single(engine, &Second, *seed, *calls), false, start),
        _ => {
            eprintln!("usage: compare [SEED CALLS]");
            ExitCode::from(2)
        }
    }
}

/// Prints what came; a run of the gate also has to reach the floor.
fn end(result: Checked<Counts>, whole: bool, start: Instant) -> ExitCode {
    let came = result.map(|counts| {
        let failures = if whole { counts.failures() } else { Vec::new() };
        (counts.table(), failures)
    });
    verdict::tell(came, FLOOR, start)
}
