//! How a comparison ends: what came, whether it was enough, and the answer to
//! whoever ran it.

use std::fmt::Display;
use std::process::ExitCode;
use std::time::Instant;

/// Prints the first difference, or the table of what came and whatever of it
/// came less often than the floor.
pub fn tell<D: Display>(
    came: Result<(String, Vec<String>), D>,
    floor: impl Display,
    start: Instant,
) -> ExitCode {
    let (table, failures) = match came {
        Ok(came) => came,
        Err(difference) => {
            println!("{difference}");
            return ExitCode::FAILURE;
        }
    };
    print!("{table}");
    println!("no difference, {:.1} s", start.elapsed().as_secs_f64());
    for failure in &failures {
        println!("FAILED, floor {floor}: {failure}");
    }
    if failures.is_empty() {
        ExitCode::SUCCESS
    } else {
        ExitCode::FAILURE
    }
}
