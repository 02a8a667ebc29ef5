//! Holds the library to tshark's dissector of OCP.1: a line for each kind with what was compared, then the slips that
//! it has to find. It fails on any difference, and passes where tshark is not installed.

use compare::ours::Ours;
use std::process::ExitCode;
use wireshark::agreement::agreement;
use wireshark::slips::{self, Slip};
use wireshark::tshark;

/// How many differences are told.
const TOLD: usize = 20;

fn main() -> ExitCode {
    match tshark::version() {
        Ok(version) => println!("wireshark: {version}"),
        Err(why) => {
            println!("wireshark: {why}: not compared");
            return ExitCode::SUCCESS;
        }
    }
    let found = held().and_then(|()| {
        find("the older context of 4 bytes", &slips::older())?;
        find("a byte flipped", &slips::flipped())
    });
    match found {
        Ok(()) => {
            println!("no difference");
            ExitCode::SUCCESS
        }
        Err(why) => {
            println!("FAILED: {why}");
            ExitCode::FAILURE
        }
    }
}

fn held() -> Result<(), String> {
    let agreement = agreement(&Ours)?;
    println!("{}", agreement.tally);
    println!(
        "{} frames, {} of them with bytes of messages",
        agreement.frames, agreement.segments
    );
    let differences = &agreement.differences;
    for difference in differences.iter().take(TOLD) {
        println!("connection {}: {}", difference.stream, difference.told);
    }
    if !differences.is_empty() {
        return Err(format!("{} differences", differences.len()));
    }
    match agreement.tally.lacking().as_slice() {
        [] => Ok(()),
        lacking => Err(format!("these have to come: {}", lacking.join("; "))),
    }
}

/// The comparison has to find every slip.
fn find(name: &str, slips: &[Slip]) -> Result<(), String> {
    let unfound = slips::unfound(slips)?;
    println!(
        "{name}: found in {} of {} captured messages",
        slips.len() - unfound.len(),
        slips.len()
    );
    match unfound.as_slice() {
        [] => Ok(()),
        unfound => Err(format!("not found: {}", unfound.join("; "))),
    }
}
