//! The session, played by the second program: no archive is needed. Where there is no tshark nothing is tried.

use compare::second::Second;
use wireshark::agreement::agreement;
use wireshark::tshark;

#[test]
fn what_the_second_program_sends_and_reads_is_dissected() {
    if tshark::version().is_err() {
        return;
    }
    let agreement = agreement(&Second).unwrap();
    assert_eq!(agreement.differences, []);
    assert_eq!(agreement.tally.lacking(), Vec::<String>::new());
}
