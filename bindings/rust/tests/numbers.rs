//! Refusals, faults and statuses from their numbers and back.

use melorwyth::answer::{Cleared, Reading};
use melorwyth::{Fault, Refusal, Status, VERSION, VersionMismatch};
use std::collections::HashSet;
use std::error::Error;

#[test]
fn every_refusal_comes_back_from_its_number() {
    for number in 1..=u8::MAX {
        let refusal = Refusal::from_numbers(number, 2).expect("a refusal");
        assert_eq!(refusal.number(), number);
        let named = matches!(number, 1..=6 | 8..=12);
        assert_eq!(named, refusal != Refusal::Unknown(number), "{number}");
    }
    assert_eq!(Refusal::from_numbers(0, 2), None);
}

#[test]
fn every_fault_comes_back_from_its_number() {
    for number in 0..=u8::MAX {
        let fault = Fault::from_number(number);
        assert_eq!(fault.number(), number);
        let named = matches!(number, 1..=6);
        assert_eq!(named, fault != Fault::Unknown(number), "{number}");
        let refusal = Refusal::from_numbers(8, number);
        assert_eq!(refusal, Some(Refusal::Fault(fault)));
    }
}

#[test]
fn every_status_comes_back_from_its_number() {
    for number in 0..=u8::MAX {
        let status = Status::from_number(number);
        assert_eq!(status.number(), number);
        let named = matches!(number, 0 | 3..=11);
        assert_eq!(named, status != Status::Other(number), "{number}");
    }
}

/// The words before the number differ from each other: the number alone is not enough.
fn told_apart(kind: &str, numbers: impl Iterator<Item = u8>, told: impl Fn(u8) -> String) {
    let mut said = HashSet::new();
    for number in numbers {
        let text = told(number);
        let (words, _) = text
            .split_once(&format!(" ({kind} {number})"))
            .unwrap_or_else(|| panic!("{text}"));
        assert!(said.insert(words.to_string()), "{text}");
    }
}

/// Each that has a name, and one that has none.
#[test]
fn each_says_its_number_in_words_of_its_own() {
    let refusal = |number| Refusal::from_numbers(number, 3).expect("a refusal");
    told_apart("refusal", 1..=12, |number| refusal(number).to_string());
    told_apart("fault", 1..=7, |number| {
        Fault::from_number(number).to_string()
    });
    told_apart("status", (0..=0).chain(3..=12), |number| {
        Status::from_number(number).to_string()
    });
    let fault = Refusal::Fault(Fault::Size).to_string();
    assert!(
        fault.contains("(refusal 8)") && fault.contains("(fault 3)"),
        "{fault}"
    );
}

#[test]
fn an_answer_is_done_or_its_refusal() {
    assert_eq!(Cleared { number: 0 }.done(), Ok(Cleared { number: 0 }));
    assert_eq!(Cleared { number: 2 }.done(), Err(Refusal::BadArea));
    let reading = |number, fault| Reading {
        number,
        fault,
        kind: 0,
        count: 0,
        form: 0,
        value: 0,
        length: 0,
    };
    assert_eq!(reading(9, 0).done(), Err(Refusal::Short));
    assert_eq!(reading(8, 5).done(), Err(Refusal::Fault(Fault::Count)));
    assert_eq!(reading(0, 0).done(), Ok(reading(0, 0)));
}

#[test]
fn another_version_says_both() {
    let mismatch = VersionMismatch {
        wanted: VERSION,
        linked: 0x0002_030C,
    };
    assert_eq!(
        mismatch.to_string(),
        "the archive is of version 2.3.12, not 0.1.0"
    );
    let _: &dyn Error = &mismatch;
}

#[cfg(feature = "std")]
#[test]
fn a_refusal_is_an_error_of_input_and_output() {
    use std::io::{self, ErrorKind};
    for (refusal, kind) in [
        (Refusal::Fault(Fault::Start), ErrorKind::InvalidData),
        (Refusal::Short, ErrorKind::UnexpectedEof),
        (Refusal::NoConnection, ErrorKind::NotConnected),
        (Refusal::TableFull, ErrorKind::ResourceBusy),
        (Refusal::BadEntry, ErrorKind::InvalidInput),
        (Refusal::Unknown(7), ErrorKind::Other),
    ] {
        let error = io::Error::from(refusal);
        assert_eq!(error.kind(), kind);
        let inside = error.get_ref().and_then(|inner| inner.downcast_ref());
        assert_eq!(inside, Some(&refusal));
    }
}
