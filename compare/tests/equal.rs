//! Programs that have to agree, compared over the gate's runs, and messages
//! that have to be what their makers say.

use compare::engine::Engine;
use compare::fast::Fast;
use compare::harness::gate;
use compare::harness::random::Random;
use compare::harness::traffic;
use compare::second::Second;

/// The comparison finds nothing, and exercises all it has to.
fn agree(left: &dyn Engine) {
    match gate::gate(left, &Second) {
        Ok(counts) => assert_eq!(counts.failures(), Vec::<String>::new()),
        Err(difference) => panic!("{difference}"),
    }
}

#[test]
fn the_second_program_agrees_with_itself() {
    agree(&Second);
}

#[test]
fn the_fast_delivery_agrees_with_the_second_program() {
    agree(&Fast);
}

#[cfg(feature = "ours")]
#[test]
fn the_library_agrees_with_the_second_program() {
    agree(&compare::ours::Ours);
}

#[test]
fn messages_said_to_be_sound_are_sound() {
    let mut random = Random::new(5);
    for _ in 0..20_000 {
        let sound = traffic::any_message(&mut random);
        assert_eq!(Second.read_message(&sound).number, 0, "{sound:?}");
        for faulty in [traffic::count_without_bytes, traffic::overlong_context] {
            let faulty = faulty(&mut random);
            assert_eq!(Second.read_message(&faulty).fault, 6, "{faulty:?}");
        }
    }
    for sound in traffic::samples() {
        assert_eq!(Second.read_message(&sound).number, 0, "{sound:?}");
    }
}
