//! No line of a definition or a contract is longer than a screen.
//!
//! An attribute that names the lemmas of a proof is neither, and `rt fmt` lays it out on one line whatever its length.
use crate::tree::{Finding, Text, finding};

const MOST: usize = 140;

fn is_of_proof(text: &Text, line: &str) -> bool {
    let line = line.trim();
    text.is_source() && line.starts_with("#[tactic(") && line.ends_with(")]")
}

pub fn check(texts: &[Text]) -> Vec<Finding> {
    let mut found = Vec::new();
    for text in texts.iter().filter(|t| t.is_spec() || t.is_source()) {
        for (i, line) in text.lines.iter().enumerate() {
            let length = line.chars().count();
            if length > MOST && !is_of_proof(text, line) {
                found.push(finding(
                    &text.path,
                    i + 1,
                    format!("a line of {length} characters"),
                ));
            }
        }
    }
    found
}

#[cfg(test)]
mod tests {
    use super::*;

    #[test]
    fn characters_count_and_not_bytes() {
        let fits = "∷".repeat(MOST);
        let long = "a".repeat(MOST + 1);
        assert_eq!(check(&[Text::new("crates/a/specs/A.antt", &fits)]), []);
        assert_eq!(check(&[Text::new("crates/a/specs/A.antt", &long)]).len(), 1);
        assert_eq!(check(&[Text::new("crates/a/src/lib.rt", &long)]).len(), 1);
        assert_eq!(check(&[Text::new("crates/a/proofs/A.antt", &long)]), []);
    }

    #[test]
    fn the_lemmas_of_a_proof_stand_on_one_line() {
        let lemmas = format!("    #[tactic(auto, using({}))]", "a".repeat(MOST));
        let clause = format!("    ensures {{ {} }}", "a".repeat(MOST));
        assert_eq!(check(&[Text::new("crates/a/src/lib.rt", &lemmas)]), []);
        assert_eq!(
            check(&[Text::new("crates/a/specs/A.antt", &lemmas)]).len(),
            1
        );
        assert_eq!(check(&[Text::new("crates/a/src/lib.rt", &clause)]).len(), 1);
    }
}
