//! A name of the definitions has one meaning in the whole repository.
use crate::definitions;
use crate::tree::{Finding, Text, finding};
use std::collections::BTreeMap;

pub fn check(texts: &[Text]) -> Vec<Finding> {
    let mut first: BTreeMap<String, String> = BTreeMap::new();
    let mut found = Vec::new();
    for text in texts.iter().filter(|t| t.is_spec()) {
        for d in definitions::of(text) {
            match first.get(&d.name) {
                Some(path) if *path != text.path => {
                    found.push(finding(
                        &text.path,
                        d.line,
                        format!("`{}` is also a name of {path}", d.name),
                    ));
                }
                Some(_) => {}
                None => {
                    first.insert(d.name, text.path.clone());
                }
            }
        }
    }
    found
}

#[cfg(test)]
mod tests {
    use super::*;

    #[test]
    fn a_name_twice_is_found() {
        let a = Text::new("crates/a/specs/A.antt", "abbrev pub run_of : ℕ\n");
        let b = Text::new(
            "crates/b/specs/B.antt",
            "pub data X : Type 0 where\n  run_of : X\n",
        );
        let c = Text::new(
            "crates/c/specs/C.antt",
            "pub record Y : Type 0 where\n  pub run_of : ℕ\n",
        );
        assert_eq!(check(&[a, b]).len(), 1);
        assert_eq!(
            check(&[
                Text::new("crates/a/specs/A.antt", "abbrev pub run_of : ℕ\n"),
                c
            ]),
            []
        );
    }
}
