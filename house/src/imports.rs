//! Nothing is imported that the file does not use.
use crate::tree::{Finding, Text, code, finding, has_operator, has_word};

fn is_import(line: &str) -> bool {
    let line = line.trim_start();
    line.starts_with("use ") || line.starts_with("ghost use ")
}

/// The parts of a list between braces: a comma within inner braces parts nothing.
fn parts(list: &str) -> Vec<&str> {
    let mut depth = 0;
    let mut found = Vec::new();
    let mut from = 0;
    for (at, c) in list.char_indices() {
        match c {
            '{' => depth += 1,
            '}' => depth -= 1,
            ',' if depth == 0 => {
                found.push(&list[from..at]);
                from = at + 1;
            }
            _ => {}
        }
    }
    found.push(&list[from..]);
    found.into_iter().map(str::trim).collect()
}

/// The last word of a path: modules of definitions are parted by `.`, those of code by `::`.
fn last(path: &str) -> &str {
    path.trim().rsplit([':', '.']).next().unwrap_or(path)
}

/// The names that a path brings, also one with a list behind it, and lists within.
fn names_of(path: &str) -> Vec<String> {
    if let Some((head, list)) = path.split_once('{') {
        let list = list.trim_end();
        let own = |name: &str| match name {
            "self" => vec![last(head.trim_end_matches([':', '.'])).to_string()],
            _ => names_of(name),
        };
        let list = list.strip_suffix('}').unwrap_or(list);
        let named = parts(list).into_iter().filter(|p| !p.is_empty());
        return named.flat_map(own).collect();
    }
    if let Some((_, name)) = path.rsplit_once(" as ") {
        return vec![name.trim().to_string()];
    }
    vec![last(path).to_string()]
}

/// The names that an import brings.
fn brought(line: &str) -> Vec<String> {
    let line = line.trim().trim_end_matches(';');
    let line = line.strip_prefix("ghost ").unwrap_or(line);
    names_of(line.strip_prefix("use ").unwrap_or(line))
}

/// A trait of std is brought for its methods too, and for the macros that call them.
const METHODS: [(&str, [&str; 5]); 2] = [
    (
        "Read",
        [
            ".read(",
            ".read_exact(",
            ".read_to_end(",
            ".bytes(",
            ".take(",
        ],
    ),
    (
        "Write",
        [".write(", ".write_all(", ".flush(", "write!(", "writeln!("],
    ),
];

/// An operator's name has a hole, `◌`, at each of its places: `◌+◌`.
fn is_used(body: &str, name: &str) -> bool {
    if name.contains('◌') {
        let mut parts = name.split('◌').filter(|p| !p.is_empty());
        return parts.all(|p| has_operator(body, p));
    }
    if !name.starts_with(|c: char| c.is_alphanumeric()) {
        return body.contains(name);
    }
    let is_called = |m: &(&str, [&str; 5])| m.0 == name && m.1.iter().any(|c| body.contains(c));
    has_word(body, name) || METHODS.iter().any(is_called)
}

pub fn check(texts: &[Text]) -> Vec<Finding> {
    let mut found = Vec::new();
    for text in texts {
        let body: Vec<&str> = text
            .lines
            .iter()
            .filter(|l| !is_import(l))
            .map(|l| code(l))
            .collect();
        let body = body.join("\n");
        for (i, line) in text.lines.iter().enumerate().filter(|(_, l)| is_import(l)) {
            for name in brought(line).iter().filter(|n| !is_used(&body, n)) {
                found.push(finding(
                    &text.path,
                    i + 1,
                    format!("`{name}` is imported and not used"),
                ));
            }
        }
    }
    found
}

#[cfg(test)]
mod tests {
    use super::*;

    fn names(text: &str) -> usize {
        check(&[Text::new("crates/a/proofs/A.antt", text)]).len()
    }

    #[test]
    fn unused_ones_are_found() {
        assert_eq!(names("use m.{a, ◌∷◌}\nb = a ∷ c"), 0);
        assert_eq!(names("use m.{a, ◌∷◌}\nb = d -- a ∷ c"), 2);
        assert_eq!(names("use m as tie\nb = tie.close"), 0);
        assert_eq!(names("use m as tie\nb = close"), 1);
        assert_eq!(names("use m.{a as b}\nc = b"), 0);
        assert_eq!(names("use m.{a as b}\nc = a"), 1);
        assert_eq!(names("use frame::Decision;\nlet d = 1;"), 1);
        assert_eq!(names("ghost use m.{[]};\n    ensures { [] }"), 0);
    }

    #[test]
    fn operators_are_found() {
        assert_eq!(names("use m.{◌+◌, ◌++◌}\nb = a ++ c"), 1);
        assert_eq!(names("use m.{◌-◌}\nb = length-drop a"), 1);
        assert_eq!(names("use m.{◌-◌}\nb : ℕ → ℕ"), 1);
        assert_eq!(names("use m.{◌-◌}\nb = (a - c)"), 0);
        assert_eq!(names("use m.{◌+◌}\nb = ap (◌+◌ 1) p"), 0);
        assert_eq!(names("ghost use m.{◌<◌};\nfn f(v: Vec<u8>)"), 1);
    }

    #[test]
    fn lists_of_code_are_parted() {
        assert_eq!(names("use a::{B, C};\nlet d = B;"), 1);
        assert_eq!(names("use a::{B, C};\nlet d: C = B;"), 0);
        assert_eq!(
            names("use std::{env, fs, io::{self, Error}};\nenv::args()"),
            3
        );
        assert_eq!(
            names("use std::{env, fs, io::{self, Error}};\nfs::open(env::args()) io::x Error"),
            0
        );
        assert_eq!(names("use std::io::{Read, Write};\nto.flush();"), 1);
        assert_eq!(names("use std::io::Write;\nlet to = 1;"), 1);
    }
}
