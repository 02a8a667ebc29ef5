//! Each definition begins with a comment that names its rule, and the rule book's index is made of these comments.
use crate::definitions::{self, Kind};
use crate::tree::{Finding, Text, finding};
use std::collections::BTreeMap;

/// Said at the head of a file of definitions that belong to no rule.
const NO_RULE: &str = "no rule is here";

const INDEX: &str = "## Index";

/// The rules that a comment begins with: `R12.` or `R12, R13.`
pub fn named(comment: &str) -> Vec<u32> {
    let head = comment.split('.').next().unwrap_or("");
    let numbers: Option<Vec<u32>> = head
        .split(',')
        .map(|r| r.trim().strip_prefix('R')?.parse().ok())
        .collect();
    numbers.unwrap_or_default()
}

/// The rules that the book has.
fn of_book(book: &Text) -> Vec<u32> {
    let number = |l: &String| l.strip_prefix("**R")?.split('.').next()?.parse().ok();
    book.lines.iter().filter_map(number).collect()
}

pub fn check_comments(texts: &[Text], book: &Text) -> Vec<Finding> {
    let rules = of_book(book);
    let mut found = Vec::new();
    for text in texts.iter().filter(|t| t.is_spec()) {
        let has_none = text.lines.first().is_some_and(|l| l.contains(NO_RULE));
        for d in definitions::of(text)
            .iter()
            .filter(|d| d.kind != Kind::Constructor)
        {
            let names = named(&d.comment);
            if d.comment.is_empty() {
                found.push(finding(
                    &text.path,
                    d.line,
                    format!("`{}` has no comment", d.name),
                ));
            } else if names.is_empty() && !has_none && !d.comment.starts_with("Theorem.") {
                found.push(finding(
                    &text.path,
                    d.line,
                    format!("the comment of `{}` names no rule", d.name),
                ));
            }
            for r in names.iter().filter(|r| !rules.contains(r)) {
                found.push(finding(
                    &text.path,
                    d.line,
                    format!("`{}` names R{r}, which the book does not have", d.name),
                ));
            }
        }
    }
    found
}

/// The index: a row for each file in which definitions name a rule, rule by rule.
pub fn index(texts: &[Text]) -> Vec<String> {
    let mut rules: BTreeMap<u32, Vec<(String, Vec<String>)>> = BTreeMap::new();
    for text in texts.iter().filter(|t| t.is_spec()) {
        for d in definitions::of(text) {
            for r in named(&d.comment) {
                let files = rules.entry(r).or_default();
                let path = text.path.trim_start_matches("crates/");
                match files.last_mut() {
                    Some((last, names)) if last == path => names.push(format!("`{}`", d.name)),
                    _ => files.push((path.to_string(), vec![format!("`{}`", d.name)])),
                }
            }
        }
    }
    let rows = |(r, files): (u32, Vec<(String, Vec<String>)>)| {
        files
            .into_iter()
            .enumerate()
            .map(move |(i, (path, names))| {
                let rule = if i == 0 {
                    format!("R{r} ")
                } else {
                    String::new()
                };
                format!("| {rule}| `{path}` | {} |", names.join(", "))
            })
    };
    rules.into_iter().flat_map(rows).collect()
}

/// Where the rows of the book's index begin: behind the head of its table.
fn rows_start(book: &Text) -> usize {
    let head = book.lines.iter().position(|l| l == INDEX).unwrap_or(0);
    let line = book.lines[head..]
        .iter()
        .position(|l| l.starts_with("|---"));
    line.map_or(book.lines.len(), |i| head + i + 1)
}

pub fn check_index(texts: &[Text], book: &Text) -> Vec<Finding> {
    let wanted = index(texts);
    let start = rows_start(book);
    let there = &book.lines[start..];
    if there == wanted.as_slice() {
        return Vec::new();
    }
    let same = there
        .iter()
        .zip(&wanted)
        .take_while(|(a, b)| a == b)
        .count();
    let row = wanted.get(same).map_or("nothing more", |w| w.as_str());
    let what = format!(
        "the index is not that of the comments (write it by --index); here should be: {row}"
    );
    vec![finding(&book.path, start + same + 1, what)]
}

/// The book with the index that the comments make.
pub fn with_index(texts: &[Text], book: &Text) -> String {
    let mut lines = book.lines[..rows_start(book)].to_vec();
    lines.extend(index(texts));
    lines.join("\n") + "\n"
}

#[cfg(test)]
mod tests {
    use super::*;

    fn book() -> Text {
        Text::new(
            "docs/RULES.md",
            "**R1. One.** (01)\n**R2. Two.** (01)\n\n## Index\n\nWords.\n\n| rule | file | definitions |\n|---|---|---|\n| R1 | `a/specs/A.antt` | `x` |\n",
        )
    }

    fn spec(text: &str) -> Text {
        Text::new("crates/a/specs/A.antt", text)
    }

    #[test]
    fn rules_at_the_front_count() {
        assert_eq!(named("R12. The step."), [12]);
        assert_eq!(named("R1, R22. Both."), [1, 22]);
        assert_eq!(named("The step of R12."), []);
    }

    #[test]
    fn comments_are_wanted() {
        let none = "-- File.\nabbrev pub x : ℕ\n";
        let plain = "-- File.\n\n-- The x.\nabbrev pub x : ℕ\n";
        let ruled = "-- File.\n\n-- R2. The x.\nabbrev pub x : ℕ\n";
        let strange = "-- File.\n\n-- R3. The x.\nabbrev pub x : ℕ\n";
        let scaffold = "-- Laws: no rule is here.\n\n-- The x.\nabbrev pub x : ℕ\n";
        assert_eq!(check_comments(&[spec(plain)], &book()).len(), 1);
        assert_eq!(check_comments(&[spec(none)], &book()).len(), 1);
        assert_eq!(check_comments(&[spec(ruled)], &book()), []);
        assert_eq!(check_comments(&[spec(strange)], &book()).len(), 1);
        assert_eq!(check_comments(&[spec(scaffold)], &book()), []);
    }

    #[test]
    fn the_index_is_that_of_the_comments() {
        let one = spec("-- F.\n\n-- R1. X.\nabbrev pub x : ℕ\n");
        assert_eq!(check_index(&[one], &book()), []);
        let two = || spec("-- F.\n\n-- R1. X.\nabbrev pub x : ℕ\n\n-- R2. Y.\nabbrev pub y : ℕ\n");
        assert_eq!(check_index(&[two()], &book()).len(), 1);
        let made = Text::new("docs/RULES.md", &with_index(&[two()], &book()));
        assert_eq!(check_index(&[two()], &made), []);
        assert!(made.lines.contains(&"Words.".to_string()));
    }
}
