//! The names that the definitions give, and the comments above them.
use crate::tree::Text;

#[derive(Debug, PartialEq)]
pub enum Kind {
    Definition,
    Type,
    Constructor,
}

#[derive(Debug)]
pub struct Definition {
    pub name: String,
    pub kind: Kind,
    /// from 1
    pub line: usize,
    /// the comment directly above, its lines joined
    pub comment: String,
}

fn name_at(rest: &str) -> String {
    rest.chars()
        .take_while(|c| !c.is_whitespace() && *c != ':' && *c != '(')
        .collect()
}

/// The name and kind that a line gives, if it gives one.
fn given(line: &str, in_data: bool) -> Option<(String, Kind)> {
    let mut rest = line.trim_start();
    let mut is_definition = false;
    while let Some(next) = ["unfoldable ", "abbrev ", "opaque "]
        .iter()
        .find_map(|w| rest.strip_prefix(w))
    {
        rest = next;
        is_definition = true;
    }
    if let Some(next) = rest.strip_prefix("pub ") {
        if let Some(next) = next.strip_prefix("record ").or(next.strip_prefix("data ")) {
            return Some((name_at(next), Kind::Type));
        }
        return is_definition.then(|| (name_at(next), Kind::Definition));
    }
    let is_constructor = in_data
        && line.starts_with("  ")
        && !line.starts_with("   ")
        && rest.contains(" : ")
        && !rest.starts_with("--");
    is_constructor.then(|| (name_at(rest), Kind::Constructor))
}

fn comment_above(lines: &[String], at: usize) -> String {
    let indent = |l: &str| l.len() - l.trim_start().len();
    let depth = indent(&lines[at]);
    let mut first = at;
    while first > 0
        && lines[first - 1].trim_start().starts_with("--")
        && indent(&lines[first - 1]) == depth
    {
        first -= 1;
    }
    let words: Vec<&str> = lines[first..at]
        .iter()
        .map(|l| l.trim_start().trim_start_matches("--").trim())
        .collect();
    words.join(" ")
}

pub fn of(text: &Text) -> Vec<Definition> {
    let mut found = Vec::new();
    let mut in_data = false;
    for (i, line) in text.lines.iter().enumerate() {
        if !line.is_empty() && !line.starts_with(' ') {
            in_data = line.starts_with("pub data ");
        }
        let inner = in_data && !line.starts_with("pub data ");
        if let Some((name, kind)) = given(line, inner) {
            found.push(Definition {
                name,
                kind,
                line: i + 1,
                comment: comment_above(&text.lines, i),
            });
        }
    }
    found
}

#[cfg(test)]
mod tests {
    use super::*;

    const TEXT: &str = "-- What the file holds.\n\n-- R1. First.\n-- And more.\nabbrev pub a : ℕ\na = 1\n\nunfoldable pub b? : ℕ\npub data D (A : Type 0) : Type 0 where\n  one : A → D A\n  -- why\n  two : D A\npub record E : Type 0 where\n  pub field : ℕ\nmodule _ where\n  -- R2. Inner.\n  unfoldable pub c : ℕ\n";

    #[test]
    fn names_kinds_and_comments() {
        let found = of(&Text::new("crates/a/specs/A.antt", TEXT));
        let names: Vec<&str> = found.iter().map(|d| d.name.as_str()).collect();
        assert_eq!(names, ["a", "b?", "D", "one", "two", "E", "c"]);
        assert_eq!(found[0].comment, "R1. First. And more.");
        assert_eq!(found[1].comment, "");
        assert_eq!(found[4].kind, Kind::Constructor);
        assert_eq!(found[6].comment, "R2. Inner.");
    }
}
