//! The files of the repository, as the checks see them.
use std::fs;
use std::path::{Path, PathBuf};

/// A text file: its path below the root, with `/` between folders, and its lines.
pub struct Text {
    pub path: String,
    pub lines: Vec<String>,
}

impl Text {
    pub fn new(path: &str, text: &str) -> Text {
        Text {
            path: path.to_string(),
            lines: text.lines().map(str::to_string).collect(),
        }
    }

    /// The crate that a file under `crates/` belongs to.
    pub fn crate_name(&self) -> &str {
        self.path.split('/').nth(1).unwrap_or("")
    }

    pub fn is_spec(&self) -> bool {
        self.path.split('/').nth(2) == Some("specs")
            && self.path.ends_with(".antt")
            && !self.path.ends_with("/Lib.antt")
    }

    pub fn is_source(&self) -> bool {
        self.path.ends_with(".rt")
    }
}

/// Something that is out of order.
#[derive(Debug, PartialEq)]
pub struct Finding {
    pub path: String,
    pub line: usize,
    pub what: String,
}

pub fn finding(path: &str, line: usize, what: String) -> Finding {
    Finding {
        path: path.to_string(),
        line,
        what,
    }
}

/// What the kit makes of a crate stands in its `out/` and is nobody's text.
fn walk(folder: &Path, found: &mut Vec<PathBuf>) {
    let Ok(entries) = fs::read_dir(folder) else {
        return;
    };
    for entry in entries.flatten() {
        let path = entry.path();
        if path.is_dir() && path.ends_with("out") {
            continue;
        }
        if path.is_dir() {
            walk(&path, found);
        } else {
            found.push(path);
        }
    }
}

/// All text files under a folder of the root with one of these endings, in order of their paths.
pub fn texts(root: &Path, folder: &str, endings: &[&str]) -> Vec<Text> {
    let mut paths = Vec::new();
    walk(&root.join(folder), &mut paths);
    paths.sort();
    paths
        .iter()
        .filter(|p| endings.iter().any(|e| p.to_string_lossy().ends_with(e)))
        .filter_map(|p| {
            let name = p
                .strip_prefix(root)
                .ok()?
                .to_string_lossy()
                .replace('\\', "/");
            Some(Text::new(&name, &fs::read_to_string(p).ok()?))
        })
        .collect()
}

/// What stands before a comment in a line of Rattle or of its definitions.
pub fn code(line: &str) -> &str {
    let cut = [line.find("--"), line.find("//")]
        .into_iter()
        .flatten()
        .min();
    &line[..cut.unwrap_or(line.len())]
}

fn is_name_char(c: char) -> bool {
    c.is_alphanumeric() || matches!(c, '_' | '\'' | '-' | '?' | '!')
}

/// The name stands in the text as a word of its own.
pub fn has_word(text: &str, name: &str) -> bool {
    text.match_indices(name).any(|(at, _)| {
        let before = text[..at].chars().next_back();
        let behind = text[at + name.len()..].chars().next();
        !before.is_some_and(is_name_char) && !behind.is_some_and(is_name_char)
    })
}

/// What can stand beside an operator: nothing, a space, a bracket, or the holes of its name.
fn is_beside(c: Option<char>) -> bool {
    c.is_none_or(|c| c.is_whitespace() || "()[]{},;◌".contains(c))
}

/// The operator stands in the text as a word of its own.
pub fn has_operator(text: &str, operator: &str) -> bool {
    text.match_indices(operator).any(|(at, _)| {
        is_beside(text[..at].chars().next_back())
            && is_beside(text[at + operator.len()..].chars().next())
    })
}

#[cfg(test)]
mod tests {
    use super::*;

    #[test]
    fn a_word_is_whole() {
        assert!(has_word("f (run_of d) n", "run_of"));
        assert!(!has_word("f (run_of_it d) n", "run_of"));
        assert!(!has_word("f re-run_of n", "run_of"));
        assert!(has_word("d.run_of", "run_of"));
    }

    #[test]
    fn an_operator_is_whole() {
        assert!(has_operator("a + b", "+"));
        assert!(has_operator("ap (◌+◌) p", "+"));
        assert!(!has_operator("a ++ b", "+"));
        assert!(!has_operator("length-drop", "-"));
        assert!(!has_operator("Vec<u8>", "<"));
        assert!(!has_operator("a → b", "-"));
    }

    #[test]
    fn what_the_kit_makes_is_no_text() {
        let root = std::env::temp_dir().join(format!("house-{}", std::process::id()));
        for folder in ["crates/a/src", "crates/a/out/rlib/src"] {
            fs::create_dir_all(root.join(folder)).unwrap();
            fs::write(root.join(folder).join("lib.rt"), "//").unwrap();
        }
        let found = texts(&root, "crates", &[".rt"]);
        fs::remove_dir_all(&root).unwrap();
        let paths: Vec<&str> = found.iter().map(|t| t.path.as_str()).collect();
        assert_eq!(paths, ["crates/a/src/lib.rt"]);
    }

    #[test]
    fn comments_are_no_code() {
        assert_eq!(code("a = b -- run_of"), "a = b ");
        assert_eq!(code("// run_of"), "");
    }
}
