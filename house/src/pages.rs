//! What the pages name is there: files, edits and crates. The papers behind the rules are named in the rule book alone.
use crate::tree::{Finding, Text, finding};
use std::collections::BTreeMap;
use std::path::Path;

/// The words between backquotes of a line.
fn quoted(line: &str) -> Vec<&str> {
    line.split('`').skip(1).step_by(2).collect()
}

/// A word that names a file of the repository by its path: below the root or below `crates/`.
fn is_path(word: &str) -> bool {
    let has_ending = [".antt", ".rt", ".edit", ".md", ".h", ".c", ".rs"]
        .iter()
        .any(|e| word.ends_with(e));
    // `specs/Lib.antt` is any crate's, `crates/NAME` stands for a name
    let is_any = ["src/", "specs/", "proofs/", "must-fail/"]
        .iter()
        .any(|f| word.starts_with(f));
    has_ending
        && word.contains('/')
        && !is_any
        && !word.contains("NAME")
        && !word.contains([' ', '*', '{', '…'])
}

pub fn check_paths(root: &Path, pages: &[Text]) -> Vec<Finding> {
    let mut found = Vec::new();
    for page in pages {
        for (i, line) in page.lines.iter().enumerate() {
            for word in quoted(line).into_iter().filter(|w| is_path(w)) {
                if !["", "crates/", "docs/"]
                    .iter()
                    .any(|f| root.join(f).join(word).exists())
                {
                    found.push(finding(&page.path, i + 1, format!("`{word}` is not there")));
                }
            }
        }
    }
    found
}

/// `crate/name` of an edit's path.
fn edit_name(edit: &Text) -> String {
    let name = edit
        .path
        .rsplit('/')
        .next()
        .unwrap_or("")
        .trim_end_matches(".edit");
    format!("{}/{name}", edit.crate_name())
}

/// Each edit is named on the page of promises, by crate and name.
pub fn check_edits_named(edits: &[Text], promises: &Text) -> Vec<Finding> {
    let page = promises.lines.join("\n");
    let is_named = |e: &&Text| !page.contains(&format!("`{}`", edit_name(e)));
    edits
        .iter()
        .filter(is_named)
        .map(|e| finding(&e.path, 1, format!("{} does not name it", promises.path)))
        .collect()
}

/// The pairs of an edit, old text and new, each with the file that it stands in; an old text with no new one has none.
fn pairs(edit: &Text) -> Vec<(&str, &str, Option<&str>)> {
    let mut file = "";
    let mut found = Vec::new();
    for line in &edit.lines {
        if let Some(path) = line.strip_prefix("file: ") {
            file = path;
        } else if let Some(old) = line.strip_prefix("old: ") {
            found.push((file, old, None));
        } else if let Some(new) = line.strip_prefix("new:") {
            match found.last_mut() {
                Some(pair) if pair.2.is_none() => {
                    pair.2 = Some(new.strip_prefix(' ').unwrap_or(new))
                }
                _ => found.push((file, "", Some(new))),
            }
        }
    }
    found
}

/// What an edit replaces stands once in its file; each further pair of lines applies to what the earlier ones made.
pub fn check_edits(root: &Path, edits: &[Text]) -> Vec<Finding> {
    let mut found = Vec::new();
    for edit in edits {
        let mut texts = BTreeMap::new();
        let pairs = pairs(edit);
        if pairs.is_empty() {
            found.push(finding(&edit.path, 1, "it replaces nothing".to_string()));
        }
        for (file, old, new) in pairs {
            let path = root.join("crates").join(edit.crate_name()).join(file);
            let text = texts
                .entry(file)
                .or_insert_with(|| std::fs::read_to_string(path).unwrap_or_default());
            let times = if old.is_empty() {
                0
            } else {
                text.matches(old).count()
            };
            if times != 1 {
                let what = format!("what it replaces stands {times} times in {file}");
                found.push(finding(&edit.path, 1, what));
            }
            match new {
                Some(new) if times == 1 => *text = text.replacen(old, new, 1),
                Some(_) => {}
                None => {
                    let what = format!("no new text stands for `{old}`");
                    found.push(finding(&edit.path, 1, what));
                }
            }
        }
    }
    found
}

/// `crates.txt` lists every folder of `crates/`, and no other. What else is said of a crate stands behind its name.
pub fn check_crates(list: &Text, folders: &[String]) -> Vec<Finding> {
    let listed: Vec<&str> = list
        .lines
        .iter()
        .filter(|l| !l.starts_with('#'))
        .filter_map(|l| l.split_once(':')?.0.split_whitespace().next())
        .collect();
    let missing = folders
        .iter()
        .filter(|f| !listed.contains(&f.as_str()))
        .map(|f| finding(&list.path, 1, format!("`{f}` is not listed")));
    let extra = listed
        .iter()
        .filter(|l| !folders.iter().any(|f| f == *l))
        .map(|l| finding(&list.path, 1, format!("`{l}` is no folder")));
    missing.chain(extra).collect()
}

/// The crates name rules of the book and not the papers behind them.
pub fn check_papers(texts: &[Text]) -> Vec<Finding> {
    let mut found = Vec::new();
    for text in texts {
        for (i, line) in text.lines.iter().enumerate() {
            let line = line.to_lowercase();
            if line.contains("document 01") || line.contains("document 02") {
                found.push(finding(
                    &text.path,
                    i + 1,
                    "names a paper and not a rule of the book".to_string(),
                ));
            }
        }
    }
    found
}

#[cfg(test)]
mod tests {
    use super::*;

    #[test]
    fn a_path_that_is_not_there_is_found() {
        let root = Path::new(env!("CARGO_MANIFEST_DIR")).join("..");
        let page = Text::new(
            "docs/P.md",
            "`house/src/main.rs` and `house/src/nothing.rs`, `a b/c.md`, `main.rs`, `specs/Lib.antt`",
        );
        assert_eq!(check_paths(&root, &[page]).len(), 1);
    }

    #[test]
    fn an_edit_is_named_and_fits() {
        let edit = Text::new(
            "crates/a/must-fail/late.edit",
            "# why\nfile: src/lib.rt\nold: x\nnew: y",
        );
        assert_eq!(
            check_edits_named(&[edit], &Text::new("docs/P.md", "`a/late`")),
            []
        );
        let edit = || {
            Text::new(
                "crates/a/must-fail/late.edit",
                "# why\nfile: src/lib.rt\nold: x\nnew: y",
            )
        };
        assert_eq!(
            check_edits_named(&[edit()], &Text::new("docs/P.md", "`a/later`")).len(),
            1
        );
        assert_eq!(check_edits(Path::new("/nowhere"), &[edit()]).len(), 1);
    }

    #[test]
    fn each_pair_of_an_edit_stands_once() {
        let root = std::env::temp_dir().join(format!("house-edits-{}", std::process::id()));
        std::fs::create_dir_all(root.join("crates/a/src")).unwrap();
        std::fs::write(root.join("crates/a/src/lib.rt"), "x y y").unwrap();
        std::fs::write(root.join("crates/a/src/more.rt"), "v").unwrap();
        let found = |pairs: &str| {
            let text = format!("# why\nfile: src/lib.rt\n{pairs}");
            let edit = Text::new("crates/a/must-fail/late.edit", &text);
            check_edits(&root, &[edit]).len()
        };
        let counts = [
            found("old: x\nnew: z"),
            found("old: y\nnew: z"),
            found("old: x\nnew: z\nold: z\nnew: x"),
            found("old: x\nnew: z\nold: x\nnew: z"),
            found("old: x\nnew: z\nfile: src/more.rt\nold: v\nnew:"),
            found("old: x\nnew: z\nfile: src/more.rt\nold: x\nnew: z"),
            found("old: x"),
            found("new: x"),
            found(""),
        ];
        std::fs::remove_dir_all(&root).unwrap();
        assert_eq!(counts, [0, 1, 0, 1, 0, 1, 1, 1, 1]);
    }

    #[test]
    fn the_list_of_crates_is_exact() {
        let list = Text::new("crates.txt", "# c\na staticlib: b\nb:");
        assert_eq!(check_crates(&list, &["a".into(), "b".into()]), []);
        assert_eq!(check_crates(&list, &["a".into(), "c".into()]).len(), 2);
        assert_eq!(check_crates(&list, &["a".into()]).len(), 1);
    }

    #[test]
    fn papers_are_found() {
        assert_eq!(
            check_papers(&[Text::new("crates/a/src/lib.rt", "// Document 01 says so")]).len(),
            1
        );
    }
}
