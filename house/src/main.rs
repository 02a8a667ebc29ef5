//! Keeps the house in order: how definitions are written, and what the pages say of them.
//! With `--index` it writes the index of the rule book instead.
mod definitions;
mod imports;
mod lines;
mod names;
mod pages;
mod rules;
mod tree;

use std::fs;
use std::path::{Path, PathBuf};
use std::process::ExitCode;
use tree::{Finding, Text};

fn page(root: &Path, name: &str) -> Text {
    Text::new(
        name,
        &fs::read_to_string(root.join(name)).unwrap_or_default(),
    )
}

fn folders(root: &Path) -> Vec<String> {
    let Ok(entries) = fs::read_dir(root.join("crates")) else {
        return Vec::new();
    };
    let is_folder = |e: &fs::DirEntry| e.path().is_dir();
    entries
        .flatten()
        .filter(is_folder)
        .map(|e| e.file_name().to_string_lossy().into_owned())
        .collect()
}

fn findings(root: &Path, texts: &[Text]) -> Vec<Finding> {
    let edits = tree::texts(root, "crates", &[".edit"]);
    let mut docs = tree::texts(root, "docs", &[".md"]);
    docs.extend([page(root, "README.md"), page(root, "CONTRIBUTING.md")]);
    let book = page(root, "docs/RULES.md");
    let mut found = lines::check(texts);
    found.extend(names::check(texts));
    found.extend(imports::check(texts));
    found.extend(rules::check_comments(texts, &book));
    found.extend(rules::check_index(texts, &book));
    found.extend(pages::check_papers(texts));
    found.extend(pages::check_papers(&edits));
    found.extend(pages::check_paths(root, &docs));
    found.extend(pages::check_edits_named(
        &edits,
        &page(root, "docs/PROMISES.md"),
    ));
    found.extend(pages::check_edits(root, &edits));
    found.extend(pages::check_crates(
        &page(root, "crates.txt"),
        &folders(root),
    ));
    found
}

fn main() -> ExitCode {
    let root = PathBuf::from(env!("CARGO_MANIFEST_DIR")).join("..");
    let texts = tree::texts(&root, "crates", &[".antt", ".rt"]);
    if std::env::args().any(|a| a == "--index") {
        let book = page(&root, "docs/RULES.md");
        return match fs::write(root.join("docs/RULES.md"), rules::with_index(&texts, &book)) {
            Ok(()) => ExitCode::SUCCESS,
            Err(e) => {
                eprintln!("docs/RULES.md: {e}");
                ExitCode::FAILURE
            }
        };
    }
    let found = findings(&root, &texts);
    for f in &found {
        println!("{}:{}: {}", f.path, f.line, f.what);
    }
    println!(
        "house: {} files of crates, {} things out of order",
        texts.len(),
        found.len()
    );
    if found.is_empty() {
        ExitCode::SUCCESS
    } else {
        ExitCode::FAILURE
    }
}
