//! The names of definitions and theorems that the pages and the command line cite stand in the crates.

mod tools;

use repgypsum_host::command::theorems::THEOREMS;
use repgypsum_host::quotation::KIT;
use std::collections::BTreeSet;
use std::path::Path;
use tools::root;

/// The pages, and the names in them that a landing took away.
const PAGES: [(&str, &[&str]); 6] = [
    ("README.md", &[]),
    ("CONTRIBUTING.md", &[]),
    ("docs/AUDIT.md", &[]),
    ("docs/DECISIONS.md", &[]),
    ("docs/FORMAT.md", &[]),
    (
        "docs/LANDINGS.md",
        &["complement_in", "cost_at", "move_on", "refusal_at_start"],
    ),
];

fn words(text: &str) -> impl Iterator<Item = &str> {
    let inside = |c: char| c.is_alphanumeric() || c == '_' || c == '\'';
    text.split(move |c: char| !inside(c))
}

/// Collects the words of the files below a folder, without what checks have made.
fn collect(folder: &Path, found: &mut BTreeSet<String>) {
    for entry in std::fs::read_dir(folder).expect("a folder") {
        let path = entry.expect("an entry").path();
        let name = path.file_name().unwrap_or_default().to_string_lossy();
        if path.is_dir() && name != "out" {
            collect(&path, found);
        } else if path.is_file() {
            if let Ok(text) = std::fs::read_to_string(&path) {
                found.extend(words(&text).map(str::to_string));
            }
        }
    }
}

/// A word in small letters with a `_` is a name; with one at its end, as in `search_…`, it is the front of several.
fn is_name(word: &str) -> bool {
    word.contains('_') && !word.ends_with('_') && word == word.to_lowercase()
}

#[test]
fn names_in_pages() {
    let mut known = BTreeSet::new();
    for folder in ["crates", "host/src"] {
        collect(&root().join(folder), &mut known);
    }
    for file in ["crates.txt", "host/repgypsum.h"] {
        let text = std::fs::read_to_string(root().join(file)).unwrap();
        known.extend(words(&text).map(str::to_string));
    }
    for (page, gone) in PAGES {
        let text = std::fs::read_to_string(root().join(page)).unwrap();
        let mut cited = 0;
        for line in text.lines() {
            for code in line.split('`').skip(1).step_by(2) {
                for word in words(code).filter(|word| is_name(word)) {
                    let stands = known.contains(word) || gone.contains(&word);
                    assert!(stands, "{page} names {word}, which no crate has: {line}");
                    cited += 1;
                }
            }
        }
        println!("{page}: {cited} names");
    }
}

/// README names the kit that the file kit has.
#[test]
fn kit_in_readme() {
    let text = std::fs::read_to_string(root().join("README.md")).unwrap();
    assert!(text.contains(&format!("`{}`", KIT.trim())));
}

#[test]
fn theorems_that_answers_cite() {
    for theorem in &THEOREMS {
        let text = std::fs::read_to_string(root().join(theorem.file)).unwrap();
        let begins = format!("pub {} :", theorem.name);
        let stated = text.lines().map(str::trim_start);
        let count = stated.filter(|line| line.starts_with(&begins)).count();
        assert_eq!(count, 1, "{} in {}", theorem.name, theorem.file);
    }
}
