//! Every planted slip can be planted: its files exist, and each old text stands exactly once.

use repgypsum_host::edit::{edits, Edit};
use std::path::{Path, PathBuf};

fn root() -> PathBuf {
    Path::new(env!("CARGO_MANIFEST_DIR")).join("..")
}

/// What is wrong with the edits of a folder, whose files are named from another.
fn troubles(folder: &Path, named_from: &Path) -> (usize, Vec<String>) {
    let edits = edits(folder).expect("the edits can be read");
    let mut troubles = Vec::new();
    for (name, text) in &edits {
        let made = Edit::read(text).and_then(|edit| edit.made(named_from));
        if let Err(trouble) = made {
            troubles.push(format!("{}/{name}: {trouble}", folder.display()));
        }
    }
    (edits.len(), troubles)
}

/// The slips of a kind apply, each to one file of its own side.
fn slips_apply(kind: &str, sides: &[&str], least: usize) {
    let folder = root().join("host/slips").join(kind);
    let (count, troubles) = troubles(&folder, &root());
    println!("{count} slips of {kind}");
    assert!(count >= least);
    assert_eq!(troubles, Vec::<String>::new());
    for (name, text) in edits(&folder).unwrap() {
        let replacements = Edit::read(&text).unwrap().replacements;
        let file = &replacements[0].file;
        assert!(sides.iter().any(|side| file.starts_with(side)), "{name}");
        assert!(replacements.iter().all(|one| one.file == *file), "{name}");
    }
}

#[test]
fn slips_of_the_definitions_apply() {
    let sides = ["crates/model/specs/", "crates/search/specs/"];
    slips_apply("definitions", &sides, 50);
}

#[test]
fn slips_of_the_reference_apply() {
    slips_apply("reference", &["host/src/reference/"], 60);
}

#[test]
fn must_fail_edits_apply() {
    let mut total = 0;
    let mut found = Vec::new();
    for entry in std::fs::read_dir(root().join("crates")).expect("there are crates") {
        let part = entry.expect("a crate can be listed").path();
        let folder = part.join("must-fail");
        if folder.exists() {
            let (count, troubles) = troubles(&folder, &part);
            total += count;
            found.extend(troubles);
        }
    }
    println!("{total} must-fail edits");
    assert!(total >= 80);
    assert_eq!(found, Vec::<String>::new());
}

/// The edits that the form does not allow.
#[test]
fn wrong_edits() {
    for (text, told) in [
        ("No pairs.\nfile: a\n", "an edit has pairs"),
        ("No file.\nold: x\nnew: y\n", "a new: line has no file:"),
        (
            "No old text.\nfile: a\nnew: y\n",
            "a new: line has no file:",
        ),
        ("No new text.\nfile: a\nold: x\n", "an edit has pairs"),
    ] {
        let error = Edit::read(text).expect_err(text);
        assert!(error.starts_with(told), "{text}: {error}");
    }
    let made = |old: &str| {
        let text = format!("A fault.\nfile: host/Cargo.toml\nold: {old}\nnew:\n");
        Edit::read(&text).and_then(|edit| edit.made(&root()))
    };
    assert!(made("name = \"repgypsum-host\"").is_ok());
    assert!(made("[[bin]]").is_err(), "the text stands more than once");
    assert!(
        made("no such text").is_err(),
        "the text does not stand there"
    );
}
