//! The example texts assemble to the models beside them, which plan to the lines stored beside them.

use repgypsum_host::enumerate::{Figures, Space};
use repgypsum_host::line::line;
use repgypsum_host::models::{sop, three_designs, tsptw};
use repgypsum_host::reference::read_model;
use repgypsum_host::text::{assemble, names};
use std::path::{Path, PathBuf};

/// The most states that an example may have.
const STATES: usize = 1_000;

fn directory() -> PathBuf {
    Path::new(env!("CARGO_MANIFEST_DIR")).join("../examples")
}

/// The names of the example texts.
fn examples() -> Vec<String> {
    let files = std::fs::read_dir(directory()).unwrap();
    let paths = files.map(|file| file.unwrap().path());
    let texts = paths.filter(|path| path.extension().is_some_and(|found| found == "dp"));
    let mut examples: Vec<String> = texts
        .map(|path| path.file_stem().unwrap().to_string_lossy().into_owned())
        .collect();
    examples.sort();
    examples
}

fn text(name: &str) -> String {
    std::fs::read_to_string(directory().join(format!("{name}.dp"))).unwrap()
}

fn model(name: &str) -> Vec<u8> {
    std::fs::read(directory().join(format!("{name}.model"))).unwrap()
}

#[test]
fn examples_print_their_lines() {
    let due = [
        "assembly-line",
        "loading-order",
        "open-stacks",
        "reload-hours",
        "sop",
        "tardiness",
        "three-designs",
        "tsptw",
    ];
    assert_eq!(examples(), due);
    for name in examples() {
        let out = directory().join(format!("{name}.out"));
        let printed = std::fs::read_to_string(out).unwrap();
        assert_eq!(printed, format!("{}\n", line(&model(&name))), "{name}");
    }
}

#[test]
fn texts_assemble_to_their_models() {
    for name in examples() {
        let assembled = assemble(&text(&name)).unwrap_or_else(|error| panic!("{name}: {error}"));
        assert_eq!(assembled, model(&name), "{name}");
    }
}

#[test]
fn models_typed_in_twice_agree() {
    let typed_in = [
        ("three-designs", three_designs()),
        ("tsptw", tsptw()),
        ("sop", sop()),
    ];
    for (name, bytes) in typed_in {
        assert_eq!(model(name), bytes, "{name}");
    }
}

/// Every example has true declarations, and its line states the cost that full enumeration finds.
#[test]
fn examples_are_cheapest_by_enumeration() {
    for name in examples() {
        let read = read_model(&model(&name)).unwrap();
        let space = Space::of(&read, STATES).unwrap();
        assert!(space.declarations_true(&read), "{name}");
        assert!(space.bounds_true(&read, Figures::Low), "{name}");
        let cheapest = space.to_go[0].unwrap();
        let due = format!("0 1 {cheapest} {cheapest} ");
        let line = line(&model(&name));
        assert!(line.starts_with(&due), "{name}");
        // At low figures the plan costs no less than the cheapest at those, and no more than at high ones.
        let low: i64 = line.split(' ').nth(8).unwrap().parse().unwrap();
        let least = space.least_to_go(Figures::Low)[0].unwrap();
        assert!(least <= low && low <= cheapest, "{name}");
        let ranges = text(&name).contains(" high ");
        assert_eq!(low < cheapest, ranges, "{name}");
    }
}

/// Every transition of the examples has a name.
#[test]
fn examples_name_their_steps() {
    for name in examples() {
        let read = read_model(&model(&name)).unwrap();
        let names = names(&text(&name)).unwrap();
        assert_eq!(names.transitions.len(), read.transitions.len());
        assert!(names.transitions.iter().all(Option::is_some), "{name}");
    }
}
