//! Every command on damaged texts, tables, quotations and models: an answer or a clear error, and no file changed.

use super::{example, run, Left};
use repgypsum_host::generate::Random;
use std::collections::BTreeMap;
use std::path::{Path, PathBuf};

/// How many damaged inputs of each sort.
const TRIES: usize = 60;

/// A folder with the tour of twenty and a quotation of it, made for the test of this name.
fn folder(name: &str) -> PathBuf {
    let folder = Path::new(env!("CARGO_TARGET_TMPDIR"))
        .join("fuzz")
        .join(name);
    let _ = std::fs::remove_dir_all(&folder);
    std::fs::create_dir_all(&folder).unwrap();
    for file in ["tour.dp", "steps.dp", "travel.csv", "places.csv"] {
        let from = example(&format!("tsptw-20/{file}"));
        std::fs::copy(from, folder.join(file)).unwrap();
    }
    let quotation = text(&folder.join("tour.quote"));
    let left = run(&[
        "plan",
        "--quote",
        &quotation,
        &text(&folder.join("tour.dp")),
    ]);
    assert_eq!(left.status, 0, "{}", left.errors);
    folder
}

fn text(path: &Path) -> String {
    path.to_str().expect("a path in plain text").to_string()
}

/// The content of every file in the folder.
fn contents(folder: &Path) -> BTreeMap<PathBuf, Vec<u8>> {
    let files = std::fs::read_dir(folder).unwrap();
    let paths = files.map(|file| file.unwrap().path());
    paths
        .map(|path| (path.clone(), std::fs::read(path).unwrap()))
        .collect()
}

/// Bytes changed, put in, taken out or doubled, a few times.
fn damaged(random: &mut Random, original: &[u8]) -> Vec<u8> {
    let mut bytes = original.to_vec();
    for _ in 0..1 + random.below(3) {
        let at = random.below(bytes.len());
        let until = (at + 1 + random.below(12)).min(bytes.len());
        let some = random.pick(&[
            b'0', b'9', b',', b':', b' ', b'\n', b'"', b'-', b'a', 0, 0xFF, b'=',
        ]);
        match random.below(5) {
            0 => bytes[at] = some,
            1 => bytes.insert(at, some),
            2 => drop(bytes.drain(at..until)),
            3 => {
                let part = bytes[at..until].to_vec();
                drop(bytes.splice(at..at, part));
            }
            _ => bytes.truncate(at.max(1)),
        }
        if bytes.is_empty() {
            bytes.push(some);
        }
    }
    bytes
}

/// The program ended by itself, with an answer or with whole lines that say what is wrong.
fn clear(left: &Left, damaged: &str) {
    assert!((0..=2).contains(&left.status), "{damaged}");
    assert!(!left.errors.contains("panicked"), "{}", left.errors);
    assert!(left.status != 2 || !left.errors.is_empty(), "{damaged}");
    if left.status == 2 {
        assert!(left.output.is_empty() && left.errors.ends_with('\n'));
        let places = ["repgypsum: ", ".dp:", ".csv:", ".quote:"];
        let told = places.iter().any(|place| left.errors.contains(place));
        assert!(told, "{}", left.errors);
    }
}

/// Runs the commands on each damaged form of the file, and sees that nothing in the folder is changed.
fn fuzz(name: &str, file: &str, commands: &[&[&str]]) {
    let folder = folder(name);
    let original = std::fs::read(folder.join(file)).unwrap();
    let mut random = Random::new(file.len() as u64 * 977);
    let mut statuses = [0; 3];
    for _ in 0..TRIES {
        std::fs::write(folder.join(file), damaged(&mut random, &original)).unwrap();
        let before = contents(&folder);
        for arguments in commands {
            let arguments: Vec<String> = arguments
                .iter()
                .map(|word| word.replace("FOLDER", &text(&folder)))
                .collect();
            let arguments: Vec<&str> = arguments.iter().map(String::as_str).collect();
            let left = run(&arguments);
            clear(&left, file);
            statuses[left.status as usize] += 1;
            assert_eq!(contents(&folder), before, "{arguments:?}");
        }
    }
    println!("{file}: exit statuses {statuses:?}");
    assert!(statuses[2] >= TRIES / 4, "{statuses:?}");
}

/// Commands on the tour, with small budgets, that write where a file is already.
const ON_TEXTS: [&[&str]; 7] = [
    &[
        "plan",
        "--budget",
        "300",
        "--quote",
        "FOLDER/tour.quote",
        "FOLDER/tour.dp",
    ],
    &[
        "explain",
        "--budget",
        "300",
        "--svg",
        "FOLDER/travel.csv",
        "FOLDER/tour.dp",
    ],
    &["check", "--plan", "visit p1, return", "FOLDER/tour.dp"],
    &[
        "declarations",
        "--states",
        "300",
        "--walks",
        "5",
        "FOLDER/tour.dp",
    ],
    &["assemble", "FOLDER/tour.dp"],
    &["expand", "FOLDER/tour.dp"],
    &[
        "plan",
        "--unconditional",
        "--budget",
        "300",
        "FOLDER/tour.dp",
    ],
];

#[test]
fn texts() {
    fuzz("texts", "tour.dp", &ON_TEXTS[2..]);
}

#[test]
fn included_texts() {
    fuzz("included", "steps.dp", &ON_TEXTS[2..]);
}

#[test]
fn tables() {
    fuzz("tables", "travel.csv", &ON_TEXTS[2..]);
    fuzz("lists", "places.csv", &ON_TEXTS[2..]);
}

/// Files that are there already stay as they are, whatever else goes wrong.
#[test]
fn files_that_are_there() {
    let folder = folder("there");
    let before = contents(&folder);
    for arguments in &ON_TEXTS[..2] {
        let arguments: Vec<String> = arguments
            .iter()
            .map(|word| word.replace("FOLDER", &text(&folder)))
            .collect();
        let arguments: Vec<&str> = arguments.iter().map(String::as_str).collect();
        let left = run(&arguments);
        assert_eq!(left.status, 2, "{}", left.errors);
        assert!(
            left.errors.contains("it is there already"),
            "{}",
            left.errors
        );
        assert_eq!(contents(&folder), before);
    }
}

#[test]
fn quotations() {
    fuzz(
        "quotations",
        "tour.quote",
        &[
            &["verify", "FOLDER/tour.quote"],
            &["verify", "FOLDER/tour.quote", "FOLDER/tour.dp"],
            &["compare", "FOLDER/tour.quote", "FOLDER/tour.quote"],
        ],
    );
}
