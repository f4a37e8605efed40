//! Refusals, verdicts, sizes and the fields of an answer have the names and numbers of the definitions, in Rust and in the C header.

use std::path::Path;

fn text(file: &str) -> String {
    let root = Path::new(env!("CARGO_MANIFEST_DIR")).join("..");
    std::fs::read_to_string(root.join(file)).expect("the file can be read")
}

/// The lines `name = number` of a text, where the line begins with these words; `model_too_long` as MODEL_TOO_LONG.
fn equations(text: &str, words: &str) -> Vec<(String, u64)> {
    let lines = text.lines().filter_map(|line| line.strip_prefix(words));
    let equations = lines.filter_map(|line| line.split_once(" = "));
    equations
        .filter_map(|(name, number)| Some((name.to_ascii_uppercase(), number.parse().ok()?)))
        .collect()
}

/// Whether the Rust module has the constant, of whatever type.
fn in_rust(name: &str, number: u64) -> bool {
    let text = text("host/src/numbers.rs").replace('_', "");
    let name = name.replace('_', "");
    let declares = |line: &str| line.trim_start().starts_with(&format!("pub const {name}:"));
    let mut lines = text.lines().filter(|line| declares(line));
    lines.any(|line| line.ends_with(&format!(" = {number};")))
}

/// Whether the C header has the name with this number.
fn in_c(name: &str, number: u64) -> bool {
    let header = text("host/repgypsum.h").replace('_', "");
    let word = format!("REPGYPSUM{} = {number}", name.replace('_', ""));
    let mut lines = header.lines().map(str::trim_start);
    lines.any(|line| {
        line.strip_prefix(&word)
            .is_some_and(|rest| !rest.starts_with(|c: char| c.is_ascii_digit()))
    })
}

#[test]
fn refusals_and_sizes() {
    let definitions = text("crates/model/specs/Numbers.antt");
    let (refusals, sizes) = definitions.split_once("---- sizes").expect("two parts");
    let refusals = equations(refusals, "");
    assert_eq!(refusals.len(), 16);
    for (name, number) in refusals {
        assert!(in_rust(&name, number) && in_c(&name, number), "{name}");
    }
    let sizes = equations(sizes, "most_");
    assert_eq!(sizes.len(), 13);
    for (name, number) in sizes {
        let name = match name.as_str() {
            "STEPS" => "LENGTH",
            name => name,
        };
        assert!(in_rust(name, number), "{name}");
    }
}

#[test]
fn verdicts() {
    let verdicts = equations(&text("crates/search/specs/Answer.antt"), "verdict_number ");
    assert_eq!(verdicts.len(), 6);
    for (name, number) in verdicts {
        assert!(in_rust(&name, number) && in_c(&name, number), "{name}");
    }
}

/// The names of a struct's fields, in order, from the lines that begin with `before`.
fn fields(file: &str, begins: &str, before: &str) -> Vec<String> {
    let text = text(file);
    let lines = text.lines().skip_while(|line| !line.starts_with(begins));
    let inside = lines.skip(1).take_while(|line| !line.starts_with('}'));
    let names = inside.filter_map(|line| line.trim_start().strip_prefix(before));
    names
        .map(|rest| {
            let name = rest.split_once("_t ").map_or(rest, |(_, name)| name);
            name.chars().take_while(char::is_ascii_lowercase).collect()
        })
        .collect()
}

#[test]
fn fields_of_an_answer() {
    let defined = fields(
        "crates/search_report/src/answers.rt",
        "pub struct Fields",
        "pub ",
    );
    assert_eq!(defined.len(), 10);
    assert_eq!(
        fields("host/src/answer.rs", "pub struct Answer", "pub "),
        defined
    );
    assert_eq!(
        fields("host/repgypsum.h", "struct repgypsum_answer {", "uint"),
        defined
    );
}
