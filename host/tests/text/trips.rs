//! Bytes to text and back: typed-in, stored, generated, damaged and smallest models.

use super::{example_texts, round_trip};
use repgypsum_host::build::*;
use repgypsum_host::cases::groups;
use repgypsum_host::generate::{damaged, model, Random};
use repgypsum_host::line::line;
use repgypsum_host::models::{sop, three_designs, tsptw, Designs};
use repgypsum_host::numbers::limit;
use repgypsum_host::text::assemble;
use std::path::Path;

#[test]
fn typed_in_models() {
    let varied = Designs {
        rule: LARGEST,
        start: 0,
        bound: Some(i32::MIN),
        constraint: Some(not(same(elem(1), obj(2)))),
    };
    for bytes in [three_designs(), tsptw(), sop(), varied.bytes()] {
        assert!(round_trip(&bytes));
    }
    let texts = example_texts();
    let assembled: Vec<Bytes> = texts.iter().map(|text| assemble(text).unwrap()).collect();
    assert_eq!(assembled[..3], [three_designs(), tsptw(), sop()]);
}

#[test]
fn stored_cases() {
    let (mut accepted, mut refused) = (0, 0);
    for (_, cases) in groups() {
        for case in cases {
            *if round_trip(case.call.model()) {
                &mut accepted
            } else {
                &mut refused
            } += 1;
        }
    }
    println!("{accepted} stored models accepted, {refused} refused");
    assert!(accepted >= 300 && refused >= 100);
}

#[test]
fn generated_models() {
    let mut random = Random::new(0x7E87);
    for _ in 0..6_000 {
        assert!(round_trip(&model(&mut random).end()));
    }
    let mut accepted = 0;
    for _ in 0..6_000 {
        let build = model(&mut random);
        accepted += usize::from(round_trip(&damaged(&mut random, &build)));
    }
    println!("6000 well made, {accepted} of 6000 damaged accepted");
    assert!(accepted >= 100);
}

#[test]
fn smallest_models() {
    assert!(round_trip(&Build::new(SUM).end()));
    assert!(round_trip(
        &Build::new(LARGEST)
            .transition(&[], lit(0), &[])
            .base(&[])
            .end()
    ));
    assert!(!round_trip(&[]));
    assert!(!round_trip(&vec![0; limit::MODEL_BYTES + 1]));
}

/// The example of docs/TEXT.md, the indented block under its heading.
fn page_example() -> String {
    let page = Path::new(env!("CARGO_MANIFEST_DIR")).join("../docs/TEXT.md");
    let page = std::fs::read_to_string(page).unwrap();
    let section = page.split("## An example\n").nth(1).unwrap();
    let indented = |line: &&str| line.is_empty() || line.starts_with("    ");
    let lines: Vec<&str> = section.lines().take_while(indented).collect();
    lines.join("\n")
}

#[test]
fn the_page_has_an_example_that_plans() {
    let bytes = assemble(&page_example()).unwrap();
    assert!(round_trip(&bytes));
    assert_eq!(line(&bytes), "0 1 5 5 2 4 2 2 5 : 0 1");
}
