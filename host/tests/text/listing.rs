//! The listing has the expressions of the text, in the same order.

use repgypsum_host::generate::{model, Random};
use repgypsum_host::reference::read_model;
use repgypsum_host::text::{disassemble, Listing, Names};

/// The lines with expressions that the text of such a listing has.
fn lines(listing: &Listing, names: &Names) -> Vec<String> {
    let mut lines = Vec::new();
    for step in &listing.transitions {
        lines.extend(step.conditions.iter().map(|text| format!("when {text}")));
        lines.push(format!("cost {}", step.cost));
        lines.extend(step.high.iter().map(|text| format!("high {text}")));
        for (variable, value) in &step.effects {
            lines.push(format!("{} := {value}", names.variable(*variable)));
        }
    }
    for conditions in &listing.base_cases {
        lines.extend(conditions.iter().map(|text| format!("when {text}")));
    }
    let constraints = listing.constraints.iter();
    lines.extend(constraints.map(|text| format!("constraint {text}")));
    lines.extend(listing.bounds.iter().map(|text| format!("bound {text}")));
    lines
}

#[test]
fn listings_are_the_text() {
    let mut random = Random::new(0x1157);
    for _ in 0..2_000 {
        let bytes = model(&mut random).end();
        let names = Names::by_number(&read_model(&bytes).unwrap());
        let listing = Listing::of(&bytes, &names).unwrap();
        let text = disassemble(&bytes).unwrap();
        let from = text.find("\ntransition:").or(text.find("\nbase:"));
        let from = from
            .or(text.find("\nconstraint "))
            .or(text.find("\nbound "));
        let commands = &text[from.unwrap_or(text.len())..];
        let written = commands.lines().map(str::trim);
        let written = written.filter(|line| {
            !line.is_empty() && !line.starts_with("transition:") && !line.starts_with("base:")
        });
        assert_eq!(lines(&listing, &names), written.collect::<Vec<_>>());
    }
}

/// Variables and tables by name; a refused model has no listing.
#[test]
fn listings_have_names() {
    let text = "cost sum set todo of 3 = {1} table near[3] = 1 2 3
        transition go: when 1 in todo cost sum(near[todo]) todo := todo - 1 bound near[2]";
    let (bytes, names) = repgypsum_host::text::assemble_with_names(text).unwrap();
    let listing = Listing::of(&bytes, &names).unwrap();
    let step = &listing.transitions[0];
    assert_eq!(step.conditions, ["1 in todo"]);
    assert_eq!(step.cost, "sum(near[todo])");
    assert_eq!(step.effects, [(0, "todo - 1".to_string())]);
    assert_eq!(listing.bounds, ["near[2]"]);
    assert_eq!(Listing::of(&bytes[..9], &names), Err(4));
}
