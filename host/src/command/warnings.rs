//! What is allowed in a model and seldom meant.

use super::known::Known;
use super::part::Part;
use super::words::counted;

/// The most transitions that are named.
const NAMED: usize = 10;

/// No base case; ranges that are none.
pub fn of_model(known: &Known) -> Vec<String> {
    let mut warnings = Vec::new();
    if known.model.base_cases.is_empty() {
        warnings.push(
            "There is no base case: no state is a base state, and the model has no plan."
                .to_string(),
        );
    }
    let transitions = known.listing.transitions.iter().enumerate();
    let alike = transitions.filter(|(_, step)| step.high.as_ref() == Some(&step.cost));
    let alike: Vec<usize> = alike.map(|(number, _)| number).collect();
    if !alike.is_empty() {
        warnings.push(format!(
            "The high cost is written as the cost is, and could be left out: {}.",
            named(known, &alike)
        ));
    }
    warnings
}

/// The first transitions by number and name, and how many more there are.
fn named(known: &Known, numbers: &[usize]) -> String {
    let names = numbers.iter().take(NAMED);
    let names: Vec<String> = names.map(|number| known.transition(*number)).collect();
    let more = match numbers.len() > NAMED {
        true => format!(" and {} more", numbers.len() - NAMED),
        false => String::new(),
    };
    format!("{}{more}", names.join(", "))
}

/// Transitions that none of the states looked at allows.
pub fn of_transitions(known: &Known, never: &[usize], states: usize) -> Option<String> {
    if never.is_empty() {
        return None;
    }
    Some(format!(
        "Allowed in none of the {}: {}.",
        counted(states as u64, "state"),
        named(known, never)
    ))
}

/// The warnings as a part, if there are any.
pub fn part(warnings: Vec<String>) -> Option<Part> {
    let mut part = Part::new("Worth a look");
    part.lines = warnings;
    (!part.lines.is_empty()).then_some(part)
}
