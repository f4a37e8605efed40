//! What changed between two quotations, in sentences.

use super::{mark, Quotation};
use crate::beam::{joined, Beam};
use crate::reference::read_model;
use crate::reference::syntax::{CostRule, Model};
use crate::text::{Listing, Names};

/// The most sentences about the model's parts.
const MOST: usize = 12;

/// All that changed from the first quotation to the second; nothing if they agree.
pub fn changes(old: &Quotation, new: &Quotation) -> Vec<String> {
    let mut told = Vec::new();
    if old.model == new.model {
        if old.title != new.title {
            told.push(format!(
                "The model is the same, and is now called {}.",
                new.title
            ));
        }
    } else {
        told.push("The model changed:".to_string());
        told.extend(
            of_models(old, new)
                .into_iter()
                .map(|line| format!("  {line}")),
        );
    }
    told.extend(of_widths(&old.beam, &new.beam));
    let settings = [
        ("The length limit", old.length, new.length),
        ("The budget", old.budget, new.budget),
    ];
    for (what, before, after) in settings {
        told.extend(went(what, before.into(), after.into()));
    }
    let (before, after) = (mark(&old.said), mark(&new.said));
    let verdicts = (old.said.fields[0], new.said.fields[0]);
    if verdicts.0 != verdicts.1 {
        told.push(format!("The mark was \"{before}\" and is now \"{after}\"."));
    }
    told.extend(of_costs(old, new));
    told.extend(of_low_figures(old, new));
    told.extend(went("The bound", old.said.fields[3], new.said.fields[3]));
    told.extend(of_orders(old, new));
    let counts = ["expansions", "rounds", "width"];
    for (name, place) in counts.into_iter().zip(5..) {
        let what = match name {
            "width" => "The width of the last round".to_string(),
            _ => format!("The number of {name}"),
        };
        told.extend(went(&what, old.said.fields[place], new.said.fields[place]));
    }
    for (what, before, after) in [
        ("version", &old.version, &new.version),
        ("kit", &old.kit, &new.kit),
    ] {
        if before != after {
            told.push(format!("The {what} was {before} and is now {after}."));
        }
    }
    told
}

/// A number that rose or fell.
fn went(what: &str, before: u64, after: u64) -> Option<String> {
    let by = before.abs_diff(after);
    match before.cmp(&after) {
        std::cmp::Ordering::Less => Some(format!("{what} rose by {by}, from {before} to {after}.")),
        std::cmp::Ordering::Equal => None,
        std::cmp::Ordering::Greater => {
            Some(format!("{what} fell by {by}, from {before} to {after}."))
        }
    }
}

/// The widths of the rounds in words.
fn widths(beam: &Beam) -> String {
    match beam {
        Beam::UpTo(1) => "1".to_string(),
        Beam::UpTo(widest) => format!("1, 2, 4 up to {widest}"),
        Beam::Listed(widths) => joined(widths, ", "),
    }
}

fn of_widths(old: &Beam, new: &Beam) -> Option<String> {
    match (old, new) {
        (Beam::UpTo(before), Beam::UpTo(after)) => went("The widest beam", *before, *after),
        _ if old == new => None,
        _ => Some(format!(
            "The widths were {} and are now {}.",
            widths(old),
            widths(new)
        )),
    }
}

fn of_costs(old: &Quotation, new: &Quotation) -> Option<String> {
    let (before, after) = (&old.said.fields, &new.said.fields);
    match (before[1], after[1]) {
        (1, 1) => went("The cost", before[2], after[2]),
        (0, 1) => Some(format!(
            "There was no plan, and now there is one at cost {}.",
            after[2]
        )),
        (1, 0) => Some(format!(
            "There was a plan at cost {}, and now there is none.",
            before[2]
        )),
        _ => None,
    }
}

/// The low figures of two plans, if one of them is another than the cost.
fn of_low_figures(old: &Quotation, new: &Quotation) -> Option<String> {
    let (before, after) = (&old.said.fields, &new.said.fields);
    let ranges = before[2] != before[8] || after[2] != after[8];
    let plans = before[1] == 1 && after[1] == 1;
    went("The cost at low figures", before[8], after[8]).filter(|_| ranges && plans)
}

/// A step in words.
fn step(quotation: &Quotation, place: usize) -> String {
    let number = quotation.said.plan[place];
    match quotation.names.get(place).map(String::as_str) {
        None | Some("") => format!("step {number}"),
        Some(name) => name.to_string(),
    }
}

fn order(quotation: &Quotation, from: usize) -> String {
    let steps: Vec<String> = (from..quotation.said.plan.len())
        .map(|place| step(quotation, place))
        .collect();
    match steps.is_empty() {
        true => "nothing more".to_string(),
        false => steps.join(", "),
    }
}

fn of_orders(old: &Quotation, new: &Quotation) -> Option<String> {
    let named = |quotation: &Quotation| -> Vec<String> {
        let places = 0..quotation.said.plan.len();
        places.map(|place| step(quotation, place)).collect()
    };
    let (before, after) = (named(old), named(new));
    if old.said.plan == new.said.plan || before == after {
        return None;
    }
    let same = before
        .iter()
        .zip(&after)
        .take_while(|(old, new)| old == new);
    let same = same.count();
    Some(format!(
        "The order differs from step {} on: it was {}; it is now {}.",
        same + 1,
        order(old, same),
        order(new, same)
    ))
}

/// What changed in the models, part by part.
fn of_models(old: &Quotation, new: &Quotation) -> Vec<String> {
    let read = |quotation: &Quotation| -> Option<(Model, Listing)> {
        let model = read_model(&quotation.model).ok()?;
        let listing = Listing::of(&quotation.model, &Names::by_number(&model)).ok()?;
        Some((model, listing))
    };
    let mut told = Vec::new();
    let (before, after) = (old.model.len(), new.model.len());
    told.extend(went("The number of its bytes", before as u64, after as u64));
    let (Some((old, old_listing)), Some((new, new_listing))) = (read(old), read(new)) else {
        told.push("One of the two is refused by the reader.".to_string());
        return told;
    };
    let rule = |model: &Model| match model.rule {
        CostRule::Sum => "sum",
        CostRule::Largest => "largest",
    };
    if old.rule != new.rule {
        told.push(format!(
            "The cost rule was {} and is now {}.",
            rule(&old),
            rule(&new)
        ));
    }
    told.extend(of_lists(
        "variable",
        &debugged(&old.variables),
        &debugged(&new.variables),
        false,
    ));
    told.extend(of_tables(&old, &new));
    told.extend(of_lists(
        "transition",
        &debugged(&old_listing.transitions),
        &debugged(&new_listing.transitions),
        false,
    ));
    told.extend(of_lists(
        "base case",
        &debugged(&old_listing.base_cases),
        &debugged(&new_listing.base_cases),
        false,
    ));
    told.extend(of_lists(
        "constraint",
        &old_listing.constraints,
        &new_listing.constraints,
        true,
    ));
    told.extend(of_lists(
        "bound",
        &old_listing.bounds,
        &new_listing.bounds,
        true,
    ));
    told.truncate(MOST);
    told
}

fn debugged<T: std::fmt::Debug>(items: &[T]) -> Vec<String> {
    items.iter().map(|item| format!("{item:?}")).collect()
}

/// How many there are, and which of those with the same number differ.
fn of_lists(what: &str, old: &[String], new: &[String], shown: bool) -> Vec<String> {
    let mut told = Vec::new();
    if old.len() != new.len() {
        told.push(format!(
            "There were {} of its {what}s and are now {}.",
            old.len(),
            new.len()
        ));
    }
    let differing: Vec<usize> = (0..old.len().min(new.len()))
        .filter(|place| old[*place] != new[*place])
        .collect();
    if differing.is_empty() {
        return told;
    }
    if shown {
        for place in differing {
            told.push(format!(
                "Its {what} {place} was {} and is now {}.",
                old[place], new[place]
            ));
        }
        return told;
    }
    let numbers: Vec<String> = differing.iter().map(usize::to_string).collect();
    let ending = if differing.len() == 1 { "" } else { "s" };
    told.push(format!("Changed: {what}{ending} {}.", numbers.join(", ")));
    told
}

fn of_tables(old: &Model, new: &Model) -> Vec<String> {
    let mut told = Vec::new();
    if old.tables.len() != new.tables.len() {
        told.push(format!(
            "There were {} tables and are now {}.",
            old.tables.len(),
            new.tables.len()
        ));
    }
    for (number, (before, after)) in old.tables.iter().zip(&new.tables).enumerate() {
        if (before.rows, before.columns) != (after.rows, after.columns) {
            told.push(format!(
                "Table {number} had {} by {} entries and has now {} by {}.",
                before.rows, before.columns, after.rows, after.columns
            ));
            continue;
        }
        let differing: Vec<usize> = (0..before.entries.len())
            .filter(|place| before.entries[*place] != after.entries[*place])
            .collect();
        if let Some(first) = differing.first() {
            let columns = usize::from(before.columns);
            told.push(format!(
                "Entries of table {number} that changed: {}; the first in row {}, column {}, from {} to {}.",
                differing.len(),
                first / columns,
                first % columns,
                before.entries[*first],
                after.entries[*first]
            ));
        }
    }
    told
}
