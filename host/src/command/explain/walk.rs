//! A plan or a path step by step, by the independent implementation.

use crate::command::known::Known;
use crate::command::part::Part;
use crate::command::words::grouped;
use crate::reference::{Costs, Model, State};

/// A step: its transition, its costs, the costs of the path up to and with it, and the state after it.
pub struct Stage {
    pub number: u8,
    pub costs: Costs,
    pub totals: Costs,
    pub state: State,
}

/// The steps followed from the target; nothing if one of them has no cost or no new state.
pub fn follow(model: &Model, steps: &[u8]) -> Option<Vec<Stage>> {
    let mut state = model.target();
    let mut totals = Costs::default();
    let mut stages = Vec::new();
    for number in steps {
        let transition = model.transitions.get(usize::from(*number))?;
        let costs = model.step_costs(transition, &state).ok()?;
        state = model.after(transition, &state).ok()?;
        totals = model.join_costs(totals, costs);
        let state = state.clone();
        let number = *number;
        stages.push(Stage {
            number,
            costs,
            totals,
            state,
        });
    }
    Some(stages)
}

/// The state that the steps lead to.
pub fn last_state(model: &Model, stages: &[Stage]) -> State {
    let last = stages.last();
    last.map_or_else(|| model.target(), |stage| stage.state.clone())
}

/// The columns of the table of steps; where costs are ranges, both ends of them.
const HEADINGS: [&str; 5] = ["step", "cost", "so far", "transition", "what changes"];
const RANGES: [&str; 7] = [
    "step",
    "low",
    "high",
    "low so far",
    "high so far",
    "transition",
    "what changes",
];

/// How many columns at the end have words, where the others have numbers.
const WORDS: usize = 2;

/// The headings of the columns, and whether a column has numbers.
pub fn headings(known: &Known) -> Vec<(&'static str, bool)> {
    let headings: &[&str] = match known.has_ranges() {
        true => &RANGES,
        false => &HEADINGS,
    };
    let numbers = headings.len() - WORDS;
    let columns = headings.iter().enumerate();
    columns
        .map(|(place, heading)| (*heading, place < numbers))
        .collect()
}

/// What is said below a table of steps.
pub const OUTSIDE: &str =
    "Costs and states are from the independent implementation, which is tested and not proved.";

/// The cells of costs: the one number, or both ends of the range.
fn cells(known: &Known, costs: Costs) -> Vec<String> {
    let (low, high) = (grouped(costs.low as u64), grouped(costs.high as u64));
    match known.has_ranges() {
        true => vec![low, high],
        false => vec![high],
    }
}

/// The start and each step, with costs and what changes.
pub fn rows(known: &Known, stages: &[Stage]) -> Vec<Vec<String>> {
    let mut before = known.model.target();
    let nothing = cells(known, Costs::default());
    let mut start = vec!["start".to_string()];
    start.extend(nothing.iter().map(|_| String::new()));
    start.extend(nothing);
    start.extend([String::new(), known.state(&before)]);
    let mut rows = vec![start];
    for (place, stage) in stages.iter().enumerate() {
        let mut row = vec![(place + 1).to_string()];
        row.extend(cells(known, stage.costs));
        row.extend(cells(known, stage.totals));
        row.push(known.transition(usize::from(stage.number)));
        row.push(known.changes(&before, &stage.state));
        rows.push(row);
        before = stage.state.clone();
    }
    rows
}

/// Columns of text, each as wide as its widest cell; those of numbers end together, the rest begin together.
fn columns(headings: &[(&str, bool)], rows: &[Vec<String>]) -> Vec<String> {
    let widest = |column: usize| {
        let widths = rows.iter().map(|row| row[column].chars().count());
        widths.max().unwrap_or(0)
    };
    let widths: Vec<usize> = (0..headings.len()).map(widest).collect();
    let cell = |row: &[String], column: usize| {
        let (text, width) = (&row[column], widths[column]);
        if headings[column].1 {
            format!("{text:>width$}")
        } else {
            format!("{text:<width$}")
        }
    };
    let line = |row: &Vec<String>| {
        let places = 0..headings.len();
        let cells: Vec<String> = places.map(|column| cell(row, column)).collect();
        cells.join("  ").trim_end().to_string()
    };
    rows.iter().map(line).collect()
}

/// A table of the steps with their costs and states.
pub fn part(heading: &'static str, known: &Known, stages: Option<&[Stage]>) -> Part {
    let mut part = Part::new(heading);
    let Some(stages) = stages else {
        part.say("The independent implementation cannot follow these steps. One of the two is wrong: please report it.");
        return part;
    };
    let headings = headings(known);
    let names = headings.iter().map(|(name, _)| name.to_string());
    let mut table: Vec<Vec<String>> = vec![names.collect()];
    table.extend(rows(known, stages));
    part.rows = columns(&headings, &table);
    part.say(OUTSIDE);
    part
}
