//! The bounds in the states of a plan: what the plan itself shows to be false.

use super::walk::{follow, Stage};
use crate::command::known::Known;
use crate::command::part::Part;
use crate::command::settings::Run;
use crate::command::words::{counted, range};
use crate::numbers::verdict;
use crate::reference::Costs;

/// The bounds against the rest of the plan's cost, in each state of the plan; nothing without a plan or bounds.
pub fn part(known: &Known, run: &Run) -> Option<Part> {
    if !run.answer.flag || known.model.bounds.is_empty() {
        return None;
    }
    let stages = follow(&known.model, &run.steps)?;
    let mut part = Part::new("The bounds along the plan");
    let told = false_bounds(known, &stages);
    if told.is_empty() {
        part.say(format!(
            "In none of its {} is a bound above the cost of the steps that follow.",
            counted(stages.len() as u64 + 1, "state")
        ));
        if run.answer.verdict == verdict::CONTRADICTED {
            part.say("What is false shows elsewhere.");
        }
        return Some(part);
    }
    let at_low = told.iter().all(|(at_low, _)| *at_low);
    for (_, line) in told {
        part.say(line);
    }
    match at_low {
        true => {
            part.say("So a bound is not true of the low costs. What is proved holds as well where bounds are true of the high costs,");
            part.say("and this plan shows nothing against that.");
        }
        false => part.say("So a declaration is false, and this model's marks say no more than that a plan given is a plan."),
    }
    part.say("Values are from the independent implementation, which is tested and not proved.");
    Some(part)
}

/// For each bound the first state of the plan where it is above the cost of the rest; if there is none, the first where it is above
/// that at low figures alone, which is marked.
fn false_bounds(known: &Known, stages: &[Stage]) -> Vec<(bool, String)> {
    let model = &known.model;
    let mut told: Vec<Option<(bool, String)>> = vec![None; model.bounds.len()];
    for done in 0..=stages.len() {
        let rest = &stages[done..];
        let to_go = rest.iter().fold(Costs::default(), |costs, stage| {
            model.join_costs(costs, stage.costs)
        });
        let state = match done {
            0 => model.target(),
            _ => stages[done - 1].state.clone(),
        };
        if model.h(&state).is_err() {
            continue;
        }
        for (number, bound) in model.bounds.iter().enumerate() {
            let value = model.number(bound, &state).unwrap_or_default();
            let at_low = value <= to_go.high;
            let news = match &told[number] {
                None => value > to_go.low,
                Some((told_at_low, _)) => *told_at_low && !at_low,
            };
            if news {
                let to_go = (to_go, rest.is_empty());
                told[number] = Some((at_low, sentence(known, number, done, value, to_go)));
            }
        }
    }
    told.into_iter().flatten().collect()
}

fn sentence(
    known: &Known,
    number: usize,
    done: usize,
    value: i64,
    (to_go, base): (Costs, bool),
) -> String {
    let bound = &known.listing.bounds[number];
    if base {
        return format!(
            "Bound {number}, {bound}, is {value} in the base state at the end, from where nothing is left to pay."
        );
    }
    format!(
        "After {} bound {number}, {bound}, is {value}, and the rest of the plan costs {}.",
        counted(done as u64, "step"),
        range(to_go.low as u64, to_go.high as u64),
    )
}
