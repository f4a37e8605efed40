//! Why a sequence of steps is no plan: the target or the step, the condition or constraint, and the values there.

use super::known::Known;
use super::words::refusal_name;
use crate::reference::syntax::{Condition, Expression, Model, Transition};
use crate::reference::State;
use crate::text::Step;

/// The first trouble of the plan check, in a sentence; nothing for a plan.
pub fn no_plan(known: &Known, plan: &[u8]) -> Option<String> {
    let model = &known.model;
    let mut state = model.target();
    if let Some(told) = in_constraints(known, &state) {
        return Some(format!("The target, {}: {told}.", known.state(&state)));
    }
    for (place, number) in plan.iter().enumerate() {
        let place = place + 1;
        if let Some(told) = before_step(known, place, &state) {
            return Some(told);
        }
        let Some(step) = model.transitions.get(usize::from(*number)) else {
            let count = model.transitions.len();
            return Some(format!("Step {place}: there is no transition {number}; the model has {count}, numbered from 0."));
        };
        let name = format!("Step {place}, {}", known.transition(usize::from(*number)));
        if let Some(told) = in_step(known, usize::from(*number), step, &state) {
            return Some(format!(
                "{name}: {told} The state before it: {}.",
                known.state(&state)
            ));
        }
        state = model.after(step, &state).ok()?;
        if let Some(told) = in_constraints(known, &state) {
            return Some(format!(
                "{name}: {told} after it. The state after it: {}.",
                known.state(&state)
            ));
        }
    }
    at_end(known, plan, &state)
}

/// Whether the state before a step is a base state already, or has no status.
fn before_step(known: &Known, place: usize, state: &State) -> Option<String> {
    let shown = known.state(state);
    match known.model.is_base(state) {
        Ok(false) => None,
        Ok(true) => Some(format!(
            "Step {place}: the state before it is a base state already, where a plan ends: {shown}."
        )),
        Err(number) => Some(format!(
            "Step {place}: a base case has no value before it, {}, in the state {shown}.",
            refusal_name(number)
        )),
    }
}

fn in_step(known: &Known, number: usize, step: &Transition, state: &State) -> Option<String> {
    let model = &known.model;
    let listing = &known.listing.transitions[number];
    for (place, condition) in step.conditions.iter().enumerate() {
        if let Some(told) = fails(model, condition, state) {
            return Some(format!(
                "its condition {place}, {}, {told}.",
                listing.conditions[place]
            ));
        }
    }
    if let Some(told) = in_costs(model, step, listing, state) {
        return Some(told);
    }
    for (place, effect) in step.effects.iter().enumerate() {
        let Expression::Number(value) = &effect.value else {
            continue;
        };
        if let Err(number) = model.number(value, state) {
            let name = known.names.variable(effect.variable);
            let text = &listing.effects[place].1;
            return Some(format!(
                "its effect on {name}, {text}, has no value: {}.",
                refusal_name(number)
            ));
        }
    }
    None
}

/// What is wrong with the cost, or behind it with the high cost.
fn in_costs(model: &Model, step: &Transition, listing: &Step, state: &State) -> Option<String> {
    let none = |what: &str, text: &str, number| {
        let name = refusal_name(number);
        Some(format!("its {what}, {text}, has no value: {name}."))
    };
    let cost = &listing.cost;
    let low = match model.number(&step.cost, state) {
        Ok(value) if value < 0 => {
            return Some(format!("its cost, {cost}, is {value}, which is negative."))
        }
        Ok(value) => value,
        Err(number) => return none("cost", cost, number),
    };
    let (expression, high) = step.high.as_ref().zip(listing.high.as_ref())?;
    match model.number(expression, state) {
        Ok(value) if value < low => Some(format!(
            "its high cost, {high}, is {value}, below its low cost, {cost}, which is {low}."
        )),
        Ok(_) => None,
        Err(number) => none("high cost", high, number),
    }
}

/// The first constraint that does not hold in the state, and how it fails; nothing if all hold.
pub fn in_constraints(known: &Known, state: &State) -> Option<String> {
    for (place, constraint) in known.model.constraints.iter().enumerate() {
        if let Some(told) = fails(&known.model, constraint, state) {
            return Some(format!(
                "constraint {place}, {}, {told}",
                known.listing.constraints[place]
            ));
        }
    }
    None
}

/// Why the last state is no base state.
fn at_end(known: &Known, plan: &[u8], state: &State) -> Option<String> {
    let model = &known.model;
    let shown = known.state(state);
    let end = match plan.is_empty() {
        true => "The target".to_string(),
        false => "The state after the last step".to_string(),
    };
    match model.is_base(state) {
        Ok(true) => return None,
        Err(number) => {
            return Some(format!(
                "{end}, {shown}: a base case has no value, {}.",
                refusal_name(number)
            ))
        }
        Ok(false) => {}
    }
    let mut told = format!("{end}, {shown}, is no base state.");
    for (case, conditions) in model.base_cases.iter().enumerate() {
        let failing = |condition: &Condition| fails(model, condition, state);
        let first = conditions.iter().enumerate();
        let first = first.filter_map(|(place, condition)| Some((place, failing(condition)?)));
        if let Some((place, why)) = first.into_iter().next() {
            let text = &known.listing.base_cases[case][place];
            told += &format!(" Base case {case}: its condition {place}, {text}, {why}.");
        }
    }
    if model.base_cases.is_empty() {
        told += " The model has no base case.";
    }
    Some(told)
}

/// How a condition fails, with the values of the sides that are compared; nothing if it holds.
fn fails(model: &Model, condition: &Condition, state: &State) -> Option<String> {
    match model.condition(condition, state) {
        Ok(true) => None,
        Err(number) => Some(format!("has no value: {}", refusal_name(number))),
        Ok(false) => Some(match sides(model, condition, state) {
            Some((left, right)) => {
                format!("does not hold ({left} on the left, {right} on the right)")
            }
            None => "does not hold".to_string(),
        }),
    }
}

/// The two numbers whose comparison makes the condition fail.
fn sides(model: &Model, condition: &Condition, state: &State) -> Option<(i64, i64)> {
    match condition {
        Condition::Equal(left, right)
        | Condition::Less(left, right)
        | Condition::AtMost(left, right) => {
            let left = model.number(left, state).ok()?;
            Some((left, model.number(right, state).ok()?))
        }
        Condition::And(first, second) => match model.condition(first, state) {
            Ok(false) => sides(model, first, state),
            _ => sides(model, second, state),
        },
        Condition::Or(first, second) => {
            sides(model, second, state).or_else(|| sides(model, first, state))
        }
        _ => None,
    }
}
