//! Refusals by the state: where the trouble was met, and in which expression.

use super::walk::{follow, last_state};
use crate::command::known::Known;
use crate::command::part::Part;
use crate::command::settings::Run;
use crate::command::words::{counted, grouped, range, refusal_name};
use crate::numbers::refusal::{HIGH_BELOW_LOW, NEGATIVE_COST};
use crate::reference::syntax::{Condition, Expression, Transition};
use crate::reference::{Model, State};

/// The expression that has no value in the state, a negative cost, or a high cost below the low one.
#[derive(Clone, Copy, PartialEq, Eq, Debug)]
enum Place {
    Constraint(usize),
    Bound(usize),
    BaseCase(usize, usize),
    Condition(usize, usize),
    Cost(usize),
    High(usize),
    Effect(usize, usize),
}

/// A place and the refusal number of its trouble.
type Trouble = (Place, u8);

/// The search evaluates a state in this order: constraints, bounds, base cases, transitions.
fn first_trouble(model: &Model, state: &State) -> Option<Trouble> {
    let transitions = model.transitions.iter().enumerate();
    in_conditions(model, &model.constraints, state, Place::Constraint)
        .or_else(|| in_bounds(model, state))
        .or_else(|| in_base_cases(model, state))
        .or_else(|| {
            transitions
                .filter_map(|(number, transition)| in_step(model, number, transition, state))
                .next()
        })
}

/// The first trouble in conditions that are tried in order to the first that fails.
fn in_conditions(
    model: &Model,
    conditions: &[Condition],
    state: &State,
    place: impl Fn(usize) -> Place,
) -> Option<Trouble> {
    for (number, condition) in conditions.iter().enumerate() {
        match model.condition(condition, state) {
            Ok(true) => {}
            Ok(false) => return None,
            Err(refusal) => return Some((place(number), refusal)),
        }
    }
    None
}

fn in_bounds(model: &Model, state: &State) -> Option<Trouble> {
    let bounds = model.bounds.iter().enumerate();
    let mut troubles = bounds.filter_map(|(number, bound)| {
        let refusal = model.number(bound, state).err()?;
        Some((Place::Bound(number), refusal))
    });
    troubles.next()
}

fn in_base_cases(model: &Model, state: &State) -> Option<Trouble> {
    for (case, conditions) in model.base_cases.iter().enumerate() {
        let place = |number| Place::BaseCase(case, number);
        if let Some(trouble) = in_conditions(model, conditions, state, place) {
            return Some(trouble);
        }
        if model.all_hold(conditions, state) == Ok(true) {
            return None;
        }
    }
    None
}

/// Trouble in a transition's conditions, costs or effects.
fn in_step(model: &Model, number: usize, step: &Transition, state: &State) -> Option<Trouble> {
    let place = |condition| Place::Condition(number, condition);
    if let Some(trouble) = in_conditions(model, &step.conditions, state, place) {
        return Some(trouble);
    }
    if model.all_hold(&step.conditions, state) != Ok(true) {
        return None;
    }
    if let Err(refusal) = model.step_costs(step, state) {
        let low = model.number(&step.cost, state);
        let place = match low.is_ok_and(|low| low >= 0) {
            true => Place::High(number),
            false => Place::Cost(number),
        };
        return Some((place, refusal));
    }
    for (effect, value) in step.effects.iter().enumerate() {
        if let Expression::Number(value) = &value.value {
            if let Err(refusal) = model.number(value, state) {
                return Some((Place::Effect(number, effect), refusal));
            }
        }
    }
    None
}

impl Known {
    /// The place in words, with its expression.
    fn place(&self, place: Place) -> String {
        let listing = &self.listing;
        match place {
            Place::Constraint(number) => {
                format!("constraint {number}, {}", listing.constraints[number])
            }
            Place::Bound(number) => format!("bound {number}, {}", listing.bounds[number]),
            Place::BaseCase(case, number) => {
                let condition = &listing.base_cases[case][number];
                format!("condition {number} of base case {case}, {condition}")
            }
            Place::Condition(step, number) => {
                let condition = &listing.transitions[step].conditions[number];
                format!(
                    "condition {number} of {}, {condition}",
                    self.step_name(step)
                )
            }
            Place::Cost(step) => {
                let cost = &listing.transitions[step].cost;
                format!("the cost of {}, {cost}", self.step_name(step))
            }
            Place::High(step) => {
                let high = listing.transitions[step].high.as_deref();
                let high = high.unwrap_or_default();
                format!("the high cost of {}, {high}", self.step_name(step))
            }
            Place::Effect(step, number) => {
                let (variable, value) = &listing.transitions[step].effects[number];
                let name = self.names.variable(*variable);
                format!("the effect of {} on {name}, {value}", self.step_name(step))
            }
        }
    }

    fn step_name(&self, number: usize) -> String {
        format!("transition {}", self.transition(number))
    }
}

/// The two costs of a range that is upside down, and what to do about it.
fn below_low(known: &Known, step: usize, state: &State, part: &mut Part) {
    let (model, listing) = (&known.model, &known.listing.transitions[step]);
    let transition = &model.transitions[step];
    let value = |expression: Option<&_>| {
        let value = expression.and_then(|expression| model.number(expression, state).ok());
        value.unwrap_or_default()
    };
    part.say(format!(
        "Its value there is {}, and that of the low cost, {}, is {}.",
        value(transition.high.as_ref()),
        listing.cost,
        value(Some(&transition.cost))
    ));
    part.say("To change: the two costs where they are written, or the entries of their tables; they may be equal.");
    part.say(format!(
        "Or `high max({}, {})`, with which both costs are the low one wherever the high one is below it.",
        listing.cost,
        listing.high.as_deref().unwrap_or_default()
    ));
    part.say("Or a condition that keeps the step away from such states.");
}

/// What was met, in which state and in which expression.
pub fn part(known: &Known, run: &Run) -> Part {
    let answer = &run.answer;
    let mut part = Part::new("What was met");
    part.say(format!(
        "The search met a {} and ended there. It gives no plan, and says nothing about plans.",
        refusal_name(answer.verdict)
    ));
    part.say(format!(
        "The path to the state evaluated has {} and costs {}. The bound then stood at {}.",
        counted(answer.length, "step"),
        range(answer.low, answer.cost),
        grouped(answer.bound)
    ));
    let model = &known.model;
    let Some(stages) = follow(model, &run.steps) else {
        return part;
    };
    let state = last_state(model, &stages);
    part.say(format!("The state: {}.", known.state(&state)));
    match first_trouble(model, &state) {
        Some((place, number)) if number == answer.verdict => {
            part.say(format!("Met in {}.", known.place(place)));
            match (place, number) {
                (Place::Cost(step), NEGATIVE_COST) => {
                    let cost = model.number(&model.transitions[step].cost, &state);
                    part.say(format!("Its value there is {}.", cost.unwrap_or_default()));
                }
                (Place::High(step), HIGH_BELOW_LOW) => below_low(known, step, &state, &mut part),
                _ => {}
            }
            part.say("This place is found by the independent implementation, which is tested and not proved.");
        }
        _ => part.say("The independent implementation meets no such trouble there. One of the two is wrong: please report it."),
    }
    part
}
