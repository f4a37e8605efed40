//! Declarations against all reachable states with the cost of the cheapest plan from each.

use super::preferred::{buckets, preferences, Pairs};
use super::{bound_values, Findings, NotBetter, TooHigh, Truth};
use crate::enumerate::{Figures, Space, Standing, Step};
use crate::reference::{Costs, Model};
use std::collections::VecDeque;

pub fn findings(model: &Model, space: &Space) -> Findings {
    let roads = Roads::of(space);
    let declared = !preferences(model).is_empty();
    Findings {
        states: space.states.len(),
        enumerated: true,
        bounds: bounds(model, space, &roads, Figures::Low),
        bounds_at_high: bounds(model, space, &roads, Figures::High),
        preferences: declared.then(|| preferred(model, space, &roads)),
        never: never_allowed(model, space),
    }
}

/// The step by which each state is reached first, and the state it comes from.
struct Roads {
    from: Vec<Option<(usize, u8)>>,
}

impl Roads {
    fn of(space: &Space) -> Roads {
        let mut from = vec![None; space.states.len()];
        for (at, steps) in space.steps.iter().enumerate() {
            for step in steps {
                if step.to != 0 && from[step.to].is_none() {
                    from[step.to] = Some((at, step.number));
                }
            }
        }
        Roads { from }
    }

    /// The steps from the target to the state.
    fn path(&self, mut at: usize) -> Vec<u8> {
        let mut path = Vec::new();
        while let Some((before, number)) = self.from[at] {
            path.push(number);
            at = before;
        }
        path.reverse();
        path
    }
}

/// A cheapest plan from the state at these figures, over steps that keep to the cost of the cheapest, and its costs.
fn cheapest_plan(model: &Model, space: &Space, start: usize, figures: Figures) -> (Vec<u8>, Costs) {
    let to_go = space.least_to_go(figures);
    let mut came: Vec<Option<(usize, Step)>> = vec![None; space.states.len()];
    let mut queue = VecDeque::from([start]);
    while let Some(at) = queue.pop_front() {
        if space.standing[at] == Standing::Base {
            let mut plan = Vec::new();
            let mut costs = Costs::default();
            let mut place = at;
            while place != start {
                let (before, step) = came[place].expect("a state that a step reached");
                plan.push(step.number);
                costs = model.join_costs(step.costs, costs);
                place = before;
            }
            plan.reverse();
            return (plan, costs);
        }
        for step in &space.steps[at] {
            let rest = to_go[step.to].map(|rest| model.join(figures.of(step.costs), rest));
            let tight = rest.is_some() && rest == to_go[at];
            if tight && step.to != start && came[step.to].is_none() {
                came[step.to] = Some((at, *step));
                queue.push_back(step.to);
            }
        }
    }
    Default::default()
}

fn bounds(model: &Model, space: &Space, roads: &Roads, figures: Figures) -> Vec<Truth<TooHigh>> {
    let to_go = space.least_to_go(figures);
    let mut truths: Vec<Truth<TooHigh>> = model.bounds.iter().map(|_| Truth::True).collect();
    for (at, state) in space.states.iter().enumerate() {
        let (Some(cost), Some(values)) = (to_go[at], bound_values(model, state)) else {
            continue;
        };
        for (truth, value) in truths.iter_mut().zip(values) {
            if value > cost && matches!(truth, Truth::True) {
                let (plan, costs) = cheapest_plan(model, space, at, figures);
                *truth = Truth::False(Box::new(TooHigh {
                    state: state.clone(),
                    path: roads.path(at),
                    value,
                    plan,
                    costs,
                }));
            }
        }
    }
    truths
}

/// Whether the first costs more than the second, where nothing is no plan.
fn dearer(first: Option<i64>, second: Option<i64>) -> bool {
    match (first, second) {
        (_, None) => false,
        (None, Some(_)) => true,
        (Some(first), Some(second)) => first > second,
    }
}

fn preferred(model: &Model, space: &Space, roads: &Roads) -> Truth<NotBetter> {
    let mut pairs = Pairs::default();
    for bucket in buckets(model, &space.states) {
        let found = pairs.find(model, &space.states, &bucket, |better, worse| {
            dearer(space.to_go[better], space.to_go[worse])
        });
        if let Some((better, worse)) = found {
            let (plan, costs) = cheapest_plan(model, space, worse, Figures::High);
            return Truth::False(Box::new(NotBetter {
                better: space.states[better].clone(),
                better_path: roads.path(better),
                worse: space.states[worse].clone(),
                worse_path: roads.path(worse),
                plan,
                costs,
                least: space.to_go[better],
            }));
        }
    }
    if pairs.exhausted() {
        Truth::Open
    } else {
        Truth::True
    }
}

fn never_allowed(model: &Model, space: &Space) -> Vec<usize> {
    let mut allowed = vec![false; model.transitions.len()];
    for step in space.steps.iter().flatten() {
        allowed[usize::from(step.number)] = true;
    }
    let numbers = 0..allowed.len();
    numbers.filter(|number| !allowed[*number]).collect()
}
