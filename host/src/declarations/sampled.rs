//! Declarations against a sample of reachable states.

use super::preferred::{buckets, preferences, Pairs};
use super::sample::Sample;
use super::tests_of_plans::{confirmed, declared_search, undeclared_search};
use super::{bound_values, Findings, Looking, NotBetter, TooHigh, Truth};
use crate::enumerate::Figures;
use crate::reference::{Model, State};

/// How many states get a search of their own.
const SEARCHES: usize = 200;

pub fn findings(bytes: &[u8], model: &Model, looking: Looking) -> Findings {
    let mut sample = Sample::of(model, looking);
    search_some(bytes, model, &mut sample);
    let declared = !preferences(model).is_empty();
    let numbers = 0..model.transitions.len();
    Findings {
        states: sample.seen.len(),
        enumerated: false,
        bounds: bounds(bytes, model, &sample, Figures::Low),
        bounds_at_high: bounds(bytes, model, &sample, Figures::High),
        preferences: declared.then(|| preferred(bytes, model, &sample)),
        never: numbers.filter(|number| !sample.allowed[*number]).collect(),
    }
}

/// Looks for plans from states that lie evenly among those seen, and sees the states along them.
fn search_some(bytes: &[u8], model: &Model, sample: &mut Sample) {
    let every = sample.seen.len().div_ceil(SEARCHES).max(1);
    for place in (0..sample.seen.len()).step_by(every) {
        let found = declared_search(bytes, &sample.seen[place].state);
        if let Some((plan, _)) = found.plan {
            sample.follow(model, place, &plan);
        }
    }
}

fn bounds(bytes: &[u8], model: &Model, sample: &Sample, figures: Figures) -> Vec<Truth<TooHigh>> {
    let mut truths: Vec<Truth<TooHigh>> = model.bounds.iter().map(|_| Truth::Open).collect();
    for seen in &sample.seen {
        let Some((plan, costs)) = seen.rest_at(figures) else {
            continue;
        };
        let Some(values) = bound_values(model, &seen.state) else {
            continue;
        };
        for (truth, value) in truths.iter_mut().zip(values) {
            let false_here = value > figures.of(*costs) && matches!(truth, Truth::Open);
            if false_here && confirmed(bytes, &seen.state, plan, *costs) {
                *truth = Truth::False(Box::new(TooHigh {
                    state: seen.state.clone(),
                    path: seen.path.clone(),
                    value,
                    plan: plan.clone(),
                    costs: *costs,
                }));
            }
        }
    }
    truths
}

/// Whether the state has the plan of another at no more than its cost.
fn follows(bytes: &[u8], state: &State, plan: &[u8], cost: i64) -> bool {
    let started = crate::variants::started_in(bytes, state);
    let (answer, own, _) = crate::proved::plan_check(&started, plan);
    answer == 0 && own as i64 <= cost
}

/// The target is left out where it does not meet the constraints: neither the plan check nor the search follows steps from it.
fn preferred(bytes: &[u8], model: &Model, sample: &Sample) -> Truth<NotBetter> {
    let states: Vec<State> = sample.seen.iter().map(|seen| seen.state.clone()).collect();
    let target = model.target();
    let met = model.meets_constraints(&target) == Ok(true);
    let left_out = |place: usize| !met && states[place] == target;
    let mut pairs = Pairs::default();
    let mut searches = 0;
    let mut least = None;
    for bucket in buckets(model, &states) {
        let found = pairs.find(model, &states, &bucket, |better, worse| {
            let Some((plan, costs)) = &sample.seen[worse].rest else {
                return false;
            };
            let cost = costs.high;
            if left_out(better) || left_out(worse) {
                return false;
            }
            let better_cost = sample.seen[better]
                .rest
                .as_ref()
                .map(|(_, costs)| costs.high);
            let as_good = better_cost.is_some_and(|better| better <= cost);
            if as_good || searches >= SEARCHES || !model.dominates(&states[better], &states[worse])
            {
                return false;
            }
            if follows(bytes, &states[better], plan, cost) {
                return false;
            }
            searches += 1;
            let found = undeclared_search(bytes, &states[better]);
            least = (!found.none).then_some(found.bound);
            found.none || found.bound > cost
        });
        if let Some((better, worse)) = found {
            let (better, worse) = (&sample.seen[better], &sample.seen[worse]);
            let (plan, costs) = worse.rest.clone().unwrap_or_default();
            return Truth::False(Box::new(NotBetter {
                better: better.state.clone(),
                better_path: better.path.clone(),
                worse: worse.state.clone(),
                worse_path: worse.path.clone(),
                plan,
                costs,
                least,
            }));
        }
    }
    Truth::Open
}
