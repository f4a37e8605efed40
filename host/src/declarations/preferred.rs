//! Dominance among many states, by buckets of states that are equal in the unpreferred variables.

use crate::reference::syntax::{Preference, Variable};
use crate::reference::{Model, State, Value};
use std::collections::BTreeMap;

/// The most pairs that are compared in all.
const MOST_PAIRS: usize = 20_000_000;

/// The preferred variables with their preferences.
pub fn preferences(model: &Model) -> Vec<(usize, Preference)> {
    let preference = |variable: &Variable| match variable {
        Variable::Set { .. } => Preference::None,
        Variable::Element { preference, .. } | Variable::Number { preference, .. } => *preference,
    };
    let variables = model.variables.iter().map(preference).enumerate();
    variables
        .filter(|(_, preference)| *preference != Preference::None)
        .collect()
}

/// A preferred value as a number that is less where it is better.
fn rank(preference: Preference, value: &Value) -> i64 {
    let number = match value {
        Value::Set(_) => 0,
        Value::Element(object) => i64::from(*object),
        Value::Number(number) => *number,
    };
    match preference {
        Preference::More => -number,
        _ => number,
    }
}

/// The states of each bucket with more than one, from the best to the worst by the first preferred variable.
pub fn buckets(model: &Model, states: &[State]) -> Vec<Vec<usize>> {
    let preferred = preferences(model);
    let Some((first, preference)) = preferred.first().copied() else {
        return Vec::new();
    };
    let mut buckets: BTreeMap<State, Vec<usize>> = BTreeMap::new();
    for (index, state) in states.iter().enumerate() {
        let mut key = state.clone();
        for (variable, _) in &preferred {
            key[*variable] = Value::Number(0);
        }
        buckets.entry(key).or_default().push(index);
    }
    let several = buckets.into_values().filter(|bucket| bucket.len() > 1);
    several
        .map(|mut bucket| {
            bucket.sort_by_key(|index| rank(preference, &states[*index][first]));
            bucket
        })
        .collect()
}

/// The pairs compared so far.
#[derive(Default)]
pub struct Pairs {
    compared: usize,
}

impl Pairs {
    /// A pair of a bucket of which the first dominates the second and the test holds.
    pub fn find(
        &mut self,
        model: &Model,
        states: &[State],
        bucket: &[usize],
        mut test: impl FnMut(usize, usize) -> bool,
    ) -> Option<(usize, usize)> {
        for worse in bucket {
            for better in bucket {
                if better == worse {
                    continue;
                }
                self.compared += 1;
                if self.exhausted() {
                    return None;
                }
                let dominates = || model.dominates(&states[*better], &states[*worse]);
                if test(*better, *worse) && dominates() {
                    return Some((*better, *worse));
                }
            }
        }
        None
    }

    pub fn exhausted(&self) -> bool {
        self.compared > MOST_PAIRS
    }
}
