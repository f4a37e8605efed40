//! Whether a model's declarations are true: by full enumeration of its reachable states, else by a sample of them.
//!
//! A counterexample holds by itself: a plan that the proved plan check confirms. Without one, enumeration shows a
//! declaration true as far as the plain implementation is right, and a sample leaves it open.
//!
//! Where steps have high costs of their own a bound is looked at twice: against the costs of plans at low figures, which is what a
//! bound is declared for, and against those at high figures, on which the search works and its promises rest. A bound that is true
//! of the low costs is true of the high ones. Preferences are about high costs.

mod enumerated;
mod preferred;
mod sample;
mod sampled;
mod tests_of_plans;

use crate::enumerate::Space;
use crate::reference::{Costs, Model, State};

pub use preferred::preferences;
pub use tests_of_plans::confirmed;

/// How far to look.
#[derive(Clone, Copy, Debug)]
pub struct Looking {
    /// The most states that are enumerated, or sampled.
    pub states: usize,
    pub walks: usize,
    pub seed: u64,
}

/// A state that shows a bound to be false.
#[derive(Clone, Debug)]
pub struct TooHigh {
    pub state: State,
    /// The steps that lead to it from the target.
    pub path: Vec<u8>,
    pub value: i64,
    /// A plan from there, and what it costs: the value is above one of the two figures.
    pub plan: Vec<u8>,
    pub costs: Costs,
}

/// Two states that show the preferences to be false.
#[derive(Clone, Debug)]
pub struct NotBetter {
    pub better: State,
    pub better_path: Vec<u8>,
    pub worse: State,
    pub worse_path: Vec<u8>,
    /// A plan of the worse state, and what it costs.
    pub plan: Vec<u8>,
    pub costs: Costs,
    /// The least that a plan of the better state costs at high figures; nothing if it has none.
    pub least: Option<i64>,
}

/// What is known of a declaration.
#[derive(Clone, Debug)]
pub enum Truth<Counterexample> {
    True,
    False(Box<Counterexample>),
    Open,
}

/// What was looked at, and what is known of each bound and of the preferences together.
pub struct Findings {
    pub states: usize,
    pub enumerated: bool,
    /// The bounds against the low costs.
    pub bounds: Vec<Truth<TooHigh>>,
    /// The same against the high costs, the same ones in a model without ranges.
    pub bounds_at_high: Vec<Truth<TooHigh>>,
    pub preferences: Option<Truth<NotBetter>>,
    /// Transitions that no state looked at allows.
    pub never: Vec<usize>,
}

/// Looks at the model, whose bytes these are.
pub fn look(bytes: &[u8], model: &Model, looking: Looking) -> Findings {
    match Space::of(model, looking.states) {
        Some(space) => enumerated::findings(model, &space),
        None => sampled::findings(bytes, model, looking),
    }
}

/// The constraint that the target breaks, the first of them, if all before it have values.
pub fn broken_by_target(model: &Model) -> Option<usize> {
    let target = model.target();
    let held = |constraint| model.condition(constraint, &target);
    let first = model
        .constraints
        .iter()
        .position(|one| held(one) != Ok(true))?;
    (held(&model.constraints[first]) == Ok(false)).then_some(first)
}

/// The values of the bounds in a state where all of them have one.
fn bound_values(model: &Model, state: &State) -> Option<Vec<i64>> {
    let values = model
        .bounds
        .iter()
        .map(|bound| model.number(bound, state).ok());
    values.collect()
}
