//! Plans from a state of the model, by the proved search and the proved plan check on the model started there.

use crate::numbers::{limit, verdict, words_needed};
use crate::proved;
use crate::reference::{Costs, State};
use crate::variants::{started_in, undeclared};

/// The settings of a search from one state.
const WIDTH: u32 = 64;
const BUDGET: u32 = 2_000;

/// Whether the proved plan check, on the model started in the state, passes the plan at these costs.
pub fn confirmed(bytes: &[u8], state: &State, plan: &[u8], costs: Costs) -> bool {
    let started = started_in(bytes, state);
    proved::plan_check(&started, plan) == (0, costs.high as u64, costs.low as u64)
}

/// What a search from one state finds.
pub struct Found {
    /// A plan from there and its cost.
    pub plan: Option<(Vec<u8>, i64)>,
    /// At most the cost of every plan from there, if the model searched declares nothing.
    pub bound: i64,
    /// Whether it is shown that there is no plan, if the model searched declares nothing.
    pub none: bool,
}

fn search(model: &[u8]) -> Found {
    let length = limit::LENGTH as u32;
    let mut plan = vec![0; length as usize];
    let mut words = vec![0; words_needed(WIDTH.into(), length.into()) as usize];
    let answer = proved::search(model, WIDTH, length, BUDGET, &mut plan, &mut words);
    plan.truncate(answer.length as usize);
    let given = !answer.refused && answer.flag;
    Found {
        plan: given.then_some((plan, answer.cost as i64)),
        bound: if answer.refused {
            0
        } else {
            answer.bound as i64
        },
        none: !answer.refused && answer.verdict == verdict::NO_PLAN,
    }
}

/// A search from the state by the model as it is; its plan is a plan whatever is declared.
pub fn declared_search(bytes: &[u8], state: &State) -> Found {
    search(&started_in(bytes, state))
}

/// A search from the state without declarations, whose bound and whose "no plan" rest on none.
pub fn undeclared_search(bytes: &[u8], state: &State) -> Found {
    search(&undeclared(&started_in(bytes, state)))
}
