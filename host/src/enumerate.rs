//! Full enumeration of small models: all reachable states, without pruning and without dominance.

use crate::answer::Answer;
use crate::numbers::verdict;
use crate::reference::{Costs, Model, State};
use std::collections::{BTreeSet, HashMap};

/// What trying the base cases of a state ends with.
#[derive(Clone, Copy, PartialEq, Eq, Debug)]
pub enum Standing {
    Base,
    Unfinished,
    NoValue,
}

/// An allowed step: the transition's number, its costs, and the state reached, by index.
#[derive(Clone, Copy, Debug)]
pub struct Step {
    pub number: u8,
    pub costs: Costs,
    pub to: usize,
}

/// The target (index 0) and all states that allowed steps reach from it.
pub struct Space {
    /// Whether the target meets all constraints, which have values there. If not, the model has no plan.
    pub admitted: bool,
    pub states: Vec<State>,
    pub standing: Vec<Standing>,
    pub steps: Vec<Vec<Step>>,
    /// The least cost of steps from each state to a base state, however many, at high figures. It is that of the cheapest plan
    /// from each state that a step reaches, and of the target if it is admitted.
    pub to_go: Vec<Option<i64>>,
    /// The same at low figures; the steps may be others.
    pub to_go_at_low: Vec<Option<i64>>,
}

/// Which of the two costs of a step is meant.
#[derive(Clone, Copy, PartialEq, Eq, Debug)]
pub enum Figures {
    Low,
    High,
}

impl Figures {
    pub fn of(self, costs: Costs) -> i64 {
        match self {
            Figures::Low => costs.low,
            Figures::High => costs.high,
        }
    }
}

/// The step by a transition from a state, if it is allowed.
fn allowed_step(model: &Model, number: usize, state: &State) -> Option<(Costs, State)> {
    let transition = &model.transitions[number];
    let allowed = || -> Result<Option<(Costs, State)>, u8> {
        if !model.all_hold(&transition.conditions, state)? {
            return Ok(None);
        }
        let costs = model.step_costs(transition, state)?;
        let new = model.after(transition, state)?;
        Ok(model.meets_constraints(&new)?.then_some((costs, new)))
    };
    allowed().unwrap_or(None)
}

/// The real cost of a plan for each choice of step costs inside the ranges of its steps; nothing where there are more than `most`
/// choices.
pub fn real_costs(model: &Model, steps: &[Costs], most: usize) -> Option<Vec<i64>> {
    let mut costs = vec![0];
    for step in steps {
        let choices = (step.high - step.low + 1) as usize;
        if costs.len().checked_mul(choices)? > most {
            return None;
        }
        let joined = |cost: i64| (step.low..=step.high).map(move |real| model.join(cost, real));
        costs = costs.into_iter().flat_map(joined).collect();
    }
    Some(costs)
}

fn standing(model: &Model, state: &State) -> Standing {
    match model.is_base(state) {
        Ok(true) => Standing::Base,
        Ok(false) => Standing::Unfinished,
        Err(_) => Standing::NoValue,
    }
}

impl Space {
    /// The space of a model, or nothing if it has more than `limit` states.
    pub fn of(model: &Model, limit: usize) -> Option<Space> {
        let target = model.target();
        let mut index = HashMap::from([(target.clone(), 0)]);
        let mut space = Space {
            admitted: model.meets_constraints(&target) == Ok(true),
            states: vec![target],
            standing: Vec::new(),
            steps: Vec::new(),
            to_go: Vec::new(),
            to_go_at_low: Vec::new(),
        };
        let mut at = 0;
        while at < space.states.len() {
            let state = space.states[at].clone();
            let standing = standing(model, &state);
            let mut steps = Vec::new();
            if standing == Standing::Unfinished {
                for number in 0..model.transitions.len() {
                    let Some((costs, new)) = allowed_step(model, number, &state) else {
                        continue;
                    };
                    let to = *index.entry(new.clone()).or_insert(space.states.len());
                    if to == space.states.len() {
                        space.states.push(new);
                    }
                    let number = number as u8;
                    steps.push(Step { number, costs, to });
                }
            }
            if space.states.len() > limit {
                return None;
            }
            space.standing.push(standing);
            space.steps.push(steps);
            at += 1;
        }
        space.to_go = space.cheapest_to_go(model, Figures::High);
        space.to_go_at_low = space.cheapest_to_go(model, Figures::Low);
        Some(space)
    }

    /// Lowers the cost from each state until nothing changes. Costs are not negative, so this ends.
    fn cheapest_to_go(&self, model: &Model, figures: Figures) -> Vec<Option<i64>> {
        let base = |standing: &Standing| (*standing == Standing::Base).then_some(0);
        let mut to_go: Vec<Option<i64>> = self.standing.iter().map(base).collect();
        loop {
            let mut changed = false;
            for (at, steps) in self.steps.iter().enumerate() {
                for step in steps {
                    let Some(rest) = to_go[step.to] else { continue };
                    let cost = model.join(figures.of(step.costs), rest);
                    if to_go[at].is_none_or(|old| cost < old) {
                        to_go[at] = Some(cost);
                        changed = true;
                    }
                }
            }
            if !changed {
                return to_go;
            }
        }
    }

    /// The cost of the cheapest plan of the model, of whatever length.
    pub fn cheapest(&self) -> Option<i64> {
        self.to_go[0].filter(|_| self.admitted)
    }

    /// Layers 0 to `length` of the model, as sets of states.
    pub fn layers(&self, length: u64) -> Vec<BTreeSet<usize>> {
        let mut layers = vec![BTreeSet::from([0])];
        for _ in 0..length {
            let last = layers.last().unwrap();
            let next = last
                .iter()
                .flat_map(|at| self.steps[*at].iter().map(|step| step.to))
                .collect();
            layers.push(next);
        }
        layers
    }

    /// The cost of the cheapest plan of at most `length` steps, by layers with the least cost of each state.
    pub fn cheapest_within(&self, model: &Model, length: u64) -> Option<i64> {
        let mut layer = HashMap::from([(0, 0)]);
        let mut cheapest: Option<i64> = None;
        for _ in 0..=length {
            let mut next: HashMap<usize, i64> = HashMap::new();
            for (at, cost) in &layer {
                if self.standing[*at] == Standing::Base {
                    cheapest = Some(cheapest.map_or(*cost, |old| old.min(*cost)));
                }
                for step in &self.steps[*at] {
                    let cost = model.join(*cost, step.costs.high);
                    let least = next.entry(step.to).or_insert(cost);
                    *least = cost.min(*least);
                }
            }
            layer = next;
        }
        cheapest.filter(|_| self.admitted)
    }

    /// The costs of the steps of a plan from the target, if the sequence is one.
    pub fn plan_steps(&self, plan: &[u8]) -> Option<Vec<Costs>> {
        let mut at = 0;
        let mut costs = Vec::new();
        for number in plan {
            let step = self.steps[at].iter().find(|step| step.number == *number)?;
            costs.push(step.costs);
            at = step.to;
        }
        (self.admitted && self.standing[at] == Standing::Base).then_some(costs)
    }

    /// The costs of a plan from the target, if the sequence is one: each figure joined by itself.
    pub fn plan_costs(&self, model: &Model, plan: &[u8]) -> Option<Costs> {
        let steps = self.plan_steps(plan)?;
        let joined = |figures: Figures| {
            let costs = steps.iter().map(|costs| figures.of(*costs));
            costs.fold(0, |cost, next| model.join(cost, next))
        };
        Some(Costs {
            low: joined(Figures::Low),
            high: joined(Figures::High),
        })
    }

    /// Whether h is at most the cost of every plan at these figures, in every reachable state where h has a value. The target
    /// is one of these states, admitted or not.
    pub fn bounds_true(&self, model: &Model, figures: Figures) -> bool {
        let too_high = |state, to_go| model.h(state).is_ok_and(|h| h > to_go);
        let pairs = self.states.iter().zip(self.least_to_go(figures));
        let mut with_plans = pairs.filter_map(|(state, to_go)| Some((state, (*to_go)?)));
        !with_plans.any(|(state, to_go)| too_high(state, to_go))
    }

    /// The least cost at these figures from each state.
    pub fn least_to_go(&self, figures: Figures) -> &[Option<i64>] {
        match figures {
            Figures::Low => &self.to_go_at_low,
            Figures::High => &self.to_go,
        }
    }

    /// Whether bounds and preferences are true of the high costs, on which every promise of a search rests.
    pub fn declarations_true(&self, model: &Model) -> bool {
        self.bounds_true(model, Figures::High) && self.preferences_true(model)
    }

    /// Whether a dominating state always has a plan costing no more, at high figures.
    pub fn preferences_true(&self, model: &Model) -> bool {
        let worse = |better: &Option<i64>, worse: &Option<i64>| match (better, worse) {
            (_, None) => false,
            (None, Some(_)) => true,
            (Some(better), Some(worse)) => better > worse,
        };
        for (first, first_to_go) in self.states.iter().zip(&self.to_go) {
            for (second, second_to_go) in self.states.iter().zip(&self.to_go) {
                if worse(first_to_go, second_to_go) && model.dominates(first, second) {
                    return false;
                }
            }
        }
        true
    }

    /// Whether two different reachable states are comparable.
    pub fn some_dominance(&self, model: &Model) -> bool {
        self.states.iter().enumerate().any(|(at, first)| {
            let mut others = self.states.iter().enumerate();
            others.any(|(place, second)| place != at && model.dominates(first, second))
        })
    }

    /// Demand 3's last sentence: layers no wider than the beam, and no unfinished state at the limit.
    pub fn fits(&self, width: u64, length: u64) -> bool {
        let layers = self.layers(length);
        let at_limit = &layers[length as usize];
        layers.iter().all(|layer| layer.len() as u64 <= width)
            && at_limit
                .iter()
                .all(|at| self.standing[*at] != Standing::Unfinished)
    }

    /// The sentence of demand 3 that an answer breaks, if it breaks one.
    pub fn broken(
        &self,
        model: &Model,
        declarations_true: bool,
        settings: (u64, u64),
        answer: &Answer,
        plan: &[u8],
    ) -> Option<&'static str> {
        let cost = answer.cost as i64;
        let bound = answer.bound as i64;
        if answer.refused {
            return None;
        }
        let low = answer.low as i64;
        if answer.flag && self.plan_costs(model, plan) != Some(Costs { low, high: cost }) {
            return Some("a plan given is a plan of the model, at the costs stated");
        }
        let least = self.cheapest();
        let broken = match answer.verdict {
            verdict::CHEAPEST if declarations_true && (!answer.flag || least != Some(cost)) => {
                Some("a plan marked cheapest costs no more than every other plan")
            }
            verdict::NO_PLAN if declarations_true && least.is_some() => {
                Some("no plan means that none exists")
            }
            verdict::WIDTH_STOP | verdict::LENGTH_STOP | verdict::BUDGET_SPENT
                if declarations_true && least.is_some_and(|least| bound > least) =>
            {
                Some("a stopped run's bound is at most the cost of every plan")
            }
            verdict::CONTRADICTED if declarations_true => {
                Some("contradicted is given only if a declaration is false")
            }
            _ => None,
        };
        let stop = [verdict::WIDTH_STOP, verdict::LENGTH_STOP].contains(&answer.verdict);
        if stop && self.fits(settings.0, settings.1) {
            return Some("neither stop is given when the layers fit");
        }
        broken
    }
}
