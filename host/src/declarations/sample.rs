//! A sample of reachable states: random walks, and the states that a beam keeps.

use super::Looking;
use crate::enumerate::Figures;
use crate::generate::Random;
use crate::reference::{Costs, Model, State};
use std::collections::HashMap;

/// The longest walk, and the most layers of a beam.
const LONGEST: usize = 256;

/// The width of the beam whose states are looked at.
pub const BEAM: usize = 16;

/// A plan and what it costs.
type Rest = (Vec<u8>, Costs);

/// A state, the steps that lead to it, and the cheapest plan from it that has been seen, at high figures and at low ones.
pub struct Seen {
    pub state: State,
    pub path: Vec<u8>,
    pub rest: Option<Rest>,
    rest_at_low: Option<Rest>,
}

impl Seen {
    /// The cheapest plan at these figures.
    pub fn rest_at(&self, figures: Figures) -> Option<&Rest> {
        match figures {
            Figures::Low => self.rest_at_low.as_ref(),
            Figures::High => self.rest.as_ref(),
        }
    }
}

/// States seen, each once, and which transitions some state allowed.
pub struct Sample {
    pub seen: Vec<Seen>,
    index: HashMap<State, usize>,
    pub allowed: Vec<bool>,
    most: usize,
}

/// A step that a state allows.
struct Step {
    number: u8,
    costs: Costs,
    state: State,
}

fn steps(model: &Model, state: &State) -> Vec<Step> {
    let step = |(number, transition)| -> Option<Step> {
        let conditions = |transition: &crate::reference::syntax::Transition| {
            model.all_hold(&transition.conditions, state)
        };
        if conditions(transition) != Ok(true) {
            return None;
        }
        let costs = model.step_costs(transition, state).ok()?;
        let new = model.after(transition, state).ok()?;
        let meets = model.meets_constraints(&new) == Ok(true);
        let number = number as u8;
        meets.then_some(Step {
            number,
            costs,
            state: new,
        })
    };
    model
        .transitions
        .iter()
        .enumerate()
        .filter_map(step)
        .collect()
}

impl Sample {
    pub fn of(model: &Model, looking: Looking) -> Sample {
        let mut sample = Sample {
            seen: Vec::new(),
            index: HashMap::new(),
            allowed: vec![false; model.transitions.len()],
            most: looking.states,
        };
        sample.beam(model);
        let mut random = Random::new(looking.seed);
        for _ in 0..looking.walks {
            sample.walk(model, &mut random);
            if sample.seen.len() >= sample.most {
                break;
            }
        }
        sample
    }

    fn see(&mut self, state: &State, path: &[u8]) -> usize {
        if let Some(place) = self.index.get(state) {
            return *place;
        }
        let place = self.seen.len();
        self.index.insert(state.clone(), place);
        self.seen.push(Seen {
            state: state.clone(),
            path: path.to_vec(),
            rest: None,
            rest_at_low: None,
        });
        place
    }

    fn steps(&mut self, model: &Model, state: &State) -> Vec<Step> {
        let steps = steps(model, state);
        for step in &steps {
            self.allowed[usize::from(step.number)] = true;
        }
        steps
    }

    /// A walk from the target by random steps to a base state or a dead end.
    fn walk(&mut self, model: &Model, random: &mut Random) {
        let mut state = model.target();
        let mut path = Vec::new();
        let mut places = vec![self.see(&state, &path)];
        let mut costs = Vec::new();
        while path.len() < LONGEST && model.is_base(&state) == Ok(false) {
            let mut steps = self.steps(model, &state);
            if steps.is_empty() {
                return;
            }
            let step = steps.swap_remove(random.below(steps.len()));
            path.push(step.number);
            costs.push(step.costs);
            state = step.state;
            places.push(self.see(&state, &path));
        }
        if model.is_base(&state) == Ok(true) {
            self.ends_in_base(model, &places, &path, &costs);
        }
    }

    /// A walk that ends in a base state is a plan of each state on it.
    fn ends_in_base(&mut self, model: &Model, places: &[usize], path: &[u8], costs: &[Costs]) {
        let mut rest = Costs::default();
        for at in (0..places.len()).rev() {
            if at < costs.len() {
                rest = model.join_costs(costs[at], rest);
            }
            self.offer(places[at], &path[at..], rest);
        }
    }

    /// Notes a plan from a state, if it is the cheapest so far.
    pub fn offer(&mut self, place: usize, plan: &[u8], costs: Costs) {
        let seen = &mut self.seen[place];
        let cheaper = |known: &Option<Rest>, figures: Figures| {
            let best = known.as_ref().map(|(_, best)| figures.of(*best));
            best.is_none_or(|best| figures.of(costs) < best)
        };
        if cheaper(&seen.rest, Figures::High) {
            seen.rest = Some((plan.to_vec(), costs));
        }
        if cheaper(&seen.rest_at_low, Figures::Low) {
            seen.rest_at_low = Some((plan.to_vec(), costs));
        }
    }

    /// Sees the states along a plan from a state, each with the rest of the plan.
    pub fn follow(&mut self, model: &Model, place: usize, plan: &[u8]) {
        let mut state = self.seen[place].state.clone();
        let mut path = self.seen[place].path.clone();
        let mut places = vec![place];
        let mut costs = Vec::new();
        for number in plan {
            let step = &model.transitions[usize::from(*number)];
            let (Ok(cost), Ok(new)) = (model.step_costs(step, &state), model.after(step, &state))
            else {
                return;
            };
            path.push(*number);
            costs.push(cost);
            state = new;
            places.push(self.see(&state, &path));
        }
        self.ends_in_base(model, &places, plan, &costs);
    }

    /// The states that a beam meets, layer by layer; it keeps the first by f, then h, then arrival.
    fn beam(&mut self, model: &Model) {
        let target = model.target();
        self.see(&target, &[]);
        let mut layer = vec![Kept {
            order: (0, 0),
            state: target,
            g: 0,
            path: Vec::new(),
        }];
        for _ in 0..LONGEST {
            let mut next: Vec<Kept> = Vec::new();
            for kept in &layer {
                if model.is_base(&kept.state) == Ok(false) {
                    self.children(model, kept, &mut next);
                }
            }
            if next.is_empty() || self.seen.len() >= self.most {
                return;
            }
            next.sort_by_key(|kept| kept.order);
            next.truncate(BEAM);
            layer = next;
        }
    }

    /// Puts the states that steps from this one reach into the next layer, each state once.
    fn children(&mut self, model: &Model, kept: &Kept, next: &mut Vec<Kept>) {
        for step in self.steps(model, &kept.state) {
            let Ok(h) = model.h(&step.state) else {
                continue;
            };
            let g = model.join(kept.g, step.costs.high);
            let mut path = kept.path.clone();
            path.push(step.number);
            self.see(&step.state, &path);
            if next.iter().all(|other| other.state != step.state) {
                next.push(Kept {
                    order: (model.join(g, h), h),
                    state: step.state,
                    g,
                    path,
                });
            }
        }
    }
}

/// A state of a beam's layer, with f and h, the cost so far and the steps that lead to it.
struct Kept {
    order: (i64, i64),
    state: State,
    g: i64,
    path: Vec<u8>,
}
