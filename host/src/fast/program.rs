//! A compiled model: start, steps, base cases, constraints, h and dominance.

use super::compile::{element, set, Tables};
use super::expression::{ByteSums, Condition, Element, Number, Set, State, View};
use crate::numbers::limit::VARIABLES;
use crate::numbers::refusal::{HIGH_BELOW_LOW, NEGATIVE_COST};
use crate::reference::syntax::{self, CostRule, Preference, Variable};

enum Effect {
    Set(usize, Set),
    Element(usize, Element),
    Number(usize, Number),
}

pub struct Transition {
    conditions: Vec<Condition>,
    cost: Number,
    /// The high cost, where it is not the low one.
    high: Option<Box<Number>>,
    effects: Vec<Effect>,
}

impl Transition {
    /// The high cost beside this low one.
    fn high_cost(&self, low: i64, view: &View) -> Result<i64, u8> {
        let Some(high) = &self.high else {
            return Ok(low);
        };
        let high = view.checked(high.value(view))?;
        if high < low {
            return Err(HIGH_BELOW_LOW);
        }
        Ok(high)
    }
}

pub struct Program {
    pub transitions: Vec<Transition>,
    pub target: State,
    /// Whether some step has a high cost of its own.
    pub ranged: bool,
    largest: bool,
    entries: Vec<i64>,
    sums: Vec<ByteSums>,
    base_cases: Vec<Vec<Condition>>,
    constraints: Vec<Condition>,
    bounds: Vec<Number>,
    /// The variables without a preference, and those where less or more is preferred.
    plain: Vec<usize>,
    less: Vec<usize>,
    more: Vec<usize>,
}

fn preference(variable: &Variable) -> Preference {
    match variable {
        Variable::Set { .. } => Preference::None,
        Variable::Element { preference, .. } | Variable::Number { preference, .. } => *preference,
    }
}

/// The variables with this preference.
fn preferring(variables: &[Variable], wanted: Preference) -> Vec<usize> {
    let numbered = variables.iter().enumerate();
    let found = numbered.filter(|(_, variable)| preference(variable) == wanted);
    found.map(|(place, _)| place).collect()
}

fn start(variable: &Variable) -> u64 {
    match variable {
        Variable::Set { start, .. } => *start,
        Variable::Element { start, .. } => u64::from(*start),
        Variable::Number { start, .. } => *start as u64,
    }
}

/// The state in which the variables have their start values.
fn target(variables: &[Variable]) -> State {
    let mut target = [0; VARIABLES];
    for (word, variable) in target.iter_mut().zip(variables) {
        *word = start(variable);
    }
    target
}

fn effect(tables: &mut Tables, effect: &syntax::Effect) -> Effect {
    match &effect.value {
        syntax::Expression::Set(value) => Effect::Set(effect.variable, set(value)),
        syntax::Expression::Element(value) => Effect::Element(effect.variable, element(value)),
        syntax::Expression::Number(value) => Effect::Number(effect.variable, tables.number(value)),
    }
}

fn transition(tables: &mut Tables, transition: &syntax::Transition) -> Transition {
    let effects = transition.effects.iter();
    let high = transition.high.as_ref();
    Transition {
        conditions: tables.conditions(&transition.conditions),
        cost: tables.number(&transition.cost),
        high: high.map(|high| Box::new(tables.number(high))),
        effects: effects.map(|written| effect(tables, written)).collect(),
    }
}

fn all_hold(conditions: &[Condition], view: &View) -> bool {
    conditions.iter().all(|condition| condition.holds(view))
}

impl Program {
    pub fn of(model: &syntax::Model) -> Program {
        let mut tables = Tables::of(&model.tables);
        let transitions = model.transitions.iter();
        let transitions = transitions.map(|written| transition(&mut tables, written));
        let transitions = transitions.collect();
        let base_cases = model.base_cases.iter();
        let base_cases = base_cases.map(|case| tables.conditions(case)).collect();
        let constraints = tables.conditions(&model.constraints);
        let bounds = model.bounds.iter().map(|bound| tables.number(bound));
        let bounds = bounds.collect();
        Program {
            transitions,
            target: target(&model.variables),
            ranged: model.transitions.iter().any(|one| one.high.is_some()),
            largest: model.rule == CostRule::Largest,
            entries: tables.entries,
            sums: tables.sums,
            base_cases,
            constraints,
            bounds,
            plain: preferring(&model.variables, Preference::None),
            less: preferring(&model.variables, Preference::Less),
            more: preferring(&model.variables, Preference::More),
        }
    }

    fn view<'a>(&'a self, state: &'a State) -> View<'a> {
        View::new(&self.entries, &self.sums, state)
    }

    /// A path cost joined with a step's cost or with h.
    #[inline]
    pub fn join(&self, cost: i64, next: i64) -> i64 {
        if self.largest {
            cost.max(next)
        } else {
            cost + next
        }
    }

    /// The high cost of a step, if its conditions hold; the state after it is then written to `new`. Where no step of the model has
    /// a high cost of its own, it is not looked for.
    #[inline(always)]
    pub fn step<const RANGED: bool>(
        &self,
        transition: &Transition,
        state: &State,
        new: &mut State,
    ) -> Result<Option<i64>, u8> {
        let view = self.view(state);
        if !view.checked(all_hold(&transition.conditions, &view))? {
            return Ok(None);
        }
        let mut cost = view.checked(transition.cost.value(&view))?;
        if cost < 0 {
            return Err(NEGATIVE_COST);
        }
        if RANGED {
            cost = transition.high_cost(cost, &view)?;
        }
        *new = *state;
        for effect in &transition.effects {
            match effect {
                Effect::Set(variable, value) => new[*variable] = value.value(&view),
                Effect::Element(variable, value) => new[*variable] = value.value(&view) as u64,
                Effect::Number(variable, value) => new[*variable] = value.value(&view) as u64,
            }
        }
        view.checked(Some(cost))
    }

    /// The cost of these steps from the target at low figures; they have all been taken before.
    pub fn at_low(&self, path: &[u8]) -> i64 {
        let mut state = self.target;
        let mut cost = 0;
        for number in path {
            let transition = &self.transitions[usize::from(*number)];
            let low = transition.cost.value(&self.view(&state));
            cost = self.join(cost, low);
            let before = state;
            let taken = self.step::<false>(transition, &before, &mut state);
            debug_assert!(taken.is_ok_and(|cost| cost.is_some()));
        }
        cost
    }

    pub fn meets_constraints(&self, state: &State) -> Result<bool, u8> {
        let view = self.view(state);
        view.checked(all_hold(&self.constraints, &view))
    }

    pub fn is_base(&self, state: &State) -> Result<bool, u8> {
        let view = self.view(state);
        let mut cases = self.base_cases.iter();
        view.checked(cases.any(|case| all_hold(case, &view)))
    }

    /// The greatest of 0 and the bounds.
    pub fn h(&self, state: &State) -> Result<i64, u8> {
        let view = self.view(state);
        let bounds = self.bounds.iter().map(|bound| bound.value(&view));
        let greatest = bounds.fold(0, i64::max);
        view.checked(greatest)
    }

    /// A hash of the variables without a preference.
    #[inline]
    pub fn hash(&self, state: &State) -> u64 {
        let mut hash = 0u64;
        for variable in &self.plain {
            hash = (hash.rotate_left(26) ^ state[*variable]).wrapping_mul(0x9E37_79B9_7F4A_7C15);
        }
        hash ^ hash >> 32
    }

    /// Whether two states agree on the variables without a preference.
    #[inline]
    pub fn comparable(&self, first: &State, second: &State) -> bool {
        let same = |variable: &usize| first[*variable] == second[*variable];
        self.plain.iter().all(same)
    }

    /// Whether, of two comparable states, the first is no worse on every preferred variable.
    #[inline]
    pub fn no_worse(&self, first: &State, second: &State) -> bool {
        let of = |state: &State, variable: &usize| state[*variable] as i64;
        let no_more = |variable: &usize| of(first, variable) <= of(second, variable);
        let no_less = |variable: &usize| of(first, variable) >= of(second, variable);
        self.less.iter().all(no_more) && self.more.iter().all(no_less)
    }
}
