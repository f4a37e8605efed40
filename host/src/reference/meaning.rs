//! Meaning: the values of expressions in a state, steps, base states, h and dominance.
//!
//! A trouble is a refusal number, 11 to 13 or 17; the first one met ends the evaluation.

use super::read::all_objects;
use super::syntax::{
    Condition, CostRule, Element, Expression, Model, Number, Preference, Set, Transition, Variable,
};
use crate::numbers::refusal::{DIVISOR_ZERO, HIGH_BELOW_LOW, NEGATIVE_COST, OUT_OF_RANGE};

#[derive(Clone, PartialEq, Eq, Hash, PartialOrd, Ord, Debug)]
pub enum Value {
    Set(u64),
    Element(u8),
    Number(i64),
}

/// One value for each variable.
pub type State = Vec<Value>;

/// The two ends between which the real cost of a step, a path or a plan lies.
#[derive(Clone, Copy, PartialEq, Eq, Debug, Default)]
pub struct Costs {
    pub low: i64,
    pub high: i64,
}

fn in_range(value: i64) -> Result<i64, u8> {
    if i32::try_from(value).is_ok() {
        Ok(value)
    } else {
        Err(OUT_OF_RANGE)
    }
}

/// The greatest whole number whose product with the divisor does not pass the dividend.
fn floor_quotient(dividend: i64, divisor: i64) -> i64 {
    let quotient = dividend / divisor;
    let inexact = dividend % divisor != 0;
    if inexact && (dividend < 0) != (divisor < 0) {
        quotient - 1
    } else {
        quotient
    }
}

fn members(set: u64) -> impl Iterator<Item = u8> {
    (0..64).filter(move |object| set >> object & 1 == 1)
}

impl Model {
    /// The state in which the variables have their start values.
    pub fn target(&self) -> State {
        self.variables
            .iter()
            .map(|variable| match variable {
                Variable::Set { start, .. } => Value::Set(*start),
                Variable::Element { start, .. } => Value::Element(*start),
                Variable::Number { start, .. } => Value::Number(*start),
            })
            .collect()
    }

    // Expressions.

    pub fn number(&self, expression: &Number, state: &State) -> Result<i64, u8> {
        match expression {
            Number::Literal(value) => Ok(*value),
            Number::Variable(variable) => match &state[*variable] {
                Value::Number(value) => Ok(*value),
                other => panic!("a number variable holds {other:?}"),
            },
            Number::Sum(first, second) => {
                let (first, second) = self.two_numbers(first, second, state)?;
                in_range(first + second)
            }
            Number::Difference(first, second) => {
                let (first, second) = self.two_numbers(first, second, state)?;
                in_range(first - second)
            }
            Number::Product(first, second) => {
                let (first, second) = self.two_numbers(first, second, state)?;
                in_range(first * second)
            }
            Number::Quotient(first, second) => {
                let (first, second) = self.two_numbers(first, second, state)?;
                if second == 0 {
                    return Err(DIVISOR_ZERO);
                }
                in_range(floor_quotient(first, second))
            }
            Number::Lesser(first, second) => {
                let (first, second) = self.two_numbers(first, second, state)?;
                Ok(first.min(second))
            }
            Number::Greater(first, second) => {
                let (first, second) = self.two_numbers(first, second, state)?;
                Ok(first.max(second))
            }
            Number::Entry(table, row, column) => {
                let (row, column) = (self.element(row, state), self.element(column, state));
                Ok(self.table_entry(*table, row, column))
            }
            Number::Count(set) => Ok(members(self.set(set, state)).count() as i64),
            Number::EntrySum(table, set, column) => {
                let (set, column) = (self.set(set, state), self.element(column, state));
                self.entry_sum(*table, set, column)
            }
            Number::Choice(condition, first, second) => {
                if self.condition(condition, state)? {
                    self.number(first, state)
                } else {
                    self.number(second, state)
                }
            }
        }
    }

    fn two_numbers(
        &self,
        first: &Number,
        second: &Number,
        state: &State,
    ) -> Result<(i64, i64), u8> {
        Ok((self.number(first, state)?, self.number(second, state)?))
    }

    fn table_entry(&self, table: usize, row: u8, column: u8) -> i64 {
        let table = &self.tables[table];
        table.entries[usize::from(row) * usize::from(table.columns) + usize::from(column)]
    }

    /// The sum of the entries at the rows of the set; only the total must be in range.
    fn entry_sum(&self, table: usize, set: u64, column: u8) -> Result<i64, u8> {
        let mut total = 0;
        for row in members(set) {
            total += self.table_entry(table, row, column);
        }
        in_range(total)
    }

    pub fn element(&self, expression: &Element, state: &State) -> u8 {
        match expression {
            Element::Literal(object) => *object,
            Element::Variable(variable) => match &state[*variable] {
                Value::Element(object) => *object,
                other => panic!("an element variable holds {other:?}"),
            },
        }
    }

    pub fn set(&self, expression: &Set, state: &State) -> u64 {
        match expression {
            Set::Literal(members) => *members,
            Set::Variable(variable) => match &state[*variable] {
                Value::Set(members) => *members,
                other => panic!("a set variable holds {other:?}"),
            },
            Set::Add(element, set) => self.set(set, state) | 1 << self.element(element, state),
            Set::Remove(element, set) => {
                self.set(set, state) & !(1 << self.element(element, state))
            }
            Set::Union(first, second) => self.set(first, state) | self.set(second, state),
            Set::Intersection(first, second) => self.set(first, state) & self.set(second, state),
            Set::Difference(first, second) => self.set(first, state) & !self.set(second, state),
            Set::Complement(count, set) => all_objects(*count) & !self.set(set, state),
        }
    }

    pub fn condition(&self, expression: &Condition, state: &State) -> Result<bool, u8> {
        match expression {
            Condition::Equal(first, second) => {
                let (first, second) = self.two_numbers(first, second, state)?;
                Ok(first == second)
            }
            Condition::Less(first, second) => {
                let (first, second) = self.two_numbers(first, second, state)?;
                Ok(first < second)
            }
            Condition::AtMost(first, second) => {
                let (first, second) = self.two_numbers(first, second, state)?;
                Ok(first <= second)
            }
            Condition::SameElement(first, second) => {
                Ok(self.element(first, state) == self.element(second, state))
            }
            Condition::Member(element, set) => {
                Ok(self.set(set, state) >> self.element(element, state) & 1 == 1)
            }
            Condition::Empty(set) => Ok(self.set(set, state) == 0),
            Condition::Subset(first, second) => {
                let (first, second) = (self.set(first, state), self.set(second, state));
                Ok(first & !second == 0)
            }
            Condition::Not(part) => Ok(!self.condition(part, state)?),
            Condition::And(first, second) => {
                Ok(self.condition(first, state)? && self.condition(second, state)?)
            }
            Condition::Or(first, second) => {
                Ok(self.condition(first, state)? || self.condition(second, state)?)
            }
        }
    }

    /// The value of an effect's expression.
    fn value(&self, expression: &Expression, state: &State) -> Result<Value, u8> {
        Ok(match expression {
            Expression::Set(set) => Value::Set(self.set(set, state)),
            Expression::Element(element) => Value::Element(self.element(element, state)),
            Expression::Number(number) => Value::Number(self.number(number, state)?),
        })
    }

    // Parts of a step.

    /// Whether all conditions hold, tried in order to the first that fails.
    pub fn all_hold(&self, conditions: &[Condition], state: &State) -> Result<bool, u8> {
        for condition in conditions {
            if !self.condition(condition, state)? {
                return Ok(false);
            }
        }
        Ok(true)
    }

    /// The costs of a step from this state. A negative low cost is trouble, and then a high one below it.
    pub fn step_costs(&self, transition: &Transition, state: &State) -> Result<Costs, u8> {
        let low = self.number(&transition.cost, state)?;
        if low < 0 {
            return Err(NEGATIVE_COST);
        }
        let high = match &transition.high {
            Some(high) => self.number(high, state)?,
            None => low,
        };
        if high < low {
            return Err(HIGH_BELOW_LOW);
        }
        Ok(Costs { low, high })
    }

    /// The high cost of a step from this state, which the search works on.
    pub fn step_cost(&self, transition: &Transition, state: &State) -> Result<i64, u8> {
        Ok(self.step_costs(transition, state)?.high)
    }

    /// The state after the effects, which all read the old state.
    pub fn after(&self, transition: &Transition, state: &State) -> Result<State, u8> {
        let mut new = state.clone();
        for effect in &transition.effects {
            new[effect.variable] = self.value(&effect.value, state)?;
        }
        Ok(new)
    }

    /// Whether the state meets all constraints.
    pub fn meets_constraints(&self, state: &State) -> Result<bool, u8> {
        self.all_hold(&self.constraints, state)
    }

    /// Whether one of the base cases holds, tried in order to the first that does.
    pub fn is_base(&self, state: &State) -> Result<bool, u8> {
        for base_case in &self.base_cases {
            if self.all_hold(base_case, state)? {
                return Ok(true);
            }
        }
        Ok(false)
    }

    // Costs and declarations.

    /// A path cost joined with a step's cost or with h.
    pub fn join(&self, cost: i64, next: i64) -> i64 {
        match self.rule {
            CostRule::Sum => cost + next,
            CostRule::Largest => cost.max(next),
        }
    }

    /// Low figures joined with low ones, and high with high ones.
    pub fn join_costs(&self, costs: Costs, next: Costs) -> Costs {
        Costs {
            low: self.join(costs.low, next.low),
            high: self.join(costs.high, next.high),
        }
    }

    /// The greatest of 0 and the bounds.
    pub fn h(&self, state: &State) -> Result<i64, u8> {
        let mut greatest = 0;
        for bound in &self.bounds {
            greatest = greatest.max(self.number(bound, state)?);
        }
        Ok(greatest)
    }

    /// Whether `better` is no worse on every preferred variable and equal on the rest.
    pub fn dominates(&self, better: &State, worse: &State) -> bool {
        self.variables.iter().enumerate().all(|(place, variable)| {
            let preference = match variable {
                Variable::Set { .. } => Preference::None,
                Variable::Element { preference, .. } => *preference,
                Variable::Number { preference, .. } => *preference,
            };
            let (better, worse) = (&better[place], &worse[place]);
            match preference {
                Preference::None => better == worse,
                Preference::Less => better <= worse,
                Preference::More => better >= worse,
            }
        })
    }
}
