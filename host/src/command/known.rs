//! A model that the reader accepts, in the words of its text.

use super::input::Source;
use super::words::grouped;
use crate::declarations::preferences;
use crate::reference::syntax::Preference;
use crate::reference::{read_model, Model, State, Value};
use crate::text::{braces, Listing, Names};

/// A model with its names and its expressions as text.
pub struct Known {
    pub model: Model,
    pub names: Names,
    pub listing: Listing,
}

impl Known {
    /// By the independent reader; the text's names and expressions, or numbers where there is no text.
    pub fn of(source: &Source) -> Result<Known, u8> {
        let model = read_model(&source.model)?;
        let names = source.names.clone();
        let names = names.unwrap_or_else(|| Names::by_number(&model));
        let listing = match &source.listing {
            Some(listing) => listing.clone(),
            None => Listing::of(&source.model, &names)?,
        };
        Ok(Known {
            model,
            names,
            listing,
        })
    }

    /// A variable's value in the words of the text; objects without names in runs, such as `{0, 2..5}`.
    pub fn value(&self, variable: usize, value: &Value) -> String {
        match value {
            Value::Set(members) if self.names.variables[variable].group.is_none() => {
                braces(*members)
            }
            _ => self.names.value(variable, value),
        }
    }

    /// The transition's number, and its name if the text gives one.
    pub fn transition(&self, number: usize) -> String {
        match self.names.transitions.get(number) {
            Some(Some(name)) => format!("{number} {name}"),
            _ => number.to_string(),
        }
    }

    /// Steps by number and name, with commas between them.
    pub fn steps(&self, steps: &[u8]) -> String {
        let names: Vec<String> = steps
            .iter()
            .map(|step| self.transition(usize::from(*step)))
            .collect();
        match names.is_empty() {
            true => "no steps".to_string(),
            false => names.join(", "),
        }
    }

    /// The values of a state by name.
    pub fn state(&self, state: &State) -> String {
        self.values(state, |_| true)
            .unwrap_or("no variables".to_string())
    }

    /// The values that a step has changed, by name.
    pub fn changes(&self, before: &State, after: &State) -> String {
        let changed = |variable: usize| before[variable] != after[variable];
        self.values(after, changed)
            .unwrap_or("unchanged".to_string())
    }

    fn values(&self, state: &State, wanted: impl Fn(usize) -> bool) -> Option<String> {
        let value = |(variable, value)| {
            let name = self.names.variable(variable);
            format!("{name} = {}", self.value(variable, value))
        };
        let values = state.iter().enumerate();
        let values = values.filter(|(variable, _)| wanted(*variable)).map(value);
        let values: Vec<String> = values.collect();
        (!values.is_empty()).then(|| values.join(", "))
    }

    /// Each preferred variable, with the better direction.
    pub fn preferences(&self) -> Vec<String> {
        let sentence = |(variable, preference)| {
            let better = match preference {
                Preference::More => "more",
                _ => "less",
            };
            format!("{}: {better} is better", self.names.variable(variable))
        };
        preferences(&self.model).into_iter().map(sentence).collect()
    }

    /// Whether the model declares a bound or a preference.
    pub fn declares(&self) -> bool {
        !self.listing.bounds.is_empty() || !self.preferences().is_empty()
    }

    /// Whether some transition has a high cost of its own, so that costs are known only within ranges.
    pub fn has_ranges(&self) -> bool {
        let mut transitions = self.model.transitions.iter();
        transitions.any(|transition| transition.high.is_some())
    }

    /// What the plan check answers, in words; the low figure where costs are ranges.
    pub fn checked(&self, (answer, cost, low): (u8, u64, u64)) -> String {
        let low = match self.has_ranges() {
            true => format!(", low {}", grouped(low)),
            false => String::new(),
        };
        format!("answer {answer}, cost {}{low}", grouped(cost))
    }

    /// Whether something in the model is called hours.
    pub fn speaks_of_hours(&self) -> bool {
        let names = &self.names;
        let variables = names
            .variables
            .iter()
            .filter_map(|found| found.name.as_ref());
        let tables = names.tables.iter().flatten();
        let mut all = variables.chain(tables).chain(&names.constants);
        all.any(|name| name.to_lowercase().contains("hour"))
    }
}
