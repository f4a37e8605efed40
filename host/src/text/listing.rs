//! The expressions of a model as text, by the commands that they stand in.

use super::names::Names;
use super::printer::lists;
use super::spelling::Spelling;
use crate::reference::read_model;

/// A transition's expressions, each effect with its variable.
#[derive(Clone, PartialEq, Eq, Debug, Default)]
pub struct Step {
    pub conditions: Vec<String>,
    /// The low cost, which is the whole cost where no high one is written.
    pub cost: String,
    pub high: Option<String>,
    pub effects: Vec<(usize, String)>,
}

/// The expressions of transitions, base cases, constraints and bounds, in the order written.
#[derive(Clone, PartialEq, Eq, Debug, Default)]
pub struct Listing {
    pub transitions: Vec<Step>,
    pub base_cases: Vec<Vec<String>>,
    pub constraints: Vec<String>,
    pub bounds: Vec<String>,
}

impl Listing {
    /// The listing of a model that the reader accepts, or the refusal number.
    pub fn of(bytes: &[u8], names: &Names) -> Result<Listing, u8> {
        let model = read_model(bytes)?;
        let mut spelling = Spelling::new(bytes, names, lists(&model));
        let mut listing = Listing::default();
        while listing.command(&mut spelling) {}
        Ok(listing)
    }

    /// Takes the next command; false at the end command.
    fn command(&mut self, bytes: &mut Spelling) -> bool {
        match bytes.byte() {
            0x01 => pass(bytes, 1),
            0x02 => pass(bytes, 9),
            0x03 => pass(bytes, 3),
            0x04 => pass(bytes, 5),
            0x05 => pass(bytes, 2),
            0x06 => pass(bytes, 4),
            0x07 => self.transitions.push(Step::default()),
            0x08 => self.condition(bytes.expression()),
            0x09 => self.step().cost = bytes.expression(),
            0x10 => self.step().high = Some(bytes.expression()),
            0x0A => {
                let variable = usize::from(bytes.byte());
                let value = bytes.expression();
                self.step().effects.push((variable, value));
            }
            0x0B => self.base_cases.push(Vec::new()),
            0x0C => self.constraints.push(bytes.expression()),
            0x0D => self.bounds.push(bytes.expression()),
            _ => return false,
        }
        true
    }

    /// A condition belongs to the base case under way, else to the transition.
    fn condition(&mut self, condition: String) {
        match self.base_cases.last_mut() {
            Some(base_case) => base_case.push(condition),
            None => self.step().conditions.push(condition),
        }
    }

    fn step(&mut self) -> &mut Step {
        let last = self.transitions.last_mut();
        last.expect("a transition is under way")
    }
}

/// Passes over operands of this many bytes.
fn pass(bytes: &mut Spelling, count: usize) {
    for _ in 0..count {
        bytes.byte();
    }
}
