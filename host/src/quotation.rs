//! Quotations: a run with all that a rerun needs, as text that people read and the program reads back.

mod changes;
mod reading;
mod writing;

use crate::answer::Answer;
use crate::beam::Beam;
use crate::line::answer_line;
use crate::numbers::words_needed;
use crate::proved;

pub use changes::changes;
pub use reading::read;
pub use writing::{mark, written};

/// The first line of every quotation.
pub const TITLE: &str = "repgypsum quotation, form 2";

/// The first line of a quotation from before costs could be ranges: its lines have no low figure, which is the cost then.
const OLDER_TITLE: &str = "repgypsum quotation, form 1";

/// The proof kit's own name for itself, which the repository is checked with.
pub const KIT: &str = include_str!("../../kit");

pub const VERSION: &str = env!("CARGO_PKG_VERSION");

/// The fields of an answer in the order of its line, by name.
pub const FIELDS: [&str; 9] = [
    "verdict",
    "plan flag",
    "cost",
    "bound",
    "length",
    "expansions",
    "rounds",
    "width",
    "low",
];

/// What a line says: the answer's fields, and the plan.
#[derive(Clone, PartialEq, Eq, Debug)]
pub struct Said {
    pub fields: [u64; 9],
    pub plan: Vec<u8>,
}

#[derive(Clone, PartialEq, Eq, Debug)]
pub struct Quotation {
    /// What the model was called.
    pub title: String,
    pub version: String,
    pub kit: String,
    pub beam: Beam,
    pub length: u32,
    pub budget: u32,
    pub said: Said,
    /// The names of the plan's steps; nothing for one without a name.
    pub names: Vec<String>,
    pub model: Vec<u8>,
}

impl Said {
    /// What an answer says; nothing for a refusal.
    pub fn of(answer: &Answer, plan: &[u8]) -> Option<Said> {
        if answer.refused {
            return None;
        }
        let fields = [
            u64::from(answer.verdict),
            u64::from(answer.flag),
            answer.cost,
            answer.bound,
            answer.length,
            answer.expansions,
            answer.rounds,
            answer.width,
            answer.low,
        ];
        let plan = plan.to_vec();
        Some(Said { fields, plan })
    }

    /// The line that the program prints.
    pub fn line(&self) -> String {
        let [number, flag, cost, bound, length, expansions, rounds, width, low] = self.fields;
        let answer = Answer {
            refused: false,
            verdict: number as u8,
            flag: flag == 1,
            cost,
            bound,
            length,
            expansions,
            rounds,
            width,
            low,
        };
        answer_line(&answer, &self.plan)
    }
}

impl Quotation {
    /// The run again: what it says, or the refusal.
    pub fn rerun(&self) -> Result<Said, u8> {
        let words = words_needed(self.beam.widest(), self.length.into());
        let mut plan = vec![0; self.length as usize];
        let mut words = vec![0; words as usize];
        let (model, length, budget) = (&self.model, self.length, self.budget);
        let answer = match &self.beam {
            Beam::UpTo(width) => {
                let width = *width as u32;
                proved::search(model, width, length, budget, &mut plan, &mut words)
            }
            Beam::Listed(widths) => {
                proved::search_widths(model, widths, length, budget, &mut plan, &mut words)
            }
        };
        plan.truncate(answer.length as usize);
        Said::of(&answer, &plan).ok_or(answer.verdict)
    }
}
