//! The stored cases: calls, with the answers of the reference.

pub mod loads;
pub mod meaning;
pub mod months;
pub mod plans;
pub mod ranges;
pub mod reading;
pub mod searches;
pub mod text;
pub mod widths;

use crate::answer::Answer;
use crate::beam::Beam;
use crate::build::Bytes;
use crate::numbers::words_needed;
use crate::reference::{load, load_widths, plan_check, search, search_widths};

/// The byte with which lent plan buffers are filled.
pub const FILL: u8 = 0xA5;

#[derive(Clone, PartialEq, Eq, Debug)]
pub enum Call {
    Check { model: Bytes, plan: Bytes },
    Search(Search),
    Load(Load),
}

/// A search at these settings, with what is lent to it: a plan buffer, and so many words.
#[derive(Clone, PartialEq, Eq, Debug)]
pub struct Search {
    pub model: Bytes,
    pub beam: Beam,
    pub length: u64,
    pub budget: u64,
    pub buffer: Bytes,
    pub words: u64,
}

/// The same in the loading profile, which chooses the length.
#[derive(Clone, PartialEq, Eq, Debug)]
pub struct Load {
    pub model: Bytes,
    pub beam: Beam,
    pub budget: u64,
    pub buffer: Bytes,
    pub words: u64,
}

#[derive(Clone, PartialEq, Eq, Debug)]
pub enum Outcome {
    Check(u8, u64, u64),
    Search(Answer, Bytes),
}

impl Call {
    /// A search with the buffers that its settings need.
    pub fn search(model: Bytes, width: u64, length: u64, budget: u64) -> Call {
        Call::search_by(model, Beam::UpTo(width), length, budget)
    }

    /// The same with these widths.
    pub fn search_by(model: Bytes, beam: Beam, length: u64, budget: u64) -> Call {
        let words = words_needed(beam.widest(), length);
        Call::Search(Search {
            model,
            beam,
            length,
            budget,
            buffer: vec![FILL; length as usize],
            words,
        })
    }

    /// A search in the loading profile with these widths and buffers.
    pub fn load_by(
        model: Bytes,
        beam: Beam,
        budget: u64,
        (plan_bytes, words): (usize, u64),
    ) -> Call {
        Call::Load(Load {
            model,
            beam,
            budget,
            buffer: vec![FILL; plan_bytes],
            words,
        })
    }

    pub fn model(&self) -> &Bytes {
        match self {
            Call::Check { model, .. } => model,
            Call::Search(search) => &search.model,
            Call::Load(load) => &load.model,
        }
    }

    /// What the reference answers.
    pub fn run(&self) -> Outcome {
        match self {
            Call::Check { model, plan } => {
                let (answer, cost, low) = plan_check(model, plan);
                Outcome::Check(answer, cost, low)
            }
            Call::Search(search) => {
                let (answer, after) = search.run();
                Outcome::Search(answer, after)
            }
            Call::Load(load) => {
                let (answer, after) = load.run();
                Outcome::Search(answer, after)
            }
        }
    }
}

impl Search {
    /// The reference's answer, and the plan buffer afterwards.
    pub fn run(&self) -> (Answer, Bytes) {
        let mut after = self.buffer.clone();
        let (model, plan) = (&self.model, &mut after);
        let (length, budget, words) = (self.length, self.budget, self.words);
        let answer = match &self.beam {
            Beam::UpTo(width) => search(model, *width, length, budget, plan, words),
            Beam::Listed(widths) => search_widths(model, widths, length, budget, plan, words),
        };
        (answer, after)
    }
}

impl Load {
    /// The reference's answer, and the plan buffer afterwards.
    pub fn run(&self) -> (Answer, Bytes) {
        let mut after = self.buffer.clone();
        let (model, plan) = (&self.model, &mut after);
        let (budget, words) = (self.budget, self.words);
        let answer = match &self.beam {
            Beam::UpTo(width) => load(model, *width, budget, plan, words),
            Beam::Listed(widths) => load_widths(model, widths, budget, plan, words),
        };
        (answer, after)
    }
}

impl Outcome {
    /// Answer, cost and low figure of a check, or the ten fields of a search.
    pub fn fields(&self) -> Vec<u64> {
        match self {
            Outcome::Check(answer, cost, low) => vec![u64::from(*answer), *cost, *low],
            Outcome::Search(answer, _) => vec![
                u64::from(answer.refused),
                u64::from(answer.verdict),
                u64::from(answer.flag),
                answer.cost,
                answer.bound,
                answer.length,
                answer.expansions,
                answer.rounds,
                answer.width,
                answer.low,
            ],
        }
    }
}

/// A call, with what it is for and the fields stated by hand in the chosen ones ("_" for any).
pub struct Case {
    pub note: Option<String>,
    pub call: Call,
    pub stated: Option<String>,
}

impl Case {
    /// Whether the outcome has the fields stated by hand.
    pub fn as_stated(&self, outcome: &Outcome) -> bool {
        let Some(stated) = &self.stated else {
            return true;
        };
        let fields = outcome.fields();
        let words: Vec<&str> = stated.split(' ').collect();
        let agrees = |(word, field): (&&str, &u64)| *word == "_" || *word == field.to_string();
        words.len() == fields.len() && words.iter().zip(&fields).all(agrees)
    }
}

/// A list of cases under assembly.
#[derive(Default)]
pub struct Cases(pub Vec<Case>);

impl Cases {
    pub fn add(&mut self, note: &str, call: Call, stated: &str) {
        self.0.push(Case {
            note: Some(note.to_string()),
            call,
            stated: Some(stated.to_string()),
        });
    }

    /// Of a sequence of random calls those at the places, the last of which is the greatest.
    pub fn add_random(&mut self, places: &[usize], mut next: impl FnMut() -> Call) {
        let end = places.last().map_or(0, |last| last + 1);
        for place in 0..end {
            let call = next();
            if places.contains(&place) {
                self.0.push(Case {
                    note: None,
                    call,
                    stated: None,
                });
            }
        }
    }

    /// A plan check whose answer and cost are stated, the low figure being the cost.
    pub fn check(&mut self, note: &str, model: Bytes, plan: &[u8], answer: u8, cost: u64) {
        self.check_range(note, model, plan, answer, (cost, cost));
    }

    /// A plan check whose answer, cost and low figure are stated.
    pub fn check_range(
        &mut self,
        note: &str,
        model: Bytes,
        plan: &[u8],
        answer: u8,
        (cost, low): (u64, u64),
    ) {
        let plan = plan.to_vec();
        let call = Call::Check { model, plan };
        self.add(note, call, &format!("{answer} {cost} {low}"));
    }

    /// A search with the buffers due, whose fields are stated.
    pub fn search(&mut self, note: &str, model: Bytes, settings: (u64, u64, u64), stated: &str) {
        let (width, length, budget) = settings;
        self.add(note, Call::search(model, width, length, budget), stated);
    }

    /// A search in the loading profile with these buffers, whose fields are stated.
    pub fn load(
        &mut self,
        note: &str,
        model: Bytes,
        (width, budget): (u64, u64),
        lent: (usize, u64),
        stated: &str,
    ) {
        let call = Call::load_by(model, Beam::UpTo(width), budget, lent);
        self.add(note, call, stated);
    }
}

/// The groups of cases by the name of their files.
pub fn groups() -> Vec<(&'static str, Vec<Case>)> {
    vec![
        ("Reading", reading::cases()),
        ("Meaning", meaning::cases()),
        ("Plans", plans::cases()),
        ("Searches", searches::cases()),
        ("Loads", loads::cases()),
        ("Widths", widths::cases()),
        ("Ranges", ranges::cases()),
    ]
}
