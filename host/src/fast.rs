//! The search of documents 01 and 02 in a fast form, for benchmarks and as a third opinion.
//!
//! It shares the reader of models with the reference, and nothing of the evaluation, of the search, of the widths or of the
//! loading profile.

mod compile;
mod expression;
mod ladder;
mod layer;
mod profile;
mod program;
mod run;

use crate::answer::Answer;
use crate::numbers::{limit, refusal};
use crate::reference::read_model;
use ladder::Ladder;
use program::Program;
use run::Run;

/// What a run did beside its answer.
#[derive(Clone, Copy, PartialEq, Eq, Debug, Default)]
pub struct Counts {
    /// Children with f below the best, which were offered to the next layer.
    pub children: u64,
    /// Children that entered the next layer.
    pub entered: u64,
}

/// The answer of a search, and its plan, or the path to the trouble.
pub fn search(model: &[u8], width: u64, length: u64, budget: u64) -> (Answer, Vec<u8>) {
    let (answer, plan, _) = search_counted(model, width, length, budget);
    (answer, plan)
}

/// The same with the counts of the run.
pub fn search_counted(
    model: &[u8],
    width: u64,
    length: u64,
    budget: u64,
) -> (Answer, Vec<u8>, Counts) {
    counted(model, Ladder::doubling(width), Some(length), budget)
}

/// The same with a list of widths.
pub fn search_widths(model: &[u8], widths: &[u16], length: u64, budget: u64) -> (Answer, Vec<u8>) {
    let (answer, plan, _) = counted(model, Ladder::listed(widths), Some(length), budget);
    (answer, plan)
}

/// A search in the loading profile, which chooses the length.
pub fn load(model: &[u8], width: u64, budget: u64) -> (Answer, Vec<u8>) {
    let (answer, plan, _) = counted(model, Ladder::doubling(width), None, budget);
    (answer, plan)
}

/// The same with a list of widths.
pub fn load_widths(model: &[u8], widths: &[u16], budget: u64) -> (Answer, Vec<u8>) {
    let (answer, plan, _) = counted(model, Ladder::listed(widths), None, budget);
    (answer, plan)
}

fn counted(
    model: &[u8],
    ladder: Result<Ladder, u8>,
    length: Option<u64>,
    budget: u64,
) -> (Answer, Vec<u8>, Counts) {
    match admitted(model, ladder, length) {
        Ok((program, ladder, length)) if program.ranged => {
            Run::<true>::new(&program, ladder, length, budget).answer()
        }
        Ok((program, ladder, length)) => {
            Run::<false>::new(&program, ladder, length, budget).answer()
        }
        Err(refusal) => {
            let answer = Answer::refused_by_input(refusal);
            (answer, Vec::new(), Counts::default())
        }
    }
}

/// The compiled model with its widths and its length, which the profile chooses where none is given; or the refusal by the input.
/// Nothing is lent, so refusal 3 does not occur.
fn admitted(
    model: &[u8],
    ladder: Result<Ladder, u8>,
    length: Option<u64>,
) -> Result<(Program, Ladder, u64), u8> {
    if model.len() > limit::MODEL_BYTES {
        return Err(refusal::MODEL_TOO_LONG);
    }
    if length.is_some_and(|length| length == 0 || length > limit::LENGTH) {
        return Err(refusal::BAD_SETTING);
    }
    let ladder = ladder?;
    let program = Program::of(&read_model(model)?);
    let chosen = length.or_else(|| profile::length(model));
    let length = chosen.ok_or(refusal::OUTSIDE_PROFILE)?;
    Ok((program, ladder, length))
}
