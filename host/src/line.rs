//! The one line that the program prints for a model, at document 01's settings.

use crate::answer::Answer;
use crate::numbers::{refusal, words_needed};
use crate::reference::search;

/// The program's settings: the longest model, the widest beam, the length limit and the budget.
pub const LONGEST_MODEL: usize = 16_384;
pub const WIDTH: u64 = 16;
pub const LENGTH: u64 = 64;
pub const BUDGET: u64 = 100_000;

/// The answer's fields, a colon and the plan; or "refused" and the number.
pub fn line(model: &[u8]) -> String {
    if model.len() > LONGEST_MODEL {
        return format!("refused {}", refusal::MODEL_TOO_LONG);
    }
    line_at(model, WIDTH, LENGTH, BUDGET)
}

/// The same at other settings, with buffers of the sizes due.
pub fn line_at(model: &[u8], width: u64, length: u64, budget: u64) -> String {
    let mut buffer = vec![0; length as usize];
    let words = words_needed(width, length);
    let answer = search(model, width, length, budget, &mut buffer, words);
    answer_line(&answer, &buffer)
}

/// The line of an answer whose steps are at the front of the buffer.
pub fn answer_line(answer: &Answer, buffer: &[u8]) -> String {
    if answer.refused {
        return format!("refused {}", answer.verdict);
    }
    format!("{} {}", answer.verdict, fields(answer, buffer))
}

/// The fields behind the verdict, a colon and the steps.
pub fn fields(answer: &Answer, buffer: &[u8]) -> String {
    let mut line = format!(
        "{} {} {} {} {} {} {} {} :",
        u8::from(answer.flag),
        answer.cost,
        answer.bound,
        answer.length,
        answer.expansions,
        answer.rounds,
        answer.width,
        answer.low
    );
    for number in &buffer[..answer.length as usize] {
        line += &format!(" {number}");
    }
    line
}
