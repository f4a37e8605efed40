//! `plan --unconditional`: the model planned again without its bounds and preferences.

use super::settings::{Run, Settings};
use super::theorems::{BROKEN_TARGET, NOTHING_DECLARED};
use super::words::{refusal_name, verdict_name};
use crate::declarations::broken_by_target;
use crate::line::answer_line;
use crate::numbers::refusal::by_state;
use crate::numbers::verdict;
use crate::reference::read_model;
use crate::variants::undeclared;

/// Whether the model's bytes declare a bound or a preference.
fn declares(model: &[u8]) -> bool {
    undeclared(model) != model
}

/// What the run without declarations shows of the run with them, a line each.
pub fn lines(model: &[u8], settings: &Settings, run: &Run) -> Vec<String> {
    let known = !run.answer.refused || by_state(run.answer.verdict);
    let Some(read) = read_model(model).ok().filter(|_| known) else {
        return Vec::new();
    };
    let no_plan = !run.answer.refused && run.answer.verdict == verdict::NO_PLAN;
    if let Some(number) = broken_by_target(&read).filter(|_| no_plan) {
        return vec![format!(
            "The mark \"no plan\" rests on no declaration: the target breaks constraint {number} [{BROKEN_TARGET}]."
        )];
    }
    if !declares(model) {
        return vec![format!(
            "The model declares no bounds and no preferences: the mark rests on no declaration [{NOTHING_DECLARED}]."
        )];
    }
    let second = settings.search(&undeclared(model));
    let line = answer_line(&second.answer, &second.steps);
    vec![
        format!("without bounds and preferences: {line}"),
        shown(run, &second),
    ]
}

/// What the second run shows.
fn shown(first: &Run, second: &Run) -> String {
    let (with, without) = (&first.answer, &second.answer);
    let none = format!("a model without declarations has none that is false [{NOTHING_DECLARED}], and plans do not mention declarations");
    if without.refused {
        let name = refusal_name(without.verdict);
        return format!("Without declarations the search meets a {name}: whether the mark rests on them stays open.");
    }
    match without.verdict {
        verdict::CHEAPEST | verdict::NO_PLAN => {}
        _ => {
            return format!(
                "The mark rests on the declarations: without them the run ends with {}. Whatever is declared, every plan costs at least {}.",
                verdict_name(without.verdict),
                without.bound
            )
        }
    }
    let same_plan = (with.flag, with.cost) == (without.flag, without.cost);
    let mark = verdict_name(without.verdict);
    if !with.refused && with.verdict == without.verdict && same_plan {
        return format!("The mark \"{mark}\" rests on no declaration: {none}.");
    }
    let of_plans = match without.flag {
        true => format!("the cheapest plan costs {}", without.cost),
        false => "there is no plan".to_string(),
    };
    let dearer = with.verdict == verdict::CHEAPEST && with.cost > without.cost;
    let hidden = with.verdict == verdict::NO_PLAN && without.flag;
    let above = without.flag && with.bound > without.cost;
    if !with.refused && (dearer || hidden || above) {
        return format!("A declaration is false: {of_plans}, on no declaration; {none}.");
    }
    format!("On no declaration {of_plans}: {none}.")
}
