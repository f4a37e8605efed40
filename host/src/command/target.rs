//! What the target's constraints say of a model's plans.

use super::known::Known;
use super::part::Part;
use super::settings::Run;
use super::theorems::{BROKEN_TARGET, BROKEN_TARGET_ANSWER};
use super::why;
use super::words::refusal_name;
use crate::declarations::broken_by_target;
use crate::numbers::verdict;

/// Whether the answer is the one for a target that breaks a constraint.
pub fn decides(known: &Known, run: &Run) -> bool {
    let no_plan = !run.answer.refused && run.answer.verdict == verdict::NO_PLAN;
    no_plan && broken_by_target(&known.model).is_some()
}

/// The constraint that does not hold at the target, with the values there.
fn failing(known: &Known) -> Option<String> {
    let target = known.model.target();
    let told = why::in_constraints(known, &target)?;
    Some(format!("{told}. The target: {}.", known.state(&target)))
}

/// Why there is no plan, for a target that breaks a constraint.
pub fn say_no_plan(known: &Known, part: &mut Part) {
    let told = failing(known).unwrap_or_default();
    part.say(format!("The target breaks a constraint: {told}"));
    part.say(format!(
        "A target that does so has no plan, of whatever length and whatever the model declares [{BROKEN_TARGET}];"
    ));
    part.say(format!(
        "the search finds that before it expands a state [{BROKEN_TARGET_ANSWER}]. So the mark \"no plan\" rests on no declaration."
    ));
    part.say("The constraint is found by the independent implementation, which is tested and not proved.");
}

/// What the target's constraints mean for the model, where one of them does not hold.
pub fn part(known: &Known) -> Option<Part> {
    let told = failing(known)?;
    let mut part = Part::new("The target");
    match known.model.meets_constraints(&known.model.target()) {
        Err(number) => {
            part.say(format!("It has no plan: {told}"));
            part.say(format!(
                "The search and the plan check refuse the model with {number}, {}.",
                refusal_name(number)
            ));
        }
        Ok(_) => {
            part.say(format!("It breaks a constraint: {told}"));
            part.say(format!(
                "So the model has no plan, and the mark \"no plan\" rests on no declaration [{BROKEN_TARGET}]."
            ));
        }
    }
    part.say(
        "What is declared speaks of the states that allowed steps reach from it all the same.",
    );
    Some(part)
}
