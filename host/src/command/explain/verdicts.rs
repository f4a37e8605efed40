//! What is proved of each verdict, and what a stopped or contradicted run leaves open.

use crate::answer::Answer;
use crate::beam::Beam;
use crate::command::input::Source;
use crate::command::known::Known;
use crate::command::part::Part;
use crate::command::settings::{Run, Settings};
use crate::command::target;
use crate::command::theorems::{
    A_PLAN, BOTH_COSTS, CHEAPEST, CHEAPEST_IN_RANGES, CONTRADICTED, HIGH_REACHED, LOW_REACHED,
    NOTHING_DECLARED, NO_PLAN, NO_PLAN_IN_RANGES, PLAN_CHECK, REAL_COST, STOPPED,
    STOPPED_IN_RANGES,
};
use crate::command::widths;
use crate::command::words::{capital, counted, grouped};
use crate::numbers::{limit, verdict};
use crate::proved;

/// What is said below sentences that cite theorems.
const THEOREMS: &str =
    "The theorems in brackets are those of docs/AUDIT.md, which says what they rest on.";

/// What the mark stands on, each sentence with its theorem.
pub fn proved(known: &Known, run: &Run) -> Part {
    let mut part = Part::new("What is proved");
    let answer = &run.answer;
    if answer.flag {
        let cost = grouped(answer.cost);
        part.say(format!(
            "The plan is a plan of the model, at cost {cost}, whatever the model declares [{A_PLAN}]."
        ));
        say_range(answer, &mut part);
    }
    if target::decides(known, run) {
        target::say_no_plan(known, &mut part);
        part.say(THEOREMS);
        return part;
    }
    if answer.verdict == verdict::CONTRADICTED {
        part.say(format!(
            "Some declared bound or preference of the model is false [{CONTRADICTED}]."
        ));
        return part;
    }
    let conditional = conditional(known, answer);
    if known.declares() {
        part.say(format!("{}, {conditional}.", supposing(known)));
    } else {
        part.say(format!("{}.", capital(&conditional)));
        part.say(format!(
            "The model declares no bounds and no preferences, so that nothing here is conditional [{NOTHING_DECLARED}]."
        ));
    }
    part.say(THEOREMS);
    part
}

/// What has to be true for a mark.
fn supposing(known: &Known) -> &'static str {
    match known.has_ranges() {
        true => {
            "If the model's bounds are true of the low costs and its preferences of the high ones"
        }
        false => "If the model's declarations are true",
    }
}

/// What a mark says, if the declarations are true. Where costs are ranges, the theorems suppose them true of the ranges.
fn conditional(known: &Known, answer: &Answer) -> String {
    let ranges = known.has_ranges();
    let theorem = |plain, in_ranges| match ranges && known.declares() {
        true => in_ranges,
        false => plain,
    };
    let bound = grouped(answer.bound);
    match (answer.verdict, ranges) {
        (verdict::CHEAPEST, true) => format!(
            "no plan of the model has a smaller high cost, of whatever length [{}]",
            theorem(CHEAPEST, CHEAPEST_IN_RANGES)
        ),
        (verdict::CHEAPEST, false) => {
            format!("no plan of the model costs less, of whatever length [{CHEAPEST}]")
        }
        (verdict::NO_PLAN, _) => format!(
            "the model has no plan, of whatever length [{}]",
            theorem(NO_PLAN, NO_PLAN_IN_RANGES)
        ),
        (_, true) => format!(
            "every plan of the model has a high cost of at least {bound} [{}]",
            theorem(STOPPED, STOPPED_IN_RANGES)
        ),
        (_, false) => format!("every plan of the model costs at least {bound} [{STOPPED}]"),
    }
}

/// What the two figures of a plan mean; nothing where they are the same.
fn say_range(answer: &Answer, part: &mut Part) {
    if answer.low == answer.cost {
        return;
    }
    part.say(format!(
        "Whatever its steps really cost inside their ranges, its real cost lies between {} and {} [{REAL_COST}]:",
        grouped(answer.low),
        grouped(answer.cost)
    ));
    part.say(format!(
        "at the low end where each takes its low cost [{LOW_REACHED}], at the high end where each takes its high one [{HIGH_REACHED}]."
    ));
}

/// The part that belongs to the verdict alone.
pub fn more(known: &Known, settings: &Settings, run: &Run) -> Option<Part> {
    match run.answer.verdict {
        verdict::WIDTH_STOP | verdict::LENGTH_STOP | verdict::BUDGET_SPENT => {
            Some(stopped(known, settings, run))
        }
        verdict::CONTRADICTED => Some(contradicted(known, run)),
        _ => None,
    }
}

/// The gap, and what would have to change.
fn stopped(known: &Known, settings: &Settings, run: &Run) -> Part {
    let answer = &run.answer;
    let mut part = Part::new("What is open");
    let supposing = if known.declares() {
        ", if the declarations are true"
    } else {
        ""
    };
    let bound = grouped(answer.bound);
    if answer.flag {
        let gap = grouped(answer.cost.saturating_sub(answer.bound));
        part.say(format!(
            "Cost {} and bound {bound} leave a gap of {gap}: the cheapest plan costs at most {gap} less{supposing}.",
            grouped(answer.cost)
        ));
    } else {
        part.say(format!(
            "No plan was found. There may be one, at cost {bound} or more{supposing}."
        ));
    }
    say_high(known, &mut part);
    match answer.verdict {
        verdict::WIDTH_STOP => width_stop(settings, &mut part),
        verdict::LENGTH_STOP => length_stop(settings, &mut part),
        _ => budget_spent(settings, &mut part),
    }
    part
}

fn width_stop(settings: &Settings, part: &mut Part) {
    part.say(format!(
        "A layer had more states than the widest beam keeps, and some were cut at width {}.",
        grouped(settings.beam.widest())
    ));
    part.say(match wider(settings) {
        Some(option) => format!(
            "To change: a wider beam, {option} or more, up to {}.",
            limit::WIDTH
        ),
        None => "The beam is the widest there is. Higher bounds, preferences or constraints would leave fewer states.".to_string(),
    });
    if !settings.loading {
        part.say("Then the length limit may stop the run, which shows only when no state is cut.");
    }
}

/// The option that asks for a wider beam; nothing where it is the widest there is.
fn wider(settings: &Settings) -> Option<String> {
    match &settings.beam {
        Beam::UpTo(width) => (*width < limit::WIDTH).then(|| format!("--width {}", width * 2)),
        Beam::Listed(list) => {
            let list = widths::wider(list)?;
            Some(format!("--widths {}", widths::option(&list)))
        }
    }
}

fn length_stop(settings: &Settings, part: &mut Part) {
    part.say(format!(
        "An unfinished state that may still lead to a better plan lay at the limit of {}.",
        counted(settings.length.into(), "step")
    ));
    if u64::from(settings.length) < limit::LENGTH {
        part.say(format!(
            "To change: a longer limit, --length {} or more, up to {}.",
            settings.length + 1,
            limit::LENGTH
        ));
    } else {
        part.say("The limit is the longest there is. A model with fewer and larger steps would end before it.");
    }
}

fn budget_spent(settings: &Settings, part: &mut Part) {
    part.say(format!(
        "The budget of {} was used up.",
        counted(settings.budget.into(), "expansion")
    ));
    if settings.budget < u32::MAX {
        part.say(format!(
            "To change: a larger budget, --budget {} or more, up to {}.",
            settings.budget + 1,
            u32::MAX
        ));
    } else {
        part.say("The budget is the largest there is. Higher bounds, preferences or constraints would leave fewer states.");
    }
}

/// Which costs are meant, where costs are ranges.
fn say_high(known: &Known, part: &mut Part) {
    if known.has_ranges() {
        part.say("Costs and bound are at high figures.");
    }
}

/// The plan against the bound.
fn contradicted(known: &Known, run: &Run) -> Part {
    let answer = &run.answer;
    let mut part = Part::new("What is contradicted");
    part.say(format!(
        "By the declarations every plan costs at least {}; the plan given costs {}.",
        grouped(answer.bound),
        grouped(answer.cost)
    ));
    say_high(known, &mut part);
    part.say("Until the declarations are put right, this model's marks say no more than that a plan given is a plan.");
    part
}

/// The proved plan check on the plan given.
pub fn checked_again(source: &Source, known: &Known, run: &Run) -> Part {
    let mut part = Part::new("The plan check");
    let checked = proved::plan_check(&source.model, &run.steps);
    let steps = counted(run.steps.len() as u64, "step");
    part.say(format!(
        "The proved plan check, run on these {steps}: {}.",
        known.checked(checked)
    ));
    if checked == (0, run.answer.cost, run.answer.low) {
        part.say(match known.has_ranges() {
            true => "The plan passes, at both costs that the search states.",
            false => "The plan passes, at the cost that the search states.",
        });
        part.say(match known.has_ranges() {
            true => format!("A sequence of at most 256 steps passes exactly if it is a plan [{PLAN_CHECK}], and with both its costs [{BOTH_COSTS}]."),
            false => format!("A sequence of at most 256 steps passes exactly if it is a plan, and with its cost [{PLAN_CHECK}]."),
        });
    } else {
        part.say("This disagrees with the search: please report it.");
    }
    part
}
