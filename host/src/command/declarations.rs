//! `repgypsum declarations`: whether the bounds and preferences of a model are true, as far as can be seen.

mod json;

use super::arguments::Arguments;
use super::input::{looks_like_text, source, Source};
use super::json::{self as shared, JSON};
use super::known::Known;
use super::part::Part;
use super::refusals::LOOKS_LIKE_TEXT;
use super::theorems::NOTHING_DECLARED;
use super::words::{counted, grouped, refusal_name};
use super::{target, warnings, Complaint, Done, ANSWERED, REFUSED};
use crate::declarations::{look, Findings, Looking, NotBetter, TooHigh, Truth};
use crate::numbers::{limit, refusal};
use crate::proved;
use crate::reference::State;
use crate::variants::started_in;
use std::ffi::OsString;
use std::io::Read;

const OPTIONS: [&str; 3] = ["--states", "--walks", "--seed"];

/// The most states and walks that can be asked for, and how many there are if nothing is said.
const MOST: u32 = 10_000_000;
const STATES: u32 = 50_000;
const WALKS: u32 = 1_000;
const SEED: u32 = 1;

/// How far is looked if nothing is said.
pub const USUAL: Looking = Looking {
    states: STATES as usize,
    walks: WALKS as usize,
    seed: SEED as u64,
};

pub fn run(arguments: &[OsString], input: &mut dyn Read) -> Result<Done, Complaint> {
    let arguments = Arguments::read(arguments, &OPTIONS, &[JSON])?;
    let number = |name, most, usual| -> Result<u32, Complaint> {
        Ok(arguments.number(name, most)?.unwrap_or(usual))
    };
    let seed = number("--seed", u32::MAX, SEED)?;
    let looking = Looking {
        states: number("--states", MOST, STATES)? as usize,
        walks: number("--walks", MOST, WALKS)? as usize,
        seed: seed.into(),
    };
    let source = source(arguments.file(), input)?;
    let as_json = arguments.flag(JSON);
    let known = match readable(&source) {
        Ok(known) => known,
        Err(number) => return Ok(refused(&source, looking, number, as_json)),
    };
    let findings = look(&source.model, &known.model, looking);
    let status = if some_false(&findings) {
        REFUSED
    } else {
        ANSWERED
    };
    let parts = parts(&source, &known, looking, &findings);
    if as_json {
        let mut members = json::members(&source, &known, looking, &findings);
        members.push(("parts", shared::parts(&parts)));
        let text = shared::document("declarations", status, members);
        return Ok(Done::new(text, status));
    }
    let mut text = head(&source, &known);
    for part in parts {
        text += &part.text();
    }
    Ok(Done::new(text.into_bytes(), status))
}

/// What is known of the declarations of a model, part by part, after looking as far as is usual.
pub fn tested(source: &Source, known: &Known) -> Vec<Part> {
    let findings = look(&source.model, &known.model, USUAL);
    parts(source, known, USUAL, &findings)
}

/// The answer for a model that the reader refuses.
fn refused(source: &Source, looking: Looking, number: u8, as_json: bool) -> Done {
    let mut note = format!("{}: {}", source.title, refusal_name(number));
    if looks_like_text(&source.model) {
        note = format!("{note}. {LOOKS_LIKE_TEXT}");
    }
    let text = match as_json {
        true => {
            let members = json::refused(source, looking, number);
            shared::document("declarations", REFUSED, members)
        }
        false => format!("refused {number}\n").into_bytes(),
    };
    Done::new(text, REFUSED).note(Some(note).filter(|_| !as_json))
}

fn readable(source: &Source) -> Result<Known, u8> {
    if source.model.len() > limit::MODEL_BYTES {
        return Err(refusal::MODEL_TOO_LONG);
    }
    Known::of(source)
}

fn some_false(findings: &Findings) -> bool {
    let bounds = &findings.bounds;
    let bound = bounds.iter().any(|truth| matches!(truth, Truth::False(_)));
    bound || matches!(findings.preferences, Some(Truth::False(_)))
}

fn head(source: &Source, known: &Known) -> String {
    let bounds = counted(known.listing.bounds.len() as u64, "bound");
    let preferences = counted(known.preferences().len() as u64, "preference");
    format!(
        "Model {} declares {bounds} and {preferences}.\n",
        source.title
    )
}

fn parts(source: &Source, known: &Known, looking: Looking, findings: &Findings) -> Vec<Part> {
    let mut parts = vec![states(looking, findings)];
    parts.extend(target::part(known));
    for (number, truth) in findings.bounds.iter().enumerate() {
        let heading = format!("Bound {number}, {}", known.listing.bounds[number]);
        let mut part = Part::new(heading);
        match truth {
            Truth::True => part.say(format!(
                "True: in every reachable state it is at most the cost of every plan from there{}.",
                figures(known, "low")
            )),
            Truth::Open => {
                let what = format!("a plan that costs less than it{}", figures(known, "low"));
                part.say(open(findings, &what));
            }
            Truth::False(found) => too_high(source, known, found, &mut part),
        }
        if known.has_ranges() && !matches!(truth, Truth::True) {
            let found = &findings.bounds_at_high[number];
            at_high(source, known, findings, (truth, found), &mut part);
        }
        parts.push(part);
    }
    if let Some(truth) = &findings.preferences {
        let mut part = Part::new(format!("Preferences, {}", known.preferences().join("; ")));
        match truth {
            Truth::True => part.say(format!(
                "True: for each plan of a reachable state every state that dominates it has a plan that costs no more{}.",
                figures(known, "high")
            )),
            Truth::Open => part.say(open(findings, "a dominating state without as cheap a plan")),
            Truth::False(found) => {
                not_better(source, known, found, &mut part);
                part.say(least_by(findings));
            }
        }
        parts.push(part);
    }
    if !known.declares() {
        let mut part = Part::new("Nothing is declared");
        part.say(format!(
            "The marks of this model rest on no declaration [{NOTHING_DECLARED}]."
        ));
        parts.push(part);
    }
    let mut told = warnings::of_model(known);
    told.extend(warnings::of_transitions(
        known,
        &findings.never,
        findings.states,
    ));
    parts.extend(warnings::part(told));
    parts
}

fn states(looking: Looking, findings: &Findings) -> Part {
    let mut part = Part::new("The states");
    let count = counted(findings.states as u64, "state");
    if findings.enumerated {
        part.say(format!(
            "All that allowed steps reach were enumerated: {count}."
        ));
    } else {
        part.say(format!(
            "More than {} are reachable. A sample of {count} was looked at:",
            grouped(looking.states as u64)
        ));
        part.say(format!(
            "those of up to {} with seed {}, those that a beam of width 16 meets, and those of plans that the proved search finds.",
            counted(looking.walks as u64, "random walk"),
            looking.seed
        ));
    }
    part.say("States and values are from the independent implementation, which is tested and not proved.");
    part
}

/// What stands behind the least cost from the better state.
fn least_by(findings: &Findings) -> &'static str {
    if findings.enumerated {
        "What the better state has is from the enumeration."
    } else {
        "What the better state has is from the proved search of the model started there, without declarations."
    }
}

/// At which figures costs are compared, where costs are ranges.
fn figures(known: &Known, which: &str) -> String {
    match known.has_ranges() {
        true => format!(" at {which} figures"),
        false => String::new(),
    }
}

fn open(findings: &Findings, what: &str) -> String {
    let count = counted(findings.states as u64, "state");
    format!("Open: {count} did not show {what}.")
}

/// A state with the steps that lead to it.
fn reached(known: &Known, state: &State, path: &[u8]) -> String {
    let state = known.state(state);
    match path.len() {
        0 => format!("at the target, {state},"),
        steps => format!(
            "after {}, {}, in the state {state},",
            counted(steps as u64, "step"),
            known.steps(path)
        ),
    }
}

/// The proved plan check on the model started in the state. Steps from a target that does not meet the constraints are no plan
/// of the model.
fn checked(source: &Source, known: &Known, state: &State, plan: &[u8], part: &mut Part) {
    if known.model.meets_constraints(state) != Ok(true) {
        part.say("The plan check does not confirm it, since that state is the target and does not meet the constraints.");
        return;
    }
    let started = started_in(&source.model, state);
    part.say(format!(
        "The proved plan check, run on that plan and the model started there: {}.",
        known.checked(proved::plan_check(&started, plan))
    ));
}

fn too_high(source: &Source, known: &Known, found: &TooHigh, part: &mut Part) {
    let at = reached(known, &found.state, &found.path);
    part.say(format!("False: {at} it is {}.", found.value));
    let cost = match known.has_ranges() {
        true => format!(
            "{}{}, {}{}",
            found.costs.low,
            figures(known, "low"),
            found.costs.high,
            figures(known, "high")
        ),
        false => found.costs.high.to_string(),
    };
    part.say(format!(
        "A plan from there costs {cost}: {}.",
        known.steps(&found.plan)
    ));
    checked(source, known, &found.state, &found.plan, part);
}

/// What is known of a bound that may not be true of the low costs, against the high ones.
fn at_high(
    source: &Source,
    known: &Known,
    findings: &Findings,
    (at_low, truth): (&Truth<TooHigh>, &Truth<TooHigh>),
    part: &mut Part,
) {
    match truth {
        Truth::True => part.say(
            "Of the high costs it is true: it is at most the cost of every plan at high figures, which is enough for what is proved of the marks.",
        ),
        Truth::Open => {
            let count = counted(findings.states as u64, "state");
            part.say(format!(
                "Of the high costs it is open: {count} did not show a plan that costs less than it at high figures. What is proved of the marks holds where there is none."
            ));
        }
        Truth::False(found) => {
            part.say("Of the high costs it is false too, and this model's marks say no more than that a plan given is a plan.");
            let shown = |found: &TooHigh| found.value > found.costs.high;
            if !matches!(at_low, Truth::False(found) if shown(found)) {
                too_high(source, known, found, part);
            }
        }
    }
}

fn not_better(source: &Source, known: &Known, found: &NotBetter, part: &mut Part) {
    let high = figures(known, "high");
    let worse = reached(known, &found.worse, &found.worse_path);
    part.say(format!(
        "False: {worse} there is a plan at cost {}{high}: {}.",
        found.costs.high,
        known.steps(&found.plan)
    ));
    let better = reached(known, &found.better, &found.better_path);
    part.say(match found.least {
        Some(least) => {
            format!("Better by the preferences, {better} every plan costs at least {least}{high}.")
        }
        None => format!("Better by the preferences, {better} there is no plan."),
    });
    checked(source, known, &found.worse, &found.plan, part);
}
