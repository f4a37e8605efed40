//! `repgypsum check`: the proved plan check's answer number, the cost and the low figure, and why a plan is refused.

use super::arguments::{decimal, Arguments};
use super::input::{looks_like_text, source, Source};
use super::json::{self, Members, JSON};
use super::known::Known;
use super::refusals::LOOKS_LIKE_TEXT;
use super::words::{counted, refusal_name};
use super::{why, Complaint, Done, ANSWERED, REFUSED};
use crate::json::Json;
use crate::numbers::{limit, refusal};
use crate::proved;
use std::ffi::OsString;
use std::io::Read;

const PLAN: &str = "--plan";
const PLAN_HEX: &str = "--plan-hex";

pub fn run(arguments: &[OsString], input: &mut dyn Read) -> Result<Done, Complaint> {
    let arguments = Arguments::read(arguments, &[PLAN, PLAN_HEX], &[JSON])?;
    let given = given(&arguments)?;
    let source = source(arguments.file(), input)?;
    let plan = match given {
        Given::Steps(text) => listed(&text, &source)?,
        Given::Hexadecimal(text) => hexadecimal(&text)?,
    };
    let checked = proved::plan_check(&source.model, &plan);
    let (answer, cost, low) = checked;
    let status = if answer == 0 { ANSWERED } else { REFUSED };
    let why = explained(&source, &plan, answer);
    if arguments.flag(JSON) {
        let members = members(&source, &plan, checked, why);
        return Ok(Done::new(json::document("check", status, members), status));
    }
    let text = format!("{answer} {cost} {low}\n");
    Ok(Done::new(text.into_bytes(), status).note(why))
}

fn members(
    source: &Source,
    plan: &[u8],
    (answer, cost, low): (u8, u64, u64),
    why: Option<String>,
) -> Members {
    let name = match answer {
        0 => "a plan",
        _ => refusal_name(answer),
    };
    let answer = Json::Object(vec![
        ("number", answer.into()),
        ("name", name.into()),
        ("cost", cost.into()),
        ("low", low.into()),
    ]);
    vec![
        ("model", json::model(source)),
        ("plan", json::steps(source.names.as_ref(), plan)),
        ("answer", answer),
        ("why", why.into()),
    ]
}

/// Why the plan check refuses, in a sentence.
fn explained(source: &Source, plan: &[u8], answer: u8) -> Option<String> {
    if answer == 0 {
        return None;
    }
    if answer == refusal::BAD_SETTING {
        let steps = counted(plan.len() as u64, "step");
        let most = limit::PLAN_BYTES;
        return Some(format!("{steps} are given; at most {most} are tested."));
    }
    let name = refusal_name(answer);
    let by_state = refusal::by_state(answer) || answer == refusal::NOT_A_PLAN;
    let known = Known::of(source).ok().filter(|_| by_state);
    match known.and_then(|known| why::no_plan(&known, plan)) {
        Some(told) => Some(format!(
            "{name}. {told} (By the independent implementation, which is tested and not proved.)"
        )),
        None => {
            let hint = looks_like_text(&source.model).then_some(LOOKS_LIKE_TEXT);
            let hint = hint.filter(|_| answer == refusal::NOT_DUE);
            Some(
                format!("{}: {name}. {}", source.title, hint.unwrap_or_default())
                    .trim_end()
                    .to_string(),
            )
        }
    }
}

/// A plan as it is given.
enum Given {
    Steps(String),
    Hexadecimal(String),
}

/// The plan by the one option that gives it.
fn given(arguments: &Arguments) -> Result<Given, Complaint> {
    let value = |name| {
        let value = arguments.value(name);
        value.map(|value| value.to_string_lossy().into_owned())
    };
    match (value(PLAN), value(PLAN_HEX)) {
        (Some(text), None) => Ok(Given::Steps(text)),
        (None, Some(text)) => Ok(Given::Hexadecimal(text)),
        (Some(_), Some(_)) => Err(Complaint::new(format!("{PLAN} or {PLAN_HEX}, not both"))),
        (None, None) => Err(Complaint::new(format!("{PLAN} or {PLAN_HEX} is due"))),
    }
}

/// Transition numbers between commas or blanks, or names between commas; of a whole line, what is behind its colon.
fn listed(text: &str, source: &Source) -> Result<Vec<u8>, Complaint> {
    let steps = text.rsplit(':').next().unwrap_or(text).trim();
    if steps.is_empty() {
        return Ok(Vec::new());
    }
    let mut plan = Vec::new();
    for item in steps.split(',') {
        let words: Vec<&str> = item.split_whitespace().collect();
        let numbers = words.iter().map(|word| number(word));
        match numbers.collect::<Option<Vec<u8>>>() {
            Some(numbers) if !numbers.is_empty() => plan.extend(numbers),
            _ => plan.push(named(&words.join(" "), source)?),
        }
    }
    Ok(plan)
}

fn number(text: &str) -> Option<u8> {
    decimal(text, u32::from(u8::MAX)).map(|number| number as u8)
}

/// The transition of this name, which may stand behind its number.
fn named(name: &str, source: &Source) -> Result<u8, Complaint> {
    let Some(names) = &source.names else {
        let message =
            format!("{PLAN}: `{name}` is no number from 0 to 255; names are known of text models");
        return Err(Complaint::new(message));
    };
    let found = names
        .transitions
        .iter()
        .enumerate()
        .find(|(number, label)| {
            let label = label.as_deref();
            label == Some(name) || label.is_some_and(|label| name == format!("{number} {label}"))
        });
    match found {
        Some((number, _)) => Ok(number as u8),
        None => Err(Complaint::new(format!(
            "{PLAN}: `{name}` is no number from 0 to 255, and no transition of {}",
            source.title
        ))),
    }
}

/// Bytes of two hexadecimal digits each.
fn hexadecimal(text: &str) -> Result<Vec<u8>, Complaint> {
    let wrong = || Complaint::new(format!("{PLAN_HEX}: two hexadecimal digits a byte are due"));
    let digit = |byte: u8| char::from(byte).to_digit(16).ok_or_else(wrong);
    let byte = |pair: &[u8]| match pair {
        [high, low] => Ok((digit(*high)? << 4 | digit(*low)?) as u8),
        _ => Err(wrong()),
    };
    text.as_bytes().chunks(2).map(byte).collect()
}
