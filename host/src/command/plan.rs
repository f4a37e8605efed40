//! `repgypsum plan`: the answer's line, its fields by name, or JSON.

use super::arguments::Arguments;
use super::input::source;
use super::json::{self, JSON};
use super::long_runs::{self, Stop, Watch};
use super::settings::{self, Run, Settings, OPTIONS};
use super::words::{refusal_name, spaced, verdict_name};
use super::{quotations, refusals, unconditional, Complaint, Done, ANSWERED, CANNOT, REFUSED};
use crate::json::Json;
use crate::line::answer_line;
use crate::numbers::refusal::by_state;
use std::ffi::OsString;
use std::io::Read;

const FIELDS: &str = "--fields";
const QUOTE: &str = "--quote";
const UNCONDITIONAL: &str = "--unconditional";

pub fn run(arguments: &[OsString], input: &mut dyn Read) -> Result<Done, Complaint> {
    let valued = [&OPTIONS[..], &long_runs::VALUED, &[QUOTE]].concat();
    let own = [FIELDS, UNCONDITIONAL, JSON];
    let flags = [&own[..], &long_runs::FLAGS, &settings::FLAGS].concat();
    let arguments = Arguments::read(arguments, &valued, &flags)?;
    if arguments.flag(FIELDS) && arguments.flag(JSON) {
        return Err(Complaint::new(format!("{FIELDS} or {JSON}, not both")));
    }
    let mut settings = Settings::read(&arguments)?;
    let watch = Watch::read(&arguments, &mut settings)?;
    let source = source(arguments.file(), input)?;
    let finished = watch.search(&source.model, settings.for_model(&source.model));
    let (run, settings) = (&finished.run, &finished.settings);
    let beside = beside(&arguments, &source.model, settings, run);
    let note = refusals::note(&source, settings, run);
    let wrong = arguments.value(QUOTE).and_then(|out| {
        let quotation = quotations::quotation(&source, settings, run);
        quotations::quote(out, quotation)
    });
    let status = match wrong {
        Some(_) => CANNOT,
        None => status(run),
    };
    if arguments.flag(JSON) {
        let mut members = json::search(&source, settings, run);
        members.extend([
            ("steps", json::steps(source.names.as_ref(), &run.steps)),
            ("stopped_by", finished.stop.map(Stop::name).into()),
            ("unconditional", beside.map(|lines| said(&lines)).into()),
            ("note", note.into()),
        ]);
        let text = json::document("plan", status, members);
        return Ok(Done::new(text, status).failed(wrong));
    }
    let mut text = if arguments.flag(FIELDS) {
        fields(settings, run)
    } else {
        format!("{}\n", answer_line(&run.answer, &run.steps))
    };
    let stopped = finished.stopped();
    for line in stopped.into_iter().chain(beside.unwrap_or_default()) {
        text += &format!("{line}\n");
    }
    let done = Done::new(text.into_bytes(), status);
    Ok(done.note(note).failed(wrong))
}

/// Lines as sentences with the theorems that they cite.
fn said(lines: &[String]) -> Json {
    Json::List(lines.iter().map(|line| json::sentence(line)).collect())
}

/// What the run without declarations shows, if that is asked for.
fn beside(
    arguments: &Arguments,
    model: &[u8],
    settings: &Settings,
    run: &Run,
) -> Option<Vec<String>> {
    let asked = arguments.flag(UNCONDITIONAL);
    asked.then(|| unconditional::lines(model, settings, run))
}

/// The exit status that an answer has.
pub fn status(run: &Run) -> u8 {
    if run.answer.refused {
        REFUSED
    } else {
        ANSWERED
    }
}

/// Every field by name, one a line; in the loading profile the length that is chosen; last the plan, or the path to the state of a refusal.
fn fields(settings: &Settings, run: &Run) -> String {
    let answer = &run.answer;
    let number = answer.verdict;
    let (what, name) = if answer.refused {
        ("refused", refusal_name(number))
    } else {
        ("verdict", verdict_name(number))
    };
    let steps = if answer.refused && by_state(number) {
        "path"
    } else {
        "plan"
    };
    let mut lines = vec![
        (what, format!("{number} {name}")),
        ("plan flag", u8::from(answer.flag).to_string()),
        ("cost", answer.cost.to_string()),
        ("bound", answer.bound.to_string()),
        ("length", answer.length.to_string()),
        ("expansions", answer.expansions.to_string()),
        ("rounds", answer.rounds.to_string()),
        ("width", answer.width.to_string()),
        ("low", answer.low.to_string()),
    ];
    if settings.loading && settings.length > 0 {
        lines.push(("length chosen", settings.length.to_string()));
    }
    lines.push((steps, spaced(&run.steps)));
    let line = |(name, value)| format!("{}\n", format!("{name}: {value}").trim_end());
    lines.into_iter().map(line).collect()
}
