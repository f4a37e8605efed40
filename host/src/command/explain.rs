//! `repgypsum explain`: what an answer stands on, in sentences, as JSON or as a page, and the plan as a chart.

mod along;
mod canvas;
mod chart;
mod declarations;
mod json;
mod lanes;
mod made_file;
mod page;
mod trouble;
mod verdicts;
mod view;
mod walk;

use super::arguments::Arguments;
use super::input::{source, Source};
use super::json::JSON;
use super::known::Known;
use super::long_runs::{self, Finished, Watch};
use super::part::Part;
use super::plan::status;
use super::settings::{self, Run, Settings, OPTIONS};
use super::words::{counted, grouped, refusal_name, verdict_name};
use super::{profile, refusals, target, warnings, widths, Complaint, Done, CANNOT};
use crate::answer::Answer;
use crate::numbers::limit;
use crate::numbers::refusal::by_state;
use crate::reference::syntax::CostRule;
use std::ffi::{OsStr, OsString};
use std::io::Read;
use std::path::Path;
use view::{View, CLOCK, LANE};
use walk::Stage;

const SVG: &str = "--svg";
const HTML: &str = "--html";

/// The place of the line that says how the run ended among those of the head.
const ENDED: usize = 2;

/// A run with what is known of its model, the steps followed, and all that is said of it.
pub struct Explained<'a> {
    source: &'a Source,
    finished: &'a Finished,
    /// The model as it is read, whatever refuses it then.
    read: Option<&'a Known>,
    /// The same, if no refusal by the input keeps it from being searched.
    known: Option<&'a Known>,
    /// The plan's steps, or those of the path to a refusal; nothing where they cannot be followed.
    stages: Option<Vec<Stage>>,
    view: View,
    parts: Vec<Part>,
}

pub fn run(arguments: &[OsString], input: &mut dyn Read) -> Result<Done, Complaint> {
    let files = [SVG, HTML, LANE, CLOCK];
    let valued = [&OPTIONS[..], &long_runs::VALUED, &files].concat();
    let flags = [&long_runs::FLAGS[..], &settings::FLAGS, &[JSON]].concat();
    let arguments = Arguments::read(arguments, &valued, &flags)?;
    drawn_somewhere(&arguments)?;
    let mut settings = Settings::read(&arguments)?;
    let watch = Watch::read(&arguments, &mut settings)?;
    let source = source(arguments.file(), input)?;
    // What is asked of the view is looked at before the run, which may take long.
    let known = Known::of(&source).ok();
    let view = View::read(&arguments, known.as_ref())?;
    let finished = watch.search(&source.model, settings.for_model(&source.model));
    let mut explained = Explained::new(&source, &finished, known.as_ref(), view);
    let (made, wrong) = explained.files(&arguments);
    explained.parts.extend(made);
    let status = match wrong.is_empty() {
        true => status(&finished.run),
        false => CANNOT,
    };
    let text = match arguments.flag(JSON) {
        true => json::document(&explained, status),
        false => explained.text().into_bytes(),
    };
    let done = Done::new(text, status);
    let done = wrong.into_iter().map(Some).fold(done, Done::failed);
    Ok(done)
}

/// A lane or a clock is for what is drawn.
fn drawn_somewhere(arguments: &Arguments) -> Result<(), Complaint> {
    let drawn = [SVG, HTML]
        .iter()
        .any(|option| arguments.value(option).is_some());
    let asked = [LANE, CLOCK]
        .into_iter()
        .find(|option| arguments.value(option).is_some());
    match asked {
        Some(option) if !drawn => Err(Complaint::new(format!(
            "{option} is for a chart: {SVG} or {HTML} is due"
        ))),
        _ => Ok(()),
    }
}

impl Explained<'_> {
    fn new<'a>(
        source: &'a Source,
        finished: &'a Finished,
        read: Option<&'a Known>,
        view: View,
    ) -> Explained<'a> {
        let (run, settings) = (&finished.run, &finished.settings);
        let known = read.filter(|_| !refused_by_input(run));
        let stages = known.and_then(|known| walk::follow(&known.model, &run.steps));
        Explained {
            source,
            finished,
            read,
            known,
            parts: parts(source, settings, run, known, stages.as_deref()),
            stages,
            view,
        }
    }

    fn run(&self) -> &Run {
        &self.finished.run
    }

    /// Everything as text.
    fn text(&self) -> String {
        let mut text: String = self.head().iter().map(|line| format!("{line}\n")).collect();
        for part in &self.parts {
            text += &part.text();
        }
        text
    }

    /// The model, the settings and the answer, a line each.
    fn head(&self) -> Vec<String> {
        let settings = &self.finished.settings;
        let mut lines = vec![
            format!(
                "Model {}, {}{}.",
                self.source.title,
                size(&self.source.model),
                rule(self.known)
            ),
            format!(
                "{}, {}, budget {}.",
                widths::setting(&settings.beam),
                length_limit(settings),
                counted(settings.budget.into(), "expansion")
            ),
            ended(self.run()),
        ];
        lines.extend(
            self.finished
                .stopped()
                .map(|line| format!("It was {line}.")),
        );
        lines
    }

    /// Writes the files that are asked for. Says what was done, and what could not be.
    fn files(&self, arguments: &Arguments) -> (Vec<Part>, Vec<String>) {
        let (mut made, mut wrong) = (Vec::new(), Vec::new());
        if let Some(out) = arguments.value(SVG) {
            let (part, failed) = made_file::CHART.put(out, self.drawing());
            made.push(part);
            wrong.extend(failed);
        }
        if let Some(out) = arguments.value(HTML) {
            let (part, failed) = made_file::PAGE.put(out, Some(page::html(self)));
            made.push(part);
            wrong.extend(failed);
        }
        (made, wrong)
    }

    /// The plan as a chart, if there is one.
    fn drawing(&self) -> Option<String> {
        let known = self.known.filter(|_| self.run().answer.flag)?;
        let stages = self.stages.as_deref()?;
        Some(chart::svg(&self.heading(), known, stages, self.view))
    }

    /// The model's file and the mark.
    fn heading(&self) -> String {
        let title = &self.source.title;
        let model = Path::new(title).file_name().unwrap_or(OsStr::new(title));
        let answer = &self.run().answer;
        let mark = match answer.refused {
            true => format!("refused, {}", refusal_name(answer.verdict)),
            false => verdict_name(answer.verdict).to_string(),
        };
        format!("{}: {mark}", model.to_string_lossy())
    }
}

fn refused_by_input(run: &Run) -> bool {
    run.answer.refused && !by_state(run.answer.verdict)
}

/// The length limit; in the loading profile the one that is chosen, if one is.
fn length_limit(settings: &Settings) -> String {
    let length = grouped(settings.length.into());
    match (settings.loading, settings.length) {
        (false, _) => format!("length limit {length}"),
        (true, 0) => "no length limit chosen".to_string(),
        (true, _) => format!("length limit {length}, which the loading profile chooses"),
    }
}

fn rule(known: Option<&Known>) -> &'static str {
    match known.map(|known| known.model.rule) {
        Some(CostRule::Sum) => ", cost rule sum",
        Some(CostRule::Largest) => ", cost rule largest",
        None => "",
    }
}

/// How the run ended, in a sentence or two.
fn ended(run: &Run) -> String {
    let answer = &run.answer;
    let number = answer.verdict;
    match answer.refused {
        true => format!("Refused {number}, {}.", refusal_name(number)),
        false => format!("Verdict {number}, {}. {}", verdict_name(number), given(run)),
    }
}

/// How many bytes a model has; of one that is too long not all have been read.
fn size(model: &[u8]) -> String {
    if model.len() > limit::MODEL_BYTES {
        let most = counted(limit::MODEL_BYTES as u64, "byte");
        return format!("more than {most}");
    }
    counted(model.len() as u64, "byte")
}

/// The low figure behind a cost, if it is another.
fn at_low(answer: &Answer) -> String {
    match answer.low == answer.cost {
        true => String::new(),
        false => format!(", and {} at low figures", grouped(answer.low)),
    }
}

/// The plan that an answer gives, in a sentence.
fn given(run: &Run) -> String {
    let answer = &run.answer;
    if answer.flag {
        let steps = counted(answer.length, "step");
        format!(
            "A plan of {steps} is given, at cost {}{}.",
            grouped(answer.cost),
            at_low(answer)
        )
    } else {
        "No plan is given.".to_string()
    }
}

fn parts(
    source: &Source,
    settings: &Settings,
    run: &Run,
    known: Option<&Known>,
    stages: Option<&[Stage]>,
) -> Vec<Part> {
    if refused_by_input(run) {
        return vec![refusals::by_input(source, settings, run.answer.verdict)];
    }
    let Some(known) = known else {
        return vec![disagreement()];
    };
    let mut parts = Vec::new();
    if run.answer.refused {
        parts.push(trouble::part(known, run));
        parts.push(walk::part("The path, step by step", known, stages));
    } else {
        parts.push(verdicts::proved(known, run));
        if known.declares() && !target::decides(known, run) {
            parts.push(declarations::part(known));
        }
        parts.extend(verdicts::more(known, settings, run));
        parts.extend(along::part(known, run));
        if run.answer.flag {
            parts.push(walk::part("The plan, step by step", known, stages));
            parts.push(verdicts::checked_again(source, known, run));
        }
    }
    parts.push(profile::part(known, settings));
    parts.extend(widths::part(settings));
    parts.extend(warnings::part(warnings::of_model(known)));
    parts.push(work(run));
    parts
}

/// For a model that the proved search reads and the independent reader does not.
fn disagreement() -> Part {
    let mut part = Part::new("A disagreement");
    part.say("The independent implementation refuses this model. One of the two is wrong: please report it.");
    part
}

/// The tallies.
fn work(run: &Run) -> Part {
    let answer = &run.answer;
    let mut part = Part::new("The work");
    part.say(format!(
        "{} in {}, the last at width {}. A rerun gives the same counts.",
        counted(answer.expansions, "expansion"),
        counted(answer.rounds, "round"),
        grouped(answer.width),
    ));
    part
}
