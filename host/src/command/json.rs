//! Answers as JSON, in the form that docs/JSON.md describes.

use super::input::Source;
use super::known::Known;
use super::part::Part;
use super::settings::{Run, Settings};
use super::theorems::cited;
use super::words::{refusal_name, verdict_name};
use crate::json::Json;
use crate::line::answer_line;
use crate::quotation::VERSION;
use crate::reference::{State, Value};
use crate::text::{kind_name, Names};

/// The flag that asks for JSON.
pub const JSON: &str = "--json";

/// The form of docs/JSON.md. A name that is there keeps its meaning; what changes a meaning has a new number.
const FORM: u32 = 1;

pub type Members = Vec<(&'static str, Json)>;

/// A command's document: what every one begins with, then its own members.
pub fn document(command: &str, status: u8, members: Members) -> Vec<u8> {
    let mut all: Members = vec![
        ("repgypsum", VERSION.into()),
        ("form", FORM.into()),
        ("command", command.into()),
        ("status", status.into()),
    ];
    all.extend(members);
    Json::Object(all).text().into_bytes()
}

pub fn model(source: &Source) -> Json {
    Json::Object(vec![
        ("title", source.title.as_str().into()),
        ("bytes", source.model.len().into()),
    ])
}

/// The members that stand for a search: model, settings, answer and line.
pub fn search(source: &Source, settings: &Settings, run: &Run) -> Members {
    vec![
        ("model", model(source)),
        (
            "settings",
            Json::Object(vec![
                ("width", settings.beam.widest().into()),
                ("widths", settings.beam.list().map(<[u16]>::to_vec).into()),
                ("length", settings.length.into()),
                ("budget", settings.budget.into()),
                ("loading", settings.loading.into()),
            ]),
        ),
        ("answer", answer(run)),
        ("line", answer_line(&run.answer, &run.steps).into()),
    ]
}

fn answer(run: &Run) -> Json {
    let answer = &run.answer;
    let name = match answer.refused {
        true => refusal_name(answer.verdict),
        false => verdict_name(answer.verdict),
    };
    Json::Object(vec![
        ("refused", answer.refused.into()),
        ("number", answer.verdict.into()),
        ("name", name.into()),
        ("plan", answer.flag.into()),
        ("cost", answer.cost.into()),
        ("bound", answer.bound.into()),
        ("length", answer.length.into()),
        ("expansions", answer.expansions.into()),
        ("rounds", answer.rounds.into()),
        ("width", answer.width.into()),
        ("low", answer.low.into()),
    ])
}

/// A step's number and name; without names the name is null.
pub fn step(names: Option<&Names>, number: u8) -> Members {
    let names = names.map(|names| &names.transitions);
    let name = names.and_then(|names| names.get(usize::from(number)).cloned().flatten());
    vec![("number", number.into()), ("name", name.into())]
}

pub fn steps(names: Option<&Names>, numbers: &[u8]) -> Json {
    let step = |number: &u8| Json::Object(step(names, *number));
    Json::List(numbers.iter().map(step).collect())
}

/// Every variable with its kind and value: objects by name or number as text, sets as lists of those.
pub fn state(known: &Known, state: &State) -> Json {
    let names = &known.names;
    let value = |(variable, value): (usize, &Value)| {
        let object = |object: u8| names.object(variable, object);
        let value: Json = match value {
            Value::Set(members) => {
                let members = (0..64).filter(|object| members >> object & 1 == 1);
                members.map(object).collect::<Vec<String>>().into()
            }
            Value::Element(one) => object(*one).into(),
            Value::Number(number) => (*number).into(),
        };
        Json::Object(vec![
            ("variable", names.variable(variable).into()),
            ("kind", kind_name(names.variables[variable].kind).into()),
            ("value", value),
        ])
    };
    Json::List(state.iter().enumerate().map(value).collect())
}

/// A sentence with the theorems that it cites.
pub fn sentence(text: &str) -> Json {
    let theorems = cited(text).into_iter().map(|theorem| theorem.name);
    Json::Object(vec![
        ("text", text.into()),
        ("theorems", theorems.collect::<Vec<&str>>().into()),
    ])
}

/// What is said, part by part.
pub fn parts(parts: &[Part]) -> Json {
    let part = |part: &Part| {
        let sentences = part.sentences();
        let sentences = sentences.iter().map(|one| sentence(&one.text));
        Json::Object(vec![
            ("heading", part.heading().into()),
            ("sentences", Json::List(sentences.collect())),
        ])
    };
    Json::List(parts.iter().map(part).collect())
}
