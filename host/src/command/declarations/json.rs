//! What is known of declarations as JSON: each with its truth and, where it is false, a counterexample.

use crate::command::input::Source;
use crate::command::json::{self, Members};
use crate::command::known::Known;
use crate::command::words::refusal_name;
use crate::declarations::{confirmed, preferences, Findings, Looking, NotBetter, TooHigh, Truth};
use crate::json::Json;
use crate::reference::syntax::Preference;
use crate::reference::{Costs, State};

/// The members of a model that is looked at.
pub fn members(source: &Source, known: &Known, looking: Looking, findings: &Findings) -> Members {
    let bound = |number| bound(source, known, number, findings);
    let bounds = (0..findings.bounds.len()).map(bound);
    let preferences = findings.preferences.as_ref();
    let never = findings.never.iter().map(|number| *number as u8);
    let never: Vec<u8> = never.collect();
    frame(source, looking, None)
        .into_iter()
        .chain([
            ("enumerated", findings.enumerated.into()),
            ("states", findings.states.into()),
            ("bounds", Json::List(bounds.collect())),
            (
                "preferences",
                preferences
                    .map(|truth| preferred(source, known, truth))
                    .into(),
            ),
            ("never", json::steps(Some(&known.names), &never)),
        ])
        .collect()
}

/// The members of a model that is refused.
pub fn refused(source: &Source, looking: Looking, number: u8) -> Members {
    frame(source, looking, Some(number))
        .into_iter()
        .chain([
            ("enumerated", false.into()),
            ("states", 0u64.into()),
            ("bounds", Json::List(Vec::new())),
            ("preferences", Json::Null),
            ("never", Json::List(Vec::new())),
            ("parts", Json::List(Vec::new())),
        ])
        .collect()
}

fn frame(source: &Source, looking: Looking, refusal: Option<u8>) -> Members {
    let refusal = refusal.map(|number| {
        Json::Object(vec![
            ("number", number.into()),
            ("name", refusal_name(number).into()),
        ])
    });
    let looking = Json::Object(vec![
        ("states", looking.states.into()),
        ("walks", looking.walks.into()),
        ("seed", looking.seed.into()),
    ]);
    vec![
        ("model", json::model(source)),
        ("looking", looking),
        ("refusal", refusal.into()),
    ]
}

fn truth<Counterexample>(
    truth: &Truth<Counterexample>,
    shown: impl Fn(&Counterexample) -> Members,
) -> Members {
    let example = match truth {
        Truth::False(found) => Some(Json::Object(shown(found))),
        Truth::True | Truth::Open => None,
    };
    vec![
        ("truth", word(truth).into()),
        ("counterexample", example.into()),
    ]
}

fn word<Counterexample>(truth: &Truth<Counterexample>) -> &'static str {
    match truth {
        Truth::True => "true",
        Truth::Open => "open",
        Truth::False(_) => "false",
    }
}

/// A state and the steps that lead to it.
fn reached(known: &Known, state: &State, path: &[u8]) -> Members {
    vec![
        ("path", json::steps(Some(&known.names), path)),
        ("state", json::state(known, state)),
    ]
}

/// A plan from the state, and whether the proved plan check passes it at these costs on the model started there.
fn plan(source: &Source, known: &Known, state: &State, plan: &[u8], costs: Costs) -> Members {
    vec![
        ("plan", json::steps(Some(&known.names), plan)),
        ("cost", costs.high.into()),
        ("low", costs.low.into()),
        (
            "confirmed",
            confirmed(&source.model, state, plan, costs).into(),
        ),
    ]
}

fn bound(source: &Source, known: &Known, number: usize, findings: &Findings) -> Json {
    let shown = |found: &TooHigh| {
        let mut members = reached(known, &found.state, &found.path);
        members.push(("value", found.value.into()));
        members.extend(plan(source, known, &found.state, &found.plan, found.costs));
        members
    };
    let mut members: Members = vec![
        ("number", number.into()),
        ("text", known.listing.bounds[number].as_str().into()),
    ];
    members.extend(truth(&findings.bounds[number], shown));
    members.push(("at_high", word(&findings.bounds_at_high[number]).into()));
    Json::Object(members)
}

fn preferred(source: &Source, known: &Known, found: &Truth<NotBetter>) -> Json {
    let variable = |(variable, preference)| {
        let better = match preference {
            Preference::More => "more",
            _ => "less",
        };
        Json::Object(vec![
            ("name", known.names.variable(variable).into()),
            ("better", better.into()),
        ])
    };
    let variables = preferences(&known.model).into_iter().map(variable);
    let shown = |found: &NotBetter| {
        let better = reached(known, &found.better, &found.better_path);
        let worse = reached(known, &found.worse, &found.worse_path);
        let mut members: Members = vec![
            ("better", Json::Object(better)),
            ("worse", Json::Object(worse)),
        ];
        members.extend(plan(source, known, &found.worse, &found.plan, found.costs));
        members.push(("least", found.least.into()));
        members
    };
    let mut members: Members = vec![("variables", Json::List(variables.collect()))];
    members.extend(truth(found, shown));
    Json::Object(members)
}
