//! Whether a model is in the loading profile, what that gives, and why it is not.

use super::input::Source;
use super::known::Known;
use super::part::Part;
use super::settings::Settings;
use super::theorems::NO_LENGTH_STOP;
use super::words::{counted, grouped};
use crate::json::Json;
use crate::reference::profile::{Lack, Outside};
use crate::reference::Value;

/// The most ways to be outside that are told.
const TOLD: usize = 5;

const BY_INDEPENDENT: &str =
    "This is found by the independent implementation, which is tested and not proved.";

/// A way to be outside, in the words of the text.
fn sentence(known: &Known, way: &Outside) -> String {
    let first = || known.names.variable(0);
    match way {
        Outside::NoVariable => "There is no variable, and variable 0 has to be a set.".to_string(),
        Outside::NoSet => format!("Variable 0, {}, is no set.", first()),
        Outside::Transition(number, lack) => {
            let told = match lack {
                Lack::NoEffect => format!("has no effect on {}.", first()),
                Lack::OtherEffect => format!(
                    "has an effect on {} that does more, or something else, than to remove one named object.",
                    first()
                ),
                Lack::NotAsked(object) => format!(
                    "removes {} from {}, and none of its conditions is, by itself, {0} in {1}.",
                    known.names.object(0, *object),
                    first()
                ),
            };
            format!("Transition {} {told}", known.transition(*number))
        }
        Outside::BaseCases(0) => "There is no base case, and one is due.".to_string(),
        Outside::BaseCases(count) => format!("There are {count} base cases, and one is due."),
        Outside::BaseConditions(0) => {
            format!(
                "The base case has no condition, and one is due: {} is empty.",
                first()
            )
        }
        Outside::BaseConditions(count) => format!(
            "The base case has {count} conditions, and one alone is due: {} is empty.",
            first()
        ),
        Outside::OtherBase => format!(
            "The base case's condition is another than that {} is empty.",
            first()
        ),
    }
}

/// Every way in which a model is outside, a sentence each.
fn outside(known: &Known) -> Vec<String> {
    let ways = known.model.outside_profile();
    ways.iter().map(|way| sentence(known, way)).collect()
}

/// The first ways as items, and how many more there are.
fn say_ways(known: &Known, part: &mut Part) {
    let ways = outside(known);
    for way in ways.iter().take(TOLD) {
        part.say(format!("  {way}"));
    }
    if ways.len() > TOLD {
        let more = grouped((ways.len() - TOLD) as u64);
        part.say(format!("  And {more} more like these."));
    }
}

/// What refusal 15 means for a model.
pub fn say_outside(source: &Source, part: &mut Part) {
    part.say("The model is outside the loading profile, which takes pure loading orders alone:");
    if let Ok(known) = Known::of(source) {
        say_ways(&known, part);
        part.say(BY_INDEPENDENT);
    }
    part.say("Without --loading, and with a length limit, it can be searched.");
}

/// The members of variable 0 at the start, by which the length is chosen.
fn chosen(known: &Known) -> String {
    let length = counted(known.model.loading_length(), "step");
    let first = known.names.variable(0);
    match known.model.target().first() {
        Some(Value::Set(0)) => {
            format!("{length}, since {first} has no members at the start")
        }
        _ => format!("{length}, as many as {first} has members at the start"),
    }
}

/// Whether the model is in the profile, and what that gives.
pub fn part(known: &Known, settings: &Settings) -> Part {
    let mut part = Part::new("The loading profile");
    if !known.model.in_profile() {
        part.say("The model is not in it:");
        say_ways(known, &mut part);
        part.say("So a length limit has to be given, and a run may end in a length stop.");
        part.say(BY_INDEPENDENT);
        return part;
    }
    let first = known.names.variable(0);
    part.say(format!(
        "The model is in it: each transition takes out of {first} the one object that it asks for there, until {first} is empty."
    ));
    let chosen = chosen(known);
    if settings.loading {
        part.say(format!("The length limit was chosen by that: {chosen}."));
        part.say(format!(
            "No run with --loading ends in a length stop, at whatever width and budget [{NO_LENGTH_STOP}]."
        ));
    } else {
        part.say(format!(
            "With --loading the length limit is chosen by that: {chosen}."
        ));
        part.say(format!(
            "No such run ends in a length stop, at whatever width and budget [{NO_LENGTH_STOP}]."
        ));
        part.say(BY_INDEPENDENT);
    }
    part
}

/// The same as JSON.
pub fn json(known: &Known) -> Json {
    let inside = known.model.in_profile();
    let length = inside.then(|| known.model.loading_length());
    Json::Object(vec![
        ("inside", inside.into()),
        ("length", length.into()),
        ("outside", outside(known).into()),
    ])
}
