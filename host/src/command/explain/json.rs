//! An explanation as JSON: the answer, every step with its state, and the sentences with their theorems.

use super::walk::Stage;
use super::Explained;
use crate::command::json::{self, Members};
use crate::command::known::Known;
use crate::command::long_runs::Stop;
use crate::command::profile;
use crate::json::Json;

pub fn document(explained: &Explained, status: u8) -> Vec<u8> {
    let finished = explained.finished;
    let mut members = json::search(explained.source, &finished.settings, &finished.run);
    members.push(("stopped_by", finished.stop.map(Stop::name).into()));
    members.push(("profile", explained.read.map(profile::json).into()));
    members.extend(walked(explained));
    members.push(("parts", json::parts(&explained.parts)));
    json::document("explain", status, members)
}

/// The start and the steps, as far as they can be followed.
fn walked(explained: &Explained) -> Members {
    let known = explained.known;
    let start = known.map(|known| json::state(known, &known.model.target()));
    let steps = match (known, &explained.stages) {
        (Some(known), Some(stages)) => stages.iter().map(|stage| step(known, stage)).collect(),
        _ => Vec::new(),
    };
    vec![("start", start.into()), ("steps", Json::List(steps))]
}

fn step(known: &Known, stage: &Stage) -> Json {
    let mut members = json::step(Some(&known.names), stage.number);
    members.extend([
        ("cost", stage.costs.high.into()),
        ("total", stage.totals.high.into()),
        ("low", stage.costs.low.into()),
        ("low_total", stage.totals.low.into()),
        ("state", json::state(known, &stage.state)),
    ]);
    Json::Object(members)
}
