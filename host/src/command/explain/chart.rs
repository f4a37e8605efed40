//! The plan as a chart: a bar for each step over an axis of costs or of a clock, in a row of its own or in lanes.

use super::canvas::{shortened, width, Axis, Canvas, BAR, MARGIN, ROW, TOP};
use super::lanes;
use super::view::View;
use super::walk::Stage;
use crate::command::known::Known;
use crate::command::words::{counted, range, signed};
use crate::reference::syntax::CostRule;
use crate::reference::{Costs, State, Value};

/// Labels are cut to this many characters.
const LABEL: usize = 40;

/// The colours of a step, and of one that takes nothing.
const STEP: &str = "#3a6ea5";
const NOTHING: &str = "#888";

/// The colour of the part of a range that a step may take or not.
const PERHAPS: &str = "#a9c3de";

/// A bar wider than this has an edge, so that bars that meet are told apart.
const EDGED: f64 = 6.0;

/// A step's label, where its bar begins and ends, up to where it is certain, what it takes in words, and its lane if there are lanes.
pub struct Bar {
    pub label: String,
    pub from: i64,
    pub to: i64,
    pub certain: i64,
    pub takes: String,
    pub lane: Option<Value>,
}

/// The chart of a plan that has been followed.
pub fn svg(heading: &str, known: &Known, stages: &[Stage], view: View) -> String {
    let costs = stages.last().map_or(Costs::default(), |stage| stage.totals);
    let bars = bars(known, stages, view);
    let steps = counted(stages.len() as u64, "step");
    let heading = format!("{heading}, {steps}, cost {}", both(costs));
    let end = match view.clock {
        Some(clock) => at(&known.model.target(), stages, stages.len(), clock),
        None => costs.high,
    };
    let ends = bars.iter().flat_map(|bar| [bar.from, bar.to]);
    let axis = Axis::over(ends, end);
    let note = note(known, view);
    match view.lane {
        Some(lane) if !bars.is_empty() => {
            let rows = format!(
                "{note} A lane is a value of {}.",
                known.names.variable(lane)
            );
            lanes::drawn(known, lane, &bars, axis).finish(&heading, &rows)
        }
        _ => rows(&bars, axis).finish(&heading, &note),
    }
}

/// What a step takes; where costs are ranges, with what the path takes up to its end.
fn takes(known: &Known, stage: &Stage) -> String {
    let costs = both(stage.costs);
    match known.has_ranges() {
        true => format!("{costs}, so far {}", both(stage.totals)),
        false => costs,
    }
}

/// Both ends of a range in words, or the one number.
fn both(costs: Costs) -> String {
    range(costs.low as u64, costs.high as u64)
}

/// What the axis and the bars are.
fn note(known: &Known, view: View) -> String {
    if let Some(clock) = view.clock {
        let clock = known.names.variable(clock);
        return format!("{clock}: a bar is a step, from {clock} before it to {clock} after it. The line is {clock} at the end.");
    }
    let unit = if known.speaks_of_hours() {
        "Hours"
    } else {
        "Cost"
    };
    let cost = match known.has_ranges() {
        true => "high cost, the dark part its low one",
        false => "cost",
    };
    match known.model.rule {
        CostRule::Sum => format!("{unit} from the start: a bar is a step, as wide as its {cost}. The line is the plan's cost."),
        CostRule::Largest => format!("{unit}: a bar is a step, as wide as its {cost}. The line is the plan's cost, the largest."),
    }
}

/// A number variable's value after so many steps.
fn at(target: &State, stages: &[Stage], done: usize, variable: usize) -> i64 {
    let state = match done {
        0 => target,
        _ => &stages[done - 1].state,
    };
    match state.get(variable) {
        Some(Value::Number(number)) => *number,
        _ => 0,
    }
}

/// With a clock a bar lies between its values. Else under the sum a bar begins where the last ended, and under the largest at 0.
fn bars(known: &Known, stages: &[Stage], view: View) -> Vec<Bar> {
    let digits = stages.len().to_string().len();
    let target = known.model.target();
    let bar = |(place, stage): (usize, &Stage)| {
        let Costs { low, high } = stage.costs;
        let (from, to) = match (view.clock, known.model.rule) {
            (Some(clock), _) => (
                at(&target, stages, place, clock),
                at(&target, stages, place + 1, clock),
            ),
            (None, CostRule::Sum) => (stage.totals.high - high, stage.totals.high),
            (None, CostRule::Largest) => (0, high),
        };
        let (certain, takes) = match view.clock {
            Some(_) => (from.max(to), signed(to - from)),
            None => (from + low, takes(known, stage)),
        };
        let name = known.names.transition(usize::from(stage.number));
        Bar {
            label: shortened(&format!("{:>digits$}. {name}", place + 1), LABEL),
            from: from.min(to),
            to: from.max(to),
            certain,
            takes,
            lane: view.lane.map(|lane| stage.state[lane].clone()),
        }
    };
    stages.iter().enumerate().map(bar).collect()
}

/// A row for each bar, with its label before it and what it takes behind it.
fn rows(bars: &[Bar], axis: Axis) -> Canvas {
    let labels = bars.iter().map(|bar| width(&bar.label)).fold(0.0, f64::max);
    let mut canvas = Canvas::new(labels, bars.len().max(1) as f64 * ROW, axis);
    canvas.draw_axis();
    for (place, bar) in bars.iter().enumerate() {
        let top = TOP + place as f64 * ROW;
        let base_line = top + ROW / 2.0 + 4.0;
        canvas.words(MARGIN, base_line, "start", "", &bar.label);
        let end = drawn(&mut canvas, bar, top + (ROW - BAR) / 2.0);
        let halo = "paint-order=\"stroke\" stroke=\"white\" stroke-width=\"3\"";
        canvas.words(end + 5.0, base_line, "start", halo, &bar.takes);
    }
    if bars.is_empty() {
        let (x, middle) = (canvas.left() + 8.0, TOP + ROW / 2.0 + 4.0);
        let words = "no steps: the target is a base state";
        canvas.words(x, middle, "start", "", words);
    }
    canvas
}

/// How wide a bar is drawn; one that takes nothing is a thin mark.
pub fn bar_width(canvas: &Canvas, bar: &Bar) -> f64 {
    (canvas.x(bar.to) - canvas.x(bar.from)).max(2.0)
}

/// Draws a bar, and answers where it ends.
pub fn drawn(canvas: &mut Canvas, bar: &Bar, top: f64) -> f64 {
    let (from, wide) = (canvas.x(bar.from), bar_width(canvas, bar));
    let edge = if wide > EDGED {
        " stroke=\"white\""
    } else {
        ""
    };
    let mut put = |wide: f64, colour: &str, edge: &str| {
        canvas.put(&format!(
            "<rect x=\"{from:.1}\" y=\"{top:.1}\" width=\"{wide:.1}\" height=\"{BAR}\" fill=\"{colour}\"{edge}/>"
        ));
    };
    match (bar.from == bar.to, bar.certain < bar.to) {
        (true, _) => put(wide, NOTHING, edge),
        (_, false) => put(wide, STEP, edge),
        (_, true) => {
            put(wide, PERHAPS, edge);
            let certain = (bar.certain - bar.from) as f64 / (bar.to - bar.from) as f64 * wide;
            if bar.certain > bar.from {
                put(certain, STEP, "");
            }
        }
    }
    from + wide
}
