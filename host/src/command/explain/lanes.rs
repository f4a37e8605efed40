//! Bars in lanes: a lane for each value of a variable, with as many rows as its bars and their labels need.

use super::canvas::{shortened, width, Axis, Canvas, BAR, MARGIN, PLOT, ROW, TOP};
use super::chart::{bar_width, drawn as bar_drawn, Bar};
use crate::command::known::Known;
use crate::reference::Value;
use std::collections::BTreeMap;

/// Lanes and labels are cut to this many characters.
const LANE: usize = 30;
const LABEL: usize = 26;

/// The room on both sides of a label.
const ROOM: f64 = 5.0;

/// Boxes that only meet do not overlap, whatever the rounding.
const TOUCH: f64 = 0.01;

/// Where a label stands beside its bar.
#[derive(Clone, Copy)]
enum Side {
    Inside,
    Outside,
}

/// A bar's row in its lane, its label with its side, and the left end of the label.
struct Placed<'a> {
    bar: &'a Bar,
    row: usize,
    label: String,
    side: Side,
    x: f64,
}

/// The bars of one lane, and how many rows they take.
struct Lane<'a> {
    name: String,
    bars: Vec<Placed<'a>>,
    rows: usize,
}

/// The label's side and left end, and the box of bar and label: inside the bar if it fits there, else behind it, or before it
/// where behind leaves the plot.
fn side(canvas: &Canvas, bar: &Bar, label: f64) -> (Side, f64, (f64, f64)) {
    let (from, wide) = (canvas.x(bar.from), bar_width(canvas, bar));
    let to = from + wide;
    let room = label + 2.0 * ROOM;
    if room <= wide {
        return (Side::Inside, from + ROOM, (from, to));
    }
    let leaves = to + room > canvas.left() + PLOT;
    if leaves && from - room >= canvas.left() {
        return (Side::Outside, from - ROOM - label, (from - room, to));
    }
    (Side::Outside, to + ROOM, (from, to + room))
}

/// Each bar in the first row of its lane where it and its label overlap no other.
fn lane<'a>(canvas: &Canvas, name: String, bars: &[&'a Bar]) -> Lane<'a> {
    let mut rows: Vec<Vec<(f64, f64)>> = Vec::new();
    let mut placed = Vec::new();
    for bar in bars {
        let label = shortened(bar.label.trim_start(), LABEL);
        let (side, x, (left, right)) = side(canvas, bar, width(&label));
        let free = |row: &Vec<(f64, f64)>| {
            let apart = |taken: &(f64, f64)| right <= taken.0 + TOUCH || taken.1 <= left + TOUCH;
            row.iter().all(apart)
        };
        let row = rows.iter().position(free).unwrap_or(rows.len());
        if row == rows.len() {
            rows.push(Vec::new());
        }
        rows[row].push((left, right));
        placed.push(Placed {
            bar,
            row,
            label,
            side,
            x,
        });
    }
    Lane {
        name,
        bars: placed,
        rows: rows.len(),
    }
}

/// The lanes of the values that occur, in their order, each with its name before it.
pub fn drawn(known: &Known, variable: usize, bars: &[Bar], axis: Axis) -> Canvas {
    let mut by_value: BTreeMap<&Value, Vec<&Bar>> = BTreeMap::new();
    for bar in bars {
        let value = bar.lane.as_ref();
        by_value
            .entry(value.expect("every bar has a lane"))
            .or_default()
            .push(bar);
    }
    let name = |value: &Value| shortened(&known.value(variable, value), LANE);
    let labels = by_value.keys().map(|value| width(&name(value)));
    let labels = labels.fold(0.0, f64::max);
    // Where labels stand depends on the plot's left end alone, and the height on where they stand.
    let plot = Canvas::new(labels, 0.0, axis);
    let lanes = by_value
        .iter()
        .map(|(value, bars)| lane(&plot, name(value), bars));
    let lanes: Vec<Lane> = lanes.collect();
    let rows: usize = lanes.iter().map(|lane| lane.rows).sum();
    let mut canvas = Canvas::new(labels, rows as f64 * ROW, axis);
    let mut top = TOP;
    for (place, lane) in lanes.iter().enumerate() {
        band(&mut canvas, top, lane.rows as f64 * ROW, place);
        top += lane.rows as f64 * ROW;
    }
    canvas.draw_axis();
    top = TOP;
    for lane in &lanes {
        put(&mut canvas, top, lane);
        top += lane.rows as f64 * ROW;
    }
    canvas
}

/// A lane's background: every other one is grey.
fn band(canvas: &mut Canvas, top: f64, height: f64, place: usize) {
    let colour = ["#f1f3f6", "white"][place % 2];
    let (left, wide) = (MARGIN, canvas.left() + PLOT - MARGIN);
    canvas.put(&format!(
        "<rect class=\"lane\" x=\"{left:.1}\" y=\"{top:.1}\" width=\"{wide:.1}\" height=\"{height:.1}\" fill=\"{colour}\"/>"
    ));
}

fn put(canvas: &mut Canvas, top: f64, lane: &Lane) {
    let base_line = |row: usize| top + row as f64 * ROW + ROW / 2.0 + 4.0;
    canvas.words(MARGIN + 2.0, base_line(0), "start", "", &lane.name);
    for placed in &lane.bars {
        bar_drawn(
            canvas,
            placed.bar,
            top + placed.row as f64 * ROW + (ROW - BAR) / 2.0,
        );
        let style = match placed.side {
            Side::Inside => "fill=\"white\"",
            Side::Outside => "",
        };
        canvas.words(
            placed.x,
            base_line(placed.row),
            "start",
            style,
            &placed.label,
        );
    }
}
