//! Stored months: a list of names with the files that it names, for the programs `monthly` and `test_month`.

use crate::build::{elem, lit, not, num, obj, same, LARGEST, SUM};
use crate::generate::Random;
use crate::line::LONGEST_MODEL;
use crate::models::{counting, doubled_designs, three_designs, Designs};
use crate::month::{MOST_NAMES, MOST_NAME_BYTES};
use crate::text::assemble;

/// A list, and the files that lie beside it.
pub struct Month {
    pub list: Vec<u8>,
    pub files: Vec<(String, Vec<u8>)>,
}

/// Six designs, which are more orders than the widest beam holds: a width stop.
const WIDTH: &str = "\
cost sum
objects design = none a b c d e f
set todo of design = {a, b, c, d, e, f}
element at of design = none
table hours[design, design] = 0 9 4 7 3 8 5 / 0 0 6 2 9 4 7 / 0 5 0 8 3 7 2 / 0 7 3 0 6 2 9 / 0 2 9 4 0 5 8 / 0 8 2 6 7 0 3 / 0 3 8 5 2 9 0
for one in design - none:
    transition load one:
        when one in todo
        cost hours[at, one]
        todo := todo - one
        at := one
base:
    when empty(todo)
";

/// A plan of one step at 100, and steps at 1 without end: a length stop with cost 100 and bound 64.
const LENGTH: &str = "\
cost sum
number x = 0
transition on:
    cost 1
    x := x + 1
transition over:
    when x = 0
    cost 100
    x := 1000
base:
    when x = 1000
";

/// The same without the plan: a length stop with bound 64 and nothing open.
const NO_PLAN: &str = "\
cost sum
number x = 0
transition on:
    cost 1
    x := x + 1
base:
    when x = 1000
";

/// A cost below zero: 13.
const NEGATIVE: &str = "\
cost sum
number x = 0
transition on:
    cost 0 - 1
    x := x + 1
base:
    when x = 1
";

/// A divisor of zero in a cost: 12.
const DIVIDED: &str = "\
cost sum
number x = 0
transition on:
    cost 7 / x
    x := x + 1
base:
    when x = 1
";

/// Gates in a row, fifteen behind each step of a walk. Behind a gate sixteen states go down to the plan, which is one cheaper than that of the gate
/// before; a gate whose plan is known is dropped by its bound, so that every round finds a plan that is cheaper by one: the budget is spent.
fn budget() -> String {
    let mut text = String::from(
        "cost sum\nnumber mode = 0\nnumber gate = 0\nnumber lane = 0\nnumber deep = 0\n",
    );
    text += "transition walk:\n    when mode = 0\n    when gate < 240\n    cost 0\n    gate := gate + 15\n    deep := deep + 1\n";
    for gate in 1..=15 {
        text += &format!("transition gate {gate}:\n    when mode = 0\n    when gate < 240\n    cost 0\n    mode := 1\n    gate := gate + {gate}\n    deep := deep + 1\n");
    }
    for lane in 0..16 {
        text += &format!("transition lane {lane}:\n    when mode = 1\n    cost 0\n    mode := 2\n    lane := {lane}\n    deep := deep + 1\n");
    }
    text += "transition down:\n    when mode = 2\n    when deep < 63\n    cost 0\n    deep := deep + 1\n";
    text += "transition end:\n    when mode = 2\n    when deep = 63\n    cost 100000 - gate\n    mode := 3\n";
    text + "base:\n    when mode = 3\nbound if mode = 1 then 100000 - gate else if mode = 2 then gate else 0\n"
}

fn assembled(text: &str) -> Vec<u8> {
    assemble(text).expect("a text without an error")
}

fn files() -> Vec<(String, Vec<u8>)> {
    let p8 = Designs {
        bound: Some(8),
        ..Designs::default()
    };
    let p9 = Designs {
        constraint: Some(not(same(elem(1), obj(2)))),
        ..Designs::default()
    };
    let p10 = Designs {
        rule: LARGEST,
        ..Designs::default()
    };
    let doubled = doubled_designs(&Designs::default());
    let below = counting(SUM, (num(0), lit(1)));
    let mut cut = three_designs();
    cut.pop();
    let files = [
        ("p1.model", three_designs()),
        ("p8.model", p8.bytes()),
        ("p9.model", p9.bytes()),
        ("p10.model", p10.bytes()),
        ("width.model", assembled(WIDTH)),
        ("length.model", assembled(LENGTH)),
        ("no-plan.model", assembled(NO_PLAN)),
        ("budget.model", assembled(&budget())),
        ("negative.model", assembled(NEGATIVE)),
        ("divided.model", assembled(DIVIDED)),
        ("ranges.model", doubled.end()),
        ("below.model", below.end()),
        ("cut.model", cut),
        ("empty.model", Vec::new()),
        ("longest.model", vec![1; LONGEST_MODEL]),
        ("too-long.model", vec![1; LONGEST_MODEL + 1]),
        ("folder/p10.model", p10.bytes()),
    ];
    let named = |(name, bytes): (&str, Vec<u8>)| (name.to_string(), bytes);
    files.into_iter().map(named).collect()
}

/// A name of so many bytes for a file in the folder itself: one that opens, were it not too long.
fn roundabout(name: &str, bytes: usize) -> String {
    let mut path = String::new();
    while path.len() + 2 + name.len() <= bytes {
        path += "./";
    }
    while path.len() + name.len() < bytes {
        path += "/";
    }
    path + name
}

/// A line of every kind: every verdict, every kind of refusal, names that are none, names twice.
fn kinds() -> Vec<String> {
    let longest = roundabout("p1.model", MOST_NAME_BYTES);
    let too_long = roundabout("p1.model", MOST_NAME_BYTES + 1);
    let far_too_long = roundabout("p1.model", 5000);
    let lines = [
        "p1.model",
        "p9.model",
        "length.model",
        "negative.model",
        "p8.model",
        "missing.model",
        "p10.model",
        "",
        "width.model",
        "budget.model",
        "no-plan.model",
        "divided.model",
        "ranges.model",
        "below.model",
        "cut.model",
        "empty.model",
        "longest.model",
        "too-long.model",
        "folder",
        "folder/p10.model",
        &longest,
        &too_long,
        &far_too_long,
        "p1.model\0",
        "\0",
        "p1.model\r",
        " p1.model",
        "",
        "p1.model",
        "width.model",
        "p1.model",
    ];
    lines.map(str::to_string).to_vec()
}

/// Every kind of line; the last has no line end.
pub fn every_kind() -> Month {
    Month {
        list: kinds().join("\n").into_bytes(),
        files: files(),
    }
}

/// The same lines and further names to a thousand, in an order that is drawn; and one more, which is not taken.
pub fn one_too_many() -> Month {
    let names = [
        "p1.model",
        "p9.model",
        "missing.model",
        "p10.model",
        "p8.model",
        "",
        "length.model",
    ];
    let mut lines = kinds();
    let further = names.iter().cycle().take(MOST_NAMES - lines.len());
    lines.extend(further.map(|name| name.to_string()));
    Random::new(0x0707).shuffle(&mut lines);
    lines.push("width.model".to_string());
    Month {
        list: lines.join("\n").into_bytes(),
        files: files(),
    }
}

/// The crates whose programs run on the months.
pub fn programs() -> [(&'static str, Month); 2] {
    [("monthly", every_kind()), ("test_month", one_too_many())]
}
