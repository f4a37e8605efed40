//! Random models whose steps have high costs of their own, and models that are damaged at the command of the high cost.

use super::{with_any_target, Names, Random};
use crate::build::*;
use crate::reference::read_model;
use crate::reference::syntax::{Model, Variable};

/// How the low and the high costs of a model are made from the costs that it has.
#[derive(Clone, Copy, PartialEq, Eq, Debug)]
pub enum Spread {
    /// The low cost is the one that the model has: a bound that was true is true of the low costs.
    Upward,
    /// The high cost is: bounds and preferences that were true are true of the high costs.
    Downward,
    /// Anything, costs without a value and high costs below low ones among them.
    Any,
}

pub const SPREADS: [Spread; 3] = [Spread::Upward, Spread::Downward, Spread::Any];

/// A random model with ranges.
pub fn ranged(random: &mut Random) -> Build {
    let spread = random.pick(&SPREADS);
    let build = with_any_target(random);
    spread_costs(random, &build, spread)
}

/// The model with ranges for three of four costs.
pub fn spread_costs(random: &mut Random, build: &Build, spread: Spread) -> Build {
    let names = Names::of(&read(build));
    let costs: Vec<Bytes> = commands(build)
        .filter(|command| command[0] == 0x09)
        .map(|command| command[1..].to_vec())
        .collect();
    let mut made = Build {
        bytes: Vec::new(),
        starts: Vec::new(),
    };
    for command in commands(build) {
        if command[0] != 0x09 || random.chance(25) {
            made = made.command(command[0], &[&command[1..]]);
            continue;
        }
        let cost = command[1..].to_vec();
        let (low, high) = match spread {
            Spread::Upward => (cost.clone(), above(random, cost, &costs)),
            Spread::Downward => (below(random, cost.clone()), cost),
            Spread::Any => any(random, cost, &costs, &names),
        };
        made = made.command(0x09, &[&low]).command(0x10, &[&high]);
    }
    made
}

fn read(build: &Build) -> Model {
    read_model(&build.clone().end()).expect("a generated model is well made")
}

/// The bytes of each command.
fn commands(build: &Build) -> impl Iterator<Item = &[u8]> {
    let ends = build.starts.iter().skip(1).copied();
    let ends = ends.chain([build.bytes.len()]);
    let places = build.starts.iter().zip(ends);
    places.map(|(start, end)| &build.bytes[*start..end])
}

/// A number that is not below this one wherever both have values.
fn above(random: &mut Random, cost: Bytes, costs: &[Bytes]) -> Bytes {
    match random.below(5) {
        0 => cost,
        1 => greater(cost, random.pick(costs)),
        2 => greater(lit(random.between(2, 9)), cost),
        3 => sum(cost.clone(), greater(lit(0), cost)),
        _ => sum(cost, lit(random.between(0, 4))),
    }
}

/// A number that is neither negative nor above this one, if it is not negative.
fn below(random: &mut Random, cost: Bytes) -> Bytes {
    match random.below(4) {
        0 => lit(0),
        1 => quotient(cost, lit(2)),
        2 => lesser(lit(random.between(0, 3)), cost),
        _ => greater(lit(0), difference(cost, lit(random.between(0, 3)))),
    }
}

/// A number without a value: out of range, or a quotient by zero.
fn troubled(random: &mut Random) -> Bytes {
    match random.below(2) {
        0 => sum(lit(i32::MAX), lit(1)),
        _ => quotient(lit(1), lit(0)),
    }
}

/// Any two numbers. Trouble comes in one step of six or so.
fn any(random: &mut Random, cost: Bytes, costs: &[Bytes], names: &Names) -> (Bytes, Bytes) {
    match random.below(24) {
        0 => (cost.clone(), difference(cost, lit(1))),
        1 => (sum(cost.clone(), lit(1)), cost),
        2 => (cost, troubled(random)),
        3 => (difference(cost.clone(), lit(2)), cost),
        4 => (difference(cost, lit(2)), troubled(random)),
        5 => (troubled(random), lit(0)),
        6 => (cost, sum(lit(i32::MAX), lit(random.between(-1, 1)))),
        7 => (cost, names.number(random, 2)),
        8..=10 => {
            let high = greater(cost.clone(), names.number(random, 2));
            (cost, high)
        }
        11..=16 => (below(random, cost.clone()), cost),
        _ => (cost.clone(), above(random, cost, costs)),
    }
}

impl Names {
    /// The names that a model declares.
    fn of(model: &Model) -> Names {
        let mut names = Names {
            sets: Vec::new(),
            elements: Vec::new(),
            numbers: Vec::new(),
            tables: Vec::new(),
            troubled: false,
        };
        for (place, variable) in model.variables.iter().enumerate() {
            let place = place as u8;
            match variable {
                Variable::Set { count, .. } => names.sets.push((place, *count)),
                Variable::Element { count, .. } => names.elements.push((place, *count)),
                Variable::Number { .. } => names.numbers.push(place),
            }
        }
        for (place, table) in model.tables.iter().enumerate() {
            names.tables.push((place as u8, table.rows, table.columns));
        }
        names
    }
}

/// The ways in which a model is damaged at a high cost.
#[derive(Clone, Copy, PartialEq, Eq, Debug)]
pub enum Way {
    /// A second high cost behind the first.
    Second,
    /// A high cost before another command than those that stand behind a cost.
    Elsewhere,
    /// The bytes end behind the low cost, where a high one might stand.
    EndsBefore,
    /// The bytes end behind the byte of the high cost, or in its number.
    EndsInside,
    /// An expression of another kind.
    OtherKind,
    /// A byte that begins no expression.
    NoExpression,
    /// A number nested one level too deep.
    TooDeep,
    /// A number variable that is not declared.
    Undeclared,
}

pub const WAYS: [Way; 8] = [
    Way::Second,
    Way::Elsewhere,
    Way::EndsBefore,
    Way::EndsInside,
    Way::OtherKind,
    Way::NoExpression,
    Way::TooDeep,
    Way::Undeclared,
];

/// A random model that is damaged at a high cost in this way and in no other, and the refusal that is due.
pub fn damaged(random: &mut Random, way: Way) -> (Bytes, u8) {
    let build = loop {
        let build = ranged(random);
        if commands(&build).any(|command| command[0] == 0x10) {
            break build;
        }
    };
    let whole = build.clone().end();
    let byte_at = |start: &usize| build.bytes[*start];
    let places: Vec<usize> = (0..build.starts.len())
        .filter(|place| byte_at(&build.starts[*place]) == 0x10)
        .collect();
    let place = random.pick(&places);
    let start = build.starts[place];
    let next = build.starts.get(place + 1).copied();
    let end = next.unwrap_or(build.bytes.len());
    let cut = |at: usize| whole[..at].to_vec();
    let replaced = |number: Bytes| [&whole[..=start], &number, &whole[end..]].concat();
    match way {
        Way::Second => ([&whole[..end], &whole[start..]].concat(), 5),
        Way::Elsewhere => {
            let due = |place: &usize| *place > 0 && byte_at(&build.starts[place - 1]) == 0x09;
            let elsewhere: Vec<usize> = (0..build.starts.len()).filter(|at| !due(at)).collect();
            let at = build.starts[random.pick(&elsewhere)];
            ([&whole[..at], &whole[start..end], &whole[at..]].concat(), 5)
        }
        Way::EndsBefore => (cut(start), 4),
        Way::EndsInside => (cut(start + 1 + random.below(end - start - 1)), 4),
        Way::OtherKind => {
            let other = [obj(0), set_lit(1, 0), empty(set_lit(1, 0))];
            (replaced(random.pick(&other)), 6)
        }
        Way::NoExpression => (replaced(vec![random.pick(&[0x00, 0x10, 0x2C, 0x60])]), 5),
        Way::TooDeep => {
            let deep = (0..32).fold(lit(0), |inner, _| sum(inner, lit(0)));
            (replaced(deep), 8)
        }
        Way::Undeclared => (replaced(num(16)), 6),
    }
}
