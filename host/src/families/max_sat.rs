//! Max-3-SAT: values of variables that leave the fewest clauses unsatisfied.

use super::{sum_of, Family};
use crate::build::*;
use crate::generate::Random;

pub const MAX_SAT: Family = Family {
    name: "max-3-sat",
    what: "clauses of three literals, fifteen a variable, no bound: no two paths meet",
    smallest: 3,
    usual: 30,
    largest: 60,
    model: |size, seed| max_sat(size, 15 * size, seed),
};

/// A literal: a variable, and whether the variable is to be true.
#[derive(Clone, Copy)]
struct Literal {
    variable: u8,
    positive: bool,
}

/// Three literals of different variables, by variable.
fn clause(random: &mut Random, variables: usize) -> [Literal; 3] {
    let mut chosen = std::collections::BTreeSet::new();
    while chosen.len() < 3 {
        chosen.insert(random.below(variables) as u8);
    }
    let mut chosen = chosen.into_iter();
    std::array::from_fn(|_| Literal {
        variable: chosen.next().unwrap(),
        positive: random.chance(50),
    })
}

/// 1 if both literals are false in the variables set so far, else 0.
fn both_false(first: Literal, second: Literal, count: u8) -> Bytes {
    let pair = set_lit(count, 1 << first.variable | 1 << second.variable);
    let condition = match (first.positive, second.positive) {
        (true, true) => empty(intersection(pair, set(1))),
        (false, false) => subset(pair, set(1)),
        (true, false) => and(
            not(member(obj(first.variable), set(1))),
            member(obj(second.variable), set(1)),
        ),
        (false, true) => and(
            member(obj(first.variable), set(1)),
            not(member(obj(second.variable), set(1))),
        ),
    };
    choice(condition, lit(1), lit(0))
}

/// Variables: 0 the variable to be set next, 1 the variables that are true. A clause is paid for at its last variable.
pub fn max_sat(variables: usize, clauses: usize, seed: u64) -> Bytes {
    let mut random = Random::new(seed);
    let clauses: Vec<[Literal; 3]> = (0..clauses)
        .map(|_| clause(&mut random, variables))
        .collect();
    let count = variables as u8;
    let mut build = Build::new(SUM).element(count + 1, NONE, 0).set(count, 0);
    for variable in 0..count {
        for value in [false, true] {
            let falsified = clauses
                .iter()
                .filter(|[_, _, last]| last.variable == variable && last.positive != value);
            let paid: Vec<Bytes> = falsified
                .map(|[first, second, _]| both_false(*first, *second, count))
                .collect();
            let mut effects = vec![(0, obj(variable + 1))];
            if value {
                effects.push((1, add(obj(variable), set(1))));
            }
            build = build.transition(&[same(elem(0), obj(variable))], sum_of(&paid), &effects);
        }
    }
    build.base(&[same(elem(0), obj(count))]).end()
}
