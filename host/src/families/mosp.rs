//! MOSP: an order of closing customers' stacks with the fewest open at a time.

use super::{all, Family};
use crate::build::*;
use crate::generate::Random;

pub const MOSP: Family = Family {
    name: "mosp",
    what: "open stacks, a fifth of the customers' pairs share a product, largest rule, no bound",
    smallest: 1,
    usual: 30,
    largest: 64,
    model: mosp,
};

const DENSITY: usize = 20;

/// For each node itself and its neighbours in a random graph.
fn neighbourhoods(random: &mut Random, nodes: usize) -> Vec<u64> {
    let mut near: Vec<u64> = (0..nodes).map(|node| 1 << node).collect();
    for second in 0..nodes {
        for first in 0..second {
            if random.chance(DENSITY) {
                near[first] |= 1 << second;
                near[second] |= 1 << first;
            }
        }
    }
    near
}

/// Variables: 0 the customers whose stacks are not closed, 1 those whose stacks have been opened.
pub fn mosp(customers: usize, seed: u64) -> Bytes {
    let near = neighbourhoods(&mut Random::new(seed), customers);
    let objects = customers as u8;
    let mut build = Build::new(LARGEST)
        .set(objects, all(customers))
        .set(objects, 0);
    for customer in 0..objects {
        let near = set_lit(objects, near[usize::from(customer)]);
        let open = union(intersection(set(1), set(0)), without(near.clone(), set(1)));
        build = build.transition(
            &[member(obj(customer), set(0))],
            count(open),
            &[(0, remove(obj(customer), set(0))), (1, union(set(1), near))],
        );
    }
    build.base(&[empty(set(0))]).end()
}
