//! Graph-clear: an order of sweeping nodes with the fewest robots in a step.

use super::Family;
use crate::build::*;
use crate::generate::Random;

pub const GRAPH_CLEAR: Family = Family {
    name: "graph-clear",
    what: "sweeps of a random graph with three tenths of the edges, largest rule, no bound",
    smallest: 1,
    usual: 30,
    largest: 64,
    model: graph_clear,
};

const DENSITY: usize = 30;

/// Weights of the edges, row by row, 0 where there is none.
fn edges(random: &mut Random, nodes: usize) -> Vec<i32> {
    let mut edges = vec![0; nodes * nodes];
    for second in 0..nodes {
        for first in 0..second {
            if random.chance(DENSITY) {
                let weight = random.between(1, 5);
                edges[first * nodes + second] = weight;
                edges[second * nodes + first] = weight;
            }
        }
    }
    edges
}

/// Variables: 0 the swept nodes, 1 the robots on the edges between swept and other nodes. Table 0: the edges.
pub fn graph_clear(nodes: usize, seed: u64) -> Bytes {
    let mut random = Random::new(seed);
    let edges = edges(&mut random, nodes);
    let count = nodes as u8;
    let mut build = Build::new(LARGEST)
        .set(count, 0)
        .number(NONE, 0)
        .table(count, count, &edges);
    for node in 0..count {
        let row = &edges[usize::from(node) * nodes..][..nodes];
        let around: i32 = row.iter().sum();
        let to_swept = || entry_sum(0, set(0), obj(node));
        let own = random.between(1, 10) + around;
        let elsewhere = difference(num(1), to_swept());
        let moved = difference(lit(around), product(lit(2), to_swept()));
        build = build.transition(
            &[not(member(obj(node), set(0)))],
            sum(lit(own), elsewhere),
            &[(0, add(obj(node), set(0))), (1, sum(num(1), moved))],
        );
    }
    build.base(&[empty(complement(set(0)))]).end()
}
