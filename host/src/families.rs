//! Families of models by size and seed, as the literature writes them, with declarations that are true.

pub mod bin_packing;
pub mod cvrp;
pub mod graph_clear;
pub mod max_sat;
pub mod mosp;
pub mod orders;
pub mod packing;
pub mod salbp;
pub mod talent;
pub mod tardiness;
pub mod travel;
pub mod tsptw;

use crate::build::*;
use crate::generate::Random;

/// A family: its name, what it is, its sizes, and the model of a size and seed.
#[derive(Clone, Copy)]
pub struct Family {
    pub name: &'static str,
    pub what: &'static str,
    pub smallest: usize,
    /// The size at which a benchmark runs it.
    pub usual: usize,
    pub largest: usize,
    pub model: fn(usize, u64) -> Bytes,
}

/// All families.
pub fn families() -> Vec<Family> {
    vec![
        orders::ORDERS,
        orders::ORDERS_UNBOUNDED,
        tsptw::TSPTW,
        cvrp::CVRP,
        salbp::SALBP,
        bin_packing::BIN_PACKING,
        mosp::MOSP,
        graph_clear::GRAPH_CLEAR,
        orders::SOP,
        tardiness::TARDINESS,
        talent::TALENT,
        max_sat::MAX_SAT,
    ]
}

/// The family of this name.
pub fn family(name: &str) -> Option<Family> {
    families().into_iter().find(|family| family.name == name)
}

/// All objects below `count` as bits.
fn all(count: usize) -> u64 {
    u64::MAX >> (64 - count)
}

/// A balanced tree of a two-part form over the parts, or what stands for none.
fn balanced(parts: &[Bytes], join: fn(Bytes, Bytes) -> Bytes, none: Bytes) -> Bytes {
    match parts {
        [] => none,
        [part] => part.clone(),
        _ => {
            let (first, second) = parts.split_at(parts.len() / 2);
            let first = balanced(first, join, none.clone());
            join(first, balanced(second, join, none))
        }
    }
}

/// The sum of numbers.
fn sum_of(parts: &[Bytes]) -> Bytes {
    balanced(parts, sum, lit(0))
}

/// A condition that holds when all parts do, with none always.
fn all_of(parts: &[Bytes]) -> Bytes {
    balanced(parts, and, empty(set_lit(1, 0)))
}

/// The numbers below `count` in random order.
fn shuffled(random: &mut Random, count: usize) -> Vec<usize> {
    let mut order: Vec<usize> = (0..count).collect();
    random.shuffle(&mut order);
    order
}

/// Random precedences without a cycle: for each object the set of those that come before it.
fn precedences(random: &mut Random, objects: &[usize], percent: usize) -> Vec<u64> {
    let highest = objects.iter().max().map_or(0, |object| object + 1);
    let mut before = vec![0; highest];
    let order = shuffled(random, objects.len());
    for (place, later) in order.iter().enumerate() {
        for earlier in &order[..place] {
            if random.chance(percent) {
                before[objects[*later]] |= 1 << objects[*earlier];
            }
        }
    }
    before
}
