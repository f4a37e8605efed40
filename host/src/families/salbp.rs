//! SALBP-1: the fewest stations of one cycle time for tasks with precedences.

use super::packing::Packing;
use super::{all, all_of, precedences, Family};
use crate::build::*;
use crate::generate::Random;

pub const SALBP: Family = Family {
    name: "salbp-1",
    what: "assembly lines, a tenth of the pairs ordered, bounds by total, halves and thirds, more time left preferred",
    smallest: 1,
    usual: 40,
    largest: 64,
    model: salbp,
};

const CYCLE: i32 = 100;

/// Variables: 0 the tasks left, 1 the time left in the station.
pub fn salbp(tasks: usize, seed: u64) -> Bytes {
    let mut random = Random::new(seed);
    let packing = Packing {
        sizes: (0..tasks).map(|_| random.between(5, 60)).collect(),
        room: CYCLE,
    };
    let objects: Vec<usize> = (0..tasks).collect();
    let before = precedences(&mut random, &objects, 10);
    let count = tasks as u8;
    let build = Build::new(SUM).set(count, all(tasks)).number(MORE, 0);
    let mut build = packing.tables(build);
    let mut misfits = Vec::new();
    for task in 0..count {
        let time = lit(packing.sizes[usize::from(task)]);
        let earlier = set_lit(count, before[usize::from(task)]);
        let ready = empty(intersection(earlier, set(0)));
        let fits = at_most(time.clone(), num(1));
        let left = member(obj(task), set(0));
        build = build.transition(
            &[left.clone(), ready.clone(), fits.clone()],
            lit(0),
            &[
                (0, remove(obj(task), set(0))),
                (1, difference(num(1), time)),
            ],
        );
        misfits.push(not(and(left, and(ready, fits))));
    }
    build = build
        .transition(
            &[not(empty(set(0))), all_of(&misfits)],
            lit(1),
            &[(1, lit(CYCLE))],
        )
        .base(&[empty(set(0))]);
    packing.bounds(build).end()
}
