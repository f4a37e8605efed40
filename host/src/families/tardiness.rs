//! Weighted tardiness on one machine: an order of jobs with the least weighted lateness.

use super::Family;
use crate::build::*;
use crate::generate::Random;

pub const TARDINESS: Family = Family {
    name: "weighted-tardiness",
    what: "jobs on one machine by weighted tardiness, no bound",
    smallest: 1,
    usual: 30,
    largest: 64,
    model: tardiness,
};

/// Variable 0: the finished jobs. Table 0: processing times.
pub fn tardiness(jobs: usize, seed: u64) -> Bytes {
    let mut random = Random::new(seed);
    let times: Vec<i32> = (0..jobs).map(|_| random.between(1, 100)).collect();
    let total: i32 = times.iter().sum();
    let count = jobs as u8;
    let mut build = Build::new(SUM).set(count, 0).table(count, 1, &times);
    for job in 0..count {
        let time = times[usize::from(job)];
        let due = random.between(total / 5, total);
        let late = sum(entry_sum(0, set(0), obj(0)), lit(time - due));
        build = build.transition(
            &[not(member(obj(job), set(0)))],
            product(lit(random.between(1, 10)), greater(lit(0), late)),
            &[(0, add(obj(job), set(0)))],
        );
    }
    build.base(&[empty(complement(set(0)))]).end()
}
