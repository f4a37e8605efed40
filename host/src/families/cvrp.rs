//! CVRP: the shortest tours of several vehicles, each with a limited load.

use super::travel::Travel;
use super::{all, all_of, Family};
use crate::build::*;
use crate::generate::Random;

pub const CVRP: Family = Family {
    name: "cvrp",
    what: "tours of vehicles with capacity, incoming bound, less load and fewer vehicles preferred",
    smallest: 2,
    usual: 20,
    largest: 60,
    model: cvrp,
};

const CAPACITY: i32 = 100;
const SIDE: i32 = 100;

/// Variables: 0 the customers to visit, 1 the place, 2 the load, 3 the vehicles. Tables: 0 travel, 1 least incoming.
pub fn cvrp(places: usize, seed: u64) -> Bytes {
    let mut random = Random::new(seed);
    let travel = Travel::in_square(&mut random, places, SIDE);
    let demands: Vec<i32> = (0..places).map(|_| random.between(10, 40)).collect();
    let demand: i32 = demands[1..].iter().sum();
    let vehicles = (demand + CAPACITY - 1) / CAPACITY + 1;
    let count = places as u8;
    let build = Build::new(SUM)
        .set(count, all(places) & !1)
        .element(count, NONE, 0)
        .number(LESS, 0)
        .number(LESS, 1);
    let mut build = travel
        .table(build)
        .table(count, 1, &travel.least_incoming(|_, _| true));
    for to in 1..count {
        let demand = lit(demands[usize::from(to)]);
        let load = sum(num(2), demand.clone());
        build = build
            .transition(
                &[
                    member(obj(to), set(0)),
                    at_most(load.clone(), lit(CAPACITY)),
                ],
                entry(0, elem(1), obj(to)),
                &[(0, remove(obj(to), set(0))), (1, obj(to)), (2, load)],
            )
            .transition(
                &[member(obj(to), set(0)), less(num(3), lit(vehicles))],
                sum(entry(0, elem(1), obj(0)), entry(0, obj(0), obj(to))),
                &[
                    (0, remove(obj(to), set(0))),
                    (1, obj(to)),
                    (2, demand),
                    (3, sum(num(3), lit(1))),
                ],
            );
    }
    let at_end = || vec![empty(set(0)), same(elem(1), obj(0))];
    let to_enter = entry_sum(1, add(obj(0), set(0)), obj(0));
    build
        .transition(
            &[empty(set(0)), not(same(elem(1), obj(0)))],
            entry(0, elem(1), obj(0)),
            &[(1, obj(0))],
        )
        .base(&at_end())
        .bound(choice(all_of(&at_end()), lit(0), to_enter))
        .end()
}
