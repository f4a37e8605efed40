//! TSPTW: a shortest tour that comes to each place within its window.

use super::travel::Travel;
use super::{all, all_of, shuffled, Family};
use crate::build::*;
use crate::generate::Random;

pub const TSPTW: Family = Family {
    name: "tsptw",
    what: "tours with time windows around a random tour, incoming bound, less time preferred",
    smallest: 2,
    usual: 30,
    largest: 60,
    model: tsptw,
};

const SIDE: i32 = 50;
/// Half the widest window by the number of places.
const HALF_WINDOW: i32 = 6;

/// Opening and closing times around the arrivals of a random tour.
fn windows(random: &mut Random, travel: &Travel) -> Vec<(i32, i32)> {
    let mut windows = vec![(0, i32::MAX); travel.places];
    let half = HALF_WINDOW * travel.places as i32;
    let mut time = 0;
    let mut from = 0;
    for visited in shuffled(random, travel.places - 1) {
        let to = visited + 1;
        time += travel.cost(from, to);
        let opening = time - random.between(0, half);
        windows[to] = (opening.max(0), time + random.between(0, half));
        from = to;
    }
    windows
}

/// Variables: 0 the places to visit, 1 the place, 2 the time. Tables: 0 travel, 1 least incoming.
pub fn tsptw(places: usize, seed: u64) -> Bytes {
    let mut random = Random::new(seed);
    let travel = Travel::in_square(&mut random, places, SIDE);
    let windows = windows(&mut random, &travel);
    let arrival = |to: u8| sum(num(2), entry(0, elem(1), obj(to)));
    let in_time = |to: u8| at_most(arrival(to), lit(windows[usize::from(to)].1));
    let count = places as u8;
    let build = Build::new(SUM)
        .set(count, all(places) & !1)
        .element(count, NONE, 0)
        .number(LESS, 0);
    let mut build = travel
        .table(build)
        .table(count, 1, &travel.least_incoming(|_, _| true));
    for to in 1..count {
        let opening = windows[usize::from(to)].0;
        build = build.transition(
            &[member(obj(to), set(0)), in_time(to)],
            entry(0, elem(1), obj(to)),
            &[
                (0, remove(obj(to), set(0))),
                (1, obj(to)),
                (2, greater(arrival(to), lit(opening))),
            ],
        );
    }
    let at_end = || vec![empty(set(0)), same(elem(1), obj(0))];
    let still_reachable = |to: u8| or(not(member(obj(to), set(0))), in_time(to));
    let reachable: Vec<Bytes> = (1..count).map(still_reachable).collect();
    let to_enter = entry_sum(1, add(obj(0), set(0)), obj(0));
    build
        .transition(
            &[empty(set(0)), not(same(elem(1), obj(0)))],
            entry(0, elem(1), obj(0)),
            &[(1, obj(0)), (2, arrival(0))],
        )
        .base(&at_end())
        .constraint(all_of(&reachable))
        .bound(choice(all_of(&at_end()), lit(0), to_enter))
        .end()
}
