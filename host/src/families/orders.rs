//! Asymmetric orders: a cheapest order of all places, with some that must come before others. SOP ends in a fixed place.

use super::travel::Travel;
use super::{all, precedences, Family};
use crate::build::*;
use crate::generate::Random;

pub const ORDERS: Family = Family {
    name: "orders",
    what: "orders of places, asymmetric costs 0..1000, three in a hundred pairs ordered, incoming bound",
    smallest: 2,
    usual: 40,
    largest: 60,
    model: |size, seed| orders(size, seed, true),
};

pub const ORDERS_UNBOUNDED: Family = Family {
    name: "orders-unbounded",
    what: "the same orders without a bound",
    smallest: 2,
    usual: 40,
    largest: 60,
    model: |size, seed| orders(size, seed, false),
};

pub const SOP: Family = Family {
    name: "sop",
    what: "sequential ordering to a fixed last place, a quarter of the pairs ordered, both bounds",
    smallest: 3,
    usual: 40,
    largest: 60,
    model: sop,
};

/// Orders of `places` from place 0, with the incoming bound if asked for.
pub fn orders(places: usize, seed: u64, bounded: bool) -> Bytes {
    let mut random = Random::new(seed);
    let travel = Travel::asymmetric(&mut random, places, 1_000);
    let after_first: Vec<usize> = (1..places).collect();
    let before = precedences(&mut random, &after_first, 3);
    let least_incoming = least_incoming(&travel, &before);
    let mut build = start(&travel);
    if bounded {
        build = build.table(places as u8, 1, &least_incoming);
    }
    build = visits(build, &before).base(&[empty(set(0))]);
    if bounded {
        build = build.bound(entry_sum(1, set(0), obj(0)));
    }
    build.end()
}

/// Orders from place 0 to the last place, with the bounds of least incoming and least outgoing costs.
pub fn sop(places: usize, seed: u64) -> Bytes {
    let mut random = Random::new(seed);
    let travel = Travel::asymmetric(&mut random, places, 1_000);
    let between: Vec<usize> = (1..places - 1).collect();
    let mut before = precedences(&mut random, &between, 25);
    before.resize(places, 0);
    before[places - 1] = all(places - 1) & !1;
    let may_follow = |from: usize, to: usize| to != 0 && before[from] >> to & 1 == 0;
    let build = start(&travel)
        .table(places as u8, 1, &least_incoming(&travel, &before))
        .table(places as u8, 1, &travel.least_outgoing(may_follow));
    visits(build, &before)
        .base(&[empty(set(0))])
        .bound(entry_sum(1, set(0), obj(0)))
        .bound(entry_sum(2, add(elem(1), set(0)), obj(0)))
        .end()
}

/// The least cost of coming to each place from one that need not come later.
fn least_incoming(travel: &Travel, before: &[u64]) -> Vec<i32> {
    travel.least_incoming(|from, to| before[from] >> to & 1 == 0)
}

/// Variables 0, the places to visit, and 1, the place; table 0, the costs.
fn start(travel: &Travel) -> Build {
    let places = travel.places as u8;
    let build = Build::new(SUM).set(places, all(travel.places) & !1);
    travel.table(build.element(places, NONE, 0))
}

/// One visit a place behind place 0, once those before it are visited.
fn visits(mut build: Build, before: &[u64]) -> Build {
    let places = before.len() as u8;
    for place in 1..places {
        let mut conditions = vec![member(obj(place), set(0))];
        let earlier = before[usize::from(place)];
        if earlier != 0 {
            conditions.push(empty(intersection(set_lit(places, earlier), set(0))));
        }
        build = build.transition(
            &conditions,
            entry(0, elem(1), obj(place)),
            &[(0, remove(obj(place), set(0))), (1, obj(place))],
        );
    }
    build
}
