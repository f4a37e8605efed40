//! Bin packing: the fewest bins for items; a new bin begins with the first item left.

use super::packing::Packing;
use super::{all, all_of, Family};
use crate::build::*;
use crate::generate::Random;

pub const BIN_PACKING: Family = Family {
    name: "bin-packing",
    what: "items in bins, bounds by total, halves and thirds, more room and fewer bins preferred",
    smallest: 1,
    usual: 40,
    largest: 64,
    model: bin_packing,
};

const ROOM: i32 = 100;

/// Variables: 0 the items left, 1 the room left, 2 the bins, 3 whether the bin is new and empty.
pub fn bin_packing(items: usize, seed: u64) -> Bytes {
    let mut random = Random::new(seed);
    let packing = Packing {
        sizes: (0..items).map(|_| random.between(10, 70)).collect(),
        room: ROOM,
    };
    let count = items as u8;
    let build = Build::new(SUM)
        .set(count, all(items))
        .number(MORE, 0)
        .number(LESS, 0)
        .element(2, NONE, 0);
    let mut build = packing.tables(build);
    let (begun, new) = (same(elem(3), obj(0)), same(elem(3), obj(1)));
    let left = |item: u8| member(obj(item), set(0));
    let size = |item: u8| lit(packing.sizes[usize::from(item)]);
    let fits = |item: u8| {
        let in_turn = at_most(num(2), lit(i32::from(item) + 1));
        and(at_most(size(item), num(1)), in_turn)
    };
    let packed = |item: u8| {
        vec![
            (0, remove(obj(item), set(0))),
            (1, difference(num(1), size(item))),
        ]
    };
    for item in 0..count {
        let conditions = [begun.clone(), left(item), fits(item)];
        build = build.transition(&conditions, lit(0), &packed(item));
    }
    for item in 0..count {
        let earlier = set_lit(count, all(items) & ((1 << item) - 1));
        let first = empty(intersection(earlier, set(0)));
        let mut effects = packed(item);
        effects.push((3, obj(0)));
        let conditions = [new.clone(), left(item), first];
        build = build.transition(&conditions, lit(0), &effects);
    }
    let misfit = |item: u8| not(and(left(item), fits(item)));
    let misfits: Vec<Bytes> = (0..count).map(misfit).collect();
    build = build
        .transition(
            &[begun, not(empty(set(0))), all_of(&misfits)],
            lit(1),
            &[(1, lit(ROOM)), (2, sum(num(2), lit(1))), (3, obj(1))],
        )
        .base(&[empty(set(0))]);
    packing.bounds(build).end()
}
