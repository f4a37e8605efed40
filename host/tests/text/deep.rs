//! Bytes to text and back on expressions of every form, up to the deepest nesting and the largest counts.

use super::round_trip;
use repgypsum_host::build::*;
use repgypsum_host::generate::Random;
use repgypsum_host::numbers::limit;

/// Random expressions of every form, up to the deepest nesting and the largest counts.
struct Deep<'a> {
    random: &'a mut Random,
}

/// Sets of 64, 5 and 1 objects, elements of 64, 5 and 1, a number; tables of 64 by 64, 5 by 2, 64 by 1, 1 by 5.
fn deep_names() -> Build {
    let entries: Vec<i32> = (0..4_096)
        .map(|entry| entry * 1_000_003 - (1 << 31))
        .collect();
    Build::new(SUM)
        .set(64, u64::MAX)
        .set(5, 0b10111)
        .set(1, 0)
        .element(64, LESS, 63)
        .element(5, MORE, 2)
        .element(1, NONE, 0)
        .number(LESS, i32::MIN)
        .table(64, 64, &entries)
        .table(5, 2, &entries[..10])
        .table(64, 1, &entries[..64])
        .table(1, 5, &entries[..5])
}

impl Deep<'_> {
    fn number(&mut self, depth: u32) -> Bytes {
        if depth == 1 {
            let some = self.random.word() as i32;
            return self
                .random
                .pick(&[lit(i32::MIN), lit(i32::MAX), lit(0), lit(some), num(6)]);
        }
        let inner = depth - 1;
        let shallow = 1 + self.random.below(inner as usize) as u32;
        let (table, row, column) =
            self.random
                .pick(&[(0, 64, 64), (1, 5, 2), (2, 64, 1), (3, 1, 5)]);
        match self.random.below(10) {
            0 => sum(self.number(inner), self.number(shallow.min(3))),
            1 => difference(self.number(shallow.min(3)), self.number(inner)),
            2 => product(self.number(inner), self.number(shallow.min(3))),
            3 => quotient(self.number(shallow.min(3)), self.number(inner)),
            4 => lesser(self.number(inner), self.number(1)),
            5 => greater(self.number(1), self.number(inner)),
            6 => entry(table, self.element(row), self.element(column)),
            7 => {
                let objects = self.random.pick(&[64, 5, 1]);
                count(self.set(objects, inner))
            }
            8 => entry_sum(table, self.set(row, inner), self.element(column)),
            _ => choice(
                self.condition(inner),
                self.number(shallow.min(3)),
                self.number(shallow.min(4)),
            ),
        }
    }

    fn element(&mut self, most: u8) -> Bytes {
        let fitting: Vec<u8> = [(3, 64), (4, 5), (5, 1)]
            .iter()
            .filter(|(_, count)| *count <= most)
            .map(|(variable, _)| *variable)
            .collect();
        match self.random.below(2) {
            0 => obj(self.random.below(usize::from(most)) as u8),
            _ => elem(self.random.pick(&fitting)),
        }
    }

    fn set(&mut self, objects: u8, depth: u32) -> Bytes {
        let variable = [(64, 0), (5, 1), (1, 2)]
            .iter()
            .find(|(count, _)| *count == objects);
        if depth == 1 {
            let all = u64::MAX >> (64 - objects);
            return match variable {
                Some((_, variable)) if self.random.chance(50) => set(*variable),
                _ => set_lit(objects, self.random.word() & self.random.word() & all),
            };
        }
        let inner = depth - 1;
        let shallow = 1 + self.random.below(inner.min(3) as usize) as u32;
        match self.random.below(7) {
            0 => add(self.element(objects), self.set(objects, inner)),
            1 => remove(self.element(objects), self.set(objects, inner)),
            2 => union(self.set(objects, inner), self.set(objects, shallow)),
            3 => intersection(self.set(objects, shallow), self.set(objects, inner)),
            4 => without(self.set(objects, inner), self.set(objects, shallow)),
            5 => without(self.set(objects, shallow), self.set(objects, inner)),
            _ => complement(self.set(objects, inner)),
        }
    }

    fn condition(&mut self, depth: u32) -> Bytes {
        if depth <= 2 {
            return same(self.element(64), self.element(64));
        }
        let inner = depth - 1;
        let shallow = 2 + self.random.below(inner.min(4) as usize - 1) as u32;
        let objects = self.random.pick(&[64, 5, 1]);
        match self.random.below(10) {
            0 => equal(self.number(inner), self.number(shallow)),
            1 => less(self.number(shallow), self.number(inner)),
            2 => at_most(self.number(inner), self.number(1)),
            3 => member(self.element(objects), self.set(objects, inner)),
            4 => empty(self.set(objects, inner)),
            5 => subset(self.set(objects, inner), self.set(objects, shallow)),
            6 => not(self.condition(inner)),
            7 => and(self.condition(inner), self.condition(shallow)),
            8 => and(self.condition(shallow), self.condition(inner)),
            _ => or(self.condition(shallow), self.condition(inner)),
        }
    }
}

#[test]
fn deep_models() {
    let mut random = Random::new(0xDEE9);
    let mut deepest = 0;
    for round in 0..450 {
        let mut deep = Deep {
            random: &mut random,
        };
        let depth = 3 + (round % 30) as u32;
        let conditions = [deep.condition(depth), deep.condition(depth)];
        let effects = [
            (1, deep.set(5, depth)),
            (3, deep.element(64)),
            (6, deep.number(depth)),
            (0, deep.set(64, depth)),
        ];
        let build = deep_names()
            .transition(&[], deep.number(depth), &[])
            .transition(&conditions, deep.number(depth), &effects)
            .base(&[])
            .base(&[deep.condition(depth)])
            .constraint(deep.condition(depth))
            .bound(deep.number(depth));
        assert!(round_trip(&build.end()));
        deepest = deepest.max(depth);
    }
    assert_eq!(deepest, limit::NESTING);
}
