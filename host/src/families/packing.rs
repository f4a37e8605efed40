//! Bounds on the stations or bins still to be opened, from the times or sizes left and the room left.

use crate::build::*;

/// Times or sizes of the objects in variable 0, the room of a station or bin; the room left is variable 1.
pub struct Packing {
    pub sizes: Vec<i32>,
    pub room: i32,
}

/// The quotient rounded up.
fn rounded_up(dividend: Bytes, divisor: i32) -> Bytes {
    difference(lit(0), quotient(difference(lit(0), dividend), lit(divisor)))
}

impl Packing {
    /// In halves: objects above half the room fill one each, and those of half of it share one.
    fn halves(&self, size: i32) -> i32 {
        match (2 * size).cmp(&self.room) {
            std::cmp::Ordering::Less => 0,
            std::cmp::Ordering::Equal => 1,
            std::cmp::Ordering::Greater => 2,
        }
    }

    /// In sixths: the weights of objects of a third of the room or more.
    fn sixths(&self, size: i32) -> i32 {
        let third = (3 * size).cmp(&self.room);
        let two_thirds = (3 * size).cmp(&(2 * self.room));
        match (third, two_thirds) {
            (_, std::cmp::Ordering::Greater) => 6,
            (_, std::cmp::Ordering::Equal) => 4,
            (std::cmp::Ordering::Greater, _) => 3,
            (std::cmp::Ordering::Equal, _) => 2,
            (std::cmp::Ordering::Less, _) => 0,
        }
    }

    /// Tables 0, 1, 2: sizes, weights in halves, weights in sixths.
    pub fn tables(&self, build: Build) -> Build {
        let count = self.sizes.len() as u8;
        let halves: Vec<i32> = self.sizes.iter().map(|size| self.halves(*size)).collect();
        let sixths: Vec<i32> = self.sizes.iter().map(|size| self.sixths(*size)).collect();
        build
            .table(count, 1, &self.sizes)
            .table(count, 1, &halves)
            .table(count, 1, &sixths)
    }

    /// By the total size, by halves, by thirds. The room left takes a weight of one at most.
    pub fn bounds(&self, build: Build) -> Build {
        let left = difference(entry_sum(0, set(0), obj(0)), num(1));
        let weighed = |table: u8, whole: i32, part: i32| {
            let roomy = at_most(lit(self.room), product(lit(part), num(1)));
            let weight = entry_sum(table, set(0), obj(0));
            difference(rounded_up(weight, whole), choice(roomy, lit(1), lit(0)))
        };
        build
            .bound(rounded_up(left, self.room))
            .bound(weighed(1, 2, 2))
            .bound(weighed(2, 6, 3))
    }
}
