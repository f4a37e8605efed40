//! Travel costs, and the bound of least incoming costs.

use crate::build::*;
use crate::generate::Random;

/// Costs from place to place, row by row.
pub struct Travel {
    pub places: usize,
    pub costs: Vec<i32>,
}

/// The length of the hypotenuse rounded up.
fn distance(x: i32, y: i32) -> i32 {
    let square = x * x + y * y;
    let below = |length: &i32| length * length < square;
    (0..).find(|length| !below(length)).unwrap()
}

impl Travel {
    /// Costs of 0 to `most` without any symmetry.
    pub fn asymmetric(random: &mut Random, places: usize, most: i32) -> Travel {
        let mut travel = Travel {
            places,
            costs: vec![0; places * places],
        };
        for from in 0..places {
            for to in (0..places).filter(|to| *to != from) {
                travel.costs[from * places + to] = random.between(0, most);
            }
        }
        travel
    }

    /// Distances rounded up between random places of a square, which keep the triangle inequality.
    pub fn in_square(random: &mut Random, places: usize, side: i32) -> Travel {
        let mut coordinate = || random.between(0, side);
        let at: Vec<(i32, i32)> = (0..places).map(|_| (coordinate(), coordinate())).collect();
        let pairs = at
            .iter()
            .flat_map(|from| at.iter().map(move |to| (from, to)));
        let costs = pairs.map(|(from, to)| distance(from.0 - to.0, from.1 - to.1));
        Travel {
            places,
            costs: costs.collect(),
        }
    }

    pub fn cost(&self, from: usize, to: usize) -> i32 {
        self.costs[from * self.places + to]
    }

    /// The table of all costs.
    pub fn table(&self, build: Build) -> Build {
        build.table(self.places as u8, self.places as u8, &self.costs)
    }

    /// The least cost of coming to each place from another that passes the test.
    pub fn least_incoming(&self, may_follow: impl Fn(usize, usize) -> bool) -> Vec<i32> {
        let least = |to: usize| {
            let from = (0..self.places).filter(|from| *from != to && may_follow(*from, to));
            from.map(|from| self.cost(from, to)).min().unwrap_or(0)
        };
        (0..self.places).map(least).collect()
    }

    /// The least cost of leaving each place for another that passes the test.
    pub fn least_outgoing(&self, may_follow: impl Fn(usize, usize) -> bool) -> Vec<i32> {
        let least = |from: usize| {
            let to = (0..self.places).filter(|to| *to != from && may_follow(from, *to));
            to.map(|to| self.cost(from, to)).min().unwrap_or(0)
        };
        (0..self.places).map(least).collect()
    }
}
