//! Models typed in from the documents.

use crate::build::*;

/// The parts of the three designs that the cases P1 to P10 vary.
pub struct Designs {
    pub rule: u8,
    pub start: u64,
    pub bound: Option<i32>,
    pub constraint: Option<Bytes>,
}

impl Default for Designs {
    fn default() -> Designs {
        Designs {
            rule: SUM,
            start: 0b1110,
            bound: None,
            constraint: None,
        }
    }
}

/// Hours from design to design, row by row.
const HOURS: [i32; 16] = [0, 2, 5, 4, 0, 0, 3, 6, 0, 3, 0, 2, 0, 6, 2, 0];

impl Designs {
    pub fn build(&self) -> Build {
        let mut build = Build::new(self.rule)
            .set(4, self.start)
            .element(4, NONE, 0)
            .table(4, 4, &HOURS);
        for design in 1..=3 {
            build = build.transition(
                &[member(obj(design), set(0))],
                entry(0, elem(1), obj(design)),
                &[(0, remove(obj(design), set(0))), (1, obj(design))],
            );
        }
        build = build.base(&[empty(set(0))]);
        if let Some(constraint) = &self.constraint {
            build = build.constraint(constraint.clone());
        }
        if let Some(bound) = self.bound {
            build = build.bound(lit(bound));
        }
        build
    }

    pub fn bytes(&self) -> Bytes {
        self.build().end()
    }
}

/// The three designs of document 01.
pub fn three_designs() -> Bytes {
    Designs::default().bytes()
}

/// Three designs in which each high cost is twice the low one.
pub fn doubled_designs(designs: &Designs) -> Build {
    let mut build = Build::new(designs.rule)
        .set(4, designs.start)
        .element(4, NONE, 0)
        .table(4, 4, &HOURS);
    for design in 1..=3 {
        let hours = entry(0, elem(1), obj(design));
        let range = (hours.clone(), product(lit(2), hours));
        let effects = [(0, remove(obj(design), set(0))), (1, obj(design))];
        build = build.ranged(&[member(obj(design), set(0))], range, &effects);
    }
    build.base(&[empty(set(0))])
}

/// A number that one transition counts from 0 to 3, with these low and high costs.
pub fn counting(rule: u8, range: (Bytes, Bytes)) -> Build {
    Build::new(rule)
        .number(NONE, 0)
        .ranged(&[], range, &[(0, sum(num(0), lit(1)))])
        .base(&[equal(num(0), lit(3))])
}

/// Two ways from the target to one base state, each with its low and its high cost.
pub fn two_ways(first: (i32, i32), second: (i32, i32)) -> Build {
    let step = |build: Build, (low, high): (i32, i32)| {
        let started = [same(elem(0), obj(0))];
        build.ranged(&started, (lit(low), lit(high)), &[(0, obj(1))])
    };
    let build = Build::new(SUM).element(2, NONE, 0);
    step(step(build, first), second).base(&[same(elem(0), obj(1))])
}

/// The TSPTW of source document 003, Listing 2: visits 1, 2, 3 are transitions 0, 1, 2, the return is 3.
pub fn tsptw() -> Bytes {
    let travel = [0, 3, 4, 5, 3, 0, 5, 4, 4, 5, 0, 3, 5, 4, 3, 0];
    let windows = [(0, 100), (5, 16), (0, 10), (8, 14)];
    let arrival = |to: u8| sum(num(2), entry(0, elem(1), obj(to)));
    let in_time = |to: u8| at_most(arrival(to), lit(windows[usize::from(to)].1));
    let mut build = Build::new(SUM)
        .set(4, 0b1110)
        .element(4, NONE, 0)
        .number(LESS, 0)
        .table(4, 4, &travel);
    for to in 1..=3 {
        let opening = windows[usize::from(to)].0;
        build = build.transition(
            &[member(obj(to), set(0)), in_time(to)],
            entry(0, elem(1), obj(to)),
            &[
                (0, remove(obj(to), set(0))),
                (1, obj(to)),
                (2, greater(arrival(to), lit(opening))),
            ],
        );
    }
    build = build
        .transition(
            &[empty(set(0)), not(same(elem(1), obj(0)))],
            entry(0, elem(1), obj(0)),
            &[(1, obj(0)), (2, arrival(0))],
        )
        .base(&[empty(set(0)), same(elem(1), obj(0))]);
    let reachable = |to: u8| or(not(member(obj(to), set(0))), in_time(to));
    build
        .constraint(and(reachable(1), and(reachable(2), reachable(3))))
        .end()
}

/// The SOP example of source document 004, section 4.6.3, with the bound of least incoming costs.
pub fn sop() -> Bytes {
    let rows: [[i32; 5]; 5] = [
        [0, 1, 3, 2, 999],
        [-1, 0, 3, 1, 2],
        [-1, 4, 0, -1, 2],
        [-1, 2, 2, 0, 1],
        [-1, -1, -1, -1, 0],
    ];
    let least_incoming: Vec<i32> = (0..5)
        .map(|to| {
            let from = (0..5).filter(|from| *from != to && rows[*from][to] >= 0);
            from.map(|from| rows[from][to]).min().unwrap_or(0)
        })
        .collect();
    let mut build = Build::new(SUM)
        .set(5, 0b11110)
        .element(5, NONE, 0)
        .table(5, 5, &rows.concat())
        .table(5, 1, &least_incoming);
    for to in 1..5u8 {
        let predecessors = (0..5)
            .filter(|from| rows[usize::from(to)][*from] < 0)
            .fold(0, |set, from| set | 1 << from);
        build = build.transition(
            &[
                member(obj(to), set(0)),
                empty(intersection(set_lit(5, predecessors), set(0))),
            ],
            entry(0, elem(1), obj(to)),
            &[(0, remove(obj(to), set(0))), (1, obj(to))],
        );
    }
    build
        .base(&[empty(set(0))])
        .bound(entry_sum(1, set(0), obj(0)))
        .end()
}
