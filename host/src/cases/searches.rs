//! Searches: settings, verdicts, marks, bounds, the target's constraints, trouble and its path, by hand and at random.

use super::{Call, Case, Cases, Search, FILL};
use crate::beam::Beam;
use crate::build::*;
use crate::generate::{graph as random_graph, model, settings, Random};
use crate::models::{sop, three_designs, tsptw, Designs};
use crate::numbers::words_needed;

/// The stored random searches, by their places in the sequence that `random_search` gives. Most of them are changed by some slip
/// of host/slips/reference, and no two have the same fields, but for three whose target breaks a constraint.
#[rustfmt::skip]
const STORED: [usize; 100] = [
    2, 3, 4, 7, 12, 15, 16, 21, 23, 27, 29, 32, 33, 34, 36, 39, 40, 52, 54, 56, 61, 62, 66,
    68, 70, 74, 90, 91, 94, 96, 100, 104, 110, 111, 116, 123, 132, 133, 146, 147, 148, 149,
    162, 173, 178, 180, 181, 183, 188, 195, 206, 208, 216, 217, 221, 225, 233, 234, 239,
    240, 244, 249, 272, 276, 279, 294, 299, 303, 310, 319, 322, 324, 342, 349, 356, 376,
    420, 478, 495, 501, 502, 520, 523, 529, 575, 581, 616, 648, 727, 729, 737, 766, 791,
    792, 810, 841, 860, 871, 914, 948,
];

const MAX: i32 = i32::MAX;

pub fn cases() -> Vec<Case> {
    let mut cases = Cases::default();
    proved(&mut cases);
    lent(&mut cases);
    budgets_and_lengths(&mut cases);
    order(&mut cases);
    dominance(&mut cases);
    marks(&mut cases);
    plans_in_a_layer(&mut cases);
    bounds(&mut cases);
    troubles(&mut cases);
    target(&mut cases);
    random(&mut cases);
    cases.0
}

fn designs() -> Designs {
    Designs::default()
}

fn proved(cases: &mut Cases) {
    let p1 = "0 0 1 7 7 3 14 3 4 7";
    cases.search("P1", three_designs(), (16, 64, 100_000), p1);
    cases.search("P2", three_designs(), (4, 3, 100_000), p1);
    cases.search(
        "P3",
        three_designs(),
        (2, 3, 100_000),
        "0 2 1 7 0 3 8 2 2 7",
    );
    cases.search(
        "P4",
        three_designs(),
        (1, 3, 100_000),
        "0 2 1 7 0 3 6 2 1 7",
    );
    cases.search(
        "P5",
        three_designs(),
        (8, 2, 100_000),
        "0 3 0 0 5 0 13 4 8 0",
    );
    cases.search("P6", three_designs(), (16, 64, 0), "0 4 0 0 0 0 0 1 1 0");
    let p7 = Designs {
        start: 0,
        ..designs()
    };
    cases.search("P7", p7.bytes(), (16, 64, 100_000), "0 0 1 0 0 0 0 1 1 0");
    let p8 = Designs {
        bound: Some(8),
        ..designs()
    };
    cases.search("P8", p8.bytes(), (16, 64, 100_000), "0 5 1 7 8 3 3 1 1 7");
    let p9 = Designs {
        constraint: Some(not(same(elem(1), obj(2)))),
        ..designs()
    };
    cases.search("P9", p9.bytes(), (16, 64, 100_000), "0 1 0 0 0 0 _ _ _ 0");
    let p10 = Designs {
        rule: LARGEST,
        ..designs()
    };
    cases.search("P10", p10.bytes(), (16, 64, 100_000), "0 0 1 3 3 3 _ _ _ 3");
    cases.search(
        "the TSPTW of 003",
        tsptw(),
        (16, 64, 100_000),
        "0 0 1 14 14 4 19 3 4 14",
    );
    cases.search(
        "the SOP of 004",
        sop(),
        (16, 64, 100_000),
        "0 0 1 6 6 4 8 2 2 6",
    );
}

/// A search with plan bytes and words as given.
fn search_lent(model: Bytes, settings: (u64, u64, u64), plan_bytes: usize, words: u64) -> Call {
    let (width, length, budget) = settings;
    Call::Search(Search {
        model,
        beam: Beam::UpTo(width),
        length,
        budget,
        buffer: vec![FILL; plan_bytes],
        words,
    })
}

fn refused(number: u8) -> String {
    format!("1 {number} 0 0 0 0 0 0 0 0")
}

fn lent(cases: &mut Cases) {
    let small = || counter(lit(1)).end();
    let found = "0 0 1 3 3 3 3 1 1 3";
    for (note, settings) in [
        ("W 0", (0, 4, 9)),
        ("W 3", (3, 4, 9)),
        ("W 4,095", (4_095, 4, 9)),
        ("W 8,192", (8_192, 4, 9)),
        ("L 0", (4, 0, 9)),
        ("L 257", (4, 257, 9)),
    ] {
        let call = search_lent(small(), settings, 300, 10_000_000);
        cases.add(note, call, &refused(2));
    }
    let settings = (4, 5, 9);
    let words = words_needed(4, 5);
    for (note, plan_bytes, words, stated) in [
        (
            "exactly 64 x W + W x (L + 1) words",
            5,
            280,
            found.to_string(),
        ),
        ("one word too few", 5, words - 1, refused(3)),
        ("one plan byte too few", 4, words, refused(3)),
        ("no words and no plan bytes", 0, 0, refused(3)),
        (
            "more words and plan bytes than needed",
            9,
            words + 7,
            found.to_string(),
        ),
    ] {
        cases.add(
            note,
            search_lent(small(), settings, plan_bytes, words),
            &stated,
        );
    }
    cases.search("W 4,096", small(), (4_096, 3, 9), found);
    cases.search("L 256", small(), (1, 256, 4_294_967_295), found);
    let long = || vec![0; 65_537];
    cases.add(
        "1 before 2 and 3",
        search_lent(long(), (3, 0, 0), 0, 0),
        &refused(1),
    );
    cases.add(
        "2 before 3",
        search_lent(small(), (3, 4, 9), 0, 0),
        &refused(2),
    );
    cases.add(
        "3 before 4",
        search_lent(vec![], settings, 5, words - 1),
        &refused(3),
    );
    for (note, model, refusal) in [
        ("bytes end early", vec![0x01, 0], 4),
        ("a byte that begins no command", vec![0x01, 0, 0x0F], 5),
        ("an undeclared name", Build::new(SUM).bound(num(0)).end(), 6),
        ("a cost rule outside its limits", vec![0x01, 7, 0x0E], 7),
        (
            "nested too deep",
            Build::new(SUM).constraint(vec![0x57; 40]).end(),
            8,
        ),
        ("bytes after the end", [&small()[..], &[0x0E]].concat(), 9),
    ] {
        cases.search(note, model, (2, 3, 9), &refused(refusal));
    }
    cases.search(
        "no variables, no transitions, no base",
        Build::new(SUM).end(),
        (4, 3, 9),
        "0 1 0 0 0 0 1 1 1 0",
    );
    cases.search(
        "an always base target",
        Build::new(LARGEST).base(&[]).end(),
        (4, 3, 0),
        "0 0 1 0 0 0 0 1 1 0",
    );
}

fn budgets_and_lengths(cases: &mut Cases) {
    for (budget, stated) in [
        (2, "0 4 0 0 0 0 2 1 1 0"),
        (3, "0 4 1 7 0 3 3 2 2 7"),
        (8, "0 4 1 7 _ 3 8 3 4 7"),
        (13, "0 4 1 7 _ 3 13 3 4 7"),
        (14, "0 0 1 7 7 3 14 3 4 7"),
    ] {
        let note = format!("three designs, budget {budget}");
        cases.search(&note, three_designs(), (16, 5, budget), stated);
    }
    for (length, width, stated) in [
        (1, 4, "0 3 0 0 2 0 3 3 4 0"),
        (1, 2, "0 2 0 0 0 0 2 2 2 0"),
        (2, 2, "0 2 0 0 0 0 5 2 2 0"),
        (4, 1, "0 2 1 7 0 3 6 2 1 7"),
    ] {
        let note = format!("three designs, W {width}, L {length}");
        cases.search(&note, three_designs(), (width, length, 50), stated);
    }
    cases.search(
        "the budget spent by the last expansion, a base state behind it",
        counter(lit(1)).end(),
        (2, 4, 3),
        "0 0 1 3 3 3 3 1 1 3",
    );
    cases.search(
        "the budget spent one expansion before the plan",
        counter(lit(1)).end(),
        (2, 4, 2),
        "0 4 0 0 2 0 2 1 1 0",
    );
    cases.search(
        "the length limit just met",
        counter(lit(1)).end(),
        (2, 3, 9),
        "0 0 1 3 3 3 3 1 1 3",
    );
    cases.search(
        "the length limit missed by one",
        counter(lit(1)).end(),
        (2, 2, 9),
        "0 3 0 0 2 0 2 1 1 0",
    );
    cases.search(
        "budget 0 and a base target",
        Build::new(SUM)
            .number(MORE, 4)
            .base(&[])
            .bound(num(0))
            .end(),
        (2, 2, 0),
        "0 5 1 0 4 0 0 1 1 0",
    );
}

/// A place 0 of `nodes`, moved along edges (from, to, cost) to the goals; `h` is the bound at each place.
fn graph(rule: u8, nodes: u8, goals: u64, edges: &[(u8, u8, i32)], h: &[i32]) -> Build {
    let mut build = Build::new(rule).element(nodes, NONE, 0);
    if !h.is_empty() {
        build = build.table(nodes, 1, h);
    }
    for (from, to, cost) in edges {
        build = build.transition(&[same(elem(0), obj(*from))], lit(*cost), &[(0, obj(*to))]);
    }
    build = build.base(&[member(elem(0), set_lit(nodes, goals))]);
    if !h.is_empty() {
        build = build.bound(entry(0, elem(0), obj(0)));
    }
    build
}

fn order(cases: &mut Cases) {
    cases.search(
        "a tie in f and h: the first arrival is taken first",
        graph(
            SUM,
            4,
            8,
            &[(0, 1, 1), (0, 2, 1), (1, 3, 2), (2, 3, 2)],
            &[],
        )
        .end(),
        (2, 4, 20),
        "0 0 1 3 3 2 _ _ _ 3",
    );
    cases.search(
        "a tie in f and h at the cut: the last arrival goes",
        graph(SUM, 4, 8, &[(0, 1, 1), (0, 2, 1), (2, 3, 0)], &[]).end(),
        (1, 4, 20),
        "0 2 0 0 0 0 2 1 1 0",
    );
    cases.search(
        "a tie in f: the lesser h first",
        graph(
            SUM,
            4,
            8,
            &[(0, 1, 1), (0, 2, 3), (1, 3, 2), (2, 3, 0)],
            &[0, 2, 0, 0],
        )
        .end(),
        (1, 4, 20),
        "0 _ 1 3 _ 2 _ _ _ 3",
    );
    cases.search(
        "a tie in f: the lesser h stays at the cut",
        graph(SUM, 4, 8, &[(0, 1, 0), (0, 2, 2), (2, 3, 0)], &[0, 2, 0, 0]).end(),
        (1, 4, 20),
        "0 0 1 2 2 2 3 2 1 2",
    );
    cases.search(
        "two plans of one cost in one layer: the first stays",
        graph(
            SUM,
            5,
            24,
            &[(0, 1, 1), (0, 2, 1), (1, 3, 2), (2, 4, 2)],
            &[],
        )
        .end(),
        (2, 4, 20),
        "0 0 1 3 3 2 _ _ _ 3",
    );
    cases.search(
        "equal states in one layer: the lesser g wins",
        graph(SUM, 4, 8, &[(0, 1, 2), (0, 1, 1), (1, 3, 2)], &[]).end(),
        (1, 4, 20),
        "0 0 1 3 3 2 2 1 1 3",
    );
    cases.search(
        "equal states in one layer at equal g: the earlier stays",
        graph(SUM, 4, 8, &[(0, 1, 1), (0, 1, 1), (1, 3, 2)], &[]).end(),
        (1, 4, 20),
        "0 0 1 3 3 2 2 1 1 3",
    );
    cases.search(
        "a better plan in a later round",
        graph(
            SUM,
            5,
            16,
            &[(0, 1, 0), (0, 2, 1), (1, 4, 9), (2, 4, 1)],
            &[],
        )
        .end(),
        (2, 4, 20),
        "0 0 1 2 2 2 5 2 2 2",
    );
    cases.search(
        "a better plan at W: W again",
        graph(
            SUM,
            5,
            16,
            &[
                (0, 1, 0),
                (0, 2, 1),
                (0, 3, 2),
                (1, 4, 9),
                (2, 4, 7),
                (3, 4, 5),
            ],
            &[],
        )
        .end(),
        (2, 4, 30),
        "0 _ 1 _ _ 2 _ _ 2 _",
    );
    cases.search(
        "a cheaper plan with more steps",
        graph(
            SUM,
            4,
            8,
            &[(0, 3, 9), (0, 1, 1), (1, 2, 1), (2, 3, 1)],
            &[],
        )
        .end(),
        (2, 5, 30),
        "0 0 1 3 3 3 _ _ _ 3",
    );
    cases.search(
        "f past the range of numbers",
        graph(SUM, 3, 4, &[(0, 1, MAX), (1, 2, MAX)], &[0, MAX, 0]).end(),
        (1, 3, 9),
        "0 0 1 4294967294 4294967294 2 2 1 1 4294967294",
    );
    cases.search(
        "largest rule: f is the greater of g and h",
        graph(
            LARGEST,
            4,
            8,
            &[(0, 1, 4), (0, 2, 2), (1, 3, 1), (2, 3, 5)],
            &[0, 1, 5, 0],
        )
        .end(),
        (2, 4, 20),
        "0 0 1 4 4 2 _ _ _ 4",
    );
    cases.search(
        "largest rule: a later dearer step decides",
        graph(LARGEST, 4, 8, &[(0, 1, 1), (1, 2, 7), (2, 3, 3)], &[]).end(),
        (2, 4, 20),
        "0 0 1 7 7 3 3 1 1 7",
    );
}

/// A place and a preferred number that steps set; the last step costs the number.
fn preferred(preference: u8, steps: &[(i32, i32)]) -> Build {
    let mut build = Build::new(SUM).element(3, NONE, 0).number(preference, 0);
    for (cost, value) in steps {
        build = build.transition(
            &[same(elem(0), obj(0))],
            lit(*cost),
            &[(0, obj(1)), (1, lit(*value))],
        );
    }
    build
        .transition(&[same(elem(0), obj(1))], num(1), &[(0, obj(2))])
        .base(&[same(elem(0), obj(2))])
}

fn dominance(cases: &mut Cases) {
    for (note, build, width, stated) in [
        (
            "less: a dominated child is dropped",
            preferred(LESS, &[(1, 2), (1, 3)]),
            1,
            "0 0 1 3 3 2 2 1 1 3",
        ),
        (
            "less: a dominated child at a greater g is dropped",
            preferred(LESS, &[(1, 2), (4, 2)]),
            1,
            "0 0 1 3 3 2 2 1 1 3",
        ),
        (
            "less: a dominating child at equal g removes",
            preferred(LESS, &[(1, 3), (1, 2)]),
            1,
            "0 0 1 3 3 2 2 1 1 3",
        ),
        (
            "less: a dominating child at lesser g removes",
            preferred(LESS, &[(2, 3), (1, 3)]),
            1,
            "0 0 1 4 4 2 2 1 1 4",
        ),
        (
            "less: a dominating child does not remove a cheaper one",
            preferred(LESS, &[(1, 5), (4, 0)]),
            2,
            "0 0 1 4 4 2 _ _ 2 4",
        ),
        (
            "less: a kept state does not drop a cheaper child",
            preferred(LESS, &[(4, 2), (1, 3)]),
            2,
            "0 0 1 4 4 2 _ _ 2 4",
        ),
        (
            "less: one child removes several kept ones",
            preferred(LESS, &[(5, 3), (4, 4), (3, 5), (3, 1)]),
            4,
            "0 0 1 4 4 2 _ _ _ 4",
        ),
        (
            "more: the greater number stays",
            preferred(MORE, &[(1, 2), (1, 3)]),
            1,
            "0 0 1 4 4 2 2 1 1 4",
        ),
        (
            "more: a dominated child is dropped",
            preferred(MORE, &[(1, 3), (1, 2)]),
            2,
            "0 0 1 4 4 2 2 1 1 4",
        ),
        (
            "no preference: both stay",
            preferred(NONE, &[(1, 3), (1, 2)]),
            2,
            "0 0 1 3 3 2 _ 2 2 3",
        ),
    ] {
        cases.search(note, build.end(), (width, 3, 30), stated);
    }
    let three = |last: (i32, i32)| preferred(LESS, &[(3, 1), (2, 2), last]).end();
    cases.search(
        "a full layer: a dominated last child sets no width mark",
        three((4, 1)),
        (2, 3, 30),
        "0 0 1 4 4 2 _ 2 2 4",
    );
    cases.search(
        "a full layer: a child that removes one, after a cut",
        three((2, 0)),
        (2, 3, 30),
        "0 0 1 2 2 2 3 2 2 2",
    );
    cases.search(
        "a full layer: the child itself is cut and sets the width mark",
        three((9, 0)),
        (2, 3, 30),
        "0 _ 1 4 _ 2 _ _ 2 4",
    );
    let element = Build::new(SUM)
        .element(4, MORE, 0)
        .set(2, 0)
        .transition(&[empty(set(1))], lit(1), &[(0, obj(2)), (1, set_lit(2, 1))])
        .transition(&[empty(set(1))], lit(1), &[(0, obj(3)), (1, set_lit(2, 1))])
        .transition(&[same(elem(0), obj(3))], lit(1), &[(1, set_lit(2, 3))])
        .base(&[subset(set_lit(2, 3), set(1))])
        .end();
    cases.search(
        "more: an element variable",
        element,
        (1, 3, 9),
        "0 0 1 2 2 2 2 1 1 2",
    );
    let bounded = |bound: Bytes| {
        preferred(LESS, &[(2, 3), (1, 4), (3, 1)])
            .bound(bound)
            .end()
    };
    cases.search(
        "dominance compares g where f differs",
        bounded(product(num(1), lit(2))),
        (4, 3, 30),
        "0 _ 1 _ _ 2 _ _ _ _",
    );
    cases.search(
        "dominance compares g where f is equal",
        bounded(num(1)),
        (2, 3, 30),
        "0 _ 1 4 _ 2 _ _ _ 4",
    );
}

fn marks(cases: &mut Cases) {
    let two_ways = |cheap_goal: bool| {
        let last = if cheap_goal { (2, 4, 1) } else { (3, 4, 1) };
        graph(SUM, 5, 16, &[(0, 1, 1), (0, 2, 2), last], &[]).end()
    };
    cases.search(
        "nothing remains under the width mark: the next width",
        two_ways(true),
        (2, 4, 20),
        "0 0 1 3 3 2 5 2 2 3",
    );
    cases.search(
        "nothing remains under the width mark at W: width stop",
        two_ways(true),
        (1, 4, 20),
        "0 2 0 0 0 0 2 1 1 0",
    );
    cases.search(
        "nothing remains without a mark: no plan",
        two_ways(false),
        (2, 4, 20),
        "0 1 0 0 0 0 5 2 2 0",
    );
    let longer = &[(0, 1, 5), (0, 2, 1), (2, 3, 1)];
    cases.search(
        "length mark with a best plan: length stop",
        graph(SUM, 4, 2, longer, &[]).end(),
        (4, 1, 20),
        "0 3 1 5 1 1 3 3 4 5",
    );
    cases.search(
        "a longer path with f above the best: cheapest",
        graph(SUM, 4, 2, longer, &[0, 0, 9, 0]).end(),
        (4, 1, 20),
        "0 0 1 5 5 1 _ _ _ 5",
    );
    cases.search(
        "both marks and no better plan: the width mark decides",
        graph(
            SUM,
            4,
            8,
            &[(0, 1, 1), (0, 2, 1), (1, 1, 1), (2, 2, 1)],
            &[],
        )
        .end(),
        (1, 2, 20),
        "0 2 0 0 0 0 2 1 1 0",
    );
    cases.search(
        "both marks, then the length mark alone",
        graph(
            SUM,
            4,
            8,
            &[(0, 1, 1), (0, 2, 1), (1, 1, 1), (2, 2, 1)],
            &[],
        )
        .end(),
        (8, 2, 20),
        "0 3 0 0 2 0 5 2 2 0",
    );
    cases.search(
        "a loop of cost 0 up to the limit",
        graph(SUM, 2, 2, &[(0, 0, 0)], &[]).end(),
        (1, 5, 20),
        "0 3 0 0 0 0 5 1 1 0",
    );
    cases.search(
        "no low after a cut in an earlier layer",
        graph(
            SUM,
            6,
            32,
            &[(0, 1, 1), (0, 2, 2), (1, 3, 4), (3, 4, 1)],
            &[],
        )
        .end(),
        (1, 3, 20),
        "0 2 0 0 0 0 3 1 1 0",
    );
    cases.search(
        "low before a cut stays",
        graph(
            SUM,
            6,
            32,
            &[(0, 1, 3), (1, 2, 1), (1, 3, 2), (2, 4, 1)],
            &[],
        )
        .end(),
        (1, 3, 20),
        "0 2 0 0 3 0 3 1 1 0",
    );
    cases.search(
        "low lasts over rounds",
        graph(
            SUM,
            6,
            32,
            &[(0, 1, 3), (1, 2, 1), (1, 3, 2), (2, 4, 1), (3, 5, 4)],
            &[],
        )
        .end(),
        (2, 3, 5),
        "0 4 0 0 4 0 5 2 2 0",
    );
}

/// Plans found in a layer where other states remain. Place 1 is a dead end that the width 1 keeps.
fn plans_in_a_layer(cases: &mut Cases) {
    let remaining = graph(
        SUM,
        6,
        8,
        &[
            (0, 1, 0),
            (0, 2, 1),
            (2, 3, 4),
            (2, 4, 2),
            (4, 5, 1),
            (5, 3, 3),
        ],
        &[],
    )
    .end();
    for (budget, width, stated) in [
        (5, 4, "0 4 0 0 3 0 5 2 2 0"),
        (6, 4, "0 4 1 5 4 2 6 3 4 5"),
        (6, 2, "0 4 1 5 4 2 6 3 2 5"),
        (7, 2, "0 4 1 5 4 2 7 3 2 5"),
        (50, 2, "0 0 1 5 5 2 11 3 2 5"),
    ] {
        let note = format!("a plan found while a cheaper f remains, W {width}, budget {budget}");
        cases.search(&note, remaining.clone(), (width, 4, budget), stated);
    }
    let dearer_child = graph(SUM, 4, 4, &[(0, 1, 5), (0, 2, 7), (1, 3, 3)], &[]);
    cases.search(
        "a child kept before a cheaper plan was found goes after the layer",
        dearer_child.end(),
        (4, 4, 50),
        "0 0 1 7 7 1 5 2 2 7",
    );
    let two_goals = |last: i32| {
        let edges = &[(0, 1, 0), (0, 2, 1), (0, 5, 2), (2, 3, 4), (2, 4, last)];
        graph(SUM, 6, if last == 4 { 24 } else { 8 }, edges, &[]).end()
    };
    for (width, equal, dearer) in [
        (2, "0 2 1 5 0 2 8 3 2 5", "0 2 1 5 0 2 9 3 2 5"),
        (4, "0 0 1 5 5 2 9 3 4 5", "0 0 1 5 5 2 10 3 4 5"),
    ] {
        let note = format!("a second plan as cheap as the best does not replace it, W {width}");
        cases.search(&note, two_goals(4), (width, 4, 50), equal);
        let note = format!("a state taken with f above a best of its layer is expanded, W {width}");
        cases.search(&note, two_goals(5), (width, 4, 50), dearer);
    }
}

fn bounds(cases: &mut Cases) {
    let steps = &[(0, 1, 2), (1, 2, 3)];
    for (note, h, stated) in [
        (
            "a plan at h of the target: cheapest at once",
            &[5, 3, 0][..],
            "0 0 1 5 5 2 2 1 1 5",
        ),
        (
            "a false bound at the target",
            &[6, 0, 0],
            "0 5 1 5 6 2 2 1 1 5",
        ),
        (
            "a false bound on the way",
            &[0, 4, 0],
            "0 5 1 5 6 2 2 1 1 5",
        ),
        (
            "a false bound at the base state",
            &[0, 0, 2],
            "0 5 1 5 7 2 2 1 1 5",
        ),
        ("a bound below zero", &[-5, -3, -9], "0 0 1 5 5 2 2 1 1 5"),
        (
            "a bound below zero on the way",
            &[0, -9, 0],
            "0 0 1 5 5 2 2 1 1 5",
        ),
    ] {
        cases.search(note, graph(SUM, 3, 4, steps, h).end(), (2, 4, 20), stated);
    }
    cases.search(
        "the greatest of several bounds",
        graph(SUM, 3, 4, steps, &[])
            .bound(lit(-1))
            .bound(lit(4))
            .bound(lit(2))
            .end(),
        (1, 1, 20),
        "0 3 0 0 6 0 1 1 1 0",
    );
    cases.search(
        "a false bound found false in a later round",
        graph(
            SUM,
            5,
            16,
            &[(0, 1, 0), (0, 2, 1), (1, 4, 9), (2, 4, 1)],
            &[5, 5, 4, 0, 0],
        )
        .end(),
        (4, 4, 20),
        "0 _ 1 _ _ 2 _ _ _ _",
    );
    cases.search(
        "verdict 1 has bound zero",
        graph(SUM, 3, 4, &[(0, 1, 7)], &[2, 3, 0]).end(),
        (2, 4, 20),
        "0 1 0 0 0 0 2 1 1 0",
    );
    cases.search(
        "verdict 0 has the cost as bound, above low",
        graph(
            SUM,
            4,
            8,
            &[(0, 1, 1), (0, 2, 1), (1, 3, 4), (2, 3, 5)],
            &[],
        )
        .end(),
        (2, 4, 20),
        "0 0 1 5 5 2 _ _ _ 5",
    );
    cases.search(
        "largest rule, a false bound",
        graph(LARGEST, 3, 4, steps, &[0, 9, 0]).end(),
        (2, 4, 20),
        "0 5 1 3 9 2 2 1 1 3",
    );
}

/// Counts from 0 to the base state 3 by one transition of this cost.
fn counter(cost: Bytes) -> Build {
    Build::new(SUM)
        .number(NONE, 0)
        .transition(&[], cost, &[(0, sum(num(0), lit(1)))])
        .base(&[equal(num(0), lit(3))])
}

/// A condition that holds wherever the number has a value.
fn holds_with(number: Bytes) -> Bytes {
    at_most(number.clone(), number)
}

fn troubles(cases: &mut Cases) {
    // 12 when the counter is 2; 11 when it is 2 or more.
    let zero = || quotient(lit(1), difference(lit(2), num(0)));
    let over = || sum(lit(MAX - 1), num(0));
    let up = || (0, sum(num(0), lit(1)));
    let start = || Build::new(SUM).number(NONE, 0).number(LESS, 0);
    let base = || equal(num(0), lit(3));
    let never = |number: Bytes| less(number.clone(), number);
    let settings = (4, 5, 50);
    for (note, build, stated) in [
        (
            "12 in h of the target",
            counter(lit(1)).bound(quotient(lit(1), num(0))),
            "1 12 0 0 0 0 0 1 1 0",
        ),
        (
            "h of the target before its base cases",
            Build::new(SUM)
                .number(NONE, 0)
                .base(&[never(sum(lit(MAX), lit(1)))])
                .bound(lit(3))
                .bound(quotient(lit(1), num(0))),
            "1 12 0 0 0 0 0 1 1 0",
        ),
        (
            "11 in the target's base cases",
            Build::new(SUM)
                .number(NONE, 0)
                .base(&[never(sum(lit(MAX), lit(1)))])
                .bound(lit(3)),
            "1 11 0 0 3 0 0 1 1 0",
        ),
        (
            "12 in the base cases of a state taken",
            start()
                .transition(&[], lit(1), &[up()])
                .base(&[never(zero())]),
            "1 12 0 2 2 2 2 1 1 2",
        ),
        (
            "11 in the base cases of a state taken",
            start()
                .transition(&[], lit(1), &[up()])
                .base(&[never(over())]),
            "1 11 0 2 2 2 2 1 1 2",
        ),
        (
            "12 in conditions",
            start()
                .transition(&[holds_with(zero())], lit(1), &[up()])
                .base(&[base()]),
            "1 12 0 2 2 2 3 1 1 2",
        ),
        (
            "11 in conditions",
            start()
                .transition(&[holds_with(over())], lit(1), &[up()])
                .base(&[base()]),
            "1 11 0 2 2 2 3 1 1 2",
        ),
        ("12 in a cost", counter(zero()), "1 12 0 1 1 2 3 1 1 1"),
        (
            "11 in a cost, the path's cost past the range",
            counter(over()),
            "1 11 0 4294967293 4294967293 2 3 1 1 4294967293",
        ),
        (
            "13 in a cost",
            counter(difference(lit(1), num(0))),
            "1 13 0 1 1 2 3 1 1 1",
        ),
        (
            "12 in effects",
            start()
                .transition(&[], lit(1), &[up(), (1, zero())])
                .base(&[base()]),
            "1 12 0 2 2 2 3 1 1 2",
        ),
        (
            "11 in effects",
            start()
                .transition(&[], lit(1), &[(1, over()), up()])
                .base(&[base()]),
            "1 11 0 2 2 2 3 1 1 2",
        ),
        (
            "12 in a child's constraints",
            counter(lit(1)).constraint(holds_with(zero())),
            "1 12 0 2 1 2 2 1 1 2",
        ),
        (
            "11 in a child's constraints",
            counter(lit(1)).constraint(holds_with(over())),
            "1 11 0 2 1 2 2 1 1 2",
        ),
        (
            "12 in h of a child",
            counter(lit(1)).bound(zero()),
            "1 12 0 2 2 2 2 1 1 2",
        ),
        (
            "11 in h of a child",
            counter(lit(1)).bound(difference(over(), lit(MAX - 1))),
            "1 11 0 2 2 2 2 1 1 2",
        ),
        (
            "a constraint that fails hides h in trouble",
            counter(lit(1))
                .constraint(less(num(0), lit(2)))
                .bound(zero()),
            "0 1 0 0 0 0 2 1 1 0",
        ),
        (
            "constraints in trouble at the target only",
            counter(lit(1)).constraint(holds_with(quotient(lit(1), num(0)))),
            "1 12 0 0 0 0 0 1 1 0",
        ),
        (
            "a constraint that fails at the target only",
            counter(lit(1)).constraint(less(lit(0), num(0))),
            "0 1 0 0 0 0 0 1 1 0",
        ),
        (
            "a condition that fails hides a negative cost",
            start()
                .transition(&[], lit(1), &[up()])
                .transition(&[less(num(0), lit(0))], lit(-1), &[])
                .base(&[base()]),
            "0 0 1 3 3 3 3 1 1 3",
        ),
        (
            "a constraint that fails hides h out of range",
            counter(lit(1))
                .constraint(at_most(num(0), lit(1)))
                .bound(difference(over(), lit(MAX - 1))),
            "0 1 0 0 0 0 2 1 1 0",
        ),
        (
            "13 before effects in trouble",
            start()
                .transition(&[], lit(-1), &[(1, quotient(lit(1), num(0)))])
                .base(&[base()]),
            "1 13 0 0 0 0 1 1 1 0",
        ),
        (
            "effects in trouble before constraints in trouble",
            start()
                .transition(&[], lit(2), &[up(), (1, sum(lit(MAX), lit(1)))])
                .base(&[base()])
                .constraint(holds_with(quotient(lit(1), difference(lit(1), num(0))))),
            "1 11 0 0 0 0 1 1 1 0",
        ),
        (
            "constraints in trouble at the target before effects in trouble",
            start()
                .transition(&[], lit(2), &[(1, sum(lit(MAX), lit(1)))])
                .base(&[base()])
                .constraint(never(quotient(lit(1), num(0)))),
            "1 12 0 0 0 0 0 1 1 0",
        ),
    ] {
        cases.search(note, build.end(), settings, stated);
    }
    let edges = &[(0, 1, 0), (0, 2, 0), (1, 3, 1), (2, 4, 5)];
    let divided = |steps: &[(u8, u8, i32)]| {
        let build = Build::new(SUM)
            .element(5, NONE, 0)
            .table(5, 1, &[1, 1, 1, 1, 0]);
        let build = steps.iter().fold(build, |build, (from, to, cost)| {
            build.transition(&[same(elem(0), obj(*from))], lit(*cost), &[(0, obj(*to))])
        });
        build.base(&[same(elem(0), obj(3))])
    };
    let by_entry = || quotient(lit(0), entry(0, elem(0), obj(0)));
    cases.search(
        "trouble in h of a child that would be dropped, after a plan was found",
        divided(edges).bound(by_entry()).end(),
        (2, 4, 20),
        "1 12 0 5 0 2 5 2 2 5",
    );
    cases.search(
        "trouble in h of a child with g equal to the best",
        divided(&[(0, 1, 0), (0, 2, 0), (1, 3, 1), (2, 4, 1)])
            .bound(by_entry())
            .end(),
        (2, 4, 20),
        "1 12 0 1 0 2 5 2 2 1",
    );
    cases.search(
        "trouble in constraints of a child that would be dropped, after a plan was found",
        divided(edges).constraint(holds_with(by_entry())).end(),
        (2, 4, 20),
        "1 12 0 5 0 2 5 2 2 5",
    );
    cases.search(
        "trouble in a cut state is not met",
        divided(edges).bound(by_entry()).end(),
        (1, 4, 20),
        "0 2 1 1 0 2 4 2 1 1",
    );
    cases.search(
        "trouble in a round after a plan was found: flag 0, the path, the rest of the buffer",
        divided(&[(0, 1, 0), (0, 2, 0), (1, 3, 9), (2, 4, 5)])
            .bound(by_entry())
            .end(),
        (2, 6, 20),
        "1 12 0 5 0 2 5 2 2 5",
    );
}

/// The target's constraints, which are tried once, before its bounds and its base cases.
fn target(cases: &mut Cases) {
    let broken = "0 1 0 0 0 0 0 1 1 0";
    let by_zero = "1 12 0 0 0 0 0 1 1 0";
    let out_of_range = "1 11 0 0 0 0 0 1 1 0";
    let usual = (16, 64, 100_000);
    let constrained = |constraint: Bytes, bound: Option<i32>, rule: u8| Designs {
        rule,
        bound,
        constraint: Some(constraint),
        ..designs()
    };
    let not_at_0 = || not(same(elem(1), obj(0)));
    let zero = || holds_with(quotient(lit(1), lit(0)));
    let over = || holds_with(sum(lit(MAX), lit(1)));
    for (note, designs, settings, stated) in [
        (
            "element is not 0",
            constrained(not_at_0(), None, SUM),
            usual,
            broken,
        ),
        (
            "element is not 0, W 1, L 1",
            constrained(not_at_0(), None, SUM),
            (1, 1, 5),
            broken,
        ),
        (
            "element is not 0, budget 0",
            constrained(not_at_0(), None, SUM),
            (16, 64, 0),
            broken,
        ),
        (
            "element is not 0, a bound of 8",
            constrained(not_at_0(), Some(8), SUM),
            usual,
            broken,
        ),
        (
            "element is not 0, largest rule",
            constrained(not_at_0(), Some(3), LARGEST),
            usual,
            broken,
        ),
        (
            "a constraint by zero",
            constrained(zero(), None, SUM),
            usual,
            by_zero,
        ),
        (
            "a constraint by zero, a bound of 8, budget 0",
            constrained(zero(), Some(8), SUM),
            (16, 64, 0),
            by_zero,
        ),
        (
            "a constraint out of range, a bound of 8",
            constrained(over(), Some(8), SUM),
            (4, 3, 9),
            out_of_range,
        ),
    ] {
        let note = format!("three designs, {note}");
        cases.search(&note, designs.bytes(), settings, stated);
    }
    let refused_first = constrained(not_at_0(), None, SUM).bytes();
    cases.search(
        "three designs, element is not 0, W 3",
        refused_first,
        (3, 64, 9),
        &refused(2),
    );

    let start = || Build::new(SUM).number(NONE, 0);
    let never = || less(num(0), num(0));
    let by_start = || quotient(lit(1), num(0));
    let too_great = || sum(lit(MAX), lit(1));
    for (note, build, budget, stated) in [
        (
            "a base state that breaks a constraint, budget 0",
            start().base(&[]).constraint(never()),
            0,
            broken,
        ),
        (
            "a base state with a constraint in trouble, budget 0",
            start().base(&[]).constraint(holds_with(by_start())),
            0,
            by_zero,
        ),
        (
            "a base state that meets its constraint, budget 0",
            start().base(&[]).constraint(holds_with(num(0))),
            0,
            "0 0 1 0 0 0 0 1 1 0",
        ),
        (
            "a constraint that fails before a bound in trouble",
            counter(lit(1)).constraint(never()).bound(by_start()),
            9,
            broken,
        ),
        (
            "a constraint that fails before base cases in trouble",
            start().base(&[holds_with(too_great())]).constraint(never()),
            9,
            broken,
        ),
        (
            "a constraint in trouble before a bound in trouble",
            counter(lit(1))
                .constraint(holds_with(by_start()))
                .bound(too_great()),
            9,
            by_zero,
        ),
        (
            "a constraint in trouble before base cases in trouble",
            start()
                .base(&[holds_with(by_start())])
                .constraint(holds_with(too_great()))
                .bound(lit(4)),
            9,
            out_of_range,
        ),
        (
            "a constraint that fails before one in trouble",
            counter(lit(1))
                .constraint(never())
                .constraint(holds_with(by_start())),
            9,
            broken,
        ),
        (
            "a constraint in trouble before one that fails",
            counter(lit(1))
                .constraint(holds_with(by_start()))
                .constraint(never()),
            9,
            by_zero,
        ),
        (
            "the second constraint fails",
            counter(lit(1))
                .constraint(holds_with(num(0)))
                .constraint(less(lit(0), num(0))),
            9,
            broken,
        ),
        (
            "a part in trouble that is skipped",
            counter(lit(1)).constraint(or(equal(num(0), lit(0)), holds_with(by_start()))),
            9,
            "0 0 1 3 3 3 3 1 1 3",
        ),
    ] {
        let note = format!("at the target: {note}");
        cases.search(&note, build.end(), (4, 5, budget), stated);
    }
}

fn random_search(random: &mut Random) -> Call {
    let build = if random.below(3) == 0 {
        random_graph(random)
    } else {
        model(random)
    };
    let bytes = build.end();
    let (width, length, budget) = settings(random);
    let width = if random.chance(10) { 64 } else { width };
    let length = if random.chance(10) { 12 } else { length };
    Call::search(bytes, width, length, budget)
}

fn random(cases: &mut Cases) {
    let mut random = Random::new(0x5EA2C4);
    cases.add_random(&STORED, || random_search(&mut random));
}
