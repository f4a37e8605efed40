//! High costs of their own: where the command may stand, what is evaluated when, refusal 17, and the low figure beside the cost.

use super::{Call, Case, Cases};
use crate::beam::Beam;
use crate::build::*;
use crate::generate::loading::inside;
use crate::generate::ranges::{damaged, ranged, spread_costs, SPREADS, WAYS};
use crate::generate::{settings, Random};
use crate::models::{counting, doubled_designs, two_ways, Designs};
use crate::numbers::refusal::{
    DIVISOR_ZERO, ENDS_EARLY, HIGH_BELOW_LOW, MISMATCH, NEGATIVE_COST, NOT_A_PLAN, NOT_DUE,
    OUT_OF_RANGE, TOO_DEEP,
};
use crate::numbers::words_needed;
use crate::reference::read_model;

/// The stored random searches, plan checks and damaged models, by their places in the sequences that are drawn below. No two searches
/// have the same fields, and where one has a path or a plan with steps its two figures differ.
#[rustfmt::skip]
const SEARCHES: [usize; 62] = [
    1, 2, 5, 6, 8, 11, 14, 15, 16, 17, 22, 28, 29, 33, 34, 35, 46, 52, 54, 58, 62, 64, 65, 66, 69, 70, 79,
    96, 98, 101, 110, 113, 115, 123, 126, 140, 146, 149, 158, 182, 212, 219, 246, 251, 257, 271, 294, 297,
    303, 331, 418, 420, 430, 468, 470, 539, 548, 606, 628, 644, 659, 707,
];
#[rustfmt::skip]
const CHECKS: [usize; 28] = [
    2, 3, 4, 6, 8, 9, 10, 11, 20, 27, 29, 45, 46, 50, 52, 55, 64, 71, 72, 75, 97, 114, 120, 126, 134, 153,
    168, 260,
];
const DAMAGED: [usize; 16] = [0, 1, 2, 3, 4, 5, 6, 7, 8, 9, 10, 11, 12, 13, 14, 15];

/// The usual settings: widest beam, length, budget.
const USUAL: (u64, u64, u64) = (16, 64, 100_000);

/// The answer for a model that is read well and has no base state at the target.
const READ: u8 = NOT_A_PLAN;

pub fn cases() -> Vec<Case> {
    let mut cases = Cases::default();
    places(&mut cases);
    numbers(&mut cases);
    figures(&mut cases);
    evaluation(&mut cases);
    paths(&mut cases);
    ties(&mut cases);
    bounds(&mut cases);
    designs(&mut cases);
    random(&mut cases);
    cases.0
}

fn by_zero() -> Bytes {
    quotient(lit(1), lit(0))
}

fn too_great() -> Bytes {
    sum(lit(i32::MAX), lit(1))
}

// Reading.

/// Where a 10 may stand, and where the bytes may not end.
fn places(cases: &mut Cases) {
    let begun = || Build::new(SUM).number(NONE, 0).number(NONE, 0);
    let open = || begun().command(0x07, &[]);
    let costed = || open().command(0x09, &[&lit(1)]);
    let high = |build: Build| build.command(0x10, &[&lit(2)]);
    let effect = |build: Build| build.command(0x0A, &[&[0], &lit(1)]);
    let condition = |build: Build| build.command(0x08, &[&equal(lit(0), lit(0))]);
    let mut with = |what: &str, model: Bytes, answer: u8| {
        cases.check(what, model, &[], answer, 0);
    };
    let whole = |build: Build| build.end();
    let cut = |build: Build| build.bytes;
    with("10 behind 09", whole(high(costed())), READ);
    with("10 between 09 and 0A", whole(effect(high(costed()))), READ);
    with(
        "10 in the second transition alone",
        whole(high(costed().command(0x07, &[]).command(0x09, &[&lit(1)]))),
        READ,
    );
    with(
        "10 in the first transition alone",
        whole(high(costed()).command(0x07, &[]).command(0x09, &[&lit(1)])),
        READ,
    );
    with("a second 10", whole(high(high(costed()))), NOT_DUE);
    with(
        "a second 10 behind 0A",
        whole(high(effect(high(costed())))),
        NOT_DUE,
    );
    with("10 behind 0A", whole(high(effect(costed()))), NOT_DUE);
    with(
        "10 behind two 0A",
        whole(high(effect(costed()).command(0x0A, &[&[1], &lit(1)]))),
        NOT_DUE,
    );
    with("10 behind 07", whole(high(open())), NOT_DUE);
    with("10 behind 08", whole(high(condition(open()))), NOT_DUE);
    with(
        "10 before 09",
        whole(high(open()).command(0x09, &[&lit(1)])),
        NOT_DUE,
    );
    with(
        "10 between 08 and 09",
        whole(high(condition(open())).command(0x09, &[&lit(1)])),
        NOT_DUE,
    );
    with("08 behind 10", whole(condition(high(costed()))), NOT_DUE);
    with(
        "09 behind 10",
        whole(high(costed()).command(0x09, &[&lit(1)])),
        NOT_DUE,
    );
    with("10 without a transition", whole(high(begun())), NOT_DUE);
    with(
        "10 in front of the variables",
        whole(high(Build::new(SUM)).number(NONE, 0)),
        NOT_DUE,
    );
    with("10 in front", vec![0x10, 0x20, 0, 0, 0, 0], NOT_DUE);
    with(
        "10 behind a table's side",
        whole(high(begun().command(0x05, &[&[1, 1]]))),
        NOT_DUE,
    );
    with(
        "10 behind a base case",
        whole(high(begun().base(&[]))),
        NOT_DUE,
    );
    with(
        "10 behind a constraint",
        whole(high(begun().constraint(equal(lit(0), lit(0))))),
        NOT_DUE,
    );
    with(
        "10 behind a bound",
        whole(high(begun().bound(lit(0)))),
        NOT_DUE,
    );
    with("the end behind a low cost", cut(costed()), ENDS_EARLY);
    with(
        "the end behind a high cost",
        cut(high(costed())),
        ENDS_EARLY,
    );
    with("the end behind 10", cut(costed().raw(&[0x10])), ENDS_EARLY);
    with(
        "the end in a high cost",
        cut(costed().raw(&[0x10, 0x20, 2, 0, 0])),
        ENDS_EARLY,
    );
    with(
        "the end in a high cost's second part",
        cut(costed().raw(&[0x10, 0x22, 0x21, 0])),
        ENDS_EARLY,
    );
}

/// The number of a high cost is read as every number is.
fn numbers(cases: &mut Cases) {
    let nested = |depth: u32| (1..depth).fold(lit(0), |inner, _| sum(inner, lit(0)));
    let mut with = |what: &str, high: Bytes, answer: u8| {
        let build = Build::new(SUM)
            .number(NONE, 0)
            .element(3, NONE, 0)
            .set(3, 0)
            .table(2, 2, &[1, 2, 3, 4]);
        let model = build.ranged(&[], (lit(0), high), &[(0, lit(1))]).end();
        cases.check(&format!("high cost: {what}"), model, &[], answer, 0);
    };
    with("a literal", lit(5), READ);
    with("a variable", num(0), READ);
    with("an entry", entry(0, obj(1), obj(1)), READ);
    with("a choice", choice(empty(set(2)), lit(1), lit(2)), READ);
    with("nesting 32", nested(32), READ);
    with("nesting 33", nested(33), TOO_DEEP);
    let right = |depth: u32| (1..depth).fold(num(0), |inner, _| product(lit(1), inner));
    with("nesting 32 to the right", right(32), READ);
    with("nesting 33 to the right", right(33), TOO_DEEP);
    with("an element", obj(0), MISMATCH);
    with("a set", set(2), MISMATCH);
    with("a condition", empty(set(2)), MISMATCH);
    with("an element variable as a number", num(1), MISMATCH);
    with("an undeclared variable", num(3), MISMATCH);
    with(
        "a row beyond the table",
        entry(0, elem(1), obj(1)),
        MISMATCH,
    );
    with("an undeclared table", entry(1, obj(0), obj(0)), MISMATCH);
    with("a byte of a command", vec![0x10], NOT_DUE);
    with("the effect's byte", vec![], NOT_DUE);
    with("no byte of an expression", vec![0x2C], NOT_DUE);
}

// Figures.

/// Sums and largest values of the two costs, each by itself.
fn figures(cases: &mut Cases) {
    let two_to_five = || counting(SUM, (lit(2), lit(5))).end();
    let x = || num(0);
    cases.search(
        "range 2 to 5",
        two_to_five(),
        USUAL,
        "0 0 1 15 15 3 3 1 1 6",
    );
    cases.search(
        "range 2 to 5, L 2",
        two_to_five(),
        (16, 2, 100_000),
        "0 3 0 0 10 0 2 1 1 0",
    );
    cases.search(
        "range 2 to 5, budget 2",
        two_to_five(),
        (16, 64, 2),
        "0 4 0 0 10 0 2 1 1 0",
    );
    for (plan, answer, costs) in [
        (&[0, 0, 0][..], 0, (15, 6)),
        (&[], NOT_A_PLAN, (0, 0)),
        (&[0, 0], NOT_A_PLAN, (0, 0)),
        (&[0, 0, 0, 0], NOT_A_PLAN, (0, 0)),
        (&[0, 1], NOT_A_PLAN, (0, 0)),
    ] {
        cases.check_range("range 2 to 5", two_to_five(), plan, answer, costs);
    }
    let largest = || {
        let range = (difference(lit(4), x()), sum(lit(5), x()));
        counting(LARGEST, range).end()
    };
    cases.search(
        "largest of 4 - x to 5 + x",
        largest(),
        USUAL,
        "0 0 1 7 7 3 3 1 1 4",
    );
    let note = "largest of 4 - x to 5 + x";
    cases.check_range(note, largest(), &[0, 0, 0], 0, (7, 4));
    let rising = || counting(SUM, (x(), lit(1))).end();
    cases.search("range x to 1", rising(), USUAL, "1 17 0 2 2 2 3 1 1 1");
    cases.check("range x to 1", rising(), &[0, 0, 0], HIGH_BELOW_LOW, 0);
    cases.check("range x to 1", rising(), &[0, 0], NOT_A_PLAN, 0);
    let equal = || counting(SUM, (x(), x())).end();
    cases.search("range x to x", equal(), USUAL, "0 0 1 3 3 3 3 1 1 3");
    cases.check_range("range x to x", equal(), &[0, 0, 0], 0, (3, 3));
    let nothing = || counting(SUM, (lit(0), lit(0))).end();
    cases.search("range 0 to 0", nothing(), USUAL, "0 0 1 0 0 3 3 1 1 0");
    let widest = || counting(SUM, (lit(0), lit(i32::MAX))).end();
    cases.search(
        "range 0 to the greatest number",
        widest(),
        USUAL,
        "0 0 1 6442450941 6442450941 3 3 1 1 0",
    );
    let note = "range 0 to the greatest number";
    cases.check_range(note, widest(), &[0, 0, 0], 0, (6_442_450_941, 0));
    let greatest = || counting(SUM, (lit(i32::MAX), lit(i32::MAX))).end();
    let note = "the greatest number twice";
    let sums = (6_442_450_941, 6_442_450_941);
    cases.check_range(note, greatest(), &[0, 0, 0], 0, sums);
}

// Order.

/// Conditions, low cost, 13, high cost, 17, effects, constraints.
fn evaluation(cases: &mut Cases) {
    let at_once = |range: (Bytes, Bytes)| counting(SUM, range);
    let mut refused = |what: &str, build: Build, number: u8| {
        let model = build.end();
        let stated = format!("1 {number} 0 0 0 0 1 1 1 0");
        cases.search(what, model.clone(), USUAL, &stated);
        cases.check(what, model, &[0], number, 0);
    };
    let steps = [
        ("minus 1, high by zero", lit(-1), by_zero(), NEGATIVE_COST),
        ("minus 1, high minus 2", lit(-1), lit(-2), NEGATIVE_COST),
        ("minus 1, high minus 1", lit(-1), lit(-1), NEGATIVE_COST),
        ("minus 1, high 5", lit(-1), lit(5), NEGATIVE_COST),
        (
            "by zero, high too great",
            by_zero(),
            too_great(),
            DIVISOR_ZERO,
        ),
        (
            "too great, high by zero",
            too_great(),
            by_zero(),
            OUT_OF_RANGE,
        ),
        ("by zero, high 5", by_zero(), lit(5), DIVISOR_ZERO),
        ("1, high too great", lit(1), too_great(), OUT_OF_RANGE),
        ("1, high by zero", lit(1), by_zero(), DIVISOR_ZERO),
        ("1, high 0", lit(1), lit(0), HIGH_BELOW_LOW),
        ("0, high minus 1", lit(0), lit(-1), HIGH_BELOW_LOW),
        (
            "0, high the least number",
            lit(0),
            lit(i32::MIN),
            HIGH_BELOW_LOW,
        ),
    ];
    for (what, low, high, number) in steps {
        refused(&format!("low {what}"), at_once((low, high)), number);
    }
    let then = |range: (Bytes, Bytes), effect: Bytes| {
        Build::new(SUM)
            .number(NONE, 0)
            .ranged(&[], range, &[(0, effect)])
            .base(&[equal(num(0), lit(3))])
    };
    refused(
        "high cost by zero, then an effect out of range",
        then((lit(1), by_zero()), too_great()),
        DIVISOR_ZERO,
    );
    refused(
        "high cost too great, then an effect by zero",
        then((lit(1), too_great()), by_zero()),
        OUT_OF_RANGE,
    );
    refused(
        "high cost below, then an effect by zero",
        then((lit(1), lit(0)), by_zero()),
        HIGH_BELOW_LOW,
    );
    refused(
        "equal costs, then an effect by zero",
        then((lit(1), lit(1)), by_zero()),
        DIVISOR_ZERO,
    );
    refused(
        "high cost below, into a broken constraint",
        at_once((lit(1), lit(0))).constraint(equal(num(0), lit(0))),
        HIGH_BELOW_LOW,
    );
    refused(
        "high cost by zero, into a broken constraint",
        at_once((lit(1), by_zero())).constraint(equal(num(0), lit(0))),
        DIVISOR_ZERO,
    );
    let asked = |condition: Bytes, high: Bytes| {
        let effects = [(0, sum(num(0), lit(1)))];
        Build::new(SUM)
            .number(NONE, 0)
            .ranged(&[condition], (lit(1), high), &effects)
            .base(&[equal(num(0), lit(3))])
    };
    refused(
        "a condition by zero, high cost below",
        asked(equal(by_zero(), lit(0)), lit(0)),
        DIVISOR_ZERO,
    );
    for (what, high) in [("by zero", by_zero()), ("below", lit(0))] {
        let model = asked(equal(num(0), lit(9)), high).end();
        let note = format!("a condition that fails, high cost {what}");
        cases.search(&note, model.clone(), USUAL, "0 1 0 0 0 0 1 1 1 0");
        cases.check(&note, model, &[0], NOT_A_PLAN, 0);
    }
    let broken = at_once((lit(1), lit(1))).constraint(equal(num(0), lit(0)));
    let note = "equal costs, into a broken constraint";
    cases.search(note, broken.clone().end(), USUAL, "0 1 0 0 0 0 1 1 1 0");
    cases.check(note, broken.end(), &[0], NOT_A_PLAN, 0);
    chosen_by_state(cases);
}

/// A high cost that is trouble in a later state, and steps that the search would drop.
fn chosen_by_state(cases: &mut Cases) {
    let last = |high: Bytes| {
        let high = choice(equal(num(0), lit(2)), high, lit(7));
        counting(SUM, (lit(3), high)).end()
    };
    for (what, high, number) in [
        ("below", lit(2), HIGH_BELOW_LOW),
        ("by zero", by_zero(), DIVISOR_ZERO),
        ("too great", too_great(), OUT_OF_RANGE),
    ] {
        let note = format!("range 3 to 7, at last {what}");
        let stated = format!("1 {number} 0 14 14 2 3 1 1 6");
        cases.search(&note, last(high.clone()), USUAL, &stated);
        cases.check(&note, last(high), &[0, 0, 0], number, 0);
    }
    // state 2 is taken first and leads nowhere, then the base state at 4, which does not end the run; the last step is tried behind it
    let dropped = |range: (Bytes, Bytes)| {
        let at = |object: u8| [same(elem(0), obj(object))];
        let model = Build::new(SUM)
            .element(4, NONE, 0)
            .ranged(&at(0), (lit(0), lit(3)), &[(0, obj(2))])
            .ranged(&at(0), (lit(1), lit(4)), &[(0, obj(3))])
            .ranged(&at(0), (lit(2), lit(5)), &[(0, obj(1))])
            .ranged(&at(1), range, &[(0, obj(3))])
            .base(&[same(elem(0), obj(3))])
            .end();
        Call::search_by(model, Beam::Listed(vec![3]), 64, 100_000)
    };
    cases.add(
        "range 9 to 9 of a child that is dropped",
        dropped((lit(9), lit(9))),
        "0 0 1 4 4 1 3 1 3 1",
    );
    cases.add(
        "range 9 to 8 of a child that would be dropped",
        dropped((lit(9), lit(8))),
        "1 17 0 5 3 1 3 1 3 2",
    );
}

/// The path of a refusal, with its cost and its low figure: the parent's up to the effects, the child's behind them.
fn paths(cases: &mut Cases) {
    let counted = || counting(SUM, (lit(2), lit(5)));
    let by_distance = |at: i32| quotient(lit(1), difference(lit(at), num(0)));
    let mut with = |what: &str, build: Build, plan: &[u8], stated: &str| {
        let note = format!("range 2 to 5, {what}");
        cases.search(&note, build.clone().end(), USUAL, stated);
        cases.check(&note, build.end(), plan, DIVISOR_ZERO, 0);
    };
    with(
        "a constraint by zero at 2",
        counted().constraint(at_most(by_distance(2), lit(9))),
        &[0, 0, 0],
        "1 12 0 10 5 2 2 1 1 4",
    );
    let base = Build::new(SUM)
        .number(NONE, 0)
        .ranged(&[], (lit(2), lit(5)), &[(0, sum(num(0), lit(1)))])
        .base(&[equal(by_distance(2), lit(9))]);
    with(
        "a base case by zero at 2",
        base,
        &[0, 0],
        "1 12 0 10 10 2 2 1 1 4",
    );
    let effect = Build::new(SUM)
        .number(NONE, 0)
        .ranged(
            &[],
            (lit(2), lit(5)),
            &[(0, sum(num(0), quotient(lit(2), difference(lit(2), num(0)))))],
        )
        .base(&[equal(num(0), lit(3))]);
    with(
        "an effect by zero at 1 and 2",
        effect.constraint(at_most(by_distance(1), lit(9))),
        &[0],
        "1 12 0 5 0 1 1 1 1 2",
    );
    let bound = counted().bound(lesser(lit(0), by_distance(2)));
    cases.search(
        "range 2 to 5, a bound by zero at 2",
        bound.end(),
        USUAL,
        "1 12 0 10 5 2 2 1 1 4",
    );
    let range = (difference(lit(4), num(0)), sum(lit(5), num(0)));
    let largest = counting(LARGEST, range).bound(lesser(lit(0), by_distance(2)));
    cases.search(
        "largest of 4 - x to 5 + x, a bound by zero at 2",
        largest.end(),
        USUAL,
        "1 12 0 6 5 2 2 1 1 4",
    );
}

// Ties.

/// Low figures decide nothing: not the order, not dominance, not the best.
fn ties(cases: &mut Cases) {
    let mut with = |what: &str, first, second, stated: &str| {
        let model = two_ways(first, second).end();
        cases.search(&format!("two ways, {what}"), model, USUAL, stated);
    };
    with("1 to 9 and 5 to 6", (1, 9), (5, 6), "0 0 1 6 6 1 1 1 1 5");
    with("5 to 6 and 1 to 9", (5, 6), (1, 9), "0 0 1 6 6 1 1 1 1 5");
    with("5 to 9 and 1 to 9", (5, 9), (1, 9), "0 0 1 9 9 1 1 1 1 5");
    with("1 to 9 and 5 to 9", (1, 9), (5, 9), "0 0 1 9 9 1 1 1 1 1");
    with("0 to 9 and 8 to 8", (0, 9), (8, 8), "0 0 1 8 8 1 1 1 1 8");
    // two states that are not comparable, with equal f and h: the first to arrive is taken first, whatever its low figure
    let apart = |first: (i32, i32), second: (i32, i32)| {
        let at = |object: u8| [same(elem(0), obj(object))];
        let range = |(low, high): (i32, i32)| (lit(low), lit(high));
        Build::new(SUM)
            .element(4, NONE, 0)
            .ranged(&at(0), range(first), &[(0, obj(1))])
            .ranged(&at(0), range(second), &[(0, obj(2))])
            .ranged(&at(1), (lit(0), lit(1)), &[(0, obj(3))])
            .ranged(&at(2), (lit(0), lit(1)), &[(0, obj(3))])
            .base(&[same(elem(0), obj(3))])
            .end()
    };
    let note = "two states, 5 to 9 and 1 to 9";
    cases.search(note, apart((5, 9), (1, 9)), USUAL, "0 0 1 10 10 2 5 2 2 5");
    let note = "two states, 1 to 9 and 5 to 9";
    cases.search(note, apart((1, 9), (5, 9)), USUAL, "0 0 1 10 10 2 5 2 2 1");
    let note = "two states, 9 to 9 and 1 to 9, W 1";
    let narrow = (1, 64, 100_000);
    cases.search(note, apart((9, 9), (1, 9)), narrow, "0 2 1 10 0 2 4 2 1 9");
    // a state that is better by its preference and costs less at high figures takes the place of one that is cheaper at low ones
    let preferred = |first: (i32, i32), second: (i32, i32)| {
        let range = |(low, high): (i32, i32)| (lit(low), lit(high));
        let started = [equal(num(0), lit(0))];
        Build::new(SUM)
            .number(LESS, 0)
            .ranged(&started, range(first), &[(0, lit(2))])
            .ranged(&started, range(second), &[(0, lit(1))])
            .base(&[less(lit(0), num(0))])
            .end()
    };
    let note = "a preferred state, 1 to 9 and 5 to 9";
    cases.search(
        note,
        preferred((1, 9), (5, 9)),
        USUAL,
        "0 0 1 9 9 1 1 1 1 5",
    );
    let note = "a preferred state, 1 to 8 and 5 to 9";
    cases.search(
        note,
        preferred((1, 8), (5, 9)),
        USUAL,
        "0 0 1 8 8 1 2 2 2 1",
    );
}

// Declarations.

/// Bounds below the low costs, between the two, and above the high ones.
fn bounds(cases: &mut Cases) {
    let bounded = |bound: i32| {
        let at_target = choice(same(elem(0), obj(0)), lit(bound), lit(0));
        two_ways((5, 9), (5, 8)).bound(at_target).end()
    };
    for (bound, stated) in [
        (4, "0 0 1 8 8 1 1 1 1 5"),
        (5, "0 0 1 8 8 1 1 1 1 5"),
        (6, "0 0 1 8 8 1 1 1 1 5"),
        (8, "0 0 1 8 8 1 1 1 1 5"),
        (9, "0 5 1 8 9 1 1 1 1 5"),
    ] {
        let note = format!("5 to 9 and 5 to 8, bound {bound}");
        cases.search(&note, bounded(bound), USUAL, stated);
    }
    let left = difference(lit(3), num(0));
    let counted = |each: i32| {
        let bound = product(lit(each), left.clone());
        counting(SUM, (lit(2), lit(5))).bound(bound).end()
    };
    for (each, stated) in [
        (2, "0 0 1 15 15 3 3 1 1 6"),
        (3, "0 0 1 15 15 3 3 1 1 6"),
        (5, "0 0 1 15 15 3 3 1 1 6"),
        (6, "0 5 1 15 18 3 3 1 1 6"),
    ] {
        let note = format!("range 2 to 5, bound {each} a step");
        cases.search(&note, counted(each), USUAL, stated);
    }
    for (each, stated) in [(2, "0 4 0 0 9 0 1 1 1 0"), (5, "0 4 0 0 15 0 1 1 1 0")] {
        let note = format!("range 2 to 5, bound {each} a step, budget 1");
        cases.search(&note, counted(each), (16, 64, 1), stated);
    }
}

/// Three designs with each high cost twice the low: every verdict, the loading profile and lists of widths.
fn designs(cases: &mut Cases) {
    let doubled = || doubled_designs(&Designs::default());
    let mut with = |what: &str, build: Build, settings, stated: &str| {
        let note = format!("doubled designs{what}");
        cases.search(&note, build.end(), settings, stated);
    };
    with("", doubled(), USUAL, "0 0 1 14 14 3 14 3 4 7");
    with(
        ", W 4, L 3",
        doubled(),
        (4, 3, 100_000),
        "0 0 1 14 14 3 14 3 4 7",
    );
    with(
        ", W 2, L 3",
        doubled(),
        (2, 3, 100_000),
        "0 2 1 14 0 3 8 2 2 7",
    );
    with(
        ", W 1, L 3",
        doubled(),
        (1, 3, 100_000),
        "0 2 1 14 0 3 6 2 1 7",
    );
    with(
        ", W 8, L 2",
        doubled(),
        (8, 2, 100_000),
        "0 3 0 0 10 0 13 4 8 0",
    );
    with(", budget 0", doubled(), (16, 64, 0), "0 4 0 0 0 0 0 1 1 0");
    with(", budget 3", doubled(), (16, 64, 3), "0 4 1 14 0 3 3 2 2 7");
    with(
        ", budget 12",
        doubled(),
        (16, 64, 12),
        "0 4 1 14 10 3 12 3 4 7",
    );
    let bounded = |bound: i32| doubled().bound(lit(bound));
    with(", bound 8", bounded(8), USUAL, "0 0 1 14 14 3 5 2 2 7");
    with(", bound 14", bounded(14), USUAL, "0 0 1 14 14 3 3 1 1 7");
    with(", bound 15", bounded(15), USUAL, "0 5 1 14 15 3 3 1 1 7");
    let without_two = doubled().constraint(not(same(elem(1), obj(2))));
    with(", P9", without_two, USUAL, "0 1 0 0 0 0 8 2 2 0");
    let broken = doubled().constraint(not(same(elem(1), obj(0))));
    with(", a broken target", broken, USUAL, "0 1 0 0 0 0 0 1 1 0");
    let empty_start = doubled_designs(&Designs {
        start: 0,
        ..Designs::default()
    });
    with(", P7", empty_start, USUAL, "0 0 1 0 0 0 0 1 1 0");
    let largest = doubled_designs(&Designs {
        rule: LARGEST,
        ..Designs::default()
    });
    with(", P10", largest.clone(), USUAL, "0 0 1 6 6 3 5 2 2 3");
    for (plan, answer, costs) in [
        (&[0, 1, 2][..], 0, (14, 7)),
        (&[2, 1, 0], 0, (18, 9)),
        (&[1, 0], NOT_A_PLAN, (0, 0)),
        (&[0, 0], NOT_A_PLAN, (0, 0)),
    ] {
        let model = doubled().end();
        cases.check_range("doubled designs", model, plan, answer, costs);
    }
    cases.check_range("doubled designs, P10", largest.end(), &[2, 1, 0], 0, (8, 4));
    let usual = (3, words_needed(16, 3));
    let model = doubled().end();
    cases.load(
        "loading doubled designs",
        model.clone(),
        (16, 100_000),
        usual,
        "0 0 1 14 14 3 14 3 4 7",
    );
    for (widths, stated) in [
        (&[1, 200][..], "0 0 1 14 14 3 9 2 200 7"),
        (&[3], "0 0 1 14 14 3 13 2 3 7"),
    ] {
        let beam = Beam::Listed(widths.to_vec());
        let words = words_needed(beam.widest(), 3);
        let note = format!("doubled designs with {} widths", widths.len());
        let search = Call::search_by(model.clone(), beam.clone(), 64, 100_000);
        cases.add(&note, search, stated);
        let load = Call::load_by(model.clone(), beam, 100_000, (3, words));
        cases.add(&format!("loading {note}"), load, stated);
    }
}

// Random ones.

/// A random model with ranges, at random settings; one of four in the loading profile.
fn random_search(random: &mut Random) -> Call {
    let (width, length, budget) = settings(random);
    let budget = budget.min(40);
    if random.chance(75) {
        return Call::search(ranged(random).end(), width, length, budget);
    }
    let spread = random.pick(&SPREADS);
    let build = inside(random);
    let model = spread_costs(random, &build, spread).end();
    let length = read_model(&model).map_or(1, |model| model.loading_length());
    let lent = (length as usize, words_needed(width, length));
    Call::load_by(model, Beam::UpTo(width), budget, lent)
}

/// A random model with ranges and a plan that its search finds, or any steps.
fn random_check(random: &mut Random) -> Call {
    let model = ranged(random).end();
    let Call::Search(search) = Call::search(model.clone(), 8, 8, 100) else {
        unreachable!("a search")
    };
    let (answer, after) = search.run();
    let mut plan = after[..answer.length as usize].to_vec();
    if random.chance(30) || plan.is_empty() {
        plan = (0..random.between(1, 4))
            .map(|_| random.below(4) as u8)
            .collect();
    }
    Call::Check { model, plan }
}

fn random(cases: &mut Cases) {
    let mut random = Random::new(0x4A26);
    cases.add_random(&SEARCHES, || random_search(&mut random));
    let mut random = Random::new(0x4A27);
    cases.add_random(&CHECKS, || random_check(&mut random));
    let mut random = Random::new(0x4A28);
    let mut way = WAYS.iter().cycle();
    cases.add_random(&DAMAGED, || {
        let way = way.next().expect("ways go round");
        let (model, _) = damaged(&mut random, *way);
        let plan = Vec::new();
        Call::Check { model, plan }
    });
}
