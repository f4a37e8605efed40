//! Plans: plan checks of good and bad plans, the target's constraints, and the order of the tests of a step.

use super::{Case, Cases};
use crate::build::*;
use crate::models::{sop, three_designs, tsptw, Designs};

const MAX: i32 = i32::MAX;

pub fn cases() -> Vec<Case> {
    let mut cases = Cases::default();
    designs(&mut cases);
    lengths(&mut cases);
    troubles(&mut cases);
    order_in_a_step(&mut cases);
    effects_and_constraints(&mut cases);
    target(&mut cases);
    cases.0
}

fn designs(cases: &mut Cases) {
    for (note, plan, answer, cost) in [
        ("three designs: the cheapest plan", &[0, 1, 2][..], 0, 7),
        ("three designs: another plan", &[2, 1, 0], 0, 9),
        ("three designs: the dearest plan", &[1, 0, 2], 0, 14),
        ("three designs: no base state at the end", &[0, 1], 14, 0),
        ("three designs: the empty plan", &[], 14, 0),
        ("three designs: a condition fails", &[0, 0], 14, 0),
        ("three designs: number 3 too high", &[3], 14, 0),
        ("three designs: number 255 too high", &[0, 1, 255], 14, 0),
        ("three designs: base before the end", &[0, 1, 2, 0], 14, 0),
    ] {
        cases.check(note, three_designs(), plan, answer, cost);
    }
    let largest = || Designs {
        rule: LARGEST,
        ..Designs::default()
    };
    cases.check(
        "largest rule: the dearest step",
        largest().bytes(),
        &[0, 1, 2],
        0,
        3,
    );
    cases.check(
        "largest rule: the dearest step first",
        largest().bytes(),
        &[1, 2, 0],
        0,
        6,
    );
    let done = Designs {
        start: 0,
        ..Designs::default()
    };
    cases.check("the empty plan of a base target", done.bytes(), &[], 0, 0);
    cases.check("a step from a base target", done.bytes(), &[0], 14, 0);
    cases.check("TSPTW: the cheapest plan", tsptw(), &[1, 2, 0, 3], 0, 14);
    cases.check("TSPTW: a window missed", tsptw(), &[0, 2, 1, 3], 14, 0);
    cases.check("SOP: the cheapest plan", sop(), &[0, 2, 1, 3], 0, 6);
    cases.check("SOP: a predecessor not done", sop(), &[0, 1, 2, 3], 14, 0);
}

/// Counts from 0; one step adds 1 at this cost; the base state is `end`.
fn counter(rule: u8, cost: Bytes, end: i32) -> Build {
    Build::new(rule)
        .number(NONE, 0)
        .transition(&[], cost, &[(0, sum(num(0), lit(1)))])
        .base(&[equal(num(0), lit(end))])
}

fn lengths(cases: &mut Cases) {
    let up = |rule| counter(rule, num(0), 256).end();
    cases.check("a plan of 256 steps", up(SUM), &[0; 256], 0, 32_640);
    cases.check(
        "a plan of 256 steps, largest rule",
        up(LARGEST),
        &[0; 256],
        0,
        255,
    );
    cases.check("255 of 256 steps", up(SUM), &[0; 255], 14, 0);
    cases.check("a plan of 257 bytes", up(SUM), &[0; 257], 2, 0);
    cases.check(
        "a plan of 257 bytes before an empty model",
        vec![],
        &[0; 257],
        2,
        0,
    );
    cases.check(
        "a model too long before a plan too long",
        vec![0; 65_537],
        &[0; 257],
        1,
        0,
    );
    let dear = counter(SUM, lit(MAX), 3).end();
    cases.check(
        "a cost beyond the range of numbers",
        dear,
        &[0; 3],
        0,
        6_442_450_941,
    );
    let many = (0..255)
        .fold(Build::new(SUM).number(NONE, 0), |build, _| {
            build.transition(&[], num(0), &[])
        })
        .transition(&[], lit(9), &[(0, lit(1))])
        .base(&[equal(num(0), lit(1))])
        .end();
    cases.check("transition number 255", many, &[254, 0, 255], 0, 9);
    let no_base = Build::new(SUM).transition(&[], lit(0), &[]).end();
    cases.check("a model without base cases", no_base, &[0], 14, 0);
    let refused = [&counter(SUM, num(0), 0).end()[..], &[0]].concat();
    cases.check("a model refused by its bytes", refused, &[0], 9, 0);
}

/// 12 when the counter is 1, and otherwise a value.
fn zero_at_one() -> Bytes {
    quotient(lit(6), difference(num(0), lit(1)))
}

/// 11 when the counter is 1 or more, and otherwise a value.
fn over_at_one() -> Bytes {
    sum(lit(MAX), num(0))
}

/// A condition that holds wherever the number has a value.
fn holds_with(number: Bytes) -> Bytes {
    at_most(number.clone(), number)
}

/// A condition that never holds, and has trouble where the number has.
fn fails_with(number: Bytes) -> Bytes {
    less(number.clone(), number)
}

fn troubles(cases: &mut Cases) {
    for (trouble, number) in [(12, zero_at_one as fn() -> Bytes), (11, over_at_one)] {
        let start = || Build::new(SUM).number(NONE, 0).number(NONE, 0);
        let up = || (0, sum(num(0), lit(1)));
        let base = || equal(num(0), lit(2));
        let mut add = |place: &str, build: Build, plan: &[u8]| {
            let note = format!("{trouble} in {place}");
            cases.check(&note, build.end(), plan, trouble, 0);
        };
        add(
            "the base cases of a state stepped from",
            start()
                .transition(&[], lit(1), &[up()])
                .base(&[fails_with(number())]),
            &[0, 0],
        );
        add(
            "the base cases of the last state",
            start()
                .transition(&[], lit(1), &[up()])
                .base(&[fails_with(number())]),
            &[0],
        );
        add(
            "the conditions",
            start()
                .transition(&[holds_with(number())], lit(1), &[up()])
                .base(&[base()]),
            &[0, 0],
        );
        add(
            "the cost",
            start()
                .transition(&[], greater(lit(0), number()), &[up()])
                .base(&[base()]),
            &[0, 0],
        );
        add(
            "the effects",
            start()
                .transition(&[], lit(1), &[up(), (1, number())])
                .base(&[base()]),
            &[0, 0],
        );
        add(
            "the constraints of the new state",
            start()
                .transition(&[], lit(1), &[up()])
                .base(&[base()])
                .constraint(holds_with(number())),
            &[0, 0],
        );
    }
    let falling = counter(SUM, difference(lit(1), num(0)), 3).end();
    cases.check("13 at the third step", falling.clone(), &[0, 0, 0], 13, 0);
    cases.check("no trouble before the third step", falling, &[0, 0], 14, 0);
    let bound = counter(SUM, lit(1), 2).bound(zero_at_one()).end();
    cases.check("bounds are not evaluated", bound, &[0, 0], 0, 2);
}

fn order_in_a_step(cases: &mut Cases) {
    let zero = || quotient(lit(1), num(0));
    let over = || difference(lit(i32::MIN), lit(1));
    let never = || less(num(0), num(0));
    let start = || Build::new(SUM).number(NONE, 0);
    let base = || equal(num(0), lit(1));
    let one = || (0, lit(1));
    for (note, build, plan, answer) in [
        (
            "a base case in trouble before a number too high",
            start().base(&[fails_with(zero())]),
            9,
            12,
        ),
        ("base before a number too high", start().base(&[]), 9, 14),
        (
            "base before conditions in trouble",
            start()
                .transition(&[fails_with(zero())], lit(0), &[])
                .base(&[]),
            0,
            14,
        ),
        (
            "a condition that fails before one in trouble",
            start()
                .transition(&[never(), fails_with(zero())], lit(0), &[one()])
                .base(&[base()]),
            0,
            14,
        ),
        (
            "a condition in trouble before one that fails",
            start()
                .transition(&[fails_with(zero()), never()], lit(0), &[one()])
                .base(&[base()]),
            0,
            12,
        ),
        (
            "a condition that fails before a negative cost",
            start()
                .transition(&[never()], lit(-1), &[one()])
                .base(&[base()]),
            0,
            14,
        ),
        (
            "a cost in trouble before effects in trouble",
            start()
                .transition(&[], over(), &[(0, zero())])
                .base(&[base()]),
            0,
            11,
        ),
        (
            "a negative cost before effects out of range",
            start()
                .transition(&[], lit(-3), &[(0, over())])
                .base(&[base()]),
            0,
            13,
        ),
        (
            "a negative cost before effects in trouble",
            start()
                .transition(&[], lit(-1), &[(0, zero())])
                .base(&[base()]),
            0,
            13,
        ),
        (
            "a negative cost before a constraint that fails",
            start()
                .transition(&[], lit(-2), &[one()])
                .base(&[base()])
                .constraint(less(num(0), lit(1))),
            0,
            13,
        ),
        (
            "a constraint that fails at the target before a negative cost",
            start()
                .transition(&[], lit(-2), &[one()])
                .base(&[base()])
                .constraint(never()),
            0,
            14,
        ),
        (
            "effects in the order written, 12 first",
            start()
                .number(NONE, 0)
                .transition(&[], lit(0), &[(1, zero()), (0, over())]),
            0,
            12,
        ),
        (
            "effects in the order written, 11 first",
            start()
                .number(NONE, 0)
                .transition(&[], lit(0), &[(1, over()), (0, zero())]),
            0,
            11,
        ),
        (
            "effects in trouble before constraints in trouble",
            start()
                .number(NONE, 0)
                .transition(&[], lit(0), &[one(), (1, over())])
                .constraint(holds_with(zero_at_one())),
            0,
            11,
        ),
        (
            "constraints in trouble at the target before effects in trouble",
            start()
                .transition(&[], lit(0), &[(0, over())])
                .constraint(fails_with(zero())),
            0,
            12,
        ),
        (
            "a constraint that fails before one in trouble",
            start()
                .transition(&[], lit(0), &[one()])
                .constraint(less(num(0), lit(1)))
                .constraint(holds_with(zero_at_one())),
            0,
            14,
        ),
        (
            "a constraint in trouble before one that fails",
            start()
                .transition(&[], lit(0), &[one()])
                .constraint(holds_with(zero_at_one()))
                .constraint(less(num(0), lit(1))),
            0,
            12,
        ),
        (
            "at the target: a constraint that fails before one in trouble",
            start()
                .transition(&[], lit(0), &[])
                .constraint(never())
                .constraint(fails_with(zero())),
            0,
            14,
        ),
        (
            "at the target: a constraint in trouble before one that fails",
            start()
                .transition(&[], lit(0), &[])
                .constraint(fails_with(zero()))
                .constraint(never()),
            0,
            12,
        ),
        (
            "a constraint in trouble before the last base cases in trouble",
            start()
                .transition(&[], lit(0), &[one()])
                .base(&[equal(num(0), lit(1)), fails_with(over())])
                .constraint(holds_with(zero_at_one())),
            0,
            12,
        ),
        (
            "a constraint that fails at the target before trouble in the last state",
            start()
                .transition(&[], lit(0), &[one()])
                .base(&[equal(num(0), lit(1)), fails_with(over())])
                .constraint(fails_with(quotient(lit(1), difference(num(0), lit(1))))),
            0,
            14,
        ),
        (
            "base cases: the first condition that fails hides trouble",
            start()
                .transition(&[], lit(0), &[])
                .base(&[never(), fails_with(zero())]),
            0,
            14,
        ),
        (
            "base cases: the second in trouble after the first fails",
            start()
                .transition(&[], lit(0), &[])
                .base(&[never()])
                .base(&[fails_with(zero())]),
            0,
            12,
        ),
    ] {
        cases.check(note, build.end(), &[plan], answer, 0);
    }
    let hidden = start()
        .transition(&[], lit(4), &[one()])
        .base(&[base()])
        .base(&[
            equal(num(0), lit(0)),
            less(lit(0), lit(0)),
            fails_with(zero()),
        ])
        .end();
    cases.check(
        "base cases: the first that holds hides a later one",
        hidden,
        &[0],
        0,
        4,
    );
}

fn effects_and_constraints(cases: &mut Cases) {
    let swap = |first: u8, second: u8| {
        Build::new(SUM)
            .number(NONE, 5)
            .number(NONE, 3)
            .element(3, NONE, 0)
            .transition(
                &[same(elem(2), obj(0))],
                lit(0),
                &[(first, num(second)), (second, num(first)), (2, obj(1))],
            )
            .transition(
                &[same(elem(2), obj(1))],
                sum(product(num(0), lit(10)), num(1)),
                &[(2, obj(2))],
            )
            .base(&[same(elem(2), obj(2))])
            .end()
    };
    cases.check("two effects swap two numbers", swap(0, 1), &[0, 1], 0, 35);
    cases.check(
        "two effects swap two numbers, written the other way",
        swap(1, 0),
        &[0, 1],
        0,
        35,
    );
    let sets = Build::new(SUM)
        .set(4, 0b0011)
        .element(4, NONE, 2)
        .transition(
            &[],
            count(set(0)),
            &[(1, obj(0)), (0, add(elem(1), set(0)))],
        )
        .base(&[subset(set_lit(4, 0b0100), set(0))])
        .end();
    cases.check("a set effect reads the old element", sets, &[0], 0, 2);
    let constrained = |constraint: Bytes| counter(SUM, lit(2), 2).constraint(constraint).end();
    cases.check(
        "a constraint that fails at the target only",
        constrained(less(lit(0), num(0))),
        &[0, 0],
        14,
        0,
    );
    cases.check(
        "constraints in trouble at the target only",
        constrained(holds_with(quotient(lit(1), num(0)))),
        &[0, 0],
        12,
        0,
    );
    cases.check(
        "a constraint that holds of the old state only",
        constrained(less(num(0), lit(2))),
        &[0, 0],
        14,
        0,
    );
    cases.check(
        "a constraint that fails of a base target",
        Build::new(SUM)
            .number(NONE, 0)
            .base(&[])
            .constraint(less(num(0), num(0)))
            .end(),
        &[],
        14,
        0,
    );
    cases.check(
        "constraints in trouble at a base target",
        Build::new(SUM)
            .number(NONE, 0)
            .base(&[])
            .constraint(less(quotient(lit(1), num(0)), lit(0)))
            .end(),
        &[],
        12,
        0,
    );
    let still = Build::new(SUM)
        .element(2, NONE, 0)
        .transition(&[], lit(3), &[])
        .transition(&[], lit(1), &[(0, obj(1))])
        .base(&[same(elem(0), obj(1))])
        .end();
    cases.check("steps without effects", still.clone(), &[0, 0, 1], 0, 7);
    cases.check(
        "a step from a base state to a base state",
        still.clone(),
        &[1, 0],
        14,
        0,
    );
    cases.check(
        "a second step to the same base state",
        still,
        &[1, 1],
        14,
        0,
    );
}

/// The target's constraints, which are tried before everything else about states.
fn target(cases: &mut Cases) {
    let designs = |constraint: Bytes| Designs {
        constraint: Some(constraint),
        ..Designs::default()
    };
    let broken = || designs(not(same(elem(1), obj(0))));
    let by_zero = || designs(holds_with(quotient(lit(1), lit(0))));
    let over = || designs(holds_with(sum(lit(MAX), lit(1))));
    let plan = &[0, 1, 2][..];
    for (note, designs, plan, answer) in [
        ("element is not 0", broken(), plan, 14),
        ("element is not 0, the empty plan", broken(), &[], 14),
        ("element is not 0, number 3 too high", broken(), &[3], 14),
        ("a constraint by zero", by_zero(), plan, 12),
        ("a constraint by zero, the empty plan", by_zero(), &[], 12),
        (
            "a constraint by zero, number 3 too high",
            by_zero(),
            &[3],
            12,
        ),
        (
            "a constraint by zero, number 255 too high",
            by_zero(),
            &[255, 0],
            12,
        ),
        ("a constraint out of range", over(), plan, 11),
        (
            "a constraint out of range, number 3 too high",
            over(),
            &[3],
            11,
        ),
        ("a plan of 257 bytes", by_zero(), &[0; 257], 2),
    ] {
        let note = format!("three designs: {note}");
        cases.check(&note, designs.bytes(), plan, answer, 0);
    }
    let after_end = [&by_zero().bytes()[..], &[0]].concat();
    cases.check(
        "bytes after the end before the target's constraints",
        after_end,
        plan,
        9,
        0,
    );
    let met = designs(same(elem(1), elem(1))).bytes();
    cases.check("a target that meets its constraint", met, plan, 0, 7);

    let zero = || quotient(lit(1), num(0));
    let over = || difference(lit(i32::MIN), lit(1));
    let never = || less(num(0), num(0));
    let start = || Build::new(SUM).number(NONE, 0);
    let mut add = |note: &str, build: Build, plan: &[u8], answer: u8| {
        let note = format!("at the target: {note}");
        cases.check(&note, build.end(), plan, answer, 0);
    };
    add(
        "a constraint that fails before base cases in trouble",
        start().base(&[fails_with(zero())]).constraint(never()),
        &[],
        14,
    );
    add(
        "a constraint that fails before base cases in trouble and a number too high",
        start().base(&[fails_with(zero())]).constraint(never()),
        &[9],
        14,
    );
    add(
        "a constraint in trouble before base cases in trouble",
        start()
            .base(&[fails_with(over())])
            .constraint(fails_with(zero())),
        &[],
        12,
    );
    add(
        "a constraint in trouble before base",
        start().base(&[]).constraint(fails_with(over())),
        &[0],
        11,
    );
    add(
        "a constraint that fails before conditions in trouble",
        start()
            .transition(&[fails_with(zero())], lit(0), &[])
            .constraint(never()),
        &[0],
        14,
    );
    add(
        "the second constraint fails",
        start()
            .base(&[])
            .constraint(holds_with(num(0)))
            .constraint(never()),
        &[],
        14,
    );
    add(
        "the second constraint in trouble",
        start()
            .base(&[])
            .constraint(holds_with(num(0)))
            .constraint(holds_with(zero())),
        &[],
        12,
    );
    add(
        "a part in trouble that is skipped",
        start()
            .base(&[])
            .constraint(or(holds_with(num(0)), holds_with(zero()))),
        &[],
        0,
    );
    add(
        "bounds are not evaluated",
        start()
            .base(&[])
            .constraint(holds_with(num(0)))
            .bound(zero()),
        &[],
        0,
    );
}
