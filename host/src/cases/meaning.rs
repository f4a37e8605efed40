//! Meaning: values of all expression forms, shown as the cost of a plan of one step.

use super::{Case, Cases};
use crate::build::*;

const MAX: i32 = i32::MAX;
const MIN: i32 = i32::MIN;

/// Added to values that may be negative, so that they can be shown as a cost.
const SHIFT: i32 = 1_000;

/// Variable 0 is an element of 2 objects, 0 before the step and 1 after it.
fn names() -> Build {
    Build::new(SUM).element(2, NONE, 0)
}

/// A model whose only step has this cost and leads to the base state.
fn one_step(names: Build, cost: Bytes) -> Bytes {
    names
        .transition(&[], cost, &[(0, obj(1))])
        .base(&[same(elem(0), obj(1))])
        .end()
}

/// A case that shows a value as it is, shifted if negative, or by comparison at the range's lower end.
fn value(cases: &mut Cases, note: &str, names: Build, number: Bytes, expected: i32) {
    let (cost, shown) = if expected >= 0 {
        (number, expected)
    } else if expected >= -SHIFT {
        (sum(number, lit(SHIFT)), expected + SHIFT)
    } else {
        (choice(equal(number, lit(expected)), lit(1), lit(0)), 1)
    };
    cases.check(note, one_step(names, cost), &[0], 0, shown as u64);
}

fn values(cases: &mut Cases, entries: Vec<(&str, Bytes, i32)>) {
    for (note, number, expected) in entries {
        value(cases, note, names(), number, expected);
    }
}

fn troubles(cases: &mut Cases, entries: Vec<(&str, Bytes, u8)>) {
    for (note, number, trouble) in entries {
        cases.check(note, one_step(names(), number), &[0], trouble, 0);
    }
}

/// The number whose bit k tells whether condition k holds.
fn bits(conditions: &[Bytes]) -> Bytes {
    let bit =
        |(place, condition): (usize, &Bytes)| choice(condition.clone(), lit(1 << place), lit(0));
    let bits = conditions.iter().enumerate().map(bit);
    bits.reduce(sum).expect("at least one condition")
}

fn by_zero() -> Bytes {
    quotient(lit(1), lit(0))
}

fn over() -> Bytes {
    sum(lit(MAX), lit(1))
}

pub fn cases() -> Vec<Case> {
    let mut cases = Cases::default();
    numbers(&mut cases);
    quotients(&mut cases);
    tables(&mut cases);
    order_of_trouble(&mut cases);
    sets(&mut cases);
    conditions(&mut cases);
    halves(&mut cases);
    cases.0
}

fn numbers(cases: &mut Cases) {
    values(
        cases,
        vec![
            ("20: the greatest literal", lit(MAX), MAX),
            ("20: the least literal", lit(MIN), MIN),
            ("22: both signs", sum(lit(-7), lit(4)), -3),
            ("22 up to the range's end", sum(lit(MAX - 1), lit(1)), MAX),
            ("22 of both ends", sum(lit(MAX), lit(MIN)), -1),
            ("23: first less second", difference(lit(3), lit(5)), -2),
            ("23: -1 less -2^31", difference(lit(-1), lit(MIN)), MAX),
            ("24: both signs", product(lit(-3), lit(4)), -12),
            ("24: two negative parts", product(lit(-3), lit(-4)), 12),
            (
                "24 just within the range",
                product(lit(46_340), lit(46_340)),
                2_147_395_600,
            ),
            (
                "24 at the range's lower end",
                product(lit(-65_536), lit(32_768)),
                MIN,
            ),
            ("26 with the lesser second", lesser(lit(4), lit(-5)), -5),
            ("26 with the lesser first", lesser(lit(MIN), lit(MAX)), MIN),
            ("27 with the greater second", greater(lit(-4), lit(5)), 5),
            ("27 with the greater first", greater(lit(-4), lit(-5)), -4),
        ],
    );
    let number = names().number(NONE, MIN);
    value(
        cases,
        "21: a variable at the range's lower end",
        number,
        sum(num(1), lit(MAX)),
        -1,
    );
    troubles(
        cases,
        vec![
            ("22 above the range", over(), 11),
            ("22 below the range", sum(lit(MIN), lit(-1)), 11),
            ("23 below the range", difference(lit(MIN), lit(1)), 11),
            ("23: 0 less -2^31", difference(lit(0), lit(MIN)), 11),
            (
                "24 just above the range",
                product(lit(46_341), lit(46_341)),
                11,
            ),
            ("24: -2^31 by -1", product(lit(MIN), lit(-1)), 11),
            ("24: -2^31 by itself", product(lit(MIN), lit(MIN)), 11),
            (
                "a part out of range in a whole within it",
                difference(over(), lit(1)),
                11,
            ),
            (
                "a part out of range multiplied by 0",
                product(lit(0), over()),
                11,
            ),
            ("26 evaluates both parts", lesser(lit(0), by_zero()), 12),
            ("27 evaluates both parts", greater(over(), lit(0)), 11),
            ("a cost of -1", lit(-1), 13),
        ],
    );
}

fn quotients(cases: &mut Cases) {
    let of = |dividend, divisor| quotient(lit(dividend), lit(divisor));
    values(
        cases,
        vec![
            ("25: 7 by 2", of(7, 2), 3),
            ("25: -7 by 2", of(-7, 2), -4),
            ("25: 7 by -2", of(7, -2), -4),
            ("25: -7 by -2", of(-7, -2), 3),
            ("25: -6 by 3, exact", of(-6, 3), -2),
            ("25: 6 by -3, exact", of(6, -3), -2),
            ("25: 0 by -5", of(0, -5), 0),
            ("25: -1 by 2^31 - 1", of(-1, MAX), -1),
            ("25: 1 by -2^31", of(1, MIN), -1),
            ("25: -2^31 by 1", of(MIN, 1), MIN),
            ("25: -2^31 by itself", of(MIN, MIN), 1),
            ("25: 2^31 - 1 by -2^31", of(MAX, MIN), -1),
            ("25: -2^31 by 2^31 - 1", of(MIN, MAX), -2),
            ("25: -2^31 by 2", of(MIN, 2), -1_073_741_824),
        ],
    );
    troubles(
        cases,
        vec![
            ("25: -2^31 by -1", of(MIN, -1), 11),
            (
                "25: -2^31 by -1 as a dividend",
                quotient(of(MIN, -1), lit(2)),
                11,
            ),
            ("25: 5 by 0", of(5, 0), 12),
            ("25: 0 by 0", of(0, 0), 12),
            ("25: -2^31 by 0, 12 not 11", of(MIN, 0), 12),
            (
                "25: dividend out of range before divisor 0",
                quotient(over(), lit(0)),
                11,
            ),
            ("25: divisor out of range", quotient(lit(5), over()), 11),
        ],
    );
}

fn tables(cases: &mut Cases) {
    let table = || {
        names()
            .element(3, NONE, 1)
            .table(3, 2, &[10, 20, 30, 40, 50, 60])
    };
    value(
        cases,
        "28: row by row",
        table(),
        entry(0, obj(2), obj(0)),
        50,
    );
    value(
        cases,
        "28: row from a variable",
        table(),
        entry(0, elem(1), obj(1)),
        40,
    );
    value(
        cases,
        "28: column from a variable",
        table(),
        entry(0, obj(0), elem(0)),
        10,
    );
    value(
        cases,
        "2A: the members' rows in one column",
        table(),
        entry_sum(0, set_lit(3, 0b101), obj(1)),
        80,
    );
    value(
        cases,
        "2A of the empty set",
        table(),
        entry_sum(0, set_lit(3, 0), obj(1)),
        0,
    );
    value(
        cases,
        "2A with a set of smaller count",
        table(),
        entry_sum(0, set_lit(2, 0b11), obj(0)),
        40,
    );
    let column = |entries: &[i32]| names().table(entries.len() as u8, 1, entries);
    let all = |objects: u8| entry_sum(0, set_lit(objects, (1 << objects) - 1), obj(0));
    value(
        cases,
        "2A: partial sums above the range, the total within",
        column(&[MAX, 1, -5]),
        all(3),
        MAX - 4,
    );
    value(
        cases,
        "2A: partial sums below the range, the total within",
        column(&[MIN, -1, 8]),
        all(3),
        -2_147_483_641,
    );
    value(
        cases,
        "2A: partial sums above the range from the last row too",
        column(&[MAX, -MAX, MAX, MAX, -MAX]),
        all(5),
        MAX,
    );
    value(
        cases,
        "2A: far out and back",
        column(&[MAX, MAX, MIN, MIN, 7]),
        all(5),
        5,
    );
    for (note, entries) in [
        ("2A: the total above the range", [MAX, 1, 0]),
        ("2A: the total below the range", [MIN, -1, 0]),
        ("2A: the total three times the range's end", [MAX, MAX, MAX]),
    ] {
        cases.check(note, one_step(column(&entries), all(3)), &[0], 11, 0);
    }
}

fn order_of_trouble(cases: &mut Cases) {
    let wrong = || less(lit(1), lit(0));
    let right = || less(lit(0), lit(1));
    let over_condition = || equal(over(), lit(0));
    let zero_condition = || equal(by_zero(), lit(0));
    let shown = |condition| choice(condition, lit(1), lit(0));
    values(
        cases,
        vec![
            (
                "2B hides trouble in the second",
                choice(right(), lit(6), by_zero()),
                6,
            ),
            (
                "2B hides trouble in the first",
                choice(wrong(), over(), lit(7)),
                7,
            ),
            (
                "58 hides trouble behind a first that fails",
                shown(and(wrong(), zero_condition())),
                0,
            ),
            (
                "59 hides trouble behind a first that holds",
                shown(or(right(), over_condition())),
                1,
            ),
            (
                "58 and 59 nested hide trouble",
                shown(or(and(wrong(), zero_condition()), right())),
                1,
            ),
        ],
    );
    troubles(
        cases,
        vec![
            (
                "22: the first trouble from the left, 12",
                sum(by_zero(), over()),
                12,
            ),
            (
                "22: the first trouble from the left, 11",
                sum(over(), by_zero()),
                11,
            ),
            (
                "25: a divisor that is a quotient by zero",
                quotient(lit(1), by_zero()),
                12,
            ),
            (
                "50: the first trouble from the left",
                shown(equal(by_zero(), over())),
                12,
            ),
            (
                "51: the first trouble from the left",
                shown(less(over(), by_zero())),
                11,
            ),
            (
                "2B: trouble in the condition",
                choice(zero_condition(), lit(1), lit(1)),
                12,
            ),
            (
                "2B: trouble in the chosen part",
                choice(wrong(), lit(1), over()),
                11,
            ),
            (
                "58: trouble in the first",
                shown(and(over_condition(), wrong())),
                11,
            ),
            (
                "58: trouble in the second after a first that holds",
                shown(and(right(), zero_condition())),
                12,
            ),
            (
                "59: trouble in the first",
                shown(or(zero_condition(), right())),
                12,
            ),
            (
                "59: trouble in the second after a first that fails",
                shown(or(wrong(), over_condition())),
                11,
            ),
            ("57: trouble in its part", shown(not(zero_condition())), 12),
        ],
    );
}

/// Variable 1 is the set {1, 2, 5} of 8, variable 2 the element 2 of 8; the table gives object k the weight 2^k.
fn eight() -> Build {
    let weights: Vec<i32> = (0..8).map(|object| 1 << object).collect();
    names()
        .set(8, 0b0010_0110)
        .element(8, NONE, 2)
        .table(8, 1, &weights)
}

/// The sum of the weights of the members.
fn members(set: Bytes) -> Bytes {
    entry_sum(0, set, obj(0))
}

fn sets(cases: &mut Cases) {
    let other = || set_lit(8, 0b1000_0111);
    for (note, expression, expected) in [
        ("41: a set variable", set(1), 0b0010_0110),
        ("42 of a new member", add(obj(7), set(1)), 0b1010_0110),
        ("42 of a member", add(elem(2), set(1)), 0b0010_0110),
        ("43 of a member", remove(elem(2), set(1)), 0b0010_0010),
        ("43 of another object", remove(obj(0), set(1)), 0b0010_0110),
        ("44: union", union(set(1), other()), 0b1010_0111),
        (
            "45: intersection",
            intersection(set(1), other()),
            0b0000_0110,
        ),
        (
            "46: first without second",
            without(set(1), other()),
            0b0010_0000,
        ),
        (
            "46: the other way round",
            without(other(), set(1)),
            0b1000_0001,
        ),
        (
            "47: complement within 8 objects",
            complement(set(1)),
            0b1101_1001,
        ),
        ("47 twice", complement(complement(set(1))), 0b0010_0110),
        (
            "42 of the complement of the union",
            add(elem(2), complement(union(set(1), other()))),
            0b0101_1100,
        ),
    ] {
        value(cases, note, eight(), members(expression), expected);
    }
    for (note, number, expected) in [
        (
            "29 of the complement within 8 objects",
            count(complement(set(1))),
            5,
        ),
        (
            "47 of all 8 objects is empty, of 7 is not",
            bits(&[
                empty(complement(set_lit(8, 0xFF))),
                empty(complement(set_lit(8, 0x7F))),
            ]),
            0b01,
        ),
    ] {
        value(cases, note, eight(), number, expected);
    }
    let full = || {
        names()
            .set(64, u64::MAX)
            .set(64, 1 << 63)
            .element(64, NONE, 63)
    };
    for (note, number, expected) in [
        ("29 of 64 members", count(set(1)), 64),
        ("29 of the empty set", count(without(set(1), set(1))), 0),
        (
            "29 of the complement of one of 64",
            count(complement(set(2))),
            63,
        ),
        (
            "47 of all 64 objects is empty",
            bits(&[empty(complement(set(1)))]),
            1,
        ),
        (
            "object 63: member, removed, added",
            bits(&[
                member(elem(3), set(2)),
                member(obj(63), remove(elem(3), set(1))),
                subset(add(elem(3), set_lit(64, 0)), set(2)),
                member(obj(62), set(2)),
            ]),
            0b0101,
        ),
    ] {
        value(cases, note, full(), number, expected);
    }
    let one = names().set(1, 0);
    value(
        cases,
        "29 of the complement of none of 1 object",
        one,
        count(complement(set(1))),
        1,
    );
}

fn conditions(cases: &mut Cases) {
    let three = |form: fn(Bytes, Bytes) -> Bytes| {
        bits(&[
            form(lit(-2), lit(1)),
            form(lit(1), lit(1)),
            form(lit(1), lit(-2)),
        ])
    };
    values(
        cases,
        vec![
            ("50 of less, equal, greater", three(equal), 0b010),
            ("51 of less, equal, greater", three(less), 0b001),
            ("52 of less, equal, greater", three(at_most), 0b011),
            (
                "51 at both ends of the range",
                bits(&[less(lit(MIN), lit(MAX)), less(lit(MAX), lit(MIN))]),
                0b01,
            ),
            (
                "57 of both",
                bits(&[not(less(lit(0), lit(1))), not(less(lit(1), lit(0)))]),
                0b10,
            ),
        ],
    );
    let truths = [less(lit(0), lit(1)), less(lit(1), lit(0))];
    let pairs = |form: fn(Bytes, Bytes) -> Bytes| {
        let pair = |place: usize| form(truths[place % 2].clone(), truths[place / 2].clone());
        bits(&[pair(0), pair(1), pair(2), pair(3)])
    };
    values(
        cases,
        vec![
            ("58 of all pairs", pairs(and), 0b0001),
            ("59 of all pairs", pairs(or), 0b0111),
        ],
    );
    for (note, number, expected) in [
        (
            "53: literals and variables",
            bits(&[
                same(elem(2), obj(2)),
                same(obj(3), elem(2)),
                same(obj(63), obj(63)),
            ]),
            0b101,
        ),
        (
            "54: members and others",
            bits(&[
                member(obj(5), set(1)),
                member(obj(0), set(1)),
                member(elem(2), set(1)),
            ]),
            0b101,
        ),
        (
            "55: empty or not",
            bits(&[
                empty(set(1)),
                empty(set_lit(8, 0)),
                empty(set_lit(64, 1 << 63)),
            ]),
            0b010,
        ),
        (
            "56: first inside second, equal, the other way round, apart",
            bits(&[
                subset(set_lit(8, 0b110), set(1)),
                subset(set(1), set(1)),
                subset(set(1), set_lit(8, 0b110)),
                subset(set_lit(8, 1), set(1)),
                subset(set_lit(8, 0), set_lit(8, 0)),
            ]),
            0b10011,
        ),
    ] {
        value(cases, note, eight(), number, expected);
    }
}

/// A table of one column, 0 but for the entries at these rows.
fn sparse(names: Build, rows: u8, entries: &[(usize, i32)]) -> Build {
    let mut column = vec![0; rows as usize];
    for &(row, entry) in entries {
        column[row] = entry;
    }
    names.table(rows, 1, &column)
}

/// 2A over objects below 32 and from 32 on: a half may leave the range, the total may not.
fn halves(cases: &mut Cases) {
    let over = |rows: u8, members: &[u8]| {
        let set = members.iter().fold(0, |set, member| set | 1 << member);
        entry_sum(0, set_lit(rows, set), obj(0))
    };
    for (note, entries, expected) in [
        (
            "2A: objects below 32 above the range, the others below it",
            [(0, MAX), (1, MAX), (40, -MAX), (41, -MAX)],
            0,
        ),
        (
            "2A: objects below 32 below the range, the others above it",
            [(0, -MAX), (1, -MAX), (40, MAX), (41, MAX)],
            0,
        ),
        (
            "2A: objects 30 to 33, the halves out of range",
            [(30, MAX), (31, MAX), (32, -MAX), (33, 5 - MAX)],
            5,
        ),
        (
            "2A: the lower half out of range, the total at the range's end",
            [(0, MAX), (1, MAX), (40, -MAX), (41, 0)],
            MAX,
        ),
        (
            "2A: both halves out of range, the total at the range's lower end",
            [(0, MAX), (1, 1), (40, MIN), (41, MIN)],
            MIN,
        ),
    ] {
        let members = entries.map(|(row, _)| row as u8);
        value(
            cases,
            note,
            sparse(names(), 42, &entries),
            over(42, &members),
            expected,
        );
    }
    for (note, entries) in [
        (
            "2A: the lower half out of range, the total one above it",
            [(0, MAX), (1, MAX), (40, -MAX), (41, 1)],
        ),
        (
            "2A: the lower half out of range, the total one below it",
            [(0, MIN), (1, MIN), (40, MAX), (41, 0)],
        ),
        (
            "2A: each half within the range, the total one above it",
            [(0, MAX), (1, 0), (40, 1), (41, 0)],
        ),
    ] {
        let members = entries.map(|(row, _)| row as u8);
        let model = one_step(sparse(names(), 42, &entries), over(42, &members));
        cases.check(note, model, &[0], 11, 0);
    }
    let halves: Vec<_> = (0..64)
        .map(|row| (row, if row < 32 { MAX } else { row as i32 - MAX }))
        .collect();
    value(
        cases,
        "2A: all 64 objects",
        sparse(names(), 64, &halves),
        over(64, &Vec::from_iter(0..64)),
        1_520,
    );
    value(
        cases,
        "2A: a set variable's members, the halves out of range",
        sparse(
            names().set(42, (3 << 40) | 3),
            42,
            &[(0, MAX), (1, MAX), (40, -MAX), (41, 7 - MAX)],
        ),
        entry_sum(0, set(1), obj(0)),
        7,
    );
}
