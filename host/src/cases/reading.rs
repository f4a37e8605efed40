//! Reading: each refusal of a model by its bytes, and accepted models, through the plan check of the empty plan.

use super::{Call, Cases};
use crate::build::*;
use crate::generate::{damaged, model, Random};
use crate::models::three_designs;
use crate::numbers::refusal;

/// The damaged random models that are stored behind the chosen ones, by their places in a sequence. None is longer than 120 bytes,
/// and no answer has more than a quarter of them.
#[rustfmt::skip]
const STORED: [usize; 70] = [
    4, 10, 12, 21, 27, 28, 29, 34, 36, 48, 65, 71, 72, 73, 78, 79, 89, 91, 99, 114, 115,
    142, 146, 157, 160, 164, 165, 173, 196, 200, 208, 211, 214, 216, 224, 234, 235, 248,
    252, 256, 264, 270, 291, 302, 323, 364, 396, 402, 540, 548, 596, 627, 640, 728, 739,
    800, 814, 848, 882, 928, 972, 984, 1000, 1009, 1022, 1055, 1056, 1065, 1070, 1077,
];

/// The answer for a model that is read well and has no base state at the target.
const READ: u8 = refusal::NOT_A_PLAN;

fn list(cases: &mut Cases, entries: Vec<(&str, Bytes, u8)>) {
    for (note, model, answer) in entries {
        cases.check(note, model, &[], answer, 0);
    }
}

fn sum_rule() -> Build {
    Build::new(SUM)
}

/// A set of 4 as variable 0, an element of 4 as 1, a number as 2, and a table of 4 rows and 2 columns.
fn names() -> Build {
    sum_rule()
        .set(4, 0b0110)
        .element(4, NONE, 1)
        .number(NONE, 3)
        .table(4, 2, &[0, 1, 2, 3, 4, 5, 6, 7])
}

/// Set 0, element 1 and number 2, without the table.
fn variables() -> Build {
    sum_rule()
        .set(4, 0b0110)
        .element(4, NONE, 1)
        .number(NONE, 3)
}

fn numbers(count: usize) -> Build {
    (0..count).fold(sum_rule(), |build, _| build.number(NONE, 0))
}

/// A model cut behind these bytes.
fn cut(build: Build, bytes: &[u8]) -> Bytes {
    build.raw(bytes).bytes
}

/// A whole model with these bytes before its end command.
fn whole(build: Build, bytes: &[u8]) -> Bytes {
    build.raw(bytes).end()
}

pub fn cases() -> Vec<super::Case> {
    let mut cases = Cases::default();
    commands(&mut cases);
    sizes(&mut cases);
    transitions(&mut cases);
    accepted(&mut cases);
    kinds(&mut cases);
    operands(&mut cases);
    counts(&mut cases);
    nesting(&mut cases);
    random_damage(&mut cases);
    cases.0
}

fn commands(cases: &mut Cases) {
    list(
        cases,
        vec![
            ("empty input", vec![], 4),
            ("01 with its operand cut", vec![0x01], 4),
            ("cost rule 2", vec![0x01, 2, 0x0E], 7),
            ("no end command", vec![0x01, 0], 4),
            ("the shortest model", vec![0x01, 0, 0x0E], READ),
            (
                "the shortest model, largest rule",
                vec![0x01, 1, 0x0E],
                READ,
            ),
            ("no 01: the end command first", vec![0x0E], 5),
            (
                "no 01: a variable first",
                vec![0x04, 0, 0, 0, 0, 0, 0x0E],
                5,
            ),
            ("byte FF first", vec![0xFF], 5),
            ("a second 01", vec![0x01, 0, 0x01, 0, 0x0E], 5),
            ("a byte after the end", vec![0x01, 0, 0x0E, 0], 9),
            ("a second end command", vec![0x01, 0, 0x0E, 0x0E], 9),
            (
                "a fault before bytes after the end",
                vec![0x01, 0, 0x06, 0x0E, 0],
                5,
            ),
            (
                "an 06 without a table",
                vec![0x01, 0, 0x06, 0, 0, 0, 0, 0x0E],
                5,
            ),
            ("an 08 without a transition", vec![0x01, 0, 0x08, 0x0E], 5),
            ("an 09 without a transition", vec![0x01, 0, 0x09, 0x0E], 5),
            ("an 0A without a transition", vec![0x01, 0, 0x0A, 0x0E], 5),
            (
                "byte 0F where a command is due",
                vec![0x01, 0, 0x0F, 0x0E],
                5,
            ),
            ("exactly 65,536 bytes are read", vec![0; 65_536], 5),
            ("65,537 bytes", vec![0; 65_537], 1),
            ("02 without operands", cut(sum_rule(), &[0x02]), 4),
            (
                "02 with its members cut",
                cut(sum_rule(), &[0x02, 4, 0, 0, 0, 0, 0, 0, 0]),
                4,
            ),
            (
                "02 with count 0 and its members cut",
                cut(sum_rule(), &[0x02, 0]),
                4,
            ),
            ("a set of no objects", sum_rule().set(0, 0).end(), 7),
            (
                "a set of 64 objects, all in it",
                sum_rule().set(64, u64::MAX).end(),
                READ,
            ),
            ("a set of 65 objects", sum_rule().set(65, 0).end(), 7),
            (
                "a start member at the count",
                sum_rule().set(3, 0b1000).end(),
                7,
            ),
            (
                "every object a start member",
                sum_rule().set(3, 0b111).end(),
                READ,
            ),
            (
                "start member 63 of 63 objects",
                sum_rule().set(63, 1 << 63).end(),
                7,
            ),
            (
                "03 with its operands cut",
                cut(sum_rule(), &[0x03, 0, 3]),
                4,
            ),
            (
                "an element of no objects",
                sum_rule().element(0, NONE, 0).end(),
                7,
            ),
            (
                "an element of 64 objects, start 63",
                sum_rule().element(64, LESS, 63).end(),
                READ,
            ),
            (
                "an element of 65 objects",
                sum_rule().element(65, NONE, 0).end(),
                7,
            ),
            (
                "an element start at its count",
                sum_rule().element(4, NONE, 4).end(),
                7,
            ),
            ("element preference 3", sum_rule().element(4, 3, 0).end(), 7),
            (
                "element preference 2",
                sum_rule().element(4, MORE, 3).end(),
                READ,
            ),
            (
                "04 with its operands cut",
                cut(sum_rule(), &[0x04, 3, 0, 0, 0]),
                4,
            ),
            ("number preference 3", sum_rule().number(3, 0).end(), 7),
            (
                "number starts at both ends of the range",
                sum_rule()
                    .number(LESS, i32::MIN)
                    .number(MORE, i32::MAX)
                    .end(),
                READ,
            ),
            ("05 with its operands cut", cut(sum_rule(), &[0x05, 0]), 4),
            ("a table of no rows", whole(sum_rule(), &[0x05, 0, 1]), 7),
            (
                "a table of 65 columns",
                whole(sum_rule(), &[0x05, 1, 65]),
                7,
            ),
            (
                "a table of 64 rows",
                sum_rule().table(64, 1, &[-1; 64]).end(),
                READ,
            ),
            (
                "bytes end where an 06 is due",
                cut(sum_rule(), &[0x05, 1, 1]),
                4,
            ),
            (
                "an 06 with its operand cut",
                cut(sum_rule().table(1, 1, &[]), &[0x06, 0, 0, 0]),
                4,
            ),
            (
                "one 06 too few",
                sum_rule().table(2, 2, &[1, 2, 3]).end(),
                5,
            ),
            (
                "one 06 too many",
                sum_rule().table(2, 1, &[1, 2, 3]).end(),
                5,
            ),
            (
                "one 06 too many, its operand cut",
                cut(sum_rule().table(1, 1, &[1]), &[0x06, 0]),
                5,
            ),
            (
                "a table where an 06 is due",
                sum_rule().table(1, 1, &[]).table(1, 1, &[1]).end(),
                5,
            ),
            (
                "a variable after a table",
                sum_rule().table(1, 1, &[1]).number(NONE, 0).end(),
                5,
            ),
            (
                "a table after a transition",
                numbers(1)
                    .transition(&[], num(0), &[])
                    .table(1, 1, &[1])
                    .end(),
                5,
            ),
            (
                "a transition after a base case",
                numbers(1).base(&[]).transition(&[], num(0), &[]).end(),
                5,
            ),
            (
                "a base case after a constraint",
                numbers(1).constraint(less(num(0), num(0))).base(&[]).end(),
                5,
            ),
            (
                "a constraint after a bound",
                numbers(1)
                    .bound(num(0))
                    .constraint(less(num(0), num(0)))
                    .end(),
                5,
            ),
            ("0C without its condition", cut(sum_rule(), &[0x0C]), 4),
            ("0D without its number", cut(sum_rule(), &[0x0D]), 4),
            (
                "0D followed by the end command",
                whole(sum_rule(), &[0x0D]),
                5,
            ),
        ],
    );
    cases.check(
        "a base case without conditions holds",
        sum_rule().base(&[]).end(),
        &[],
        0,
        0,
    );
}

fn sizes(cases: &mut Cases) {
    let tables = |count| (0..count).fold(sum_rule(), |build, _| build.table(1, 1, &[1]));
    let steps = |count| (0..count).fold(numbers(1), |build, _| build.transition(&[], num(0), &[]));
    let condition = || empty(set(0));
    let a_set = || sum_rule().set(1, 0);
    let constraints = |count| (0..count).fold(a_set(), |build, _| build.constraint(condition()));
    let bounds = |count| (0..count).fold(numbers(1), |build, _| build.bound(num(0)));
    let base_cases = |count| {
        let never = less(num(0), num(0));
        let first = numbers(1).base(&[never]);
        (1..count).fold(first, |build, _| build.command(0x0B, &[]))
    };
    list(
        cases,
        vec![
            ("16 variables", numbers(16).end(), READ),
            (
                "the 17th variable, its operands cut",
                cut(numbers(16), &[0x04, 0, 0]),
                4,
            ),
            (
                "the 17th variable, a set, its operands cut",
                cut(numbers(16), &[0x02, 0]),
                4,
            ),
            ("the 17th variable, whole", numbers(17).end(), 7),
            ("32 tables", tables(32).end(), READ),
            (
                "the 33rd table before its entries",
                cut(tables(32), &[0x05, 1, 1]),
                7,
            ),
            (
                "the 33rd table, its operands cut",
                cut(tables(32), &[0x05, 1]),
                4,
            ),
            ("256 transitions", steps(256).end(), READ),
            (
                "the 257th transition at its byte",
                cut(steps(256), &[0x07]),
                7,
            ),
            (
                "16 conditions of a transition",
                a_set()
                    .transition(&vec![condition(); 16], lit(0), &[])
                    .end(),
                READ,
            ),
            (
                "the 17th condition of a transition at its byte",
                cut(
                    a_set()
                        .command(0x07, &[])
                        .conditions(&vec![condition(); 16]),
                    &[0x08],
                ),
                7,
            ),
            (
                "the 17th condition of a base case",
                a_set().base(&vec![condition(); 17]).end(),
                7,
            ),
            (
                "the 17th base case at its byte",
                cut(base_cases(16), &[0x0B]),
                7,
            ),
            ("32 constraints", constraints(32).end(), READ),
            (
                "the 33rd constraint before its condition",
                cut(constraints(32), &[0x0C, 0xFF]),
                7,
            ),
            ("8 bounds", bounds(8).end(), READ),
            (
                "the 9th bound before its number",
                cut(bounds(8), &[0x0D]),
                7,
            ),
        ],
    );
    cases.check("16 base cases", base_cases(16).end(), &[], 0, 0);
    let sixteen = a_set().base(&vec![condition(); 16]).end();
    cases.check("16 conditions of a base case", sixteen, &[], 0, 0);
}

fn transitions(cases: &mut Cases) {
    let begun = || numbers(1).command(0x07, &[]);
    let costed = || variables().command(0x07, &[]).command(0x09, &[&lit(0)]);
    let with = |effects: &[(u8, Bytes)]| variables().transition(&[], lit(0), effects);
    let sixteen: Vec<(u8, Bytes)> = (0..16).map(|variable| (variable, num(0))).collect();
    list(
        cases,
        vec![
            ("bytes end after 07", cut(begun(), &[]), 4),
            (
                "bytes end after a condition",
                cut(begun().conditions(&[less(num(0), num(0))]), &[]),
                4,
            ),
            ("a transition without an 09", whole(begun(), &[]), 5),
            (
                "a transition right after 07",
                whole(begun(), &[0x07, 0x09, 0x21, 0]),
                5,
            ),
            (
                "an 0A before the 09",
                whole(begun(), &[0x0A, 0, 0x21, 0]),
                5,
            ),
            (
                "a second 09",
                whole(begun(), &[0x09, 0x21, 0, 0x09, 0x21, 0]),
                5,
            ),
            (
                "an 08 after the 09",
                numbers(1)
                    .transition(&[], num(0), &[])
                    .conditions(&[less(num(0), num(0))])
                    .end(),
                5,
            ),
            (
                "an 08 after an 0A",
                with(&[(2, lit(1))]).conditions(&[empty(set(0))]).end(),
                5,
            ),
            (
                "an 08 after a constraint",
                variables()
                    .constraint(empty(set(0)))
                    .conditions(&[empty(set(0))])
                    .end(),
                5,
            ),
            ("0A without its variable", cut(costed(), &[0x0A]), 4),
            ("0A without its expression", cut(costed(), &[0x0A, 2]), 4),
            (
                "0A on an undeclared variable",
                whole(costed(), &[0x0A, 3, 0x20, 0, 0, 0, 0]),
                6,
            ),
            (
                "0A on an undeclared variable, nothing behind it",
                cut(costed(), &[0x0A, 255]),
                6,
            ),
            (
                "one effect for each kind",
                with(&[(2, lit(1)), (0, set_lit(4, 0)), (1, obj(3))]).end(),
                READ,
            ),
            (
                "a second effect on a variable",
                with(&[(2, lit(1)), (2, lit(1))]).end(),
                7,
            ),
            (
                "a second effect, nothing behind its variable",
                cut(with(&[(2, lit(1))]), &[0x0A, 2]),
                7,
            ),
            (
                "a second effect with an expression of the wrong kind",
                with(&[(0, set(0)), (1, obj(0)), (0, lit(1))]).end(),
                7,
            ),
            (
                "an undeclared variable after an effect",
                with(&[(2, lit(1)), (3, lit(1))]).end(),
                6,
            ),
            (
                "sixteen effects",
                numbers(16).transition(&[], num(0), &sixteen).end(),
                READ,
            ),
            (
                "after sixteen effects an undeclared variable",
                cut(numbers(16).transition(&[], num(0), &sixteen), &[0x0A, 16]),
                6,
            ),
            (
                "after sixteen effects a second one",
                cut(numbers(16).transition(&[], num(0), &sixteen), &[0x0A, 15]),
                7,
            ),
            (
                "a set variable given a number",
                with(&[(0, num(2))]).end(),
                6,
            ),
            (
                "an element variable given a set",
                with(&[(1, set(0))]).end(),
                6,
            ),
            (
                "a number variable given an element",
                with(&[(2, elem(1))]).end(),
                6,
            ),
            (
                "a number variable given a condition",
                with(&[(2, empty(set(0)))]).end(),
                6,
            ),
            (
                "an element literal at the variable's count",
                with(&[(1, obj(4))]).end(),
                6,
            ),
            (
                "an element variable with a greater count",
                sum_rule()
                    .element(3, NONE, 0)
                    .element(4, NONE, 0)
                    .transition(&[], lit(0), &[(0, elem(1))])
                    .end(),
                6,
            ),
            (
                "an element variable with a smaller count",
                sum_rule()
                    .element(3, NONE, 0)
                    .element(4, NONE, 0)
                    .transition(&[], lit(0), &[(1, elem(0))])
                    .end(),
                READ,
            ),
            (
                "a set of a smaller count for a set variable",
                with(&[(0, set_lit(3, 0))]).end(),
                6,
            ),
            (
                "a set of a greater count for a set variable",
                with(&[(0, set_lit(5, 0))]).end(),
                6,
            ),
            (
                "a set of another count whose second part is cut",
                cut(costed(), &[0x0A, 0, 0x44, 0x40, 3, 0, 0, 0, 0, 0, 0, 0, 0]),
                4,
            ),
        ],
    );
}

fn accepted(cases: &mut Cases) {
    let never = || less(lit(0), lit(0));
    list(
        cases,
        vec![
            (
                "20 to 27",
                variables()
                    .bound(sum(
                        difference(lit(-1), num(2)),
                        product(
                            quotient(num(2), lit(2)),
                            lesser(num(2), greater(num(2), lit(9))),
                        ),
                    ))
                    .end(),
                READ,
            ),
            (
                "28, 29 and 2A",
                names()
                    .bound(sum(
                        entry(0, elem(1), obj(1)),
                        sum(count(set(0)), entry_sum(0, set(0), obj(0))),
                    ))
                    .end(),
                READ,
            ),
            (
                "2B",
                variables().bound(choice(never(), num(2), lit(0))).end(),
                READ,
            ),
            (
                "30 and 31",
                variables().constraint(same(obj(63), elem(1))).end(),
                READ,
            ),
            (
                "40 to 43",
                variables()
                    .transition(&[], lit(0), &[(0, add(obj(3), remove(elem(1), set(0))))])
                    .constraint(empty(set_lit(64, u64::MAX)))
                    .end(),
                READ,
            ),
            (
                "44 to 47",
                variables()
                    .constraint(empty(union(
                        intersection(set(0), set_lit(4, 15)),
                        without(complement(set(0)), set(0)),
                    )))
                    .end(),
                READ,
            ),
            (
                "50 to 53",
                variables()
                    .base(&[
                        equal(num(2), lit(0)),
                        less(num(2), num(2)),
                        at_most(num(2), lit(-1)),
                        same(elem(1), elem(1)),
                    ])
                    .end(),
                READ,
            ),
            (
                "54 to 59",
                variables()
                    .base(&[
                        member(elem(1), set(0)),
                        not(empty(set(0))),
                        and(subset(set(0), set(0)), or(never(), never())),
                    ])
                    .end(),
                READ,
            ),
            ("the three designs", three_designs(), READ),
        ],
    );
}

/// Where an expression of each kind is due: the bytes up to it.
fn due(kind: &str) -> Build {
    match kind {
        "number" => variables().raw(&[0x0D]),
        "element" => variables().raw(&[0x0C, 0x53]),
        "set" => variables().raw(&[0x0C, 0x55]),
        _ => variables().raw(&[0x0C]),
    }
}

fn kinds(cases: &mut Cases) {
    let numbers = 0x20..=0x2B;
    let elements = 0x30..=0x31;
    let sets = 0x40..=0x47;
    let conditions = 0x50..=0x59;
    let whole_parts = |byte: u8| -> Bytes {
        match byte {
            0x20 => lit(1),
            0x21 => num(2),
            0x30 => obj(0),
            0x31 => elem(1),
            0x40 => set_lit(4, 0),
            0x41 => set(0),
            _ => vec![byte],
        }
    };
    let others = ["number", "element", "set", "condition"];
    for (own, bytes) in [
        ("number", numbers),
        ("element", elements),
        ("set", sets),
        ("condition", conditions),
    ] {
        for byte in bytes {
            let wrong: Vec<&str> = others.iter().copied().filter(|kind| *kind != own).collect();
            let kind = wrong[usize::from(byte) % wrong.len()];
            let note = format!("{byte:02X} where the kind due is {kind}");
            cases.check(&note, cut(due(kind), &whole_parts(byte)), &[], 6, 0);
        }
    }
    for (place, byte) in [
        0x00, 0x07, 0x1F, 0x2C, 0x2F, 0x32, 0x3F, 0x48, 0x4F, 0x5A, 0x60, 0xFF,
    ]
    .into_iter()
    .enumerate()
    {
        let kind = others[place % others.len()];
        let note = format!("{byte:02X}, no expression, where the kind due is {kind}");
        cases.check(&note, cut(due(kind), &[byte]), &[], 5, 0);
    }
    list(
        cases,
        vec![
            (
                "the wrong kind, operands of 20 cut",
                cut(due("set"), &[0x20, 0]),
                6,
            ),
            (
                "the wrong kind, operand of 28 cut",
                cut(due("condition"), &[0x28]),
                6,
            ),
            (
                "the wrong kind, operand of 30 cut",
                cut(due("number"), &[0x30]),
                6,
            ),
            (
                "the wrong kind, operands of 40 cut",
                cut(due("number"), &[0x40, 0]),
                6,
            ),
            (
                "the wrong kind, element literal 64",
                cut(due("number"), &[0x30, 64]),
                6,
            ),
            (
                "the wrong kind, element literal 255",
                whole(due("condition"), &[0x30, 255]),
                6,
            ),
            (
                "the wrong kind, set literal of no objects",
                whole(due("number"), &set_lit(0, 0)),
                6,
            ),
            (
                "the wrong kind, undeclared variable",
                whole(due("element"), &num(9)),
                6,
            ),
        ],
    );
}

fn operands(cases: &mut Cases) {
    list(
        cases,
        vec![
            (
                "20 with its operand cut",
                cut(due("number"), &[0x20, 1, 2, 3]),
                4,
            ),
            ("21 with its operand cut", cut(due("number"), &[0x21]), 4),
            ("28 with its operand cut", cut(due("number"), &[0x28]), 4),
            ("2A with its operand cut", cut(due("number"), &[0x2A]), 4),
            ("30 with its operand cut", cut(due("element"), &[0x30]), 4),
            ("31 with its operand cut", cut(due("element"), &[0x31]), 4),
            ("40 with its operands cut", cut(due("set"), &[0x40]), 4),
            (
                "40 with count 0 and its members cut, 4 not 7",
                cut(due("set"), &[0x40, 0]),
                4,
            ),
            (
                "40 with count 65 and one byte of members cut",
                cut(due("set"), &[0x40, 65, 0, 0, 0, 0, 0, 0, 0]),
                4,
            ),
            ("41 with its operand cut", cut(due("set"), &[0x41]), 4),
            (
                "22 with its second part missing",
                cut(due("number"), &[0x22, 0x21, 2]),
                4,
            ),
            (
                "a set literal of no objects",
                whole(due("set"), &set_lit(0, 0)),
                7,
            ),
            (
                "a set literal of 65 objects",
                whole(due("set"), &set_lit(65, 0)),
                7,
            ),
            (
                "a set literal with a member at its count",
                whole(due("set"), &set_lit(4, 16)),
                7,
            ),
            (
                "an element literal of 64",
                cut(due("element"), &[0x30, 64]),
                7,
            ),
            (
                "21 of an undeclared variable",
                cut(due("number"), &num(3)),
                6,
            ),
            ("21 of a set variable", whole(due("number"), &num(0)), 6),
            (
                "21 of an element variable",
                whole(due("number"), &num(1)),
                6,
            ),
            ("31 of a number variable", cut(due("element"), &elem(2)), 6),
            ("31 of a set variable", cut(due("element"), &elem(0)), 6),
            ("31 of variable 255", cut(due("element"), &elem(255)), 6),
            ("41 of an element variable", whole(due("set"), &set(1)), 6),
            (
                "41 of an undeclared variable",
                whole(due("set"), &set(16)),
                6,
            ),
            (
                "28 of an undeclared table, its parts cut",
                cut(due("number"), &[0x28, 0]),
                6,
            ),
            (
                "28 of an undeclared table before garbage",
                cut(names(), &[0x0D, 0x28, 1, 0xFF]),
                6,
            ),
            (
                "2A of an undeclared table, its parts cut",
                cut(names(), &[0x0D, 0x2A, 1]),
                6,
            ),
            (
                "28 of an undeclared table before an element literal 64",
                cut(names(), &[0x0D, 0x28, 1, 0x30, 64]),
                6,
            ),
        ],
    );
}

fn counts(cases: &mut Cases) {
    let bound = |number: Bytes| names().bound(number).end();
    let rule = |condition: Bytes| names().constraint(condition).end();
    let two = |byte: u8, second: &[u8]| {
        let first = set_lit(3, 0);
        cut(names(), &[&[0x0C, 0x55, byte], &first[..], second].concat())
    };
    list(
        cases,
        vec![
            (
                "28 with a row beyond the table",
                bound(entry(0, obj(4), obj(1))),
                6,
            ),
            (
                "28 with a column beyond the table",
                bound(entry(0, obj(3), obj(2))),
                6,
            ),
            (
                "28 with a column of greater count",
                bound(entry(0, obj(0), elem(1))),
                6,
            ),
            (
                "28 at the table's last entry",
                bound(entry(0, obj(3), obj(1))),
                READ,
            ),
            (
                "28: a row that does not fit, then garbage",
                cut(names(), &[0x0D, 0x28, 0, 0x30, 4, 0xFF]),
                5,
            ),
            (
                "28: a row that does not fit, then no byte",
                cut(names(), &[0x0D, 0x28, 0, 0x30, 4]),
                4,
            ),
            (
                "28: a row that does not fit, then literal 64",
                cut(names(), &[0x0D, 0x28, 0, 0x30, 4, 0x30, 64]),
                7,
            ),
            (
                "2A with a set of greater count",
                bound(entry_sum(0, set_lit(5, 0), obj(0))),
                6,
            ),
            (
                "2A with a set of smaller count",
                bound(entry_sum(0, set_lit(3, 0), obj(0))),
                READ,
            ),
            (
                "2A with a column beyond the table",
                bound(entry_sum(0, set(0), obj(2))),
                6,
            ),
            (
                "2A: a set that does not fit, then garbage",
                cut(
                    names(),
                    &[&[0x0D, 0x2A, 0][..], &set_lit(5, 0), &[0x00]].concat(),
                ),
                5,
            ),
            (
                "42 with an element at the set's count",
                rule(empty(add(obj(4), set(0)))),
                6,
            ),
            (
                "42 with an element variable of greater count",
                rule(empty(add(elem(1), set_lit(3, 0)))),
                6,
            ),
            (
                "43 with an element at the set's count",
                rule(empty(remove(obj(4), set(0)))),
                6,
            ),
            (
                "43: an element that fits no set, then no byte",
                cut(names(), &[0x0C, 0x55, 0x43, 0x30, 63]),
                4,
            ),
            (
                "44 with unequal counts",
                rule(empty(union(set(0), set_lit(3, 0)))),
                6,
            ),
            (
                "45 with unequal counts",
                rule(empty(intersection(set_lit(5, 0), set(0)))),
                6,
            ),
            (
                "46 with unequal counts",
                rule(empty(without(set(0), set_lit(64, 0)))),
                6,
            ),
            (
                "44: unequal counts, the second part cut",
                two(0x44, &[0x41]),
                4,
            ),
            (
                "45: unequal counts, the second part undeclared",
                two(0x45, &[0x41, 7]),
                6,
            ),
            (
                "46: unequal counts, the second part no expression",
                two(0x46, &[0x0E]),
                5,
            ),
            (
                "the count of 42 to 47 is their part's",
                rule(subset(
                    complement(add(obj(0), remove(obj(1), set(0)))),
                    union(set(0), set(0)),
                )),
                READ,
            ),
            (
                "the count of 47 is not the variable's",
                rule(subset(complement(set_lit(5, 0)), set(0))),
                6,
            ),
            (
                "54 with an element at the set's count",
                rule(member(obj(4), set(0))),
                6,
            ),
            (
                "54: an element that fits no set, then a wrong kind",
                cut(names(), &[0x0C, 0x54, 0x30, 63, 0x21, 2]),
                6,
            ),
            (
                "54: an element that fits no set, then a literal outside its limits",
                cut(
                    names(),
                    &[&[0x0C, 0x54, 0x30, 9][..], &set_lit(4, 16)].concat(),
                ),
                7,
            ),
            (
                "56 with unequal counts",
                rule(subset(set_lit(4, 0), set_lit(5, 0))),
                6,
            ),
            (
                "53 asks nothing of counts",
                rule(same(obj(63), elem(1))),
                READ,
            ),
        ],
    );
}

/// A chain of `depth` expressions: 57 down to a 55, then a set variable.
fn chain(depth: usize) -> Bytes {
    [&vec![0x57; depth - 2][..], &empty(set(0))].concat()
}

fn nesting(cases: &mut Cases) {
    let deep = |byte: u8, count: usize, rest: &[u8]| [&vec![byte; count][..], rest].concat();
    let effect = |value: Bytes| variables().transition(&[], lit(0), &[(0, value)]).end();
    let sums = |count: usize| (0..count).fold(num(2), |inner, _| sum(num(2), inner));
    list(
        cases,
        vec![
            (
                "a condition of depth 32",
                variables().constraint(chain(32)).end(),
                READ,
            ),
            (
                "a condition of depth 33",
                variables().constraint(chain(33)).end(),
                8,
            ),
            ("depth 33 in an 08", variables().base(&[chain(33)]).end(), 8),
            ("a set of depth 32", effect(deep(0x47, 31, &set(0))), READ),
            ("a set of depth 33", effect(deep(0x47, 32, &set(0))), 8),
            (
                "a number of depth 32",
                variables().bound(sums(31)).end(),
                READ,
            ),
            ("a number of depth 33", variables().bound(sums(32)).end(), 8),
            (
                "elements at depth 32",
                variables()
                    .constraint(deep(0x57, 30, &same(obj(0), elem(1))))
                    .end(),
                READ,
            ),
            (
                "elements at depth 33",
                variables()
                    .constraint(deep(0x57, 31, &same(obj(0), elem(1))))
                    .end(),
                8,
            ),
            (
                "depth 33 through 2B",
                variables().bound(choice(chain(32), lit(0), lit(0))).end(),
                8,
            ),
            (
                "depth 32 through 2B",
                variables().bound(choice(chain(31), lit(0), lit(0))).end(),
                READ,
            ),
            (
                "no byte at depth 33",
                cut(variables().raw(&[0x0C]), &deep(0x57, 32, &[])),
                4,
            ),
            (
                "garbage at depth 33",
                whole(variables().raw(&[0x0C]), &deep(0x57, 32, &[0xFF])),
                8,
            ),
            (
                "the end command at depth 33",
                whole(variables().raw(&[0x0C]), &deep(0x57, 32, &[])),
                8,
            ),
            (
                "the wrong kind at depth 33",
                whole(variables().raw(&[0x0C]), &deep(0x57, 32, &[0x20])),
                8,
            ),
            (
                "a cut literal at depth 33",
                cut(
                    variables().raw(&[0x0D]),
                    &[&[0x29][..], &deep(0x47, 31, &[0x40, 0])].concat(),
                ),
                8,
            ),
            (
                "no byte at depth 33 of a set",
                cut(
                    variables().raw(&[0x0D]),
                    &[&[0x29][..], &deep(0x47, 31, &[])].concat(),
                ),
                4,
            ),
            (
                "no byte at depth 32",
                cut(variables().raw(&[0x0C]), &deep(0x57, 31, &[])),
                4,
            ),
            (
                "garbage at depth 32",
                cut(variables().raw(&[0x0C]), &deep(0x57, 31, &[0x99])),
                5,
            ),
            (
                "depth begins again in each command",
                variables()
                    .constraint(chain(32))
                    .constraint(chain(32))
                    .end(),
                READ,
            ),
        ],
    );
}

fn random_damage(cases: &mut Cases) {
    let mut random = Random::new(0xDA3A6E);
    cases.add_random(&STORED, || {
        let build = model(&mut random);
        let model = damaged(&mut random, &build);
        let plan = Vec::new();
        Call::Check { model, plan }
    });
}
