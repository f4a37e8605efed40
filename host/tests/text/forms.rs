//! Each form of the text and the bytes that it stands for.

use super::PRELUDE;
use repgypsum_host::build::*;
use repgypsum_host::text::assemble;

/// The bytes of the prelude.
fn prelude() -> Build {
    Build::new(SUM)
        .set(3, 0b110)
        .set(3, 0)
        .element(3, NONE, 0)
        .number(NONE, 0)
        .table(3, 3, &[0, 1, 2, 3, 4, 5, 6, 7, 8])
        .table(3, 1, &[1, 2, 3])
}

#[test]
fn number_forms() {
    let forms: Vec<(&str, Bytes)> = vec![
        ("-2147483648", lit(i32::MIN)),
        ("time", num(3)),
        ("number 3", num(3)),
        ("1 + time", sum(lit(1), num(3))),
        ("time - -1", difference(num(3), lit(-1))),
        ("time -1", difference(num(3), lit(1))),
        ("2 * time", product(lit(2), num(3))),
        ("time / 2", quotient(num(3), lit(2))),
        ("min(time, 2)", lesser(num(3), lit(2))),
        ("max(time, 2)", greater(num(3), lit(2))),
        ("far[at, west]", entry(0, elem(2), obj(2))),
        ("table 0[element 2, 2]", entry(0, elem(2), obj(2))),
        ("near[1]", entry(1, obj(1), obj(0))),
        ("near[at, home]", entry(1, elem(2), obj(0))),
        ("count(todo)", count(set(0))),
        ("sum(far[todo, west])", entry_sum(0, set(0), obj(2))),
        ("sum(table 1[set 1])", entry_sum(1, set(1), obj(0))),
        (
            "if at = home then 1 else 2 + 3",
            choice(same(elem(2), obj(0)), lit(1), sum(lit(2), lit(3))),
        ),
        ("1 - 2 - 3", difference(difference(lit(1), lit(2)), lit(3))),
        (
            "1 - (2 - 3)",
            difference(lit(1), difference(lit(2), lit(3))),
        ),
        ("1 + 2 * 3", sum(lit(1), product(lit(2), lit(3)))),
        ("((time))", num(3)),
    ];
    for (text, bytes) in forms {
        let assembled = assemble(&format!("{PRELUDE} bound {text}"));
        assert_eq!(assembled, Ok(prelude().bound(bytes).end()), "{text}");
    }
}

#[test]
fn set_forms() {
    let forms: Vec<(&str, Bytes)> = vec![
        ("{home, west}", set_lit(3, 0b101)),
        ("{home..west}", set_lit(3, 0b111)),
        ("{0, 2} of 3", set_lit(3, 0b101)),
        ("{} of node", set_lit(3, 0)),
        ("set 1", set(1)),
        ("done + at", add(elem(2), set(1))),
        ("done + 2", add(obj(2), set(1))),
        ("todo - east", remove(obj(1), set(0))),
        ("todo - object 1", remove(obj(1), set(0))),
        ("todo | done", union(set(0), set(1))),
        ("todo & done", intersection(set(0), set(1))),
        ("todo - done", without(set(0), set(1))),
        ("~todo", complement(set(0))),
        (
            "~todo - east | done & todo",
            union(
                remove(obj(1), complement(set(0))),
                intersection(set(1), set(0)),
            ),
        ),
        (
            "todo - done - east",
            remove(obj(1), without(set(0), set(1))),
        ),
        (
            "todo - (done - east)",
            without(set(0), remove(obj(1), set(1))),
        ),
    ];
    for (text, bytes) in forms {
        let assembled = assemble(&format!("{PRELUDE} transition: cost 0 done := {text}"));
        let due = prelude().transition(&[], lit(0), &[(1, bytes)]).end();
        assert_eq!(assembled, Ok(due), "{text}");
    }
}

#[test]
fn condition_forms() {
    let here = || same(elem(2), obj(0));
    let forms: Vec<(&str, Bytes)> = vec![
        ("time = 2", equal(num(3), lit(2))),
        ("1 = 2", equal(lit(1), lit(2))),
        ("time < 2", less(num(3), lit(2))),
        ("time <= 2", at_most(num(3), lit(2))),
        ("at = 0", here()),
        ("0 = at", same(obj(0), elem(2))),
        ("object 1 = 63", same(obj(1), obj(63))),
        ("home = 2", same(obj(0), obj(2))),
        ("at in todo", member(elem(2), set(0))),
        ("1 in todo - east", member(obj(1), remove(obj(1), set(0)))),
        ("empty(todo)", empty(set(0))),
        ("todo subset done", subset(set(0), set(1))),
        ("not at = home", not(here())),
        ("not not at = home", not(not(here()))),
        (
            "at = home and at = home and at = home",
            and(and(here(), here()), here()),
        ),
        (
            "at = home and (at = home and at = home)",
            and(here(), and(here(), here())),
        ),
        (
            "at = home or not at = home and at = home",
            or(here(), and(not(here()), here())),
        ),
        (
            "(at = home or at = home) and at = home",
            and(or(here(), here()), here()),
        ),
    ];
    for (text, bytes) in forms {
        let assembled = assemble(&format!("{PRELUDE} constraint {text}"));
        assert_eq!(assembled, Ok(prelude().constraint(bytes).end()), "{text}");
    }
}

#[test]
fn commands_without_names() {
    let text = "cost largest
        set of 64 = {0..63}  element of 2 = 1 prefer more  number = -2147483648 prefer less
        table [2, 1] = 5 / -6  table [1] = 7
        transition: cost 0
        transition: when empty(set 0) cost number 2 set 0 := {} of 64 number 2 := 3 element 1 := 0
        base:  base: when empty(set 0) when 1 in set 0
        constraint empty(set 0)  bound 1  bound 2";
    let bytes = Build::new(LARGEST)
        .set(64, u64::MAX)
        .element(2, MORE, 1)
        .number(LESS, i32::MIN)
        .table(2, 1, &[5, -6])
        .table(1, 1, &[7])
        .transition(&[], lit(0), &[])
        .transition(
            &[empty(set(0))],
            num(2),
            &[(0, set_lit(64, 0)), (2, lit(3)), (1, obj(0))],
        )
        .base(&[])
        .base(&[empty(set(0)), member(obj(1), set(0))])
        .constraint(empty(set(0)))
        .bound(lit(1))
        .bound(lit(2))
        .end();
    assert_eq!(assemble(text), Ok(bytes));
}
