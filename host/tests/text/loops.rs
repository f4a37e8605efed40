//! Loops, constants and signs that stand for others: each text beside the plain text that it stands for.

use super::{round_trip, PRELUDE};
use repgypsum_host::build::*;
use repgypsum_host::text::{assemble, assemble_text, names};

/// The commands behind the prelude give the same bytes, the second without what is tried.
fn same(text: &str, plain: &str) {
    let bytes = |text: &str| {
        let whole = format!("{PRELUDE}{text}");
        let assembled = assemble_text(&whole).unwrap_or_else(|error| panic!("{text}: {error}"));
        let again = assemble(&assembled.plain);
        let again = again.unwrap_or_else(|error| panic!("{error}\n{}", assembled.plain));
        assert_eq!(assembled.bytes, again, "{text}");
        assert!(round_trip(&again));
        again
    };
    assert_eq!(bytes(text), bytes(plain), "{text}\n{plain}");
}

#[test]
fn signs() {
    same("constraint time > 1", "constraint 1 < time");
    same("constraint time >= 1 + 2", "constraint 1 + 2 <= time");
    same("constraint at != home", "constraint not at = home");
    same(
        "constraint time != 1 and time > 3",
        "constraint not time = 1 and 3 < time",
    );
    same("bound -time", "bound 0 - time");
    same("bound 3 - -time * 2", "bound 3 - (0 - time) * 2");
    same("bound -(time + 1)", "bound 0 - (time + 1)");
    same("bound --time", "bound 0 - (0 - time)");
    same("bound - 3", "bound -3");
}

#[test]
fn constants() {
    same(
        "constant most = 9 constraint time <= most",
        "constraint time <= 9",
    );
    same("constant least = -3 bound least + -least", "bound -3 + 3");
    same("constant two = 2 bound near[two]", "bound near[2]");
    same("constant wide[node] = 7 8 9 bound wide[east]", "bound 8");
    same(
        "constant wide[node, 2] = 1 2 / 3 4 / 5 6 bound sum j in node: wide[j, 1]",
        "bound 2 + (4 + 6)",
    );
    same(
        "constant wide[3] = 7 8 9\nfor j in 0..2:\n  bound wide[j]",
        "bound 7 bound 8 bound 9",
    );
    let started =
        "cost sum constant n = 3 constant k = 2 set s of n = {0, k} number x = -n bound x";
    let plain = "cost sum set s of 3 = {0, 2} number x = -3 bound x";
    assert_eq!(assemble(started).unwrap(), assemble(plain).unwrap());
}

#[test]
fn balanced_trees() {
    let parts = |count: usize| {
        let text = format!("{PRELUDE}bound sum k in 1..{count}: time * k");
        assemble(&text).unwrap()
    };
    let term = |k| product(num(3), lit(k));
    let three = sum(term(1), sum(term(2), term(3)));
    assert!(parts(3).ends_with(&[&[0x0D][..], &three, &[0x0E]].concat()));
    let five = sum(sum(term(1), term(2)), sum(term(3), sum(term(4), term(5))));
    assert!(parts(5).ends_with(&[&[0x0D][..], &five, &[0x0E]].concat()));
    // 7,000 parts are nested 15 deep; a chain of 33 is refused.
    assert!(round_trip(&parts(7_000)));
    same(
        "constraint forall j in node: j in todo",
        "constraint home in todo and (east in todo and west in todo)",
    );
    same(
        "constraint exists j in node - home: j in todo or j = at",
        "constraint (east in todo or east = at) or (west in todo or west = at)",
    );
    same(
        "bound max j in node: far[at, j] + 1",
        "bound max(far[at, home] + 1, max(far[at, east] + 1, far[at, west] + 1))",
    );
    same(
        "bound min j in {west, home}: near[j]",
        "bound min(near[west], near[home])",
    );
    same(
        "bound max(1, 2, 3, 4, 5)",
        "bound max(max(1, 2), max(3, max(4, 5)))",
    );
    same("bound min(time, 2, 3)", "bound min(time, min(2, 3))");
    same("bound sum j in node: 5", "bound 5 + (5 + 5)");
    same(
        "constraint forall j in node - node: j in todo",
        "constraint empty({} of 1)",
    );
    same(
        "constraint exists j in {}: j in todo",
        "constraint not empty({} of 1)",
    );
    same("bound sum j in {}: near[j]", "bound 0");
}

#[test]
fn ranges() {
    same(
        "bound sum j in east..west: near[j]",
        "bound near[east] + near[west]",
    );
    same(
        "bound sum j in {home..east, 2}: near[j]",
        "bound near[home] + (near[east] + near[2])",
    );
    same(
        "bound sum j in node - home - {west}: near[j]",
        "bound near[east]",
    );
    same(
        "bound sum j in node - 0: near[j]",
        "bound near[east] + near[west]",
    );
    same(
        "bound sum j in node - east..west: near[j]",
        "bound near[home]",
    );
    same(
        "bound sum i in node, j in node - i: far[i, j]",
        "bound (far[home, east] + (far[home, west] + far[east, home]))
            + (far[east, west] + (far[west, home] + far[west, east]))",
    );
    same(
        "bound sum i in 1..2: sum j in 1..i: i * j",
        "bound 1 * 1 + (2 * 1 + 2 * 2)",
    );
    same(
        "constraint empty(todo - {east..west})",
        "constraint empty(todo - {east, west})",
    );
    same(
        "constraint forall j in node - home: empty(todo & {home..j})",
        "constraint empty(todo & {home..east}) and empty(todo & {home..west})",
    );
}

/// Loops around commands and around their parts, with the lines that they end at.
#[test]
fn loops_of_commands() {
    let looped = "
for j in node - home:
    transition go j:
        when j in todo
        cost far[at, j]
        at := j
        todo := todo - j
for j in node, k in 1..2: transition turn j k:
        for i in node - j:
            when i in todo
        cost k
        for v in {todo, done}: v := v + j
        for n in 3..3: number n := number n + k
base:
    for j in node: when j in done
for j in node - home: base: when j = at
for j in node:
    constraint j in done
    constraint j in todo
for j in node: bound near[j]
";
    let mut plain = String::new();
    for j in ["east", "west"] {
        plain += &format!(
            "transition go {j}: when {j} in todo cost far[at, {j}] at := {j} todo := todo - {j}\n"
        );
    }
    for (j, others) in [
        ("home", ["east", "west"]),
        ("east", ["home", "west"]),
        ("west", ["home", "east"]),
    ] {
        for k in 1..=2 {
            plain += &format!(
                "transition turn {j} {k}: when {} in todo when {} in todo cost {k}\n",
                others[0], others[1]
            );
            plain += &format!("todo := todo + {j} done := done + {j} time := time + {k}\n");
        }
    }
    plain += "base: when home in done when east in done when west in done base: when east = at base: when west = at\n";
    for j in ["home", "east", "west"] {
        plain += &format!("constraint {j} in done constraint {j} in todo\n");
    }
    plain += "bound near[home] bound near[east] bound near[west]\n";
    same(looped, &plain);
    let labels = names(&format!("{PRELUDE}{looped}")).unwrap().transitions;
    assert_eq!(labels[0].as_deref(), Some("go east"));
    assert_eq!(labels[7].as_deref(), Some("turn west 2"));
}

#[test]
fn wrong_loops() {
    let told = [
        ("for j in node:\nbase: when j in todo", "line 4, column 1: the loop repeats nothing: what it repeats begins further to the right than its line"),
        ("for j in node:\n  number x = 1", "line 5, column 3: a loop repeats transitions, base cases, constraints or bounds"),
        ("for j in node:\n  base: when j in todo\n  bound 1", "line 6, column 3: a loop repeats commands of one kind: this begins another loop"),
        ("for j in node:\n  transition go: cost 1", "line 5, column 14: `go` is already the name of a transition"),
        ("for j in 1..2:\n  transition j: cost 1", "line 5, column 3: a transition's name begins with a letter"),
        ("for j in nodes:\n  bound near[j]", "line 4, column 10: `nodes` is not declared"),
        ("bound sum(j in node: near[j])", "line 4, column 11: a loop is written `sum j in group: x`, in parentheses as a whole where it is an operand"),
        ("bound max(j in node: near[j])", "line 4, column 11: a loop is written `max j in group: x`, in parentheses as a whole where it is an operand"),
        ("bound forall(j in node)", "line 4, column 13: expected a name for what the loop goes over, found `(`"),
        ("for j in node\n  bound near[j]", "line 5, column 3: expected `-`, `,` or `:`, found `bound`"),
        ("for k in 7..9:\n  bound number k", "line 5, column 16: variable 7 is not declared"),
        ("for k in node:\n  bound number k", "line 5, column 16: `k` is no number: the loop goes over names"),
        ("constant near = 3", "line 4, column 10: `near` is already the name of a table"),
        ("constant c[node] = 1 2 3 bound c[at]", "line 4, column 34: a constant's entry is at an object that is known before the run; `at` is a variable: a table can be read there"),
        ("constant c[node] = 1 2 3 bound c[3]", "line 4, column 34: an index of 4 objects does not fit 3 rows"),
        ("constant c[node] = 1 2 bound c[1]", "line 4, column 1: entries in this list: 2; due: 3"),
        ("constant c[node] = 1 2 3 bound sum(c[todo])", "line 4, column 36: `c` is a constant: the members of a set are not known before the run; declare it as a table"),
        ("constant c[node] = 1 2 3 bound c", "line 4, column 32: `c` is a table: its entries are written `c[object]`"),
    ];
    for (text, message) in told {
        match assemble(&format!("{PRELUDE}{text}")) {
            Ok(_) => panic!("{text} assembles"),
            Err(error) => assert_eq!(error.to_string(), message, "{text}"),
        }
    }
}
