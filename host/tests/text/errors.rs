//! Wrong texts, with what is said about them and where.

use super::PRELUDE;
use repgypsum_host::text::assemble;

/// The error of a text as it is printed.
pub fn complaint(text: &str) -> String {
    match assemble(text) {
        Ok(bytes) => panic!("{text}\nassembles to {} bytes", bytes.len()),
        Err(error) => error.to_string(),
    }
}

#[test]
fn errors_of_whole_texts() {
    let told = [
        ("", "line 1, column 1: expected `cost sum` or `cost largest`, found the end of the text"),
        ("# nothing\n  set s of 2 = {}", "line 2, column 3: expected `cost sum` or `cost largest`, found `set`"),
        ("cost most", "line 1, column 6: expected `sum` or `largest`, found `most`"),
        ("cost sum\ncost sum", "line 2, column 1: the cost rule stands once, at the front"),
        ("cost sum\nset s = {1}", "line 2, column 7: expected `of`, found `=`"),
        ("cost sum\nset s of 65 = {}", "line 2, column 10: an object count is 1 to 64, not 65"),
        ("cost sum\nset s of 0 = {}", "line 2, column 10: an object count is 1 to 64, not 0"),
        ("cost sum\nset s of 3 = {0, 3}", "line 2, column 18: object 3 is not below the object count 3"),
        ("cost sum\nset s of 3 = {0 1}", "line 2, column 17: expected `,` or `}`, found `1`"),
        ("cost sum\nset s of 3 = {0..2, 1}", "line 2, column 21: object 1 is a member already"),
        ("cost sum\nset s of 3 = {2..0}", "line 2, column 15: the run from object 2 to object 0 goes backwards"),
        ("cost sum\nelement e of 3 = 3", "line 2, column 18: object 3 is not below the object count 3"),
        ("cost sum\nelement e of 3 = 64", "line 2, column 18: an object's number is 0 to 63, not 64"),
        ("cost sum\nnumber n = 2147483648", "line 2, column 12: a number lies between -2147483648 and 2147483647"),
        ("cost sum\nnumber n = 99999999999999999999", "line 2, column 12: a number lies between -2147483648 and 2147483647"),
        ("cost sum\nnumber n = 1 prefer most", "line 2, column 21: expected `less` or `more`, found `most`"),
        ("cost sum\nnumber n = 1.5", "line 2, column 13: no word, number or symbol begins with `.`"),
        ("cost sum\nnumber n = 1\nelement n of 2 = 0", "line 3, column 9: `n` is already the name of a variable"),
        ("cost sum\nobjects set = a b", "line 2, column 9: expected a name for the group of objects; `set` is a word of the language"),
        ("cost sum\nobjects o = a b a", "line 2, column 17: `a` is already the name of an object"),
        ("cost sum\nobjects o = a 2b", "line 2, column 15: a name begins with a letter"),
        ("cost sum\nelement e of tasks = 0", "line 2, column 14: `tasks` is not declared"),
        ("cost sum\ntable t[2, 2] = 1 2 / 3", "line 2, column 23: entries in this row: 1; due: 2"),
        ("cost sum\ntable t[2, 2] = 1 2", "line 2, column 1: rows in this table: 1; due: 2"),
        ("cost sum\ntable t[1, 2] = 1 2 / 3 4", "line 2, column 23: the table has 1 rows, and this is one more"),
        ("cost sum\ntable t[3] = 1 2", "line 2, column 1: entries in this list: 2; due: 3"),
        ("cost sum\ntable t[2] = 1 / 2", "line 2, column 18: a table with one side is a list: it has no `/`"),
        ("cost sum\ntable t[1] = 1\nnumber n = 0", "line 3, column 1: variables stand before tables"),
        ("cost sum\nbase:\n  when", "line 3, column 7: expected an expression, found the end of the text"),
        ("cost sum\nbase:\n  cost 1", "line 3, column 3: the cost rule stands once, at the front"),
        ("cost sum\ntransition go:\n  when 1 = 1", "line 3, column 13: expected `when` or `cost`, found the end of the text"),
        ("cost sum\ntransition go cost 1", "line 2, column 15: expected `:`, found `cost`"),
        ("cost sum\ntransition go:\n cost 1\n when 1 = 1", "line 4, column 2: conditions stand before the cost"),
        ("cost sum\ntransition go: cost 1\ntransition go: cost 1", "line 3, column 12: `go` is already the name of a transition"),
        ("cost sum\nbound 1 bound 2 ?", "line 2, column 17: no word, number or symbol begins with `?`"),
        ("cost sum\nbound 1 2", "line 2, column 9: expected a command or the end of the text, found `2`"),
        ("cost sum\nbound näher + 1", "line 2, column 7: `näher` is not declared"),
        ("cost sum\n# ü\nbound (1 ü", "line 3, column 10: expected `)`, found `ü`"),
    ];
    for (text, message) in told {
        assert_eq!(complaint(text), message, "{text}");
    }
}

/// Errors of a command on line 4, behind the prelude.
#[test]
fn errors_of_expressions() {
    let told = [
        ("bound tim", "column 7: `tim` is not declared"),
        ("bound todo", "column 7: expected a number, found a set"),
        (
            "bound far",
            "column 7: `far` is a table: its entries are written `far[row, column]`",
        ),
        (
            "bound node",
            "column 7: `node` is a group of objects, not an expression",
        ),
        (
            "bound at + 1",
            "column 7: expected a number, found an element",
        ),
        ("bound todo - 1", "column 7: expected a number, found a set"),
        (
            "bound time < 1",
            "column 7: expected a number, found a condition",
        ),
        (
            "bound -at",
            "column 8: expected a number, found an element",
        ),
        (
            "bound abs(time)",
            "column 7: `abs` is no function; `abs(x)` is written `max(x, -x)`",
        ),
        (
            "bound 1 + forall j in node: j in todo",
            "column 11: expected an operand; parentheses go around `forall`, found `forall`",
        ),
        (
            "bound forall j in node: j in todo",
            "column 7: expected a number, found a condition",
        ),
        (
            "bound max j in {}: 1",
            "column 7: the loop goes over nothing, which has no greatest or least",
        ),
        (
            "bound sum at in node: 1",
            "column 11: `at` is a variable: a loop needs a name of its own",
        ),
        (
            "bound sum j in node, j in node: 1",
            "column 22: `j` is the variable of a loop around this one",
        ),
        (
            "bound sum j in home: 1",
            "column 16: a loop goes over a group of objects, a set in braces or a run; `home` is none",
        ),
        (
            "bound sum j in 3..1: 1",
            "column 16: the run from `3` to `1` goes backwards",
        ),
        (
            "bound sum j in home..1: 1",
            "column 16: a run goes over numbers or over the objects of one group, not from `home` to `1`",
        ),
        (
            "bound sum j in {home, 0}: 1",
            "column 23: `0` is a member already",
        ),
        (
            "bound sum i in 1..999: sum j in 1..999: 1",
            "column 28: the loops stand for more than 262144 parts, more than a model can have",
        ),
        (
            "bound sum j in node 1",
            "column 21: expected `-`, `,` or `:`, found `1`",
        ),
        ("bound element j", "column 15: expected a variable's number, found `j`"),
        (
            "bound 1 + if at = home then 1 else 2",
            "column 11: expected an operand; parentheses go around `if`, found `if`",
        ),
        (
            "bound if at = home then 1",
            "column 26: expected `else`, found the end of the text",
        ),
        (
            "bound far[at]",
            "column 7: a column is due: the table has 3 columns",
        ),
        (
            "bound far[at, 3]",
            "column 15: an index of 4 objects does not fit 3 columns",
        ),
        (
            "bound far[3, at]",
            "column 11: an index of 4 objects does not fit 3 rows",
        ),
        (
            "bound far[todo, at]",
            "column 11: the entries at the rows of a set are written `sum(table[set, column])`",
        ),
        (
            "bound sum(far[at, at])",
            "column 15: expected a set, found an element",
        ),
        (
            "bound sum(far[{} of 4, at])",
            "column 15: an index of 4 objects does not fit 3 rows",
        ),
        (
            "bound todo[1, 2]",
            "column 7: expected a table, `todo` is a variable",
        ),
        ("bound table 2[1]", "column 13: table 2 is not declared"),
        ("bound number 9", "column 14: variable 9 is not declared"),
        (
            "bound number 0",
            "column 14: variable 0 is declared as `set`, not as `number`",
        ),
        ("bound min(1)", "column 12: expected `,`, found `)`"),
        (
            "bound count(3)",
            "column 13: expected a set, found a number",
        ),
        (
            "bound 3000000000",
            "column 7: a number lies between -2147483648 and 2147483647",
        ),
        (
            "constraint time",
            "column 12: expected a condition, found a number",
        ),
        (
            "constraint time > at",
            "column 19: expected a number, found an element",
        ),
        (
            "constraint at == home",
            "column 15: `==` is written `=`",
        ),
        (
            "constraint at = home && time < 1",
            "column 22: `&&` is written `and`",
        ),
        (
            "constraint is_empty",
            "column 12: `is_empty` is not declared; a set without members is written `empty(s)`",
        ),
        (
            "constraint todo = done",
            "column 12: expected a number or an element beside `=`, found a set",
        ),
        (
            "constraint time = at",
            "column 12: expected an element, found a number",
        ),
        (
            "constraint 1 < time < 3",
            "column 12: expected a number, found a condition",
        ),
        (
            "constraint 64 in todo",
            "column 12: an object's number is 0 to 63, not 64",
        ),
        (
            "constraint 3 in todo",
            "column 12: an element of 4 objects does not fit a set of 3",
        ),
        (
            "constraint empty({1, 2})",
            "column 18: `of` and an object count are due behind a set without named members",
        ),
        (
            "constraint empty({1, 4} of 4)",
            "column 22: object 4 is not below the object count 4",
        ),
        (
            "constraint todo subset {} of 4",
            "column 24: a set of 4 objects does not fit a set of 3",
        ),
        (
            "constraint {} of 4 subset todo",
            "column 27: a set of 3 objects does not fit a set of 4",
        ),
        (
            "constraint empty(todo & {0} of 2)",
            "column 25: a set of 2 objects does not fit a set of 3",
        ),
        (
            "transition: cost 0 todo := {} of 4",
            "column 28: a set of 4 objects does not fit a variable of 3",
        ),
        (
            "constraint todo + done subset done",
            "column 19: expected an element; sets are joined by `|`, found a set",
        ),
        (
            "transition: cost 0 todo = todo - 1",
            "column 25: expected `:=`, found `=`",
        ),
        (
            "transition: cost 0 set todo := done",
            "column 20: an effect is written with `:=`, as `name := value`",
        ),
        (
            "transition: cost 0 far := 1",
            "column 20: expected a variable, `far` is a table",
        ),
        (
            "transition: cost 0 at := 3",
            "column 26: an element of 4 objects does not fit a variable of 3",
        ),
        (
            "transition: cost 0 todo := {} of 2",
            "column 28: a set of 2 objects does not fit a variable of 3",
        ),
        (
            "transition: cost 0 at := 1 at := 2",
            "column 28: a second effect on `at` in this transition",
        ),
        (
            "transition: cost 0 time := at",
            "column 28: expected a number, found an element",
        ),
    ];
    for (text, message) in told {
        let message = format!("line 4, {message}");
        assert_eq!(complaint(&format!("{PRELUDE}{text}")), message, "{text}");
    }
}
