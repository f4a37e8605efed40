//! What people type from elsewhere, with what is written here.

/// Symbols of other languages, what they are taken for, and what is said.
pub const SYMBOLS: [(&str, &str, &str); 13] = [
    ("==", "=", "`==` is written `=`"),
    ("<>", "!=", "`<>` is written `!=`"),
    ("=>", ">=", "`=>` is written `>=`"),
    ("=<", "<=", "`=<` is written `<=`"),
    ("&&", "and", "`&&` is written `and`"),
    ("||", "or", "`||` is written `or`"),
    ("//", "/", "`//` is written `/`; a comment begins with `#`"),
    ("**", "*", "there is no power: `x * x` is a square"),
    ("+=", ":=", "`x += y` is written `x := x + y`"),
    ("-=", ":=", "`x -= y` is written `x := x - y`"),
    ("!", "not", "`!` is written `not`"),
    ("%", "/", "the rest of `x / y` is written `x - x / y * y`"),
    (
        ";",
        "",
        "nothing stands behind a command: `;` is not needed",
    ),
];

/// Names of other languages, with what is written here. They are told only where they are not declared.
const NAMES: [(&str, &str); 26] = [
    ("abs", "`abs(x)` is written `max(x, -x)`"),
    ("all", "`all` is written `forall d in group: condition`"),
    ("any", "`any` is written `exists d in group: condition`"),
    ("mod", "the rest of `x / y` is written `x - x / y * y`"),
    (
        "len",
        "the number of a set's members is written `count(set)`",
    ),
    (
        "size",
        "the number of a set's members is written `count(set)`",
    ),
    (
        "card",
        "the number of a set's members is written `count(set)`",
    ),
    ("contains", "`a` is a member of `s` is written `a in s`"),
    ("is_in", "`a` is a member of `s` is written `a in s`"),
    ("is_empty", "a set without members is written `empty(s)`"),
    ("is_subset", "`s` within `t` is written `s subset t`"),
    ("union", "the union of `s` and `t` is written `s | t`"),
    ("intersection", "what `s` and `t` share is written `s & t`"),
    ("difference", "`s` without `t` is written `s - t`"),
    ("true", "a condition that always holds is written `0 = 0`"),
    ("false", "a condition that never holds is written `0 = 1`"),
    ("range", "a run of numbers is written `0..3`"),
    ("elif", "`elif` is written `else if`"),
    ("foreach", "`foreach` is written `for d in group:`"),
    (
        "minimize",
        "the cost is always the least: a text begins with `cost sum` or `cost largest`",
    ),
    (
        "minimise",
        "the cost is always the least: a text begins with `cost sum` or `cost largest`",
    ),
    (
        "low",
        "the low cost of a transition is written `cost`, the high one `high` behind it",
    ),
    (
        "high",
        "`high` is the high cost of a transition, and stands behind its `cost`",
    ),
    ("int", "a number variable is written `number x = 0`"),
    ("const", "a constant is written `constant x = 3`"),
    ("param", "a constant is written `constant x = 3`"),
];

/// What is said of a name from elsewhere, with a semicolon before it; nothing of other names.
pub fn hint(name: &str) -> String {
    let lower = name.to_lowercase();
    match NAMES.iter().find(|(known, _)| *known == lower) {
        Some((_, hint)) => format!("; {hint}"),
        None => String::new(),
    }
}
