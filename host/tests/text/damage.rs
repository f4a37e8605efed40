//! Random edits of texts: an error within the text or bytes that the reader accepts, and never a panic.

use super::{example_texts, round_trip};
use repgypsum_host::generate::Random;
use repgypsum_host::models::{sop, three_designs, tsptw};
use repgypsum_host::text::{assemble, assemble_text, disassemble};

/// Tokens that are put into a text.
const PUT: [&str; 62] = [
    "0",
    "1",
    "3",
    "64",
    "-1",
    "4294967296",
    "a",
    "todo",
    "at",
    "time",
    "hours",
    "set",
    "element",
    "number",
    "table",
    "object",
    "objects",
    "transition",
    "base",
    "when",
    "cost",
    "bound",
    "constraint",
    "if",
    "then",
    "else",
    "min",
    "sum",
    "count",
    "empty",
    "not",
    "and",
    "or",
    "in",
    "subset",
    "of",
    "{",
    "}",
    "(",
    ")",
    "[",
    "]",
    ",",
    ":",
    ":=",
    "=",
    "+",
    "ä",
    "for",
    "forall",
    "exists",
    "constant",
    "include",
    "from",
    "\"x.csv\"",
    "\"",
    "..",
    "j",
    "j in design:",
    "-",
    "!=",
    "\n",
];

/// A text with every form that stands for plain text.
const LOOPS: &str = "cost sum
constant most = 9
constant late[3] = 4 5 6
objects design = none a b c
set todo of design = {a..c}
element at of design = none
number time = 0 prefer less
number spent = most
table hours[design, design] =
    0 2 5 4 /
    0 0 3 6 /
    0 3 0 2 /
    0 6 2 0
for d in design - none:
    transition load d:
        when d in todo
        for i in {a, b} - d:
            when not i in todo or time >= 0 - most
        cost hours[at, d]
        todo := todo - d
        at := d
        for v in {time, spent}: v := v + max(hours[at, d], -1, late[1])
base: when empty(todo) when at != none
for k in 0..2:
    constraint time > -late[k] or (exists i in a..b: i in todo)
constraint forall i in design, j in design - i: not (i in todo and j in todo) or time < 99
bound sum i in design - none: min j in design: hours[j, i]
bound min(1, 2, 3, time)
";

fn damaged_text(random: &mut Random, text: &str) -> String {
    let mut words: Vec<&str> = text.split_inclusive([' ', '\n']).collect();
    for _ in 0..random.between(1, 3) {
        let (at, other) = (random.below(words.len()), random.below(words.len()));
        match random.below(6) {
            0 => {
                words.remove(at);
            }
            1 => words.insert(at, random.pick(&PUT)),
            2 => words.swap(at, other),
            3 => words[at] = words[other],
            4 => words[at] = random.pick(&PUT),
            _ => words.truncate(at + 1),
        }
        if words.is_empty() {
            return String::new();
        }
    }
    let mut letters: Vec<char> = words.concat().chars().collect();
    if random.chance(40) && !letters.is_empty() {
        let at = random.below(letters.len());
        let some = random.pick(&[
            'x', '7', '-', '+', '(', ')', '{', '}', ':', '=', '/', '.', '#', '\n', '\0', 'é', '🙂',
        ]);
        match random.below(3) {
            0 => letters[at] = some,
            1 => letters.insert(at, some),
            _ => {
                letters.remove(at);
            }
        }
    }
    letters.into_iter().collect()
}

#[test]
fn damaged_texts() {
    let mut random = Random::new(0x7EC7);
    let mut texts = example_texts();
    assemble(LOOPS).unwrap();
    texts.extend([LOOPS.to_string(), LOOPS.to_string()]);
    texts.extend(
        [three_designs(), tsptw(), sop()]
            .iter()
            .map(|bytes| disassemble(bytes).unwrap()),
    );
    let (mut assembled, mut refused) = (0, 0);
    for _ in 0..20_000 {
        let original = random.pick(&texts);
        let text = damaged_text(&mut random, &original);
        match assemble_text(&text) {
            Ok(found) => {
                assert!(round_trip(&found.bytes), "{text}");
                let plain = assemble(&found.plain);
                assert_eq!(plain.as_ref(), Ok(&found.bytes), "{text}\n{}", found.plain);
                assembled += 1;
            }
            Err(error) => {
                let line = text.split('\n').nth(error.place.line - 1);
                let length = line.expect("the line is there").chars().count();
                assert!(
                    (1..=length + 1).contains(&error.place.column),
                    "{error}\n{text}"
                );
                refused += 1;
            }
        }
    }
    println!("{assembled} damaged texts assemble, {refused} do not");
    assert!(assembled >= 1_000 && refused >= 1_000);
}
