//! `high` behind `cost`: its bytes, its places, what is said where it stands elsewhere.

use super::errors::complaint;
use super::{round_trip, PRELUDE};
use repgypsum_host::build::*;
use repgypsum_host::text::{assemble, assemble_text, disassemble, Listing};

/// The counting model as bytes that were stated by hand: cost 2, high cost 5.
const COUNTING: &str = "01 00 04 00 00000000 07 09 20 02000000 10 20 05000000 0A 00 22 21 00 20 01000000 0B 08 50 21 00 20 03000000 0E";

fn bytes(digits: &str) -> Vec<u8> {
    let digits: Vec<u8> = digits.bytes().filter(|byte| *byte != b' ').collect();
    let pairs = digits.chunks(2);
    let byte = |pair: &[u8]| u8::from_str_radix(std::str::from_utf8(pair).unwrap(), 16).unwrap();
    pairs.map(byte).collect()
}

#[test]
fn the_counting_model() {
    let text = "cost sum\nnumber x = 0\ntransition go:\n    cost 2\n    high 5\n    x := x + 1\nbase:\n    when x = 3\n";
    let model = bytes(COUNTING);
    assert_eq!(assemble(text), Ok(model.clone()));
    assert!(round_trip(&model));
    let printed = disassemble(&model).unwrap();
    assert!(printed.contains("    cost 2\n    high 5\n    number 0 := number 0 + 1\n"));
    // The layout is free; without effects too.
    let flat = text.replace('\n', " ").replace("    ", " ");
    assert_eq!(assemble(&flat), Ok(model));
    let bare = assemble("cost largest transition: cost 0 high 1 transition: cost 2").unwrap();
    let due = bytes("01 01 07 09 20 00000000 10 20 01000000 07 09 20 02000000 0E");
    assert_eq!(bare, due);
    assert!(round_trip(&due));
}

/// Loops, constants, named things and kinds are what they are elsewhere; what `expand` prints assembles to the same bytes.
#[test]
fn expressions_behind_high() {
    let text = format!(
        "{PRELUDE}constant most[node] = 7 8 9 constant extra = 4\nfor d in node - home:\n    transition go d:\n        when d in todo\n        cost far[at, d]\n        high max(far[at, d] + extra, sum e in node: far[e, d], most[d])\n        for v in {{todo}}:\n            v := v - d\n"
    );
    let assembled = assemble_text(&text).unwrap();
    let mut due = Build::new(SUM)
        .set(3, 0b110)
        .set(3, 0)
        .element(3, NONE, 0)
        .number(NONE, 0)
        .table(3, 3, &[0, 1, 2, 3, 4, 5, 6, 7, 8])
        .table(3, 1, &[1, 2, 3]);
    for d in [1, 2] {
        let far = |row: Bytes| entry(0, row, obj(d));
        let all = sum(far(obj(0)), sum(far(obj(1)), far(obj(2))));
        let most = lit([7, 8, 9][usize::from(d)]);
        // Of three parts the first and the other two are joined.
        let high = greater(sum(far(elem(2)), lit(4)), greater(all, most));
        due = due.ranged(
            &[member(obj(d), set(0))],
            (far(elem(2)), high),
            &[(0, remove(obj(d), set(0)))],
        );
    }
    let due = due.end();
    assert_eq!(assembled.bytes, due);
    assert!(round_trip(&due));
    assert_eq!(assemble(&assembled.plain), Ok(due.clone()));
    assert!(assembled
        .plain
        .contains("    cost far[at, east]\n    high max("));
    let step = &assembled.listing.transitions[1];
    let high =
        "max(far[at, west] + 4, max(far[home, west] + (far[east, west] + far[west, west]), 9))";
    assert_eq!(
        (step.cost.as_str(), step.high.as_deref()),
        ("far[at, west]", Some(high))
    );
    let from_bytes = Listing::of(&due, &assembled.names).unwrap();
    let high = "max(far[at, 2] + 4, max(far[0, 2] + (far[1, 2] + far[2, 2]), 9))";
    assert_eq!(from_bytes.transitions[1].high.as_deref(), Some(high));
    let plain = assemble_text(&format!("{PRELUDE}transition: cost 1")).unwrap();
    assert_eq!(plain.listing.transitions[0].high, None);
}

/// What is said where `high` stands in another place, or something else in its place.
#[test]
fn wrong_places() {
    let told = [
        ("transition: high 1 cost 2", "column 13: `high` stands behind `cost`, which is the low cost then"),
        ("transition: when 1 = 1 high 1", "column 24: `high` stands behind `cost`, which is the low cost then"),
        ("transition: cost 1 high 2 high 3", "column 27: a transition has one high cost"),
        ("transition: cost 1 high 2 at := 1 high 3", "column 35: the high cost stands directly behind the cost, before the effects"),
        ("transition: cost 1 at := 1 high 3", "column 28: the high cost stands directly behind the cost, before the effects"),
        ("transition: cost 1 high 2 cost 3", "column 27: a transition has one cost"),
        ("transition: cost 1 high 2 when 1 = 1", "column 27: conditions stand before the cost"),
        ("transition: cost 1 high", "column 24: expected an expression, found the end of the text"),
        ("transition: cost 1 high at", "column 25: expected a number, found an element"),
        ("transition: cost 1 high 1 = 1", "column 25: expected a number, found a condition"),
        ("transition: cost 1 high tim", "column 25: `tim` is not declared"),
        ("transition: cost 1..5", "column 19: a range of costs takes two lines: `cost` with the low one, `high` with the high one"),
        ("transition: low 1 high 5", "column 13: expected `when` or `cost`, found `low`; the low cost of a transition is written `cost`, the high one `high` behind it"),
        ("base: high 1", "column 7: expected a command or the end of the text, found `high`; `high` is the high cost of a transition, and stands behind its `cost`"),
        ("bound high", "column 7: expected an expression, found `high`; `high` is the high cost of a transition, and stands behind its `cost`"),
        ("constant high = 3", "column 10: expected a name for the constant; `high` is a word of the language"),
        ("transition go high: cost 1", "column 15: expected `:`, found `high`; `high` is the high cost of a transition, and stands behind its `cost`"),
    ];
    for (text, message) in told {
        let message = format!("line 4, {message}");
        assert_eq!(complaint(&format!("{PRELUDE}{text}")), message, "{text}");
    }
    // A text from before ranges that has `high` as a name.
    let name = "cost sum\nnumber high = 0";
    let message = "line 2, column 8: expected `=`, found `high`; `high` is the high cost of a transition, and stands behind its `cost`";
    assert_eq!(complaint(name), message);
    let low = assemble("cost sum number low = 3 transition: cost low high low + 1");
    assert!(low.is_ok());
}

/// An expression behind `high` has the nesting of one behind `cost`, and both errors of a transition are told.
#[test]
fn limits() {
    let nested = |count: usize| {
        format!(
            "cost sum transition: cost 0 high {}1",
            "1 + (".repeat(count)
        ) + &")".repeat(count)
    };
    assert!(round_trip(&assemble(&nested(31)).unwrap()));
    let told = complaint(&nested(32));
    assert!(
        told.contains("nested 33 deep; at most 32 is allowed"),
        "{told}"
    );
    let both = format!("{PRELUDE}transition: cost at high todo");
    let mut sources = repgypsum_host::text::Sources::of_text(&both);
    let errors = repgypsum_host::text::assemble_sources(&mut sources)
        .err()
        .unwrap();
    let messages: Vec<String> = errors.iter().map(ToString::to_string).collect();
    assert_eq!(
        messages,
        [
            "line 4, column 18: expected a number, found an element",
            "line 4, column 26: expected a number, found a set",
        ]
    );
}

/// Random models with a high cost behind some costs: to text and back, and cut or changed at the high cost.
#[test]
fn round_trips() {
    let mut random = repgypsum_host::generate::Random::new(0x10_10);
    let mut ranged = 0;
    for _ in 0..1_500 {
        let model = repgypsum_host::generate::model(&mut random).end();
        let text = disassemble(&model).unwrap();
        let mut changed = String::new();
        for line in text.lines() {
            changed += &format!("{line}\n");
            if let Some(cost) = line.strip_prefix("    cost ") {
                if random.below(2) == 0 && !text.contains("    high ") {
                    changed += &format!("    high {cost}\n");
                    ranged += 1;
                }
            }
        }
        let bytes = assemble(&changed).unwrap();
        assert!(round_trip(&bytes));
        let again = disassemble(&bytes).unwrap();
        assert_eq!(again, changed);
    }
    println!("{ranged} ranges");
    assert!(ranged >= 500);
}
