//! The cases P1 to P11 and "Others" of document 01, and the typed-in models.

use repgypsum_host::answer::Answer;
use repgypsum_host::build::*;
use repgypsum_host::line::line_at as line;
use repgypsum_host::models::{sop, three_designs, tsptw, Designs};
use repgypsum_host::numbers::words_needed;
use repgypsum_host::reference::{plan_check, search};

/// A search with lent buffers of the sizes due, and the plan.
fn run(model: &[u8], width: u64, length: u64, budget: u64) -> (Answer, Vec<u8>) {
    let mut buffer = vec![0xA5; length as usize];
    let words = words_needed(width, length);
    let answer = search(model, width, length, budget, &mut buffer, words);
    let plan = buffer[..answer.length as usize].to_vec();
    assert!(buffer[plan.len()..].iter().all(|byte| *byte == 0xA5));
    (answer, plan)
}

#[test]
fn p1_to_p10() {
    let designs = three_designs();
    let p1 = "0 1 7 7 3 14 3 4 7 : 0 1 2";
    assert_eq!(line(&designs, 16, 64, 100_000), p1);
    assert_eq!(line(&designs, 4, 3, 100_000), p1);
    assert_eq!(line(&designs, 2, 3, 100_000), "2 1 7 0 3 8 2 2 7 : 0 1 2");
    let (p4, _) = run(&designs, 1, 3, 100_000);
    assert_eq!((p4.verdict, p4.expansions, p4.rounds), (2, 6, 2));
    assert_eq!(line(&designs, 8, 2, 100_000), "3 0 0 5 0 13 4 8 0 :");
    let (p6, _) = run(&designs, 16, 64, 0);
    assert_eq!((p6.verdict, p6.flag, p6.expansions), (4, false, 0));
    let p7 = Designs {
        start: 0,
        ..Designs::default()
    };
    assert_eq!(line(&p7.bytes(), 16, 64, 100_000), "0 1 0 0 0 0 1 1 0 :");
    let p8 = Designs {
        bound: Some(8),
        ..Designs::default()
    };
    let (p8, _) = run(&p8.bytes(), 16, 64, 100_000);
    assert_eq!((p8.verdict, p8.cost, p8.expansions), (5, 7, 3));
    let p9 = Designs {
        constraint: Some(not(same(elem(1), obj(2)))),
        ..Designs::default()
    };
    let (p9, _) = run(&p9.bytes(), 16, 64, 100_000);
    assert_eq!((p9.refused, p9.verdict, p9.bound), (false, 1, 0));
    let p10 = Designs {
        rule: LARGEST,
        ..Designs::default()
    };
    let (p10, plan) = run(&p10.bytes(), 16, 64, 100_000);
    assert_eq!((p10.verdict, p10.cost, p10.low), (0, 3, 3));
    assert_eq!(plan_check(&p10_bytes(), &plan), (0, 3, 3));
}

fn p10_bytes() -> Vec<u8> {
    Designs {
        rule: LARGEST,
        ..Designs::default()
    }
    .bytes()
}

/// A model with one step whose cost is the value of the expression.
fn one_step(cost: Vec<u8>) -> Vec<u8> {
    Build::new(SUM)
        .element(2, NONE, 0)
        .transition(&[], cost, &[(0, obj(1))])
        .base(&[same(elem(0), obj(1))])
        .end()
}

#[test]
fn p11() {
    let value = quotient(lit(-7), lit(2));
    assert_eq!(plan_check(&one_step(sum(value, lit(10))), &[0]), (0, 6, 6));
    let value = quotient(lit(i32::MIN), lit(-1));
    assert_eq!(plan_check(&one_step(value), &[0]), (11, 0, 0));
}

#[test]
fn others() {
    assert_eq!(line(&three_designs(), 3, 64, 100_000), "refused 2");
    for (depth, refusal) in [(32, 14), (33, 8)] {
        let mut condition = vec![0x57; depth - 2];
        condition.extend(empty(set(0)));
        let model = Build::new(SUM).set(1, 0).constraint(condition).end();
        assert_eq!(plan_check(&model, &[]), (refusal, 0, 0), "depth {depth}");
    }
    for (objects, refusal) in [(64, 14), (65, 7)] {
        let model = Build::new(SUM).set(objects, 0).end();
        assert_eq!(
            plan_check(&model, &[]),
            (refusal, 0, 0),
            "{objects} objects"
        );
    }
}

/// Document 02, §1: the target's constraints before everything else about states.
#[test]
fn constraints_of_the_target() {
    let designs = |constraint| {
        let constraint = Some(constraint);
        Designs {
            constraint,
            ..Designs::default()
        }
        .bytes()
    };
    let broken = designs(not(same(elem(1), obj(0))));
    for budget in [0, 100_000] {
        assert_eq!(line(&broken, 16, 64, budget), "1 0 0 0 0 0 1 1 0 :");
    }
    for plan in [&[0, 1, 2][..], &[], &[3]] {
        assert_eq!(plan_check(&broken, plan), (14, 0, 0));
    }
    let by_zero = designs(equal(quotient(lit(1), lit(0)), lit(0)));
    let (answer, plan) = run(&by_zero, 16, 64, 100_000);
    assert_eq!(
        (answer.refused, answer.verdict, answer.flag),
        (true, 12, false)
    );
    assert_eq!((answer.cost, answer.bound, answer.length), (0, 0, 0));
    assert_eq!(answer.low, 0);
    assert_eq!((answer.expansions, answer.rounds, answer.width), (0, 1, 1));
    assert_eq!(plan, Vec::<u8>::new());
    for plan in [&[0, 1, 2][..], &[], &[3]] {
        assert_eq!(plan_check(&by_zero, plan), (12, 0, 0));
    }
}

#[test]
fn typed_in_models() {
    let expected = [
        (three_designs(), "0 1 7 7 3 14 3 4 7 : 0 1 2"),
        (tsptw(), "0 1 14 14 4 19 3 4 14 : 1 2 0 3"),
        (sop(), "0 1 6 6 4 8 2 2 6 : 0 2 1 3"),
    ];
    for (model, expected) in expected {
        assert_eq!(line(&model, 16, 64, 100_000), expected);
        let (answer, plan) = run(&model, 16, 64, 100_000);
        assert_eq!(plan_check(&model, &plan), (0, answer.cost, answer.low));
    }
}
