//! Searches in the loading profile: the length that it chooses, what is lent, the order of refusals, each way to be outside.

use super::{Call, Case, Cases};
use crate::beam::Beam;
use crate::build::*;
use crate::generate::loading::{inside, outside, WAYS};
use crate::generate::Random;
use crate::models::{sop, three_designs, tsptw, Designs};
use crate::numbers::words_needed;
use crate::reference::read_model;

/// The stored random models, by their places in the sequence that `random_load` gives. No two have the same fields.
#[rustfmt::skip]
const STORED: [usize; 50] = [
    0, 1, 2, 3, 6, 8, 10, 13, 15, 21, 22, 23, 26, 33, 40, 43, 44, 45, 47, 48, 51, 54, 55, 56, 57,
    60, 61, 66, 67, 68, 71, 72, 78, 83, 88, 96, 102, 104, 110, 112, 124, 127, 129, 147, 242, 364,
    417, 496, 526, 527,
];

/// The usual settings: widest beam and budget.
const USUAL: (u64, u64) = (16, 100_000);

const NOTHING: (usize, u64) = (0, 0);

pub fn cases() -> Vec<Case> {
    let mut cases = Cases::default();
    lengths(&mut cases);
    verdicts(&mut cases);
    order_of_refusals(&mut cases);
    troubles(&mut cases);
    small(&mut cases);
    ways_outside(&mut cases);
    random(&mut cases);
    cases.0
}

fn designs() -> Designs {
    Designs::default()
}

/// What a model with this length has to be lent at this width.
fn due(width: u64, length: u64) -> (usize, u64) {
    (length as usize, words_needed(width, length))
}

/// The fields of a refusal by the input.
fn refused(number: u8) -> String {
    format!("1 {number} 0 0 0 0 0 0 0 0")
}

/// Objects that are loaded one by one at cost 1, so many of them at the start.
fn loads(objects: u8, start: u64, transitions: &[u8]) -> Build {
    let build = Build::new(SUM).set(objects, start);
    let build = transitions.iter().fold(build, |build, object| {
        let (asked, removed) = (member(obj(*object), set(0)), remove(obj(*object), set(0)));
        build.transition(&[asked], lit(1), &[(0, removed)])
    });
    build.base(&[empty(set(0))])
}

/// Two designs of which the first is added in place of being removed.
fn adding() -> Build {
    let added = add(obj(0), set(0));
    let build = Build::new(SUM).set(2, 3);
    let build = build.transition(&[member(obj(0), set(0))], lit(1), &[(0, added)]);
    build.base(&[empty(set(0))])
}

fn lengths(cases: &mut Cases) {
    let p1 = "0 0 1 7 7 3 14 3 4 7";
    let three = refused(3);
    cases.load("loading P1", three_designs(), USUAL, (3, 1_088), p1);
    cases.load(
        "loading P1, a word less",
        three_designs(),
        USUAL,
        (3, 1_087),
        &three,
    );
    cases.load(
        "loading P1, a byte less",
        three_designs(),
        USUAL,
        (2, 1_088),
        &three,
    );
    cases.load(
        "loading P1, more than due",
        three_designs(),
        USUAL,
        (5, 2_000),
        p1,
    );
    cases.load("loading P1 at W 4", three_designs(), (4, 14), due(4, 3), p1);
    let start = |start| Designs { start, ..designs() }.bytes();
    let none = "0 0 1 0 0 0 0 1 1 0";
    cases.load(
        "loading from an empty start",
        start(0),
        USUAL,
        (1, 1_056),
        none,
    );
    cases.load(
        "loading from an empty start, a word less",
        start(0),
        USUAL,
        (1, 1_055),
        &three,
    );
    cases.load(
        "loading from an empty start, no byte",
        start(0),
        USUAL,
        (0, 1_056),
        &three,
    );
    let one = "0 0 1 5 5 1 1 1 1 5";
    cases.load("loading one design", start(0b100), USUAL, due(16, 1), one);
    let last = loads(64, 1 << 63, &[63]).end();
    cases.load(
        "loading the last of 64 objects",
        last,
        (1, 9),
        due(1, 1),
        "0 0 1 1 1 1 1 1 1 1",
    );
    let all = || loads(64, u64::MAX, &[]).end();
    cases.load(
        "loading 64 objects, no transition",
        all(),
        (1, 9),
        due(1, 64),
        "0 1 0 0 0 0 1 1 1 0",
    );
    cases.load(
        "loading 64 objects, a byte less",
        all(),
        (1, 9),
        (63, 129),
        &three,
    );
    cases.load(
        "loading 64 objects, a word less",
        all(),
        (1, 9),
        (64, 128),
        &three,
    );
}

fn verdicts(cases: &mut Cases) {
    let lent = due(16, 3);
    let stopped = "0 2 1 7 0 3 6 2 1 7";
    cases.load(
        "loading P4",
        three_designs(),
        (1, 100_000),
        due(1, 3),
        stopped,
    );
    cases.load(
        "loading P3",
        three_designs(),
        (2, 100_000),
        due(2, 3),
        "0 2 1 7 0 3 8 2 2 7",
    );
    cases.load(
        "loading P6",
        three_designs(),
        (16, 0),
        lent,
        "0 4 0 0 0 0 0 1 1 0",
    );
    let p8 = Designs {
        bound: Some(8),
        ..designs()
    };
    cases.load("loading P8", p8.bytes(), USUAL, lent, "0 5 1 7 8 3 3 1 1 7");
    let p9 = Designs {
        constraint: Some(not(same(elem(1), obj(2)))),
        ..designs()
    };
    cases.load("loading P9", p9.bytes(), USUAL, lent, "0 1 0 0 0 0 _ _ _ 0");
    let p10 = Designs {
        rule: LARGEST,
        ..designs()
    };
    cases.load(
        "loading P10",
        p10.bytes(),
        USUAL,
        lent,
        "0 0 1 3 3 3 _ _ _ 3",
    );
    cases.load(
        "loading the SOP of 004",
        sop(),
        USUAL,
        due(16, 4),
        "0 0 1 6 6 4 8 2 2 6",
    );
    let broken = |build: Build| build.constraint(empty(set(0))).end();
    let none = "0 1 0 0 0 0 0 1 1 0";
    cases.load(
        "loading from a broken target",
        broken(loads(2, 3, &[0, 1])),
        USUAL,
        due(16, 2),
        none,
    );
    cases.load(
        "outside with a broken target",
        broken(adding()),
        USUAL,
        due(16, 2),
        &refused(15),
    );
}

/// 1, 2 for the width, the reading, 15, 3.
fn order_of_refusals(cases: &mut Cases) {
    let damaged = [three_designs(), vec![0]].concat();
    let cut = three_designs()[..179].to_vec();
    let too_long = vec![0; 65_537];
    cases.load(
        "loading too long a model at W 3",
        too_long,
        (3, 0),
        NOTHING,
        &refused(1),
    );
    cases.load(
        "loading the longest model",
        vec![0; 65_536],
        (1, 0),
        NOTHING,
        &refused(5),
    );
    for (note, model) in [
        ("loading at W 3 bytes behind the end", &damaged),
        ("loading at W 3 a model outside", &adding().end()),
        ("loading at W 3", &three_designs()),
    ] {
        cases.load(note, model.clone(), (3, 100_000), NOTHING, &refused(2));
    }
    cases.load(
        "loading at W 0",
        three_designs(),
        (0, 100_000),
        NOTHING,
        &refused(2),
    );
    cases.load(
        "loading at W 8,192",
        three_designs(),
        (8_192, 100_000),
        NOTHING,
        &refused(2),
    );
    cases.load(
        "loading bytes behind the end",
        damaged,
        USUAL,
        NOTHING,
        &refused(9),
    );
    cases.load("loading cut bytes", cut, USUAL, NOTHING, &refused(4));
    cases.load("loading no bytes", Vec::new(), USUAL, NOTHING, &refused(4));
    cases.load(
        "loading what adds",
        adding().end(),
        USUAL,
        NOTHING,
        &refused(15),
    );
    cases.load(
        "loading what adds, enough lent",
        adding().end(),
        USUAL,
        due(16, 2),
        &refused(15),
    );
    cases.load(
        "loading the TSPTW of 003",
        tsptw(),
        USUAL,
        due(16, 3),
        &refused(15),
    );
    cases.load(
        "loading the target alone",
        Build::new(SUM).end(),
        USUAL,
        NOTHING,
        &refused(15),
    );
    cases.load(
        "loading P1, nothing lent",
        three_designs(),
        USUAL,
        NOTHING,
        &refused(3),
    );
}

/// Trouble in a state, with the path to it.
fn troubles(cases: &mut Cases) {
    let costing = |cost: Bytes| {
        let asked = |object| [member(obj(object), set(0))];
        let removed = |object| [(0, remove(obj(object), set(0)))];
        let build = Build::new(SUM).set(2, 3);
        let build = build.transition(&asked(0), lit(4), &removed(0));
        let build = build.transition(&asked(1), cost, &removed(1));
        build.base(&[empty(set(0))])
    };
    let last = || equal(count(set(0)), lit(1));
    let later = |number: Bytes| choice(last(), number, lit(9)).clone();
    let negative = costing(later(lit(-1))).end();
    cases.load(
        "loading at a negative cost",
        negative,
        (1, 9),
        due(1, 2),
        "1 13 0 4 0 1 2 1 1 4",
    );
    let by_zero = costing(later(quotient(lit(1), lit(0)))).end();
    cases.load(
        "loading at a cost by zero",
        by_zero,
        (1, 9),
        due(1, 2),
        "1 12 0 4 0 1 2 1 1 4",
    );
    let bound = loads(2, 3, &[0, 1]).bound(quotient(lit(1), lit(0))).end();
    cases.load(
        "loading with a bound by zero",
        bound,
        USUAL,
        due(16, 2),
        "1 12 0 0 0 0 0 1 1 0",
    );
}

fn small(cases: &mut Cases) {
    let two = "0 0 1 2 2 2 5 2 2 2";
    let model = loads(2, 3, &[0, 1]).end();
    cases.load("loading two designs", model, USUAL, due(16, 2), two);
    let model = loads(3, 3, &[2, 0, 0, 1]).end();
    cases.load(
        "loading one twice and one that is not there",
        model,
        USUAL,
        due(16, 2),
        two,
    );
    let model = loads(2, 3, &[]).end();
    cases.load(
        "loading without a transition",
        model,
        USUAL,
        due(16, 2),
        "0 1 0 0 0 0 1 1 1 0",
    );
    let model = loads(2, 3, &[1]).end();
    cases.load(
        "loading without one transition",
        model,
        USUAL,
        due(16, 2),
        "0 1 0 0 0 0 2 1 1 0",
    );
    let asked = |object: u8| member(obj(object), set(0));
    let removed = |object: u8| (0, remove(obj(object), set(0)));
    let build = Build::new(SUM).set(2, 3);
    let build = build.transition(&[asked(1), asked(0)], lit(1), &[removed(0)]);
    let build = build.transition(&[asked(1)], lit(1), &[removed(1)]);
    let model = build.base(&[empty(set(0))]).end();
    cases.load(
        "loading with two such conditions",
        model,
        USUAL,
        due(16, 2),
        "0 0 1 2 2 2 _ _ _ 2",
    );
    let build = Build::new(LARGEST).set(2, 3).element(2, NONE, 0);
    let build = build.transition(&[asked(0)], lit(1), &[(1, obj(0)), removed(0)]);
    let build = build.transition(&[asked(1)], lit(1), &[removed(1)]);
    let build = build.base(&[empty(set(0))]);
    let build = build.constraint(same(elem(1), obj(0))).bound(count(set(0)));
    let model = build.end();
    cases.load(
        "loading with all else",
        model,
        USUAL,
        due(16, 2),
        "0 5 1 1 2 2 _ _ _ 1",
    );
}

/// Each way to be outside, however little is lent, and with enough for 64 steps.
fn ways_outside(cases: &mut Cases) {
    let mut random = Random::new(0x0B7);
    for way in WAYS {
        for (more, lent) in [("", NOTHING), (", enough lent", due(16, 64))] {
            let note = format!("outside, {}{more}", way.words());
            let model = outside(&mut random, way).end();
            cases.load(&note, model, USUAL, lent, &refused(15));
        }
    }
}

/// A random model of the profile at random settings, with a few bytes and words more than are due.
fn random_load(random: &mut Random) -> Call {
    let model = inside(random).end();
    let read = read_model(&model).expect("a generated model is well made");
    let width = 1 << random.below(4);
    let budget = random.pick(&[1, 3, 6, 40, 1_000]);
    let (plan_bytes, words) = due(width, read.loading_length());
    let lent = (plan_bytes + random.below(3), words + random.below(3) as u64);
    Call::load_by(model, Beam::UpTo(width), budget, lent)
}

fn random(cases: &mut Cases) {
    let mut random = Random::new(0x10AD);
    cases.add_random(&STORED, || random_load(&mut random));
}
