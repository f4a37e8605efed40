//! Searches with a list of widths: which round has which, what is lent, refusal 16 and its place, the target's width.

use super::{Call, Case, Cases, Search, FILL};
use crate::beam::{joined, Beam};
use crate::build::*;
use crate::generate::loading::inside;
use crate::generate::widths::rising;
use crate::generate::{with_any_target, Random};
use crate::models::{sop, three_designs, tsptw, Designs};
use crate::numbers::words_needed;
use crate::reference::read_model;

/// The stored random searches, by their places in the sequence that `random_search` gives. No two have the same fields.
#[rustfmt::skip]
const STORED: [usize; 47] = [
    0, 4, 5, 6, 8, 10, 11, 17, 23, 24, 29, 31, 32, 51, 54, 97, 100, 104, 109, 136, 142, 151, 194,
    203, 205, 270, 282, 312, 319, 332, 370, 372, 399, 411, 421, 426, 434, 441, 461, 492, 507,
    540, 550, 597, 607, 621, 659,
];

const BUDGET: u64 = 100_000;

const NOTHING: (usize, u64) = (0, 0);

pub fn cases() -> Vec<Case> {
    let mut cases = Cases::default();
    rounds(&mut cases);
    built_in(&mut cases);
    verdicts(&mut cases);
    target(&mut cases);
    trouble_in_round_two(&mut cases);
    bad_lists(&mut cases);
    order_of_refusals(&mut cases);
    lent(&mut cases);
    loads(&mut cases);
    random(&mut cases);
    cases.0
}

fn designs() -> Designs {
    Designs::default()
}

/// The fields of a refusal by the input.
fn refused(number: u8) -> String {
    format!("1 {number} 0 0 0 0 0 0 0 0")
}

/// A note that names the list.
fn note(widths: &[u16], more: &str) -> String {
    format!("widths {}{more}", joined(widths, ", "))
}

/// What a list of widths is lent at this length.
fn due(widths: &[u16], length: u64) -> (usize, u64) {
    let widest = widths.last().map_or(0, |last| u64::from(*last));
    (length as usize, words_needed(widest, length))
}

fn call(
    model: Bytes,
    widths: &[u16],
    (length, budget): (u64, u64),
    (plan_bytes, words): (usize, u64),
) -> Call {
    Call::Search(Search {
        model,
        beam: Beam::Listed(widths.to_vec()),
        length,
        budget,
        buffer: vec![FILL; plan_bytes],
        words,
    })
}

/// Three designs with a list of widths and the buffers due.
fn of_designs(cases: &mut Cases, widths: &[u16], length: u64, stated: &str) {
    let more = match length {
        64 => String::new(),
        _ => format!(" at L {length}"),
    };
    let search = call(
        three_designs(),
        widths,
        (length, BUDGET),
        due(widths, length),
    );
    cases.add(&note(widths, &more), search, stated);
}

/// Entry after entry, and the last again.
fn rounds(cases: &mut Cases) {
    of_designs(cases, &[1, 200], 64, "0 0 1 7 7 3 9 2 200 7");
    of_designs(cases, &[3], 64, "0 0 1 7 7 3 13 2 3 7");
    of_designs(cases, &[200], 64, "0 0 1 7 7 3 10 1 200 7");
    of_designs(cases, &[2], 64, "0 2 1 7 0 3 10 2 2 7");
    of_designs(cases, &[1, 2, 4], 2, "0 2 0 0 2 0 9 3 4 0");
    of_designs(cases, &[1, 200], 2, "0 3 0 0 5 0 6 2 200 0");
    of_designs(cases, &[1, 3], 64, "0 0 1 7 7 3 9 2 3 7");
    of_designs(cases, &[2, 3], 64, "0 0 1 7 7 3 11 2 3 7");
    of_designs(cases, &[1, 2, 3], 64, "0 0 1 7 7 3 14 3 3 7");
    of_designs(cases, &[1, 5, 6], 64, "0 0 1 7 7 3 9 2 5 7");
    of_designs(cases, &[2, 5], 64, "0 0 1 7 7 3 11 2 5 7");
    of_designs(cases, &[4], 64, "0 0 1 7 7 3 14 2 4 7");
    of_designs(cases, &[5, 6], 2, "0 3 0 0 5 0 8 2 6 0");
}

/// The widths 1, 2, 4 up to W as a list, with the answers that W has.
fn built_in(cases: &mut Cases) {
    let p1 = "0 0 1 7 7 3 14 3 4 7";
    of_designs(cases, &[1, 2, 4, 8, 16], 64, p1);
    of_designs(cases, &[1, 2, 4], 3, p1);
    of_designs(cases, &[1, 2], 3, "0 2 1 7 0 3 8 2 2 7");
    of_designs(cases, &[1], 3, "0 2 1 7 0 3 6 2 1 7");
    of_designs(cases, &[1, 2, 4, 8], 2, "0 3 0 0 5 0 13 4 8 0");
    let all: Vec<u16> = (0..13).map(|height| 1 << height).collect();
    of_designs(cases, &all, 3, p1);
}

fn verdicts(cases: &mut Cases) {
    let jump = [1, 200];
    let mut with = |what: &str, model: Bytes, budget: u64, stated: &str| {
        let search = call(model, &jump, (64, budget), due(&jump, 64));
        cases.add(&note(&jump, &format!(", {what}")), search, stated);
    };
    with("budget 0", three_designs(), 0, "0 4 0 0 0 0 0 1 1 0");
    let p8 = Designs {
        bound: Some(8),
        ..designs()
    };
    with("P8", p8.bytes(), BUDGET, "0 5 1 7 8 3 3 1 1 7");
    let p9 = Designs {
        constraint: Some(not(same(elem(1), obj(2)))),
        ..designs()
    };
    with("P9", p9.bytes(), BUDGET, "0 1 0 0 0 0 _ 2 200 0");
    let p10 = Designs {
        rule: LARGEST,
        ..designs()
    };
    with("P10", p10.bytes(), BUDGET, "0 0 1 3 3 3 _ _ _ 3");
    with(
        "the TSPTW of 003",
        tsptw(),
        BUDGET,
        "0 0 1 14 14 4 _ 2 200 14",
    );
    with("the SOP of 004", sop(), BUDGET, "0 0 1 6 6 4 _ 2 200 6");
}

/// What ends at the target has the first entry's width.
fn target(cases: &mut Cases) {
    let by_zero = || quotient(lit(1), lit(0));
    let with = |constraint| {
        let constraint = Some(constraint);
        Designs {
            constraint,
            ..designs()
        }
        .bytes()
    };
    let broken = || with(not(same(elem(1), obj(0))));
    let bound = || designs().build().bound(by_zero()).end();
    let constraint = || with(equal(by_zero(), lit(0)));
    let start = Designs {
        start: 0,
        ..designs()
    };
    let mut at = |what: &str, model: Bytes, widths: &[u16], budget: u64, stated: &str| {
        let search = call(model, widths, (64, budget), due(widths, 64));
        cases.add(&note(widths, &format!(", {what}")), search, stated);
    };
    at(
        "a broken target",
        broken(),
        &[200, 300],
        BUDGET,
        "0 1 0 0 0 0 0 1 200 0",
    );
    at(
        "a broken target, budget 0",
        broken(),
        &[3],
        0,
        "0 1 0 0 0 0 0 1 3 0",
    );
    at(
        "a bound by zero",
        bound(),
        &[5, 6],
        BUDGET,
        "1 12 0 0 0 0 0 1 5 0",
    );
    at(
        "a constraint by zero",
        constraint(),
        &[5, 6],
        BUDGET,
        "1 12 0 0 0 0 0 1 5 0",
    );
    at(
        "the target is base",
        start.bytes(),
        &[5, 6],
        BUDGET,
        "0 0 1 0 0 0 0 1 5 0",
    );
    at(
        "budget 0",
        three_designs(),
        &[5, 6],
        0,
        "0 4 0 0 0 0 0 1 5 0",
    );
}

/// A way that is cut at width 1 and leads to a cost by zero: met in round 2, at the second entry's width.
fn trouble_in_round_two(cases: &mut Cases) {
    let at = |place: i32| [equal(num(0), lit(place))];
    let to = |place: i32| [(0, lit(place))];
    let model = Build::new(SUM)
        .number(NONE, 0)
        .transition(&at(0), lit(1), &to(1))
        .transition(&at(0), lit(2), &to(2))
        .transition(&at(1), lit(5), &to(9))
        .transition(&at(2), quotient(lit(1), lit(0)), &to(9))
        .base(&at(9))
        .end();
    for widths in [&[1, 7][..], &[1, 7, 9]] {
        let search = call(model.clone(), widths, (4, BUDGET), due(widths, 4));
        let note = note(widths, ", trouble in round 2");
        cases.add(&note, search, "1 12 0 2 1 1 5 2 7 2");
    }
}

/// Each way to be refused with 16, and the lists beside it that are taken.
fn bad_lists(cases: &mut Cases) {
    let sixteen: Vec<u16> = (1..=16).collect();
    let seventeen: Vec<u16> = (1..=17).collect();
    let to_the_widest: Vec<u16> = (4_080..=4_096).collect();
    let mut with = |what: &str, widths: &[u16], stated: &str| {
        let (plan_bytes, words) = due(widths, 3);
        let search = call(three_designs(), widths, (3, BUDGET), (plan_bytes, words));
        cases.add(what, search, stated);
    };
    let bad = &refused(16);
    with("no widths", &[], bad);
    with("sixteen widths", &sixteen, "0 0 1 7 7 3 14 3 3 7");
    with(
        "sixteen widths to the widest",
        &to_the_widest[1..],
        "0 0 1 7 7 3 10 1 4081 7",
    );
    with("seventeen widths", &seventeen, bad);
    with("seventeen widths to the widest", &to_the_widest, bad);
    with("width 0", &[0], bad);
    with("width 0 before others", &[0, 1, 200], bad);
    with("width 0 behind another", &[1, 0], bad);
    with("width 4,096", &[4_096], "0 0 1 7 7 3 10 1 4096 7");
    with("widths 1 and 4,096", &[1, 4_096], "0 0 1 7 7 3 9 2 4096 7");
    with("width 4,097", &[4_097], bad);
    with("widths 1 and 4,097", &[1, 4_097], bad);
    with("width 65,535", &[65_535], bad);
    with("a width twice", &[2, 2], bad);
    with("the last width twice", &[1, 200, 200], bad);
    with("the first width twice", &[1, 1, 200], bad);
    with("falling widths", &[200, 1], bad);
    with("a fall at the end", &[1, 200, 100], bad);
    with("a fall in the middle", &[1, 4, 2, 8], bad);
}

/// 1, 2 for the length alone, 16, 3, the reading.
fn order_of_refusals(cases: &mut Cases) {
    let cut = three_designs()[..179].to_vec();
    let too_long = vec![0; 65_537];
    let (good, bad) = ([1, 200], [2, 2]);
    let usual = (64, BUDGET);
    let mut with = |what: &str, model: &Bytes, widths: &[u16], length: u64, lent, number| {
        let search = call(model.clone(), widths, (length, BUDGET), lent);
        cases.add(what, search, &refused(number));
    };
    with("too long a model, no widths", &too_long, &[], 0, NOTHING, 1);
    for (what, length) in [("L 0", 0), ("L 257", 257)] {
        let enough = due(&good, 257);
        let designs = three_designs();
        with(
            &format!("{what}, no widths"),
            &designs,
            &[],
            length,
            enough,
            2,
        );
        with(
            &format!("{what}, a width twice"),
            &designs,
            &bad,
            length,
            NOTHING,
            2,
        );
        with(
            &format!("{what}, widths 1 and 200"),
            &designs,
            &good,
            length,
            enough,
            2,
        );
    }
    with(
        "no widths, nothing lent",
        &three_designs(),
        &[],
        usual.0,
        NOTHING,
        16,
    );
    with(
        "a width twice, nothing lent",
        &three_designs(),
        &bad,
        usual.0,
        NOTHING,
        16,
    );
    with(
        "a width twice, cut bytes",
        &cut,
        &bad,
        usual.0,
        due(&bad, 64),
        16,
    );
    with("no widths, cut bytes", &cut, &[], usual.0, NOTHING, 16);
    with(
        "widths 1 and 200, nothing lent",
        &three_designs(),
        &good,
        usual.0,
        NOTHING,
        3,
    );
    with(
        "widths 1 and 200, nothing lent, cut bytes",
        &cut,
        &good,
        usual.0,
        NOTHING,
        3,
    );
    with(
        "widths 1 and 200, cut bytes",
        &cut,
        &good,
        usual.0,
        due(&good, 64),
        4,
    );
}

/// The last entry counts, power of two or not.
fn lent(cases: &mut Cases) {
    let mut with = |what: &str, widths: &[u16], lent: (usize, u64), stated: &str| {
        let search = call(three_designs(), widths, (64, BUDGET), lent);
        cases.add(&note(widths, what), search, stated);
    };
    let three = &refused(3);
    with(
        ", 25,800 words",
        &[1, 200],
        (64, 25_800),
        "0 0 1 7 7 3 9 2 200 7",
    );
    with(", a word less", &[1, 200], (64, 25_799), three);
    with(", a byte less", &[1, 200], (63, 25_800), three);
    with(
        ", a byte and a word more",
        &[1, 200],
        (65, 25_801),
        "0 0 1 7 7 3 9 2 200 7",
    );
    with(", words for width 1", &[1, 200], due(&[1], 64), three);
    with(", words for width 200", &[200, 300], due(&[200], 64), three);
    with(", words for width 2", &[3], due(&[2], 64), three);
    with(", a word less", &[3], (64, 386), three);
}

/// The same in the loading profile: 1, 16, the reading, 15, 3.
fn loads(cases: &mut Cases) {
    let cut = three_designs()[..179].to_vec();
    let broken = Designs {
        constraint: Some(not(same(elem(1), obj(0)))),
        ..designs()
    };
    let designs = three_designs();
    let jump = [1, 200];
    let mut with = |what: &str, model: &Bytes, widths: &[u16], lent, stated: &str| {
        let call = Call::load_by(model.clone(), Beam::Listed(widths.to_vec()), BUDGET, lent);
        cases.add(&format!("loading {what}"), call, stated);
    };
    let found = "0 0 1 7 7 3 9 2 200 7";
    with("widths 1, 200", &designs, &jump, (3, 13_600), found);
    with(
        "widths 1, 200, a word less",
        &designs,
        &jump,
        (3, 13_599),
        &refused(3),
    );
    with(
        "widths 1, 200, a byte less",
        &designs,
        &jump,
        (2, 13_600),
        &refused(3),
    );
    with(
        "widths 3",
        &designs,
        &[3],
        due(&[3], 3),
        "0 0 1 7 7 3 13 2 3 7",
    );
    with(
        "widths 2",
        &designs,
        &[2],
        due(&[2], 3),
        "0 2 1 7 0 3 10 2 2 7",
    );
    with(
        "widths 1, 2, 4",
        &designs,
        &[1, 2, 4],
        due(&[4], 3),
        "0 0 1 7 7 3 14 3 4 7",
    );
    with(
        "widths 200, 300 from a broken target",
        &broken.bytes(),
        &[200, 300],
        due(&[300], 3),
        "0 1 0 0 0 0 0 1 200 0",
    );
    with(
        "too long a model, no widths",
        &vec![0; 65_537],
        &[],
        NOTHING,
        &refused(1),
    );
    with("no widths", &designs, &[], NOTHING, &refused(16));
    with(
        "a width twice, cut bytes",
        &cut,
        &[2, 2],
        NOTHING,
        &refused(16),
    );
    with(
        "a width twice, a model outside",
        &tsptw(),
        &[2, 2],
        due(&[2], 3),
        &refused(16),
    );
    with(
        "width 4,097",
        &designs,
        &[4_097],
        due(&[4_096], 3),
        &refused(16),
    );
    with(
        "widths 1, 200, cut bytes",
        &cut,
        &jump,
        NOTHING,
        &refused(4),
    );
    with(
        "widths 1, 200, a model outside",
        &tsptw(),
        &jump,
        NOTHING,
        &refused(15),
    );
    with(
        "widths 1, 200, nothing lent",
        &designs,
        &jump,
        NOTHING,
        &refused(3),
    );
}

/// A random model at a random list, length and budget, with a few bytes and words more than are due; one in four in the loading profile.
fn random_search(random: &mut Random) -> Call {
    let widths = rising(random);
    let budget = random.pick(&[1, 3, 6, 14, 40, 1_000]);
    let loading = random.chance(25);
    let model = match loading {
        true => inside(random).end(),
        false => with_any_target(random).end(),
    };
    let length = match loading {
        true => read_model(&model).map_or(1, |model| model.loading_length()),
        false => random.between(1, 6) as u64,
    };
    let (plan_bytes, words) = due(&widths, length);
    let lent = (plan_bytes + random.below(3), words + random.below(3) as u64);
    match loading {
        true => Call::load_by(model, Beam::Listed(widths), budget, lent),
        false => call(model, &widths, (length, budget), lent),
    }
}

fn random(cases: &mut Cases) {
    let mut random = Random::new(0x51D7);
    cases.add_random(&STORED, || random_search(&mut random));
}
