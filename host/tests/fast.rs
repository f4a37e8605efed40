//! The fast search gives every answer field and every plan byte of the reference.

use repgypsum_host::answer::Answer;
use repgypsum_host::beam::Beam;
use repgypsum_host::build::*;
use repgypsum_host::cases::{groups, Call, FILL};
use repgypsum_host::families::families;
use repgypsum_host::fast;
use repgypsum_host::generate::ranges::ranged;
use repgypsum_host::generate::{damaged, model, settings, with_any_target, Random};
use repgypsum_host::numbers::{refusal, words_needed};
use repgypsum_host::reference::search;

/// The searches compared, by verdict and by refusal.
#[derive(Default, Debug)]
struct Met {
    verdicts: [usize; 6],
    refusals: [usize; 18],
}

impl Met {
    fn count(&mut self, answer: &Answer) {
        let number = usize::from(answer.verdict);
        if answer.refused {
            self.refusals[number] += 1;
        } else {
            self.verdicts[number] += 1;
        }
    }

    fn total(&self) -> usize {
        self.verdicts.iter().chain(&self.refusals).sum()
    }
}

/// The reference's answer and lent buffer.
fn reference(bytes: &[u8], width: u64, length: u64, budget: u64) -> (Answer, Vec<u8>) {
    let mut buffer = vec![FILL; length as usize];
    let words = words_needed(width, length);
    let answer = search(bytes, width, length, budget, &mut buffer, words);
    (answer, buffer)
}

/// The fast answer, and the buffer as it would be left.
fn fast(bytes: &[u8], width: u64, length: u64, budget: u64) -> (Answer, Vec<u8>) {
    let (answer, plan) = fast::search(bytes, width, length, budget);
    let mut buffer = vec![FILL; length as usize];
    buffer[..plan.len()].copy_from_slice(&plan);
    (answer, buffer)
}

fn compare(met: &mut Met, bytes: &[u8], (width, length, budget): (u64, u64, u64)) {
    let expected = reference(bytes, width, length, budget);
    let found = fast(bytes, width, length, budget);
    assert_eq!(
        found, expected,
        "W {width} L {length} budget {budget}: {bytes:02x?}"
    );
    met.count(&expected.0);
}

/// All stored searches but those refused for what is lent, since nothing is lent here.
#[test]
fn stored_searches() {
    let mut met = Met::default();
    for (_, cases) in groups() {
        for case in cases {
            let Call::Search(search) = case.call else {
                continue;
            };
            let (expected, expected_buffer) = search.run();
            met.count(&expected);
            if (expected.refused, expected.verdict) == (true, refusal::TOO_LITTLE_LENT) {
                continue;
            }
            let (model, length, budget) = (&search.model, search.length, search.budget);
            let (found, plan) = match &search.beam {
                Beam::UpTo(width) => fast::search(model, *width, length, budget),
                Beam::Listed(widths) => fast::search_widths(model, widths, length, budget),
            };
            let mut left = search.buffer;
            left[..plan.len()].copy_from_slice(&plan);
            assert_eq!((found, left), (expected, expected_buffer));
        }
    }
    println!("{} stored searches, {met:?}", met.total());
    assert!(met.total() >= 200);
}

/// The models of all stored cases, searched at small settings.
#[test]
fn stored_models() {
    let mut met = Met::default();
    for (_, cases) in groups() {
        for case in cases {
            compare(&mut met, case.call.model(), (4, 8, 60));
        }
    }
    println!("{} searches, {met:?}", met.total());
    assert!(met.total() >= 500);
}

/// Models with two troubles in one evaluation, one behind the other, in each place of a model.
fn two_troubles(first: Bytes, second: Bytes) -> Vec<Bytes> {
    let start = || Build::new(SUM).number(NONE, 0).number(NONE, 0);
    let both = || sum(first.clone(), second.clone());
    let each = || [equal(first.clone(), lit(0)), equal(second.clone(), lit(0))];
    let either = || or(each()[0].clone(), each()[1].clone());
    let step = |build: Build| build.transition(&[], lit(1), &[(0, lit(1))]);
    let effects = [(1, first.clone()), (0, second.clone())];
    vec![
        start().transition(&each(), lit(0), &[]).end(),
        start().transition(&[either()], first.clone(), &[]).end(),
        start().transition(&[], both(), &effects).end(),
        start().transition(&[], lit(1), &effects).end(),
        start().transition(&[], lit(-1), &effects).end(),
        step(start()).base(&each()).end(),
        step(start()).base(&[either()]).base(&each()).end(),
        step(start()).constraint(either()).bound(both()).end(),
        step(start()).constraint(either()).end(),
        step(start())
            .bound(first.clone())
            .bound(second.clone())
            .end(),
    ]
}

/// The first trouble met is the one told. A trouble in the target's h waits there for variable 0 to be 1.
#[test]
fn first_trouble() {
    let mut met = Met::default();
    let later = |number: Bytes| choice(equal(num(0), lit(1)), number, lit(0));
    let out_of_range = sum(lit(i32::MAX), lit(1));
    let by_zero = quotient(lit(1), lit(0));
    let troubles = [
        out_of_range.clone(),
        by_zero.clone(),
        later(out_of_range),
        later(by_zero),
        lit(1),
    ];
    for first in &troubles {
        for second in &troubles {
            for bytes in two_troubles(first.clone(), second.clone()) {
                compare(&mut met, &bytes, (4, 3, 20));
            }
        }
    }
    println!("{} searches, {met:?}", met.total());
    assert!(met.refusals[11..14].iter().all(|count| *count >= 20));
}

#[test]
fn random_models() {
    let mut met = Met::default();
    let mut random = Random::new(0xFA57);
    for turn in 0..6_000 {
        let bytes = match turn % 2 {
            0 => with_any_target(&mut random).end(),
            _ => ranged(&mut random).end(),
        };
        for _ in 0..8 {
            compare(&mut met, &bytes, settings(&mut random));
        }
    }
    println!("{} searches, {met:?}", met.total());
    assert!(met.verdicts.iter().all(|count| *count >= 100));
    assert!([11, 12, 13, 17]
        .iter()
        .all(|number| met.refusals[*number] >= 50));
}

/// Longer and wider searches of the same models, where layers fill and are cut many times.
#[test]
fn random_models_at_length() {
    let mut met = Met::default();
    let mut random = Random::new(0x10_4E);
    for _ in 0..1_500 {
        let bytes = with_any_target(&mut random).end();
        let width = 1 << random.below(7);
        let length = random.between(6, 24) as u64;
        let budget = random.pick(&[50, 300, 600]);
        compare(&mut met, &bytes, (width, length, budget));
    }
    println!("{} searches, {met:?}", met.total());
}

#[test]
fn damaged_models() {
    let mut met = Met::default();
    let mut random = Random::new(0xDA);
    for _ in 0..4_000 {
        let build = model(&mut random);
        let bytes = damaged(&mut random, &build);
        compare(&mut met, &bytes, (4, 6, 200));
    }
    println!("{} searches, {met:?}", met.total());
}

#[test]
fn families_small() {
    let mut met = Met::default();
    for family in families() {
        for size in family.smallest..=family.smallest + 6 {
            for seed in 0..6 {
                let bytes = (family.model)(size, seed);
                for width in [1, 2, 8, 64] {
                    compare(&mut met, &bytes, (width, 24, 100_000));
                }
                compare(&mut met, &bytes, (16, size as u64 / 2 + 1, 100_000));
                compare(&mut met, &bytes, (16, 24, 20 + seed));
            }
        }
    }
    println!("{} searches, {met:?}", met.total());
}

/// A model whose layers are crowded: few keys, two preferred numbers, many steps, an estimate of any kind.
fn crowded(random: &mut Random) -> Vec<u8> {
    let rule = if random.chance(25) { LARGEST } else { SUM };
    let places = random.between(1, 6) as u8;
    let first = random.pick(&[LESS, MORE, NONE]);
    let mut build = Build::new(rule)
        .element(places, NONE, 0)
        .number(first, 0)
        .number(random.pick(&[LESS, MORE]), 0);
    let estimates: Vec<i32> = (0..places).map(|_| random.between(0, 9)).collect();
    build = build.table(places, 1, &estimates);
    for _ in 0..random.between(8, 40) {
        let moved = |variable: u8, by: i32| {
            let value = sum(num(variable), lit(by));
            (variable, lesser(lit(9), greater(lit(-9), value)))
        };
        let to = random.below(usize::from(places)) as u8;
        let by = (random.between(-3, 3), random.between(-3, 3));
        let effects = [(0, obj(to)), moved(1, by.0), moved(2, by.1)];
        build = build.transition(&[], lit(random.between(0, 6)), &effects);
    }
    if random.chance(50) {
        build = build.base(&[equal(num(1), lit(random.between(5, 9)))]);
    }
    let estimate = entry(0, elem(0), obj(0));
    build.bound(sum(estimate, lesser(num(1), num(2)))).end()
}

/// Dominance in full layers: many removals and many cuts side by side.
#[test]
fn crowded_layers() {
    let mut met = Met::default();
    let mut random = Random::new(0xC40);
    for _ in 0..600 {
        let bytes = crowded(&mut random);
        let width = 1 << random.below(8);
        let length = random.between(3, 16) as u64;
        let budget = random.between(50, 500) as u64;
        compare(&mut met, &bytes, (width, length, budget));
    }
    println!("{} searches, {met:?}", met.total());
}

/// The sizes of benchmarks, with as many expansions as the reference does in little time.
#[test]
fn families_usual() {
    let mut met = Met::default();
    for family in families() {
        for (width, budget) in [(1, 200), (16, 400), (64, 900), (256, 1_200)] {
            let bytes = (family.model)(family.usual, width);
            compare(&mut met, &bytes, (width, 128, budget));
        }
    }
    println!("{} searches, {met:?}", met.total());
}
