//! The proved search and plan check, as built, against the independent implementation: every field, every buffer byte.
//! REPGYPSUM_MODELS=N makes the run over random models longer.

use repgypsum_host::answer::Answer;
use repgypsum_host::beam::Beam;
use repgypsum_host::build::*;
use repgypsum_host::cases::{groups, Call, Outcome};
use repgypsum_host::enumerate::Space;
use repgypsum_host::families::families;
use repgypsum_host::fast;
use repgypsum_host::generate::loading::{inside, outside, WAYS};
use repgypsum_host::generate::widths::{bad, rising, rising_to, WAYS as BAD_LISTS};
use repgypsum_host::generate::{damaged, with_any_target, Random};
use repgypsum_host::numbers::refusal::{by_state, BAD_WIDTHS, OUTSIDE_PROFILE};
use repgypsum_host::numbers::verdict::LENGTH_STOP;
use repgypsum_host::numbers::words_needed;
use repgypsum_host::proved;
use repgypsum_host::reference::{self, read_model};
use std::collections::BTreeMap;

const FILL: u8 = 0xA5;
const WORD: u64 = 0x0123_4567_89AB_CDEF;
const STATES: usize = 300;

/// How many random models a test takes: 20,000, or more by the variable.
fn models() -> usize {
    let asked = std::env::var("REPGYPSUM_MODELS").ok();
    let asked = asked.and_then(|n| n.parse().ok()).unwrap_or(0);
    asked.max(20_000)
}

/// A widest beam from 1 to 64, a length from 1 to 12, a budget from 0 on.
fn settings(random: &mut Random) -> (u64, u64, u64) {
    let width = 1 << random.below(7);
    let length = random.between(1, 12) as u64;
    let budget = random.pick(&[0, 1, 2, 3, 5, 8, 13, 40, 200, 3_000, u64::from(u32::MAX)]);
    (width, length, budget)
}

/// A search's widths, its length, which the loading profile chooses where none is given, and its budget.
struct Asked<'a> {
    beam: &'a Beam,
    length: Option<u64>,
    budget: u64,
}

impl Asked<'_> {
    fn by_reference(&self, model: &[u8], plan: &mut [u8], words: u64) -> Answer {
        let budget = self.budget;
        match (self.beam, self.length) {
            (Beam::UpTo(width), Some(length)) => {
                reference::search(model, *width, length, budget, plan, words)
            }
            (Beam::UpTo(width), None) => reference::load(model, *width, budget, plan, words),
            (Beam::Listed(widths), Some(length)) => {
                reference::search_widths(model, widths, length, budget, plan, words)
            }
            (Beam::Listed(widths), None) => {
                reference::load_widths(model, widths, budget, plan, words)
            }
        }
    }

    fn by_proved(&self, model: &[u8], plan: &mut [u8], words: &mut [u64]) -> Answer {
        let budget = self.budget as u32;
        match (self.beam, self.length.map(|length| length as u32)) {
            (Beam::UpTo(width), Some(length)) => {
                proved::search(model, *width as u32, length, budget, plan, words)
            }
            (Beam::UpTo(width), None) => proved::load(model, *width as u32, budget, plan, words),
            (Beam::Listed(widths), Some(length)) => {
                proved::search_widths(model, widths, length, budget, plan, words)
            }
            (Beam::Listed(widths), None) => proved::load_widths(model, widths, budget, plan, words),
        }
    }

    /// Runs the search by both with the same buffers, compares all that they leave, and answers the answer and the plan buffer.
    fn compare(&self, model: &[u8], plan_bytes: usize, lent: u64) -> (Answer, Vec<u8>) {
        let mut expected_plan = vec![FILL; plan_bytes];
        let expected = self.by_reference(model, &mut expected_plan, lent);
        let mut plan = vec![FILL; plan_bytes];
        let mut words = vec![WORD; lent as usize];
        let answer = self.by_proved(model, &mut plan, &mut words);
        let Asked {
            beam,
            length,
            budget,
        } = self;
        let call = format!(
            "{beam:?} L {length:?} budget {budget}, {plan_bytes} bytes, {lent} words: {model:02x?}"
        );
        assert_eq!(answer, expected, "{call}");
        assert_eq!(plan, expected_plan, "{call}");
        if answer.refused && !by_state(answer.verdict) {
            assert!(words.iter().all(|word| *word == WORD), "{call}");
        }
        (answer, plan)
    }
}

/// Compares a search up to a widest beam with a length.
fn compare(
    model: &[u8],
    (width, length, budget): (u64, u64, u64),
    plan_bytes: usize,
    lent: u64,
) -> (Answer, Vec<u8>) {
    let asked = Asked {
        beam: &Beam::UpTo(width),
        length: Some(length),
        budget,
    };
    asked.compare(model, plan_bytes, lent)
}

/// The same for a search in the loading profile.
fn compare_load(
    model: &[u8],
    (width, budget): (u64, u64),
    plan_bytes: usize,
    lent: u64,
) -> (Answer, Vec<u8>) {
    let asked = Asked {
        beam: &Beam::UpTo(width),
        length: None,
        budget,
    };
    asked.compare(model, plan_bytes, lent)
}

/// The same with the buffers that the settings need and a few bytes and words more.
fn compare_at(model: &[u8], settings: (u64, u64, u64), more: usize) -> (Answer, Vec<u8>) {
    let (width, length, _) = settings;
    let words = words_needed(width, length) + more as u64;
    compare(model, settings, length as usize + more, words)
}

#[test]
fn stored_cases() {
    let mut searches = 0;
    let mut loads = 0;
    let mut lists = 0;
    let mut checks = 0;
    for (_, cases) in groups() {
        for case in cases {
            match (&case.call, case.call.run()) {
                (Call::Check { model, plan }, Outcome::Check(answer, cost, low)) => {
                    assert_eq!(proved::plan_check(model, plan), (answer, cost, low));
                    checks += 1;
                }
                (Call::Search(search), Outcome::Search(..)) => {
                    let asked = Asked {
                        beam: &search.beam,
                        length: Some(search.length),
                        budget: search.budget,
                    };
                    let words = search.words.min(400_000);
                    asked.compare(&search.model, search.buffer.len(), words);
                    searches += 1;
                    lists += usize::from(search.beam.list().is_some());
                }
                (Call::Load(load), Outcome::Search(..)) => {
                    let asked = Asked {
                        beam: &load.beam,
                        length: None,
                        budget: load.budget,
                    };
                    asked.compare(&load.model, load.buffer.len(), load.words);
                    loads += 1;
                    lists += usize::from(load.beam.list().is_some());
                }
                _ => unreachable!("a call has its own outcome"),
            }
        }
    }
    println!("{searches} searches, {loads} in the loading profile, {lists} of both with a list of widths");
    println!("{checks} plan checks");
    assert!(searches >= 150 && loads >= 100 && lists >= 100 && checks >= 400);
}

/// Random models at random settings; demand 3's sentences by enumeration where the model is small enough.
#[test]
fn random_models() {
    let mut random = Random::new(0xF1E1D);
    let mut verdicts = [0; 6];
    let mut refusals = [0; 14];
    let mut enumerated = 0;
    let mut declarations = 0;
    for _ in 0..models() {
        let bytes = with_any_target(&mut random).end();
        let settings = settings(&mut random);
        let more = random.below(4);
        let (answer, buffer) = compare_at(&bytes, settings, more);
        let plan = &buffer[..answer.length as usize];
        if answer.refused {
            refusals[usize::from(answer.verdict)] += 1;
            continue;
        }
        verdicts[usize::from(answer.verdict)] += 1;
        if answer.flag {
            assert_eq!(
                proved::plan_check(&bytes, plan),
                (0, answer.cost, answer.low)
            );
        }
        let read = read_model(&bytes).expect("a generated model is well made");
        let Some(space) = Space::of(&read, STATES) else {
            continue;
        };
        let all_true = space.declarations_true(&read);
        let (width, length, _) = settings;
        let broken = space.broken(&read, all_true, (width, length), &answer, plan);
        assert_eq!(broken, None, "{settings:?} {bytes:02x?}");
        enumerated += 1;
        declarations += usize::from(all_true);
    }
    println!(
        "verdicts 0 to 5 {verdicts:?}, refusals 11 to 13 {:?}",
        &refusals[11..]
    );
    println!("{enumerated} enumerated, {declarations} of these with true declarations");
    assert!(verdicts.iter().all(|met| *met >= 20));
    assert!(refusals[11..].iter().all(|met| *met >= 20));
    assert!(enumerated >= 5_000 && declarations >= 1_000);
}

/// Plan checks of random sequences, and of plans with a step changed.
#[test]
fn random_plan_checks() {
    let mut random = Random::new(0xC4EC);
    let mut answers = [0; 15];
    for _ in 0..models() {
        let bytes = with_any_target(&mut random).end();
        let (answer, buffer) = compare_at(&bytes, (8, 8, 200), 0);
        let mut plan = buffer[..answer.length as usize].to_vec();
        if random.chance(50) || plan.is_empty() {
            plan = (0..random.below(6))
                .map(|_| random.below(5) as u8)
                .collect();
        } else if random.chance(30) {
            let place = random.below(plan.len());
            plan[place] = random.below(6) as u8;
        }
        let checked = proved::plan_check(&bytes, &plan);
        assert_eq!(
            checked,
            reference::plan_check(&bytes, &plan),
            "{bytes:02x?} {plan:?}"
        );
        answers[usize::from(checked.0)] += 1;
    }
    println!("answers by number {answers:?}");
    assert!([0, 11, 12, 14].iter().all(|number| answers[*number] >= 20));
}

/// 2A over sets of up to 64 objects, with entries that take the sum over a half of them out of the range.
#[test]
fn random_table_sums() {
    let mut random = Random::new(0x2A64);
    let mut answers = [0; 15];
    let mut halves_out = 0;
    for _ in 0..models() {
        let (rows, columns) = (random.between(33, 64), random.between(1, 3));
        let entries: Vec<i32> = (0..rows * columns)
            .map(|_| {
                let near = random.between(-50, 50);
                random.pick(&[i32::MAX, -i32::MAX, i32::MIN, near, near])
            })
            .collect();
        let set = random.word() & random.word() & random.word() & (u64::MAX >> (64 - rows));
        let column = random.between(0, columns - 1);
        let total = entry_sum(0, set_lit(rows as u8, set), obj(column as u8));
        let model = Build::new(SUM)
            .element(2, NONE, 0)
            .table(rows as u8, columns as u8, &entries)
            .transition(&[], total, &[(0, obj(1))])
            .base(&[same(elem(0), obj(1))])
            .end();
        let checked = proved::plan_check(&model, &[0]);
        let expected = reference::plan_check(&model, &[0]);
        assert_eq!(checked, expected, "{model:02x?}");
        answers[usize::from(checked.0)] += 1;
        let lower: i64 = (0..32)
            .filter(|row| set >> row & 1 == 1)
            .map(|row| i64::from(entries[(row * columns + column) as usize]))
            .sum();
        if checked.0 == 0 && i32::try_from(lower).is_err() {
            halves_out += 1;
        }
    }
    println!("answers by number {answers:?}, {halves_out} plans with a half out of range");
    assert!([0, 11, 13].iter().all(|number| answers[*number] >= 200));
    assert!(halves_out >= 200);
}

/// Damaged models, settings out of range and too little lent: the same refusals, and nothing lent is changed.
#[test]
fn damaged_calls() {
    let mut random = Random::new(0xDA3A);
    let mut refusals = [0; 18];
    for _ in 0..models() {
        let build = with_any_target(&mut random);
        let bytes = if random.chance(80) {
            damaged(&mut random, &build)
        } else {
            build.end()
        };
        let (mut width, mut length, budget) = settings(&mut random);
        if random.chance(10) {
            width = random.pick(&[0, 3, 5, 6, 12, 4_095, 8_192]);
        }
        if random.chance(5) {
            length = random.pick(&[0, 257, 1_000]);
        }
        let short = random.pick(&[0, 0, 0, 0, 0, 0, 0, 1, 2, 9]);
        let words = words_needed(width, length)
            .min(100_000)
            .saturating_sub(short);
        let plan_bytes =
            (length.min(300) as usize).saturating_sub(random.pick(&[0, 0, 0, 0, 0, 1]));
        let (answer, _) = compare(&bytes, (width, length, budget), plan_bytes, words);
        refusals[if answer.refused {
            usize::from(answer.verdict)
        } else {
            0
        }] += 1;
    }
    println!("refusals by number, 0 for an answer {refusals:?}");
    assert!([0, 2, 3, 4, 5, 6, 7, 9]
        .iter()
        .all(|number| refusals[*number] >= 20));
}

/// Models in the loading profile with what is due, a little less and a little more; the plain run at that length is the same.
#[test]
fn random_loads() {
    let mut random = Random::new(0x10AD);
    let mut verdicts = [0; 6];
    let mut refusals = [0; 16];
    for _ in 0..models() {
        let bytes = inside(&mut random).end();
        let read = read_model(&bytes).expect("a generated model is well made");
        let (width, _, budget) = settings(&mut random);
        let length = read.loading_length();
        let bytes_lent = random.pick(&[length, length, length, length + 2, length - 1]);
        let words = words_needed(width, length);
        let lent = random.pick(&[words, words, words, words + 3, words - 1]);
        let (answer, plan) = compare_load(&bytes, (width, budget), bytes_lent as usize, lent);
        let plain = compare(&bytes, (width, length, budget), bytes_lent as usize, lent);
        assert_eq!((answer, &plan), (plain.0, &plain.1), "{bytes:02x?}");
        if answer.refused {
            refusals[usize::from(answer.verdict)] += 1;
            continue;
        }
        verdicts[usize::from(answer.verdict)] += 1;
        if answer.flag {
            let plan = &plan[..answer.length as usize];
            assert_eq!(
                proved::plan_check(&bytes, plan),
                (0, answer.cost, answer.low)
            );
        }
    }
    println!("verdicts 0 to 5 {verdicts:?}, refusals by number {refusals:?}");
    assert_eq!(verdicts[usize::from(LENGTH_STOP)], 0);
    let met = verdicts.iter().filter(|met| **met >= 20).count();
    assert_eq!(met, 5);
    assert!([3, 11, 12, 13].iter().all(|number| refusals[*number] >= 20));
}

/// Each way to be outside the loading profile, models of every kind, and damaged ones: the same refusals, and nothing lent is changed.
#[test]
fn refused_loads() {
    let mut random = Random::new(0x0FF);
    let mut refusals = [0; 16];
    for turn in 0..models() {
        let build = match random.below(4) {
            0 => with_any_target(&mut random),
            1 => inside(&mut random),
            _ => outside(&mut random, WAYS[turn % WAYS.len()]),
        };
        let damage = random.chance(25);
        let bytes = match damage {
            true => damaged(&mut random, &build),
            false => build.end(),
        };
        let width = random.pick(&[1, 2, 4, 16, 16, 16, 16, 0, 3, 5_000]);
        let lent = random.pick(&[(0, 0), (2, 140), (64, 2_064), (70, 3_000)]);
        let (answer, _) = compare_load(&bytes, (width, 40), lent.0, lent.1);
        let number = usize::from(answer.verdict);
        refusals[if answer.refused { number } else { 0 }] += 1;
    }
    println!("refusals by number, 0 for an answer {refusals:?}");
    assert!([0, 2, 3, 4, 5, 6, 7, 9]
        .iter()
        .all(|number| refusals[*number] >= 20));
    assert!(refusals[usize::from(OUTSIDE_PROFILE)] >= 2_000);
}

/// Lists of widths, rising ones and each way to be refused, with what is due and a little less or more, on models of every kind.
#[test]
fn random_widths() {
    let mut random = Random::new(0x51D75);
    let mut verdicts = [0; 6];
    let mut refusals = [0; 17];
    let mut rounds = BTreeMap::new();
    for turn in 0..models() {
        let widths = match random.chance(90) {
            true => rising(&mut random),
            false => bad(&mut random, BAD_LISTS[turn % BAD_LISTS.len()]),
        };
        let loading = random.chance(25);
        let build = match loading {
            true => inside(&mut random),
            false => with_any_target(&mut random),
        };
        let damage = random.chance(8);
        let bytes = match damage {
            true => damaged(&mut random, &build),
            false => build.end(),
        };
        let (_, mut length, budget) = settings(&mut random);
        if random.chance(2) {
            length = random.pick(&[0, 257]);
        }
        let chosen = read_model(&bytes).ok().map(|model| model.loading_length());
        let due = if loading { chosen.unwrap_or(1) } else { length };
        let beam = Beam::Listed(widths);
        let words = words_needed(beam.widest(), due).min(400_000);
        let words = match random.below(10) {
            0 => words.saturating_sub(1),
            1 => words + 3,
            _ => words,
        };
        let bytes_lent = match random.below(20) {
            0 => due.saturating_sub(1),
            1 => due + 2,
            _ => due,
        };
        let asked = Asked {
            beam: &beam,
            length: (!loading).then_some(length),
            budget,
        };
        let (answer, plan) = asked.compare(&bytes, bytes_lent as usize, words);
        if answer.refused {
            refusals[usize::from(answer.verdict)] += 1;
            continue;
        }
        verdicts[usize::from(answer.verdict)] += 1;
        *rounds.entry(answer.rounds.min(6)).or_insert(0) += 1;
        if answer.flag {
            let plan = &plan[..answer.length as usize];
            assert_eq!(
                proved::plan_check(&bytes, plan),
                (0, answer.cost, answer.low)
            );
        }
    }
    println!("verdicts 0 to 5 {verdicts:?}, refusals by number {refusals:?}");
    println!("runs by rounds, 6 for more {rounds:?}");
    assert!(verdicts.iter().all(|met| *met >= 20));
    assert!([2, 3, 11, 12, 13]
        .iter()
        .all(|number| refusals[*number] >= 20));
    assert!(refusals[usize::from(BAD_WIDTHS)] >= 1_000);
    assert!((1..=4).all(|count| rounds[&count] >= 50));
}

/// Every rising list over 1 to 7 on small models: the independent implementation's answer, and demand 3's sentences by enumeration.
#[test]
fn all_lists_to_seven() {
    let mut random = Random::new(0x127);
    let (mut enumerated, mut runs) = (0, 0);
    let mut verdicts = [0; 6];
    while enumerated < 600 {
        let bytes = with_any_target(&mut random).end();
        let read = read_model(&bytes).expect("a generated model is well made");
        let Some(space) = Space::of(&read, STATES) else {
            continue;
        };
        enumerated += 1;
        let all_true = space.declarations_true(&read);
        let (_, length, budget) = settings(&mut random);
        for widths in rising_to(7) {
            let beam = Beam::Listed(widths);
            let asked = Asked {
                beam: &beam,
                length: Some(length),
                budget,
            };
            let words = words_needed(beam.widest(), length);
            let (answer, buffer) = asked.compare(&bytes, length as usize, words);
            runs += 1;
            if answer.refused {
                continue;
            }
            verdicts[usize::from(answer.verdict)] += 1;
            let plan = &buffer[..answer.length as usize];
            let limits = (beam.widest(), length);
            let broken = space.broken(&read, all_true, limits, &answer, plan);
            assert_eq!(broken, None, "{beam:?} L {length} {bytes:02x?}");
        }
    }
    println!("{enumerated} models, {runs} runs, verdicts 0 to 5 {verdicts:?}");
    assert!(verdicts.iter().all(|met| *met >= 100));
}

/// The widths 1, 2, 4 up to W lent as a list: the proved search with the list against the proved search with W, buffers and words included.
#[test]
fn built_in_widths_are_a_list() {
    let mut random = Random::new(0xB111);
    for _ in 0..models() {
        let loading = random.chance(30);
        let bytes = match loading {
            true => inside(&mut random).end(),
            false => with_any_target(&mut random).end(),
        };
        let (width, length, budget) = settings(&mut random);
        let length = match loading {
            true => read_model(&bytes).unwrap().loading_length(),
            false => length,
        };
        let list = (0..=width.ilog2()).map(|height| 1 << height).collect();
        let words = words_needed(width, length) - u64::from(random.chance(3));
        let run = |beam: Beam| {
            let asked = Asked {
                beam: &beam,
                length: (!loading).then_some(length),
                budget,
            };
            let mut plan = vec![FILL; length as usize];
            let mut words = vec![WORD; words as usize];
            let answer = asked.by_proved(&bytes, &mut plan, &mut words);
            (answer, plan, words)
        };
        let same = run(Beam::UpTo(width)) == run(Beam::Listed(list));
        assert!(same, "W {width} L {length} budget {budget}: {bytes:02x?}");
    }
}

/// Every family, small and at its usual size, against the fast implementation.
#[test]
fn models_of_the_families() {
    let mut searches = 0;
    for family in families() {
        for size in [
            family.smallest,
            (family.smallest + family.usual) / 2,
            family.usual,
        ] {
            for seed in 0..3 {
                let bytes = (family.model)(size, seed);
                for (beam, length, budget) in [
                    (Beam::UpTo(1), 64, 2_000),
                    (Beam::UpTo(16), 128, 5_000),
                    (Beam::UpTo(64), 128, 10_000),
                    (Beam::Listed(vec![5]), 64, 2_000),
                    (Beam::Listed(vec![1, 100]), 128, 10_000),
                    (Beam::Listed(vec![3, 7, 20, 77]), 128, 5_000),
                ] {
                    let (expected, steps) = match &beam {
                        Beam::UpTo(width) => fast::search(&bytes, *width, length, budget),
                        Beam::Listed(widths) => fast::search_widths(&bytes, widths, length, budget),
                    };
                    let mut plan = vec![FILL; length as usize];
                    let mut words = vec![WORD; words_needed(beam.widest(), length) as usize];
                    let asked = Asked {
                        beam: &beam,
                        length: Some(length),
                        budget,
                    };
                    let answer = asked.by_proved(&bytes, &mut plan, &mut words);
                    assert_eq!(answer, expected, "{} of {size}", family.name);
                    assert_eq!(plan[..steps.len()], steps[..], "{} of {size}", family.name);
                    searches += 1;
                }
            }
        }
    }
    println!("{searches} searches of {} families", families().len());
    assert!(searches >= 600);
}
