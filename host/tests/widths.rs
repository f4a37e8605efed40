//! Lists of widths: the second implementation and the fast one on rising lists and on those that are refused, by enumeration where
//! the models are small.

use repgypsum_host::answer::Answer;
use repgypsum_host::cases::widths as stored;
use repgypsum_host::cases::{Call, FILL};
use repgypsum_host::enumerate::Space;
use repgypsum_host::fast;
use repgypsum_host::generate::loading::inside;
use repgypsum_host::generate::widths::{bad, rising, rising_to, Way, WAYS};
use repgypsum_host::generate::{settings, with_any_target, Random};
use repgypsum_host::models::three_designs;
use repgypsum_host::numbers::refusal::{
    BAD_SETTING, BAD_WIDTHS, ENDS_EARLY, MODEL_TOO_LONG, TOO_LITTLE_LENT,
};
use repgypsum_host::numbers::verdict::{LENGTH_STOP, NO_PLAN};
use repgypsum_host::numbers::{limit, words_needed};
use repgypsum_host::reference::widths::{faults, Fault};
use repgypsum_host::reference::{load, load_widths, read_model, search, search_widths};
use std::collections::BTreeMap;

const MODELS: usize = 1_500;
const STATES: usize = 300;

/// The answer of a search with a list and the buffers due, and the plan buffer afterwards.
fn listed(bytes: &[u8], widths: &[u16], length: u64, budget: u64) -> (Answer, Vec<u8>) {
    let mut buffer = vec![FILL; length as usize];
    let widest = widths.last().map_or(0, |last| u64::from(*last));
    let words = words_needed(widest, length);
    let answer = search_widths(bytes, widths, length, budget, &mut buffer, words);
    (answer, buffer)
}

/// The same by the fast implementation.
fn fast_listed(bytes: &[u8], widths: &[u16], length: u64, budget: u64) -> (Answer, Vec<u8>) {
    let (answer, plan) = fast::search_widths(bytes, widths, length, budget);
    let mut buffer = vec![FILL; length as usize];
    buffer[..plan.len()].copy_from_slice(&plan);
    (answer, buffer)
}

/// All 127 rising lists over 1 to 7 on small models: demand 3's sentences with the last entry as the widest beam, and the two
/// implementations agree.
#[test]
fn all_lists_to_seven() {
    let lists = rising_to(7);
    assert_eq!(lists.len(), 127);
    assert!(lists.iter().all(|list| faults(list).is_empty()));
    let mut random = Random::new(0x7157);
    let (mut enumerated, mut declarations) = (0, 0);
    let mut verdicts = [0; 6];
    let mut refusals = [0; 17];
    let mut rounds: BTreeMap<u64, usize> = BTreeMap::new();
    while enumerated < MODELS {
        let bytes = with_any_target(&mut random).end();
        let read = read_model(&bytes).expect("a generated model is well made");
        let Some(space) = Space::of(&read, STATES) else {
            continue;
        };
        enumerated += 1;
        let declarations_true = space.declarations_true(&read);
        declarations += usize::from(declarations_true);
        let (_, length, budget) = settings(&mut random);
        for widths in &lists {
            let (answer, buffer) = listed(&bytes, widths, length, budget);
            let fast = fast_listed(&bytes, widths, length, budget);
            assert_eq!(fast, (answer, buffer.clone()), "{widths:?} {bytes:02x?}");
            let last = u64::from(widths[widths.len() - 1]);
            let reached = (answer.rounds as usize).min(widths.len());
            assert_eq!(answer.width, u64::from(widths[reached - 1]));
            if answer.refused {
                refusals[usize::from(answer.verdict)] += 1;
                continue;
            }
            verdicts[usize::from(answer.verdict)] += 1;
            *rounds.entry(answer.rounds).or_default() += 1;
            let plan = &buffer[..answer.length as usize];
            let limits = (last, length);
            let broken = space.broken(&read, declarations_true, limits, &answer, plan);
            assert_eq!(broken, None, "{widths:?} L {length} {bytes:02x?}");
        }
    }
    println!(
        "{enumerated} models, {declarations} with true declarations, verdicts 0 to 5 {verdicts:?}"
    );
    println!("refusals {refusals:?}, runs by rounds {rounds:?}");
    assert!(verdicts.iter().all(|met| *met >= 1_000));
    assert!(refusals[11..14].iter().all(|met| *met >= 200));
    assert!((1..=5).all(|count| rounds[&count] >= 100));
    assert!(declarations >= 300);
}

/// All 127 lists in the loading profile: no length stop, the plain run at the length that is chosen, and both implementations agree.
#[test]
fn all_lists_to_seven_loading() {
    let lists = rising_to(7);
    let mut random = Random::new(0x10A7);
    let mut verdicts = [0; 6];
    for _ in 0..400 {
        let bytes = inside(&mut random).end();
        let length = read_model(&bytes).unwrap().loading_length();
        let budget = random.pick(&[0, 2, 5, 40, 100_000]);
        for widths in &lists {
            let plain = listed(&bytes, widths, length, budget);
            let mut buffer = vec![FILL; length as usize];
            let words = words_needed(widths[widths.len() - 1].into(), length);
            let answer = load_widths(&bytes, widths, budget, &mut buffer, words);
            let (fast, plan) = fast::load_widths(&bytes, widths, budget);
            assert_eq!(plan[..], buffer[..plan.len()], "{widths:?} {bytes:02x?}");
            assert_eq!((answer, buffer), plain, "{widths:?} {bytes:02x?}");
            assert_eq!(fast, answer, "{widths:?} {bytes:02x?}");
            if !answer.refused {
                verdicts[usize::from(answer.verdict)] += 1;
            }
        }
    }
    println!("verdicts 0 to 5 {verdicts:?}");
    assert_eq!(verdicts[usize::from(LENGTH_STOP)], 0);
    assert!([0, 1, 2, 4, 5]
        .iter()
        .all(|number| verdicts[*number] >= 100));
}

/// The widths 1, 2, 4 up to W lent as a list give the answer that W gives, with a length and in the loading profile.
#[test]
fn built_in_widths_are_a_list() {
    let mut random = Random::new(0xB0117);
    for _ in 0..4_000 {
        let loading = random.chance(30);
        let bytes = match loading {
            true => inside(&mut random).end(),
            false => with_any_target(&mut random).end(),
        };
        let (_, length, budget) = settings(&mut random);
        let height = random.below(8);
        let width = 1 << height;
        let list: Vec<u16> = (0..=height).map(|height| 1 << height).collect();
        let length = match loading {
            true => read_model(&bytes).unwrap().loading_length(),
            false => length,
        };
        let words = words_needed(width, length);
        let (mut one, mut other) = (vec![FILL; length as usize], vec![FILL; length as usize]);
        let (by_width, by_list) = match loading {
            true => (
                load(&bytes, width, budget, &mut one, words),
                load_widths(&bytes, &list, budget, &mut other, words),
            ),
            false => (
                search(&bytes, width, length, budget, &mut one, words),
                search_widths(&bytes, &list, length, budget, &mut other, words),
            ),
        };
        assert_eq!((by_width, one), (by_list, other), "W {width} {bytes:02x?}");
    }
}

/// A run that ends before its last entry ends so with every list that begins alike and goes on.
#[test]
fn later_entries_do_not_show() {
    let mut random = Random::new(0x1A7E);
    let mut early = 0;
    for _ in 0..4_000 {
        let bytes = with_any_target(&mut random).end();
        let widths = rising(&mut random);
        let (_, length, budget) = settings(&mut random);
        let run = listed(&bytes, &widths, length, budget);
        let begun = run.0.rounds as usize;
        if begun >= widths.len() {
            continue;
        }
        early += 1;
        let mut others = widths[..begun].to_vec();
        others.push(others[begun - 1] + 1 + random.below(9) as u16);
        if u64::from(others[begun]) <= limit::WIDTH {
            assert_eq!(listed(&bytes, &others, length, budget), run, "{widths:?}");
        }
    }
    println!("{early} runs that end before the last entry");
    assert!(early >= 500);
}

/// Rising lists have no fault; each way to be wrong has its own, and both implementations refuse it with 16.
#[test]
fn faults_of_lists() {
    let mut random = Random::new(0xFA17);
    let mut lengths: BTreeMap<usize, usize> = BTreeMap::new();
    for _ in 0..2_000 {
        let widths = rising(&mut random);
        assert_eq!(faults(&widths), [], "{widths:?}");
        *lengths.entry(widths.len()).or_default() += 1;
    }
    println!("rising lists by their entries {lengths:?}");
    assert!((1..=limit::WIDTHS).all(|entries| lengths.contains_key(&entries)));
    let designs = three_designs();
    for way in WAYS {
        for _ in 0..300 {
            let widths = bad(&mut random, way);
            let found = faults(&widths);
            let due = |fault: &Fault| match way {
                Way::Empty => *fault == Fault::Empty,
                Way::TooLong => matches!(fault, Fault::TooLong(17..=19)),
                Way::BeginsWithZero => *fault == Fault::Zero(1),
                Way::ZeroLater => matches!(fault, Fault::Zero(2..)),
                Way::TooWide => matches!(fault, Fault::TooWide(_, 4_097..)),
                Way::Equal => matches!(fault, Fault::NotRising(_, a, b) if a == b),
                Way::Falling => matches!(fault, Fault::NotRising(_, a, b) if a > b),
            };
            assert!(found.iter().any(due), "{way:?} {widths:?} {found:?}");
            let alone = ![Way::ZeroLater].contains(&way);
            assert!(!alone || found.len() == 1, "{way:?} {widths:?} {found:?}");
            for (answer, _) in [
                listed(&designs, &widths, 3, 9),
                fast_listed(&designs, &widths, 3, 9),
            ] {
                assert_eq!(answer, Answer::refused_by_input(BAD_WIDTHS), "{widths:?}");
            }
            assert_eq!(
                fast::load_widths(&designs, &widths, 9).0.verdict,
                BAD_WIDTHS
            );
        }
    }
}

/// 1; 2, for the length alone; 16; 3; the reading.
#[test]
fn order_of_refusals() {
    let designs = three_designs();
    let cut = &designs[..179];
    let too_long = vec![0; 65_537];
    let answer = |model: &[u8], widths: &[u16], length: u64, bytes: usize, words: u64| {
        let mut buffer = vec![FILL; bytes];
        let answer = search_widths(model, widths, length, 100, &mut buffer, words);
        assert!(!answer.refused || buffer.iter().all(|byte| *byte == FILL));
        (answer.refused, answer.verdict)
    };
    assert_eq!(answer(&too_long, &[], 0, 0, 0), (true, MODEL_TOO_LONG));
    for length in [0, 257] {
        for widths in [&[][..], &[2, 2], &[1, 200]] {
            let enough = words_needed(200, 257);
            let refused = answer(&designs, widths, length, 257, enough);
            assert_eq!(refused, (true, BAD_SETTING), "{widths:?}");
        }
    }
    assert_eq!(answer(cut, &[2, 2], 64, 0, 0), (true, BAD_WIDTHS));
    assert_eq!(answer(cut, &[1, 200], 64, 0, 0), (true, TOO_LITTLE_LENT));
    assert_eq!(answer(cut, &[1, 200], 64, 64, 25_800), (true, ENDS_EARLY));
    let short = (true, TOO_LITTLE_LENT);
    assert_eq!(answer(&designs, &[1, 200], 64, 64, 25_799), short);
    assert_eq!(answer(&designs, &[1, 200], 64, 63, 25_800), short);
    assert_eq!(answer(&designs, &[1, 200], 64, 64, 25_800), (false, 0));
}

/// What ends at the target has the first entry as its width, whatever follows it.
#[test]
fn width_at_the_target() {
    let mut random = Random::new(0x7A46);
    let mut met = [0; 2];
    for _ in 0..4_000 {
        let bytes = with_any_target(&mut random).end();
        let read = read_model(&bytes).expect("a generated model is well made");
        let constraints = read.meets_constraints(&read.target());
        let (refused, verdict) = match constraints {
            Ok(true) => continue,
            Ok(false) => (false, NO_PLAN),
            Err(number) => (true, number),
        };
        let widths = rising(&mut random);
        let due = Answer {
            refused,
            verdict,
            rounds: 1,
            width: widths[0].into(),
            ..Answer::default()
        };
        assert_eq!(listed(&bytes, &widths, 5, 30).0, due, "{bytes:02x?}");
        assert_eq!(fast_listed(&bytes, &widths, 5, 30).0, due, "{bytes:02x?}");
        met[usize::from(refused)] += 1;
    }
    println!("targets that break a constraint, and with trouble in one: {met:?}");
    assert!(met.iter().all(|count| *count >= 100));
}

/// Every stored search by the fast implementation, but those refused for what is lent.
#[test]
fn stored_searches() {
    let mut searches = 0;
    for case in stored::cases() {
        let (expected, after, buffer, (found, plan)) = match &case.call {
            Call::Search(search) => {
                let widths = search.beam.list().expect("a list");
                let (answer, after) = search.run();
                let (length, budget) = (search.length, search.budget);
                let fast = fast::search_widths(&search.model, widths, length, budget);
                (answer, after, &search.buffer, fast)
            }
            Call::Load(load) => {
                let widths = load.beam.list().expect("a list");
                let (answer, after) = load.run();
                let fast = fast::load_widths(&load.model, widths, load.budget);
                (answer, after, &load.buffer, fast)
            }
            Call::Check { .. } => panic!("a search"),
        };
        if (expected.refused, expected.verdict) == (true, TOO_LITTLE_LENT) {
            continue;
        }
        let mut left = buffer.clone();
        left[..plan.len()].copy_from_slice(&plan);
        assert_eq!((found, left), (expected, after), "{:?}", case.note);
        searches += 1;
    }
    println!("{searches} stored searches");
    assert!(searches >= 100);
}
