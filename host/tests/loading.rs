//! The loading profile: the second implementation and the fast one on models inside and just outside, by enumeration where they are small.

use repgypsum_host::answer::Answer;
use repgypsum_host::cases::loads;
use repgypsum_host::cases::{Call, FILL};
use repgypsum_host::enumerate::{Space, Standing};
use repgypsum_host::fast;
use repgypsum_host::generate::loading::{inside, outside, Way, WAYS};
use repgypsum_host::generate::{damaged, model, Random};
use repgypsum_host::models::three_designs;
use repgypsum_host::numbers::refusal::{
    BAD_SETTING, BYTES_AFTER_END, OUTSIDE_PROFILE, TOO_LITTLE_LENT,
};
use repgypsum_host::numbers::verdict::LENGTH_STOP;
use repgypsum_host::numbers::{refusal, words_needed};
use repgypsum_host::reference::profile::{Lack, Outside};
use repgypsum_host::reference::{load, read_model, search};
use std::collections::BTreeMap;

const MODELS: usize = 4_000;
const STATES: usize = 600;
const WIDTHS: [u64; 6] = [1, 2, 4, 8, 16, 64];
const BUDGETS: [u64; 8] = [0, 1, 2, 3, 5, 9, 40, 100_000];

/// The answer of a search in the profile with the buffers due, and the plan buffer afterwards.
fn loaded(bytes: &[u8], width: u64, length: u64, budget: u64) -> (Answer, Vec<u8>) {
    let mut buffer = vec![FILL; length as usize];
    let words = words_needed(width, length);
    let answer = load(bytes, width, budget, &mut buffer, words);
    (answer, buffer)
}

/// The same by the plain search with that length, and by the fast one.
fn others(bytes: &[u8], width: u64, length: u64, budget: u64) -> [(Answer, Vec<u8>); 2] {
    let mut buffer = vec![FILL; length as usize];
    let words = words_needed(width, length);
    let plain = search(bytes, width, length, budget, &mut buffer, words);
    let (fast, plan) = fast::load(bytes, width, budget);
    let mut left = vec![FILL; length as usize];
    left[..plan.len()].copy_from_slice(&plan);
    [(plain, buffer), (fast, left)]
}

/// No model inside stops by length at any width and budget, on all small ones met; the run is the plain one at that length, and demand 3's
/// sentences hold of it.
#[test]
fn no_length_stop_inside() {
    let mut random = Random::new(0x10AD5);
    let (mut enumerated, mut runs) = (0, 0);
    let mut verdicts = [0; 6];
    let mut refusals = [0; 16];
    let mut lengths = BTreeMap::new();
    while enumerated < MODELS {
        let bytes = inside(&mut random).end();
        let read = read_model(&bytes).expect("a generated model is well made");
        assert!(read.in_profile(), "{bytes:02x?}");
        let length = read.loading_length();
        let Some(space) = Space::of(&read, STATES) else {
            continue;
        };
        enumerated += 1;
        *lengths.entry(length).or_insert(0) += 1;
        let last = &space.layers(length)[length as usize];
        let open = last
            .iter()
            .any(|at| space.standing[*at] == Standing::Unfinished);
        assert!(!open, "{bytes:02x?}");
        let declarations_true = space.declarations_true(&read);
        for width in WIDTHS {
            for budget in BUDGETS {
                let (answer, buffer) = loaded(&bytes, width, length, budget);
                for other in others(&bytes, width, length, budget) {
                    assert_eq!((answer, &buffer), (other.0, &other.1), "{bytes:02x?}");
                }
                runs += 1;
                if answer.refused {
                    refusals[usize::from(answer.verdict)] += 1;
                    continue;
                }
                verdicts[usize::from(answer.verdict)] += 1;
                let plan = &buffer[..answer.length as usize];
                let settings = (width, length);
                let broken = space.broken(&read, declarations_true, settings, &answer, plan);
                assert_eq!(broken, None, "W {width} budget {budget}: {bytes:02x?}");
            }
        }
    }
    println!("{enumerated} models, {runs} runs, verdicts 0 to 5 {verdicts:?}");
    println!("refusals {refusals:?}, lengths {lengths:?}");
    assert_eq!(verdicts[usize::from(LENGTH_STOP)], 0);
    let others = verdicts.iter().enumerate();
    assert!(others
        .filter(|(number, _)| *number != usize::from(LENGTH_STOP))
        .all(|(_, met)| *met >= 100));
    assert!(refusals[11..14].iter().all(|met| *met >= 100));
    assert!(lengths.len() >= 5);
}

/// One step less is too few for some models inside: the length is the least that always serves.
#[test]
fn one_step_less_stops() {
    let mut random = Random::new(0x1E55);
    let mut stops = 0;
    for _ in 0..MODELS {
        let bytes = inside(&mut random).end();
        let length = read_model(&bytes).unwrap().loading_length() - 1;
        if length == 0 {
            continue;
        }
        let mut buffer = vec![FILL; length as usize];
        let words = words_needed(64, length);
        let answer = search(&bytes, 64, length, 100_000, &mut buffer, words);
        stops += usize::from(!answer.refused && answer.verdict == LENGTH_STOP);
    }
    println!("{stops} length stops");
    assert!(stops >= 200);
}

/// Whether the second implementation finds a model of this way outside for the right reason.
fn found_as(way: Way, found: Outside) -> bool {
    let lacks = |due: fn(Lack) -> bool| match found {
        Outside::Transition(_, lack) => due(lack),
        _ => false,
    };
    match way {
        Way::ElementFirst => found == Outside::NoSet,
        Way::NoVariable => found == Outside::NoVariable,
        Way::TwoBaseCases => found == Outside::BaseCases(2),
        Way::NoBaseCase => found == Outside::BaseCases(0),
        Way::TwoBaseConditions => found == Outside::BaseConditions(2),
        Way::NoBaseConditions => found == Outside::BaseConditions(0),
        Way::BaseDeniedTwice | Way::BaseOnOtherSet | Way::BaseByCount => {
            found == Outside::OtherBase
        }
        Way::NoEffect | Way::EffectOnOtherSet => lacks(|lack| lack == Lack::NoEffect),
        Way::EffectTakesLiteralSet
        | Way::EffectRemovesTwice
        | Way::EffectRemovesElementVariable
        | Way::EffectRemovesFromOtherSet
        | Way::EffectAdds
        | Way::EffectKeeps => lacks(|lack| lack == Lack::OtherEffect),
        Way::EffectRemovesOtherObject
        | Way::ConditionInsideAnd
        | Way::ConditionInsideOr
        | Way::ConditionDeniedTwice
        | Way::ConditionOfElementVariable
        | Way::ConditionOnOtherSet
        | Way::ConditionOnPartOfVariable
        | Way::ConditionOnLiteralSet
        | Way::ConditionOfOtherObject
        | Way::NoCondition => lacks(|lack| matches!(lack, Lack::NotAsked(_))),
    }
}

/// Each way to be outside: 15, however little is lent, by both; the way is found, and it is the only one.
#[test]
fn each_way_outside() {
    let mut random = Random::new(0x0075);
    for way in WAYS {
        let mut alone = 0;
        for _ in 0..300 {
            let bytes = outside(&mut random, way).end();
            let read = read_model(&bytes).expect("a generated model is well made");
            let found = read.outside_profile();
            assert!(found_as(way, found[0]), "{way:?} {found:?} {bytes:02x?}");
            // A first variable of another kind leaves no transition and no base case on variable 0.
            alone += usize::from(found.len() == 1);
            for (plan_bytes, words) in [(0, 0), (70, 5_000)] {
                let mut buffer = vec![FILL; plan_bytes];
                let answer = load(&bytes, 16, 9, &mut buffer, words);
                assert_eq!(answer, Answer::refused_by_input(OUTSIDE_PROFILE), "{way:?}");
                assert!(buffer.iter().all(|byte| *byte == FILL));
            }
            let fast = fast::load(&bytes, 16, 9);
            assert_eq!(fast, (Answer::refused_by_input(OUTSIDE_PROFILE), vec![]));
        }
        let several = [Way::ElementFirst, Way::NoVariable].contains(&way);
        assert!(several || alone >= 200, "{way:?} {alone}");
    }
}

/// Other models and damaged ones: the two agree on every refusal and every answer.
#[test]
fn other_models() {
    let mut random = Random::new(0x0DD);
    let mut refusals = [0; 16];
    for _ in 0..20_000 {
        let build = match random.below(3) {
            0 => model(&mut random),
            _ => inside(&mut random),
        };
        let bytes = match random.chance(60) {
            true => damaged(&mut random, &build),
            false => build.end(),
        };
        let width = random.pick(&[1, 2, 4, 8, 0, 3]);
        let mut buffer = vec![FILL; 64];
        let answer = load(&bytes, width, 30, &mut buffer, words_needed(width, 64));
        let (fast, plan) = fast::load(&bytes, width, 30);
        assert_eq!(answer, fast, "{bytes:02x?}");
        assert_eq!(buffer[..plan.len()], plan[..]);
        assert!(buffer[plan.len()..].iter().all(|byte| *byte == FILL));
        let number = usize::from(answer.verdict);
        refusals[if answer.refused { number } else { 0 }] += 1;
    }
    println!("refusals by number, 0 for an answer {refusals:?}");
    assert!([0, 2, 4, 5, 6, 7, 9, 15]
        .iter()
        .all(|number| refusals[*number] >= 50));
}

/// 1, 2 for the width alone, the reader's number, 15, 3 with the chosen length.
#[test]
fn order_of_refusals() {
    let answer = |model: &[u8], width, plan_bytes: usize, words| {
        let mut buffer = vec![FILL; plan_bytes];
        let answer = load(model, width, 100_000, &mut buffer, words);
        if answer.refused && !refusal::by_state(answer.verdict) {
            assert_eq!(answer, Answer::refused_by_input(answer.verdict));
            assert!(buffer.iter().all(|byte| *byte == FILL));
        }
        (answer.refused, answer.verdict)
    };
    let designs = three_designs();
    assert_eq!(answer(&designs, 16, 3, 1_088), (false, 0));
    assert_eq!(answer(&designs, 16, 3, 1_087), (true, TOO_LITTLE_LENT));
    assert_eq!(answer(&designs, 16, 2, 1_088), (true, TOO_LITTLE_LENT));
    let damaged = [&designs[..], &[0]].concat();
    assert_eq!(answer(&damaged, 16, 0, 0), (true, BYTES_AFTER_END));
    assert_eq!(answer(&damaged, 3, 0, 0), (true, BAD_SETTING));
    let too_long = vec![1; 65_537];
    assert_eq!(answer(&too_long, 3, 0, 0), (true, refusal::MODEL_TOO_LONG));
}

/// Every stored load by the fast implementation, but those refused for what is lent.
#[test]
fn stored_loads() {
    let mut loads = 0;
    for case in loads::cases() {
        let Call::Load(load) = case.call else {
            panic!("a load");
        };
        let (expected, after) = load.run();
        if (expected.refused, expected.verdict) == (true, TOO_LITTLE_LENT) {
            continue;
        }
        let (found, plan) = fast::load(&load.model, load.beam.widest(), load.budget);
        let mut left = load.buffer;
        left[..plan.len()].copy_from_slice(&plan);
        assert_eq!((found, left), (expected, after));
        loads += 1;
    }
    assert!(loads >= 100);
}
