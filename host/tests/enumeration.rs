//! Demand 3's sentences against full enumeration, on seeded random small models at many settings.

use repgypsum_host::answer::Answer;
use repgypsum_host::cases::FILL;
use repgypsum_host::enumerate::Space;
use repgypsum_host::generate::ranges::ranged;
use repgypsum_host::generate::{settings, with_any_target, Random};
use repgypsum_host::numbers::refusal::NOT_A_PLAN;
use repgypsum_host::numbers::verdict::{
    BUDGET_SPENT, CHEAPEST, CONTRADICTED, LENGTH_STOP, NO_PLAN, WIDTH_STOP,
};
use repgypsum_host::numbers::words_needed;
use repgypsum_host::reference::{plan_check, read_model, search};
use std::collections::BTreeMap;

const MODELS: usize = 4_000;
const SETTINGS: usize = 10;
const STATES: usize = 400;

/// What was met in a run over the models.
#[derive(Default)]
struct Tally {
    models: usize,
    troubled: usize,
    /// Models whose target breaks a constraint, and those whose target's constraints have no value.
    broken_targets: usize,
    troubled_targets: usize,
    declarations_true: usize,
    comparable_true: usize,
    searches: usize,
    verdicts: [usize; 6],
    true_verdicts: [usize; 6],
    refusals: [usize; 18],
    fitting: usize,
    broken: Vec<String>,
}

/// The answer of a search with the buffers that its settings need, and the plan buffer afterwards.
fn searched(bytes: &[u8], (width, length, budget): (u64, u64, u64)) -> (Answer, Vec<u8>) {
    let mut buffer = vec![FILL; length as usize];
    let words = words_needed(width, length);
    let answer = search(bytes, width, length, budget, &mut buffer, words);
    (answer, buffer)
}

/// A random model; every second one has ranges.
fn any_model(random: &mut Random) -> Vec<u8> {
    match random.below(2) {
        0 => with_any_target(random).end(),
        _ => ranged(random).end(),
    }
}

fn run(models: usize) -> Tally {
    let mut tally = Tally::default();
    let mut random = Random::new(0x5EED);
    while tally.models < models {
        let bytes = any_model(&mut random);
        let read = read_model(&bytes).expect("a generated model is well made");
        let Some(space) = Space::of(&read, STATES) else {
            continue;
        };
        tally.models += 1;
        let met = read.meets_constraints(&read.target());
        tally.broken_targets += usize::from(met == Ok(false));
        tally.troubled_targets += usize::from(met.is_err());
        let declarations_true = space.declarations_true(&read);
        tally.declarations_true += usize::from(declarations_true);
        tally.comparable_true += usize::from(declarations_true && space.some_dominance(&read));
        let mut troubled = false;
        for _ in 0..SETTINGS {
            let (width, length, budget) = settings(&mut random);
            let (answer, buffer) = searched(&bytes, (width, length, budget));
            let plan = &buffer[..answer.length as usize];
            tally.searches += 1;
            if answer.refused {
                tally.refusals[usize::from(answer.verdict)] += 1;
                troubled = true;
                continue;
            }
            tally.verdicts[usize::from(answer.verdict)] += 1;
            tally.true_verdicts[usize::from(answer.verdict)] += usize::from(declarations_true);
            tally.fitting += usize::from(space.fits(width, length));
            let broken = space.broken(&read, declarations_true, (width, length), &answer, plan);
            if let Some(sentence) = broken {
                tally.broken.push(format!(
                    "{sentence}: {bytes:02x?} W {width} L {length} budget {budget}: {answer:?}"
                ));
                continue;
            }
            agrees_with_plan_check(&bytes, &answer, plan);
            within_limit(&space, &read, length, &answer);
            assert!(answer.expansions <= budget);
        }
        tally.troubled += usize::from(troubled);
    }
    tally
}

fn agrees_with_plan_check(bytes: &[u8], answer: &Answer, plan: &[u8]) {
    if answer.flag {
        assert_eq!(plan_check(bytes, plan), (0, answer.cost, answer.low));
    }
}

/// The answer of a search whose target breaks a constraint, or has one without a value, and the plan check's for whatever plan.
fn answers_of_the_target(met: Result<bool, u8>, bytes: &[u8], answer: &Answer, buffer: &[u8]) {
    let (refused, verdict, checked) = match met {
        Ok(true) => return,
        Ok(false) => (false, NO_PLAN, NOT_A_PLAN),
        Err(number) => (true, number, number),
    };
    let due = Answer {
        refused,
        verdict,
        rounds: 1,
        width: 1,
        ..Answer::default()
    };
    assert_eq!(*answer, due, "{bytes:02x?}");
    assert!(buffer.iter().all(|byte| *byte == FILL));
    for plan in [&[][..], &[0], &[255, 0]] {
        assert_eq!(plan_check(bytes, plan), (checked, 0, 0), "{bytes:02x?}");
    }
}

/// A plan found is within the limit and costs no less than the cheapest of that length.
fn within_limit(
    space: &Space,
    model: &repgypsum_host::reference::Model,
    length: u64,
    answer: &Answer,
) {
    assert!(answer.length <= length);
    if answer.flag {
        let least = space.cheapest_within(model, length).expect("a plan exists");
        assert!(least <= answer.cost as i64);
    }
}

#[test]
fn demand_three_holds() {
    let tally = run(MODELS);
    println!(
        "models {}, with trouble in a search {}, declarations true {}, of these with comparable states {}",
        tally.models, tally.troubled, tally.declarations_true, tally.comparable_true
    );
    println!(
        "targets that break a constraint {}, with trouble in one {}",
        tally.broken_targets, tally.troubled_targets
    );
    println!(
        "searches {}, verdicts 0 to 5 {:?}, with declarations true {:?}, refusals from 11 on {:?}, fitting {}",
        tally.searches,
        tally.verdicts,
        tally.true_verdicts,
        &tally.refusals[11..],
        tally.fitting
    );
    let (broken, first) = (tally.broken.len(), tally.broken.first());
    assert_eq!(broken, 0, "answers that break a sentence, first {first:?}");
    assert!(tally.models >= 2_000 && tally.declarations_true >= 1_000);
    assert!(tally.comparable_true >= 100 && tally.fitting >= 1_000);
    assert!(tally.verdicts.iter().all(|met| *met >= 50));
    assert!(tally.broken_targets >= 100 && tally.troubled_targets >= 100);
    assert!([11, 12, 13, 17]
        .iter()
        .all(|number| tally.refusals[*number] >= 20));
}

/// Targets that break a constraint, or that have one without a value, at every setting.
#[test]
fn targets_outside_the_constraints() {
    let mut random = Random::new(0x7A26);
    let mut met = [0; 3];
    for _ in 0..MODELS {
        let bytes = with_any_target(&mut random).end();
        let read = read_model(&bytes).expect("a generated model is well made");
        let constraints = read.meets_constraints(&read.target());
        met[match constraints {
            Ok(true) => 0,
            Ok(false) => 1,
            Err(_) => 2,
        }] += 1;
        for _ in 0..SETTINGS {
            let (answer, buffer) = searched(&bytes, settings(&mut random));
            answers_of_the_target(constraints, &bytes, &answer, &buffer);
        }
    }
    println!("targets inside, breaking one, with trouble {met:?}");
    assert!(met[1..].iter().all(|count| *count >= MODELS / 40));
}

/// Answers that say what is not so in a space, made from one that is so.
fn false_answers(
    space: &Space,
    declarations_true: bool,
    (width, length): (u64, u64),
    answer: &Answer,
) -> Vec<Answer> {
    let mut made = Vec::new();
    let mut when = |possible: bool, changed: Answer| {
        if possible {
            made.push(changed);
        }
    };
    let verdict = |verdict: u8| Answer { verdict, ..*answer };
    let cost = answer.cost + 1;
    when(answer.flag, Answer { cost, ..*answer });
    let low = answer.low + 1;
    when(answer.flag, Answer { low, ..*answer });
    let least = space.cheapest().map(|least| least as u64);
    let not_cheapest = !answer.flag || least != Some(answer.cost);
    when(declarations_true && not_cheapest, verdict(CHEAPEST));
    when(declarations_true && least.is_some(), verdict(NO_PLAN));
    when(declarations_true, verdict(CONTRADICTED));
    let fits = space.fits(width, length);
    when(fits, verdict(WIDTH_STOP));
    when(fits, verdict(LENGTH_STOP));
    if let Some(least) = least {
        let bound = least + 1;
        let stopped = verdict(BUDGET_SPENT);
        when(declarations_true, Answer { bound, ..stopped });
    }
    made
}

/// The test above can fail: every answer that says what is not so breaks a sentence, and each sentence is broken by some.
#[test]
fn false_answers_break_demand_three() {
    let mut broken: BTreeMap<&str, usize> = BTreeMap::new();
    let mut random = Random::new(0x5EED);
    for _ in 0..1_500 {
        let bytes = any_model(&mut random);
        let settings = settings(&mut random);
        let read = read_model(&bytes).expect("a generated model is well made");
        let Some(space) = Space::of(&read, STATES) else {
            continue;
        };
        let (answer, buffer) = searched(&bytes, settings);
        if answer.refused {
            continue;
        }
        let plan = &buffer[..answer.length as usize];
        let declarations_true = space.declarations_true(&read);
        let settings = (settings.0, settings.1);
        for told in false_answers(&space, declarations_true, settings, &answer) {
            let sentence = space.broken(&read, declarations_true, settings, &told, plan);
            let sentence = sentence.unwrap_or_else(|| panic!("{told:?}: {bytes:02x?}"));
            *broken.entry(sentence).or_default() += 1;
        }
    }
    println!("{broken:#?}");
    assert_eq!(broken.len(), 6);
    assert!(broken.values().all(|times| *times >= 20));
}

/// The costs to go agree with the layered enumeration, which knows nothing of them.
#[test]
fn enumeration_agrees_with_itself() {
    let mut random = Random::new(7);
    let mut compared = 0;
    while compared < 500 {
        let read = read_model(&with_any_target(&mut random).end()).unwrap();
        let Some(space) = Space::of(&read, 60) else {
            continue;
        };
        let length = space.states.len() as u64;
        assert_eq!(space.cheapest_within(&read, length), space.cheapest());
        compared += 1;
    }
    println!("{compared} spaces compared");
}

/// The same call gives the same answer and buffer.
#[test]
fn searches_repeat() {
    let mut random = Random::new(11);
    for _ in 0..200 {
        let bytes = with_any_target(&mut random).end();
        let once = || searched(&bytes, (4, 6, 40));
        assert_eq!(once(), once());
    }
}
