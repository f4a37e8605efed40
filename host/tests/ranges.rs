//! Hours known only within a range: the proved search and plan check, the second implementation and the fast one on models with high
//! costs of their own, by enumeration where the models are small. REPGYPSUM_MODELS=N makes the runs over random models longer.

use repgypsum_host::answer::Answer;
use repgypsum_host::build::*;
use repgypsum_host::cases::FILL;
use repgypsum_host::enumerate::{real_costs, Figures, Space};
use repgypsum_host::fast;
use repgypsum_host::generate::loading::inside;
use repgypsum_host::generate::ranges::{damaged, ranged, spread_costs, Spread, SPREADS, WAYS};
use repgypsum_host::generate::widths::rising;
use repgypsum_host::generate::{with_any_target, Random};
use repgypsum_host::line::fields;
use repgypsum_host::models::{counting, doubled_designs, two_ways, Designs};
use repgypsum_host::numbers::refusal::{
    by_state, DIVISOR_ZERO, HIGH_BELOW_LOW, NEGATIVE_COST, NOT_A_PLAN, OUT_OF_RANGE,
};
use repgypsum_host::numbers::verdict::{CHEAPEST, CONTRADICTED};
use repgypsum_host::numbers::words_needed;
use repgypsum_host::proved;
use repgypsum_host::reference::{self, read_model, Costs, Model};
use repgypsum_host::variants::{at_high, at_low};

const STATES: usize = 200;
/// The most choices of step costs that are tried for a plan.
const CHOICES: usize = 20_000;

/// How many random models a test takes, or more by the variable.
fn models(usual: usize) -> usize {
    let asked = std::env::var("REPGYPSUM_MODELS").ok();
    let asked = asked.and_then(|n| n.parse().ok()).unwrap_or(0);
    asked.max(usual)
}

fn settings(random: &mut Random) -> (u64, u64, u64) {
    let width = 1 << random.below(6);
    let length = random.between(1, 10) as u64;
    let budget = random.pick(&[0, 1, 2, 3, 5, 8, 13, 40, 200, 1_000]);
    (width, length, budget)
}

/// The answer of a search with the buffers due and the plan buffer, of all three implementations, which agree.
fn searched(model: &[u8], (width, length, budget): (u64, u64, u64)) -> (Answer, Vec<u8>) {
    let words = words_needed(width, length);
    let mut buffer = vec![FILL; length as usize];
    let answer = reference::search(model, width, length, budget, &mut buffer, words);
    let call = format!("W {width} L {length} budget {budget}: {model:02x?}");
    let mut plan = vec![FILL; length as usize];
    let mut lent = vec![0; words as usize];
    let (w, l, b) = (width as u32, length as u32, budget as u32);
    let proved = proved::search(model, w, l, b, &mut plan, &mut lent);
    assert_eq!((proved, plan), (answer, buffer.clone()), "proved, {call}");
    let (fast, steps) = fast::search(model, width, length, budget);
    let mut plan = vec![FILL; length as usize];
    plan[..steps.len()].copy_from_slice(&steps);
    assert_eq!((fast, plan), (answer, buffer.clone()), "fast, {call}");
    (answer, buffer)
}

/// The plan check of the proved and of the second implementation, which agree.
fn checked(model: &[u8], plan: &[u8]) -> (u8, u64, u64) {
    let checked = reference::plan_check(model, plan);
    let proved = proved::plan_check(model, plan);
    assert_eq!(proved, checked, "{plan:?}: {model:02x?}");
    checked
}

/// The line of a search at the settings of document 01, with all fields at refusals too.
fn line(build: Build) -> String {
    let (answer, buffer) = searched(&build.end(), (16, 64, 100_000));
    format!("{} {}", answer.verdict, fields(&answer, &buffer))
}

fn by_zero() -> Bytes {
    quotient(lit(1), lit(0))
}

fn too_great() -> Bytes {
    sum(lit(i32::MAX), lit(1))
}

/// Lines and plan checks that were worked out by hand.
#[test]
fn worked_out_by_hand() {
    let x = || num(0);
    let sums = |low, high| counting(SUM, (low, high));
    let two_to_five = || sums(lit(2), lit(5));
    assert_eq!(line(two_to_five()), "0 1 15 15 3 3 1 1 6 : 0 0 0");
    assert_eq!(checked(&two_to_five().end(), &[0, 0, 0]), (0, 15, 6));
    let range = (difference(lit(4), x()), sum(lit(5), x()));
    assert_eq!(line(counting(LARGEST, range)), "0 1 7 7 3 3 1 1 4 : 0 0 0");
    let rising = || sums(x(), lit(1));
    assert_eq!(line(rising()), "17 0 2 2 2 3 1 1 1 : 0 0");
    assert_eq!(checked(&rising().end(), &[0, 0, 0]), (HIGH_BELOW_LOW, 0, 0));
    assert_eq!(checked(&rising().end(), &[0, 0]), (NOT_A_PLAN, 0, 0));
    assert_eq!(line(sums(lit(-1), by_zero())), "13 0 0 0 0 1 1 1 0 :");
    assert_eq!(line(sums(lit(1), too_great())), "11 0 0 0 0 1 1 1 0 :");
    let ways = |first, second| line(two_ways(first, second));
    assert_eq!(ways((1, 9), (5, 6)), "0 1 6 6 1 1 1 1 5 : 1");
    assert_eq!(ways((5, 9), (1, 9)), "0 1 9 9 1 1 1 1 5 : 0");
    let bounded = |bound| {
        let at_target = choice(same(elem(0), obj(0)), lit(bound), lit(0));
        line(two_ways((5, 9), (5, 8)).bound(at_target))
    };
    assert_eq!(bounded(5), "0 1 8 8 1 1 1 1 5 : 1");
    assert_eq!(bounded(8), "0 1 8 8 1 1 1 1 5 : 1");
    assert_eq!(bounded(9), "5 1 8 9 1 1 1 1 5 : 1");
    let doubled = doubled_designs(&Designs::default());
    assert_eq!(line(doubled), "0 1 14 14 3 14 3 4 7 : 0 1 2");
    let designs = |start| {
        let designs = Designs {
            start,
            ..Designs::default()
        };
        designs.build()
    };
    assert_eq!(line(designs(14)), "0 1 7 7 3 14 3 4 7 : 0 1 2");
    assert_eq!(line(designs(0)), "0 1 0 0 0 0 1 1 0 :");
    assert_eq!(checked(&designs(14).end(), &[0, 1, 2]), (0, 7, 7));
}

/// The bytes of the counting model from 2 to 5.
#[test]
fn bytes_of_a_range() {
    let bytes = [
        0x01, 0x00, 0x04, 0x00, 0, 0, 0, 0, 0x07, 0x09, 0x20, 2, 0, 0, 0, 0x10, 0x20, 5, 0, 0, 0,
        0x0A, 0x00, 0x22, 0x21, 0x00, 0x20, 1, 0, 0, 0, 0x0B, 0x08, 0x50, 0x21, 0x00, 0x20, 3, 0,
        0, 0, 0x0E,
    ];
    assert_eq!(counting(SUM, (lit(2), lit(5))).end(), bytes);
}

/// A part of a step, and the trouble that it meets first.
type Part = (Bytes, Result<i32, u8>);

/// Low costs, high costs, effects and constraints of every kind in one step: the first trouble in the order of evaluation is told, by
/// the search and by the plan check.
#[test]
fn order_of_trouble() {
    let value = |number: i32| -> Part { (lit(number), Ok(number)) };
    let zero = || -> Part { (by_zero(), Err(DIVISOR_ZERO)) };
    let great = || -> Part { (too_great(), Err(OUT_OF_RANGE)) };
    let costs = [
        value(-2),
        value(-1),
        value(0),
        value(1),
        value(i32::MAX),
        zero(),
        great(),
    ];
    let effects = [value(3), zero(), great()];
    let constraints = [value(1), value(0), zero(), great()];
    let mut met = [0; 18];
    for (low, low_value) in &costs {
        for (high, high_value) in &costs {
            for (effect, effect_value) in &effects {
                for (constraint, constraint_value) in &constraints {
                    let step = || -> Result<(i32, i32), u8> {
                        let low = (*low_value)?;
                        if low < 0 {
                            return Err(NEGATIVE_COST);
                        }
                        let high = (*high_value)?;
                        if high < low {
                            return Err(HIGH_BELOW_LOW);
                        }
                        (*effect_value)?;
                        if (*constraint_value)? == 0 {
                            return Err(NOT_A_PLAN);
                        }
                        Ok((low, high))
                    };
                    let at_target = equal(num(0), lit(0));
                    let met_there = choice(at_target, lit(1), constraint.clone());
                    let model = Build::new(SUM)
                        .number(NONE, 0)
                        .ranged(&[], (low.clone(), high.clone()), &[(0, effect.clone())])
                        .base(&[equal(num(0), lit(3))])
                        .constraint(equal(met_there, lit(1)))
                        .end();
                    let due = match step() {
                        Ok((low, high)) => (0, high as u64, low as u64),
                        Err(number) => (number, 0, 0),
                    };
                    assert_eq!(checked(&model, &[0]), due);
                    met[usize::from(due.0)] += 1;
                    let (answer, _) = searched(&model, (4, 3, 9));
                    let found = (answer.refused, answer.verdict);
                    assert_eq!(
                        found,
                        match due.0 {
                            0 => (false, 0),
                            NOT_A_PLAN => (false, 1),
                            number => (true, number),
                        }
                    );
                }
            }
        }
    }
    println!("answers by number {met:?}");
    assert!([0, 11, 12, 13, 14, 17]
        .iter()
        .all(|number| met[*number] > 0));
}

/// What was met in a run over random models.
#[derive(Default, Debug)]
struct Met {
    verdicts: [usize; 6],
    refusals: [usize; 18],
    /// Plans whose two figures differ.
    apart: usize,
    enumerated: usize,
    /// Enumerated models whose declarations are true of the low and high costs, and of the high costs alone.
    all_true: usize,
    true_of_high: usize,
    choices: usize,
}

/// Every choice of step costs inside the ranges: the real cost of the plan lies between the two figures, and both are reached.
fn real_costs_between(model: &Model, space: &Space, answer: &Answer, plan: &[u8]) -> usize {
    let steps = space.plan_steps(plan).expect("a plan");
    let Some(real) = real_costs(model, &steps, CHOICES) else {
        return 0;
    };
    let least = real.iter().min().copied();
    let greatest = real.iter().max().copied();
    let figures = (Some(answer.low as i64), Some(answer.cost as i64));
    assert_eq!((least, greatest), figures);
    real.len()
}

/// The cost figures against the models with one cost a step: the run is that of the high costs, whatever the low ones are, and the low
/// figure is the plan's cost there at the low costs.
fn as_with_one_cost(bytes: &[u8], settings: (u64, u64, u64), answer: &Answer, plan: &[u8]) {
    let (at_high, _) = searched(&at_high(bytes), settings);
    let low = at_high.cost;
    assert_eq!(at_high, Answer { low, ..*answer }, "{bytes:02x?}");
    if answer.flag {
        let (number, cost, _) = checked(&at_low(bytes), plan);
        assert_eq!((number, cost), (0, answer.low), "{bytes:02x?}");
    }
}

/// Random models with ranges at random settings.
#[test]
fn random_models() {
    let mut random = Random::new(0x4A45);
    let mut met = Met::default();
    for _ in 0..models(20_000) {
        let bytes = ranged(&mut random).end();
        let settings = settings(&mut random);
        let (answer, buffer) = searched(&bytes, settings);
        let plan = &buffer[..answer.length as usize];
        assert!(answer.low <= answer.cost, "{bytes:02x?}");
        if answer.refused {
            assert!(by_state(answer.verdict), "{bytes:02x?}");
            met.refusals[usize::from(answer.verdict)] += 1;
            continue;
        }
        met.verdicts[usize::from(answer.verdict)] += 1;
        met.apart += usize::from(answer.low < answer.cost);
        if answer.flag {
            let figures = (0, answer.cost, answer.low);
            assert_eq!(checked(&bytes, plan), figures, "{bytes:02x?}");
        }
        as_with_one_cost(&bytes, settings, &answer, plan);
        let read = read_model(&bytes).expect("a generated model is well made");
        let Some(space) = Space::of(&read, STATES) else {
            continue;
        };
        met.enumerated += 1;
        let of_low = space.bounds_true(&read, Figures::Low);
        let declared = space.declarations_true(&read);
        assert!(!of_low || space.bounds_true(&read, Figures::High));
        met.all_true += usize::from(declared && of_low);
        met.true_of_high += usize::from(declared && !of_low);
        let limits = (settings.0, settings.1);
        let broken = space.broken(&read, declared, limits, &answer, plan);
        assert_eq!(broken, None, "{settings:?} {bytes:02x?}");
        if answer.flag {
            met.choices += real_costs_between(&read, &space, &answer, plan);
        }
    }
    println!("{met:?}");
    assert!(met.verdicts.iter().all(|count| *count >= 100));
    assert!([11, 12, 13, 17]
        .iter()
        .all(|number| met.refusals[*number] >= 100));
    assert!(met.apart >= 1_000 && met.enumerated >= 5_000);
    assert!(met.all_true >= 500 && met.true_of_high >= 200 && met.choices >= 10_000);
}

/// Where bounds and preferences are true of the high costs, no plan has a smaller high cost than one marked cheapest, and nothing is
/// contradicted; the cheapest plan at low figures may be another.
#[test]
fn cheapest_at_high_costs() {
    let mut random = Random::new(0xC4EA);
    let (mut cheapest, mut others) = (0, 0);
    let mut by_spread = [0; 3];
    for turn in 0..models(6_000) {
        let spread = SPREADS[turn % 3];
        let build = with_any_target(&mut random);
        let bytes = spread_costs(&mut random, &build, spread).end();
        let read = read_model(&bytes).expect("a generated model is well made");
        let Some(space) = Space::of(&read, STATES) else {
            continue;
        };
        if !space.declarations_true(&read) {
            continue;
        }
        let (answer, buffer) = searched(&bytes, (32, 12, 2_000));
        if answer.refused {
            continue;
        }
        assert_ne!(answer.verdict, CONTRADICTED);
        if answer.verdict != CHEAPEST {
            continue;
        }
        by_spread[turn % 3] += 1;
        cheapest += 1;
        let plan = &buffer[..answer.length as usize];
        let costs = space.plan_costs(&read, plan).expect("a plan");
        assert_eq!(space.cheapest(), Some(costs.high), "{bytes:02x?}");
        assert!(space.to_go_at_low[0].is_some_and(|least| least <= costs.low));
        others += usize::from(space.to_go_at_low[0] < Some(costs.low));
    }
    println!("{cheapest} marked cheapest, by spread {by_spread:?}, {others} with a plan that is cheaper at low figures");
    assert!(by_spread.iter().all(|met| *met >= 100) && others >= 50);
}

/// Plan checks of random sequences, of plans with a step changed, and of steps from where a run was refused.
#[test]
fn random_plan_checks() {
    let mut random = Random::new(0xC4ED);
    let mut answers = [0; 18];
    let mut apart = 0;
    for _ in 0..models(10_000) {
        let bytes = ranged(&mut random).end();
        let (answer, buffer) = searched(&bytes, (8, 8, 100));
        let mut plan = buffer[..answer.length as usize].to_vec();
        if answer.refused {
            plan.push(random.below(4) as u8);
        } else if random.chance(50) || plan.is_empty() {
            plan = (0..random.below(6))
                .map(|_| random.below(5) as u8)
                .collect();
        } else if random.chance(30) {
            let place = random.below(plan.len());
            plan[place] = random.below(6) as u8;
        }
        let (number, cost, low) = checked(&bytes, &plan);
        assert!(low <= cost && (number == 0 || (cost, low) == (0, 0)));
        answers[usize::from(number)] += 1;
        apart += usize::from(low < cost);
    }
    println!("answers by number {answers:?}, {apart} plans with two figures");
    assert!([0, 11, 12, 13, 14, 17]
        .iter()
        .all(|number| answers[*number] >= 40));
    assert!(apart >= 500);
}

/// Damage at the command of the high cost: each way has its refusal, and no buffer is changed.
#[test]
fn damaged_ranges() {
    let mut random = Random::new(0xDA10);
    for turn in 0..models(4_000) {
        let way = WAYS[turn % WAYS.len()];
        let (bytes, due) = damaged(&mut random, way);
        let (answer, buffer) = searched(&bytes, (4, 6, 50));
        let refused = Answer::refused_by_input(due);
        assert_eq!(answer, refused, "{way:?} {bytes:02x?}");
        assert!(buffer.iter().all(|byte| *byte == FILL));
        assert_eq!(checked(&bytes, &[0]), (due, 0, 0), "{way:?} {bytes:02x?}");
    }
}

/// The loading profile and lists of widths on models with ranges.
#[test]
fn loads_and_widths() {
    let mut random = Random::new(0x10A5);
    let mut verdicts = [0; 6];
    let mut refusals = [0; 18];
    for _ in 0..models(4_000) {
        let build = inside(&mut random);
        let spread = random.pick(&SPREADS);
        let bytes = spread_costs(&mut random, &build, spread).end();
        let length = read_model(&bytes).unwrap().loading_length();
        let widths = rising(&mut random);
        let widest = u64::from(widths[widths.len() - 1]);
        let budget = random.pick(&[0, 2, 5, 40, 1_000]);
        let words = words_needed(widest, length);
        let mut left = vec![vec![FILL; length as usize]; 4];
        let [by_list, by_profile, proved_list, proved_profile] = &mut left[..] else {
            unreachable!("four buffers")
        };
        let mut lent = vec![0; words as usize];
        let (l, b) = (length as u32, budget as u32);
        let answers = [
            reference::search_widths(&bytes, &widths, length, budget, by_list, words),
            reference::load_widths(&bytes, &widths, budget, by_profile, words),
            proved::search_widths(&bytes, &widths, l, b, proved_list, &mut lent),
            proved::load_widths(&bytes, &widths, b, proved_profile, &mut lent),
            fast::search_widths(&bytes, &widths, length, budget).0,
            fast::load_widths(&bytes, &widths, budget).0,
        ];
        let answer = answers[0];
        assert_eq!(answers, [answer; 6], "{widths:?} {bytes:02x?}");
        assert!(left.iter().all(|buffer| *buffer == left[0]));
        match answer.refused {
            true => refusals[usize::from(answer.verdict)] += 1,
            false => verdicts[usize::from(answer.verdict)] += 1,
        }
    }
    println!("verdicts {verdicts:?}, refusals {refusals:?}");
    assert!([0, 1, 2, 4, 5].iter().all(|number| verdicts[*number] >= 20));
    assert_eq!(verdicts[3], 0);
    assert!([11, 12, 13, 17]
        .iter()
        .all(|number| refusals[*number] >= 20));
}

/// Equal costs written twice are one cost: every field is that of the model without high costs.
#[test]
fn equal_costs_are_one_cost() {
    let mut random = Random::new(0xE0A1);
    for _ in 0..models(2_000) {
        let plain = with_any_target(&mut random);
        let mut twice = Build {
            bytes: Vec::new(),
            starts: Vec::new(),
        };
        let ends = plain.starts.iter().skip(1).copied();
        let ends = ends.chain([plain.bytes.len()]);
        for (start, end) in plain.starts.iter().zip(ends) {
            let command = &plain.bytes[*start..end];
            twice = twice.command(command[0], &[&command[1..]]);
            if command[0] == 0x09 {
                twice = twice.command(0x10, &[&command[1..]]);
            }
        }
        let (plain, twice) = (plain.end(), twice.end());
        assert_eq!(
            (at_low(&twice), at_high(&twice)),
            (plain.clone(), plain.clone())
        );
        let settings = settings(&mut random);
        let run = searched(&plain, settings);
        assert_eq!(run.0.low, run.0.cost);
        assert_eq!(searched(&twice, settings), run, "{plain:02x?}");
    }
}

/// The generator makes what it says: upward ranges have the model's costs as low ones, downward ranges as high ones.
#[test]
fn spreads() {
    let mut random = Random::new(0x59EA);
    let mut ranges = 0;
    for _ in 0..1_000 {
        let build = with_any_target(&mut random);
        let plain = build.clone().end();
        for spread in SPREADS {
            let bytes = spread_costs(&mut random, &build, spread).end();
            let read = read_model(&bytes).expect("a generated model is well made");
            let high = |one: &&repgypsum_host::reference::syntax::Transition| one.high.is_some();
            ranges += read.transitions.iter().filter(high).count();
            match spread {
                Spread::Upward => assert_eq!(at_low(&bytes), plain),
                Spread::Downward => assert_eq!(at_high(&bytes), plain),
                Spread::Any => {}
            }
            let target = read.target();
            for step in &read.transitions {
                if let Ok(Costs { low, high }) = read.step_costs(step, &target) {
                    assert!(0 <= low && low <= high);
                }
            }
        }
    }
    println!("{ranges} high costs");
    assert!(ranges >= 5_000);
}
