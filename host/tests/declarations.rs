//! What is found about declarations, against full enumeration and the plan check of the plain implementation.

use repgypsum_host::declarations::{look, Findings, Looking, TooHigh, Truth};
use repgypsum_host::enumerate::{Figures, Space};
use repgypsum_host::generate::ranges::ranged;
use repgypsum_host::generate::{with_any_target, Random};
use repgypsum_host::reference::syntax::{Preference, Variable};
use repgypsum_host::reference::{plan_check, read_model, Costs, Model, State};
use repgypsum_host::text::assemble;
use repgypsum_host::variants::{started_in, undeclared};

/// How many random models are tried.
const MODELS: usize = 4_000;

/// The most states of a model that is tried.
const STATES: usize = 400;

fn looking(states: usize) -> Looking {
    Looking {
        states,
        walks: 30,
        seed: 7,
    }
}

/// A random model with few states, and those states. Every second model has ranges.
fn small(random: &mut Random) -> (Vec<u8>, Model, Space) {
    loop {
        let build = match random.below(2) {
            0 => with_any_target(random),
            _ => ranged(random),
        };
        let bytes = build.end();
        let Ok(model) = read_model(&bytes) else {
            continue;
        };
        if let Some(space) = Space::of(&model, STATES) {
            return (bytes, model, space);
        }
    }
}

/// The plan is a plan from the state at this cost, by the plain plan check on the model started there. From a target that does
/// not meet the constraints, the first step is made by hand.
fn is_plan(bytes: &[u8], model: &Model, state: &State, plan: &[u8], costs: Costs) {
    if model.meets_constraints(state) == Ok(true) {
        let started = started_in(bytes, state);
        assert_eq!(
            plan_check(&started, plan),
            (0, costs.high as u64, costs.low as u64)
        );
        return;
    }
    assert_eq!(*state, model.target());
    let Some((first, rest)) = plan.split_first() else {
        assert_eq!((model.is_base(state), costs), (Ok(true), Costs::default()));
        return;
    };
    let step = &model.transitions[usize::from(*first)];
    assert_eq!(model.is_base(state), Ok(false));
    assert_eq!(model.all_hold(&step.conditions, state), Ok(true));
    let started = started_in(bytes, &model.after(step, state).unwrap());
    let (answer, high, low) = plan_check(&started, rest);
    let (low, high) = (low as i64, high as i64);
    let step_costs = model.step_costs(step, state).unwrap();
    let joined = model.join_costs(step_costs, Costs { low, high });
    assert_eq!((answer, joined), (0, costs));
}

/// The steps lead from the target to the state.
fn leads_to(model: &Model, path: &[u8], state: &State) {
    let mut at = model.target();
    for number in path {
        let step = &model.transitions[usize::from(*number)];
        at = model.after(step, &at).unwrap();
    }
    assert_eq!(at, *state);
}

/// What was told false.
#[derive(PartialEq, Eq)]
struct False {
    bounds: bool,
    bounds_at_high: bool,
    preferences: bool,
}

/// Whether a bound is told false at these figures; its counterexample holds.
fn bounds_false(
    bytes: &[u8],
    model: &Model,
    findings: &Findings,
    truths: &[Truth<TooHigh>],
    figures: Figures,
) -> bool {
    let mut bound_false = false;
    for (number, truth) in truths.iter().enumerate() {
        if let Truth::False(found) = truth {
            bound_false = true;
            leads_to(model, &found.path, &found.state);
            is_plan(bytes, model, &found.state, &found.plan, found.costs);
            let value = model.number(&model.bounds[number], &found.state);
            assert_eq!(value, Ok(found.value));
            assert!(found.value > figures.of(found.costs));
        }
        assert!(!(matches!(truth, Truth::Open) && findings.enumerated));
    }
    bound_false
}

/// What is told false is false, with a counterexample that holds.
fn holds(bytes: &[u8], model: &Model, space: &Space, states: usize) -> False {
    let findings = look(bytes, model, looking(states));
    let at = |truths, figures| bounds_false(bytes, model, &findings, truths, figures);
    let bounds = at(&findings.bounds, Figures::Low);
    let bounds_at_high = at(&findings.bounds_at_high, Figures::High);
    assert!(bounds || !bounds_at_high);
    let mut preferences = false;
    if let Some(Truth::False(found)) = &findings.preferences {
        preferences = true;
        leads_to(model, &found.better_path, &found.better);
        leads_to(model, &found.worse_path, &found.worse);
        assert!(model.dominates(&found.better, &found.worse));
        is_plan(bytes, model, &found.worse, &found.plan, found.costs);
        let place = space.states.iter().position(|state| *state == found.better);
        let least = space.to_go[place.unwrap()];
        assert!(least.is_none_or(|least| least > found.costs.high));
        assert!(found
            .least
            .is_none_or(|told| least.is_none_or(|least| told <= least)));
    }
    assert!(!bounds || !space.bounds_true(model, Figures::Low));
    assert!(!bounds_at_high || !space.bounds_true(model, Figures::High));
    assert!(!preferences || !space.preferences_true(model));
    for number in &findings.never {
        let seen = space
            .steps
            .iter()
            .flatten()
            .any(|step| usize::from(step.number) == *number);
        assert!(!findings.enumerated || !seen);
    }
    False {
        bounds,
        bounds_at_high,
        preferences,
    }
}

/// With all states enumerated the answer is that of the full enumeration.
#[test]
fn enumerated_models() {
    let mut random = Random::new(0xDEC1);
    let mut met = [0; 4];
    for _ in 0..MODELS {
        let (bytes, model, space) = small(&mut random);
        let found = holds(&bytes, &model, &space, STATES);
        assert_eq!(found.bounds, !space.bounds_true(&model, Figures::Low));
        let at_high = space.bounds_true(&model, Figures::High);
        assert_eq!(found.bounds_at_high, !at_high);
        assert_eq!(found.preferences, !space.preferences_true(&model));
        met[0] += usize::from(found.bounds_at_high);
        met[1] += usize::from(found.bounds && !found.bounds_at_high);
        met[2] += usize::from(found.preferences);
        met[3] += usize::from(!found.bounds && !found.preferences);
    }
    println!(
        "false bounds {}, of the low costs alone {}, false preferences {}, neither {}",
        met[0], met[1], met[2], met[3]
    );
    assert!(met.iter().all(|count| *count >= 50));
}

/// A sample finds some false declarations, and calls nothing false that is true.
#[test]
fn sampled_models() {
    let mut random = Random::new(0x5A3E);
    let mut met = [0; 3];
    for _ in 0..MODELS / 4 {
        let (bytes, model, space) = small(&mut random);
        let found = holds(&bytes, &model, &space, space.states.len() - 1);
        met[0] += usize::from(found.bounds_at_high);
        met[1] += usize::from(found.bounds && !found.bounds_at_high);
        met[2] += usize::from(found.preferences);
    }
    println!(
        "of a sample: false bounds {}, of the low costs alone {}, false preferences {}",
        met[0], met[1], met[2]
    );
    assert!(met.iter().all(|count| *count >= 10));
}

/// A dominating state whose plan is another one and costs as much is no counterexample. A false bound hides that plan
/// from the search with declarations, so that the search without them has to find it.
#[test]
fn as_cheap_a_plan_is_enough() {
    let text = "cost sum
        number place = 0
        number n = 0 prefer less
        transition to better: when place = 0 cost 1 place := 1 n := 1
        transition to worse: when place = 0 cost 1 place := 1 n := 2
        transition half: when place = 1 when n = 1 cost 3 place := 2
        transition rest: when place = 2 cost 2 place := 9
        transition whole: when place = 1 when n = 1 cost 9 place := 9
        transition other: when place = 1 when n = 2 cost OTHER place := 9
        base: when place = 9
        bound if place = 2 then 100 else 0";
    for (other, is_false) in [("4", true), ("5", false)] {
        let bytes = assemble(&text.replace("OTHER", other)).unwrap();
        let model = read_model(&bytes).unwrap();
        for states in [5, 100] {
            let looking = Looking {
                states,
                walks: 0,
                seed: 1,
            };
            let findings = look(&bytes, &model, looking);
            assert_eq!(findings.enumerated, states == 100);
            let told = matches!(findings.preferences, Some(Truth::False(_)));
            assert_eq!(told, is_false, "{other} at {states} states");
            assert!(matches!(findings.bounds[0], Truth::False(_)));
        }
    }
}

/// Without declarations the rest of the model is as it was; started elsewhere, the target alone changes.
#[test]
fn changed_models() {
    let mut random = Random::new(0xC4A6);
    for _ in 0..MODELS {
        let (bytes, model, space) = small(&mut random);
        let bare = read_model(&undeclared(&bytes)).unwrap();
        assert!(bare.bounds.is_empty());
        assert!(bare.variables.iter().all(|variable| match variable {
            Variable::Set { .. } => true,
            Variable::Element { preference, .. } | Variable::Number { preference, .. } =>
                *preference == Preference::None,
        }));
        assert_eq!(
            format!("{:?}", bare.transitions),
            format!("{:?}", model.transitions)
        );
        assert_eq!(
            format!("{:?}", bare.constraints),
            format!("{:?}", model.constraints)
        );
        assert_eq!(bare.target(), model.target());
        assert_eq!(undeclared(&undeclared(&bytes)), undeclared(&bytes));
        let state = &space.states[random.below(space.states.len())];
        let started = started_in(&bytes, state);
        assert_eq!(read_model(&started).unwrap().target(), *state);
        assert_eq!(started_in(&started, &model.target()), bytes);
    }
}
