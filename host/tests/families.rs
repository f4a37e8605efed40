//! The families: accepted at all sizes, the same for the same seed, with true declarations and the cheapest cost of the enumeration.

use repgypsum_host::enumerate::{Figures, Space};
use repgypsum_host::families::{families, family, Family};
use repgypsum_host::numbers::{limit, verdict, words_needed};
use repgypsum_host::reference::{plan_check, read_model, search, Model};

const STATES: usize = 1_500;
const SEEDS: u64 = 8;

/// A tiny model with its size and its space.
struct Tiny {
    size: u64,
    bytes: Vec<u8>,
    model: Model,
    space: Space,
}

/// The tiny models of a family whose spaces can be enumerated.
fn tiny(family: &Family) -> Vec<Tiny> {
    let mut found = Vec::new();
    for size in family.smallest..=family.smallest + 6 {
        for seed in 0..SEEDS {
            let bytes = (family.model)(size, seed);
            let model = read_model(&bytes).expect("a model of a family is accepted");
            if let Some(space) = Space::of(&model, STATES) {
                let size = size as u64;
                found.push(Tiny {
                    size,
                    bytes,
                    model,
                    space,
                });
            }
        }
    }
    found
}

#[test]
fn accepted_at_all_sizes() {
    for family in families() {
        let mut longest = 0;
        for size in family.smallest..=family.largest {
            for seed in [0, 1, u64::MAX] {
                let bytes = (family.model)(size, seed);
                assert!(bytes.len() <= limit::MODEL_BYTES, "{}", family.name);
                let read = read_model(&bytes).map(|_| ());
                assert_eq!(read, Ok(()), "{} of {size}, seed {seed}", family.name);
                longest = longest.max(bytes.len());
            }
        }
        println!("{}: at most {longest} bytes", family.name);
    }
}

#[test]
fn named_and_repeated() {
    for known in families() {
        let found = family(known.name).expect("a family is found by its name");
        assert_eq!((known.model)(known.usual, 7), (found.model)(known.usual, 7));
        assert_ne!((known.model)(known.usual, 7), (known.model)(known.usual, 8));
        assert!(known.smallest <= known.usual && known.usual <= known.largest);
    }
    assert!(family("none such").is_none());
}

/// Bounds and preferences hold in every reachable state; where there are preferences, some states are comparable.
#[test]
fn declarations_are_true() {
    for family in families() {
        let (mut states, mut comparable) = (0, 0);
        let models = tiny(&family);
        for Tiny { model, space, .. } in &models {
            assert!(space.bounds_true(model, Figures::High), "{}", family.name);
            assert!(space.preferences_true(model), "{}", family.name);
            states += space.states.len();
            comparable += usize::from(space.some_dominance(model));
        }
        println!(
            "{}: {} models, {states} states, {comparable} models with comparable states",
            family.name,
            models.len()
        );
        assert!(models.len() >= 20, "{}", family.name);
        let preferring = ["tsptw", "cvrp", "salbp-1", "bin-packing"].contains(&family.name);
        assert_eq!(comparable > 0, preferring, "{}", family.name);
    }
}

/// The length of every plan: one step an object, without the place of the start; one for each station or bin opened.
fn steps(family: &str, size: u64, cost: u64) -> u64 {
    match family {
        "orders" | "orders-unbounded" | "sop" => size - 1,
        "salbp-1" | "bin-packing" => size + cost,
        _ => size,
    }
}

/// A beam as wide as the space ends with the enumeration's cheapest cost; families with bounds have some above 0.
#[test]
fn cheapest_by_enumeration() {
    for family in families() {
        let (mut with_plan, mut bounded) = (0, 0);
        for tiny in tiny(&family) {
            let Tiny {
                size,
                bytes,
                model,
                space,
            } = tiny;
            let (width, length) = (2_048, 64);
            let mut buffer = vec![0; length as usize];
            let words = words_needed(width, length);
            let answer = search(&bytes, width, length, 1_000_000, &mut buffer, words);
            assert!(!answer.refused);
            match space.to_go[0] {
                Some(least) => {
                    assert_eq!(answer.verdict, verdict::CHEAPEST, "{}", family.name);
                    assert_eq!(answer.cost as i64, least, "{}", family.name);
                    let plan = &buffer[..answer.length as usize];
                    assert_eq!(plan_check(&bytes, plan), (0, answer.cost, answer.low));
                    assert_eq!(answer.length, steps(family.name, size, answer.cost));
                    with_plan += 1;
                }
                None => assert_eq!(answer.verdict, verdict::NO_PLAN, "{}", family.name),
            }
            bounded += usize::from(model.h(&space.states[0]).unwrap() > 0);
        }
        println!(
            "{}: {with_plan} with a plan, {bounded} with h of the target above 0",
            family.name
        );
        assert!(with_plan >= 20, "{}", family.name);
        let usual = read_model(&(family.model)(family.usual, 0)).unwrap();
        assert_eq!(bounded > 0, !usual.bounds.is_empty(), "{}", family.name);
    }
}
