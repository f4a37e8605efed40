//! Seeded random loading orders: models in the loading profile, and models that are outside it in one named way.

use super::Random;
use crate::build::*;

/// The numbers of the variables: what is left to load, what was loaded last, a clock, and a set of the same objects.
struct Names {
    todo: u8,
    at: u8,
    clock: u8,
    other: u8,
}

const NAMES: Names = Names {
    todo: 0,
    at: 1,
    clock: 2,
    other: 3,
};

/// The same where an element is variable 0.
const BEHIND_ELEMENT: Names = Names {
    todo: 1,
    at: 0,
    ..NAMES
};

struct Load {
    object: u8,
    conditions: Vec<Bytes>,
    cost: Bytes,
    effects: Vec<(u8, Bytes)>,
}

/// A model in parts.
struct Order {
    rule: u8,
    names: &'static Names,
    objects: u8,
    start: u64,
    clock: (u8, i32),
    hours: Vec<i32>,
    loads: Vec<Load>,
    base_cases: Vec<Vec<Bytes>>,
    constraints: Vec<Bytes>,
    bounds: Vec<Bytes>,
}

impl Order {
    fn build(self) -> Build {
        let mut build = Build::new(self.rule);
        for variable in 0..4 {
            build = match variable {
                _ if variable == self.names.todo => build.set(self.objects, self.start),
                _ if variable == self.names.at => build.element(self.objects, NONE, 0),
                _ if variable == self.names.clock => build.number(self.clock.0, self.clock.1),
                _ => build.set(self.objects, self.start),
            };
        }
        build = build.table(self.objects, 1, &self.hours);
        for load in &self.loads {
            build = build.transition(&load.conditions, load.cost.clone(), &load.effects);
        }
        for conditions in &self.base_cases {
            build = build.base(conditions);
        }
        build = self.constraints.into_iter().fold(build, Build::constraint);
        self.bounds.into_iter().fold(build, Build::bound)
    }
}

/// A set of these many objects, each in it with this chance.
fn some_objects(random: &mut Random, objects: u8, percent: usize) -> u64 {
    let drawn = (0..objects).filter(|_| random.chance(percent));
    drawn.fold(0, |set, object| set | 1 << object)
}

/// A condition beside the one that the profile asks for.
fn further_condition(random: &mut Random, names: &Names, objects: u8) -> Bytes {
    let object = obj(random.below(usize::from(objects)) as u8);
    match random.below(5) {
        0 => member(object, set(names.todo)),
        1 => not(member(object, set(names.todo))),
        2 => at_most(num(names.clock), lit(random.between(0, 6))),
        3 => or(
            member(object, set(names.other)),
            same(elem(names.at), obj(0)),
        ),
        _ => member(object, set(names.other)),
    }
}

/// A cost that is seldom negative or without a value.
fn cost(random: &mut Random, names: &Names, object: u8) -> Bytes {
    match random.below(10) {
        0..=3 => lit(random.between(0, 4)),
        4..=6 => entry(0, obj(object), obj(0)),
        7 => sum(entry(0, elem(names.at), obj(0)), count(set(names.todo))),
        8 => greater(lit(0), difference(num(names.clock), lit(1))),
        _ => match random.below(3) {
            0 => difference(lit(1), num(names.clock)),
            1 => greater(
                lit(0),
                quotient(lit(6), difference(num(names.clock), lit(2))),
            ),
            _ => sum(lit(i32::MAX), num(names.clock)),
        },
    }
}

fn load(random: &mut Random, names: &'static Names, objects: u8, object: u8) -> Load {
    let mut conditions = vec![member(obj(object), set(names.todo))];
    for _ in 0..random.pick(&[0, 0, 0, 1, 2]) {
        let place = random.below(conditions.len() + 1);
        conditions.insert(place, further_condition(random, names, objects));
    }
    let mut effects = vec![(names.todo, remove(obj(object), set(names.todo)))];
    if random.chance(60) {
        effects.push((names.at, obj(object)));
    }
    if random.chance(50) {
        let hours = entry(0, obj(object), obj(0));
        effects.push((names.clock, sum(num(names.clock), hours)));
    }
    if random.chance(30) {
        let changed = random.pick(&[
            add(obj(object), set(names.other)),
            remove(obj(object), set(names.todo)),
            complement(set(names.other)),
        ]);
        effects.push((names.other, changed));
    }
    if random.chance(50) {
        effects.reverse();
    }
    Load {
        object,
        conditions,
        cost: cost(random, names, object),
        effects,
    }
}

/// A loading order with the variables by these numbers.
fn order(random: &mut Random, names: &'static Names) -> Order {
    let objects = random.pick(&[1, 2, 3, 3, 4, 4, 5, 64]);
    let start = match objects {
        64 => 1 << 63 | 1 << random.below(8),
        _ => {
            let percent = random.pick(&[0, 60, 100, 100, 100]);
            some_objects(random, objects, percent)
        }
    };
    let mut loads = Vec::new();
    let started = (0..objects).filter(|object| start >> object & 1 == 1);
    for object in started {
        // Some have no transition, some have two.
        for _ in 0..random.pick(&[0, 1, 1, 1, 1, 1, 1, 1, 2]) {
            loads.push(load(random, names, objects, object));
        }
    }
    if random.chance(20) {
        let object = random.below(usize::from(objects)) as u8;
        loads.push(load(random, names, objects, object));
    }
    let mut constraints = Vec::new();
    if random.chance(20) {
        constraints.push(at_most(num(names.clock), lit(random.between(2, 9))));
    }
    if random.chance(10) {
        constraints.push(further_condition(random, names, objects));
    }
    let bounds = match random.below(5) {
        0 => vec![count(set(names.todo))],
        1 => vec![lit(random.between(-1, 3))],
        2 => vec![entry_sum(0, set(names.todo), obj(0)), lit(1)],
        _ => Vec::new(),
    };
    Order {
        rule: if random.chance(25) { LARGEST } else { SUM },
        names,
        objects,
        start,
        clock: (random.pick(&[NONE, NONE, LESS, MORE]), random.between(0, 1)),
        hours: (0..objects).map(|_| random.between(0, 4)).collect(),
        loads,
        base_cases: vec![vec![empty(set(names.todo))]],
        constraints,
        bounds,
    }
}

/// A random model in the profile.
pub fn inside(random: &mut Random) -> Build {
    order(random, &NAMES).build()
}

/// A way to be outside the profile by one change.
#[derive(Clone, Copy, PartialEq, Eq, PartialOrd, Ord, Debug)]
pub enum Way {
    ConditionInsideAnd,
    ConditionInsideOr,
    ConditionDeniedTwice,
    ConditionOfElementVariable,
    ConditionOnOtherSet,
    ConditionOnPartOfVariable,
    ConditionOnLiteralSet,
    ConditionOfOtherObject,
    NoCondition,
    EffectTakesLiteralSet,
    EffectRemovesTwice,
    EffectRemovesElementVariable,
    EffectRemovesFromOtherSet,
    EffectAdds,
    EffectKeeps,
    EffectRemovesOtherObject,
    EffectOnOtherSet,
    NoEffect,
    TwoBaseCases,
    TwoBaseConditions,
    NoBaseConditions,
    NoBaseCase,
    BaseDeniedTwice,
    BaseOnOtherSet,
    BaseByCount,
    ElementFirst,
    NoVariable,
}

impl Way {
    /// The way in words.
    pub fn words(self) -> String {
        let mut words = String::new();
        for letter in format!("{self:?}").chars() {
            if letter.is_ascii_uppercase() && !words.is_empty() {
                words.push(' ');
            }
            words.push(letter.to_ascii_lowercase());
        }
        words
    }
}

pub const WAYS: [Way; 27] = [
    Way::ConditionInsideAnd,
    Way::ConditionInsideOr,
    Way::ConditionDeniedTwice,
    Way::ConditionOfElementVariable,
    Way::ConditionOnOtherSet,
    Way::ConditionOnPartOfVariable,
    Way::ConditionOnLiteralSet,
    Way::ConditionOfOtherObject,
    Way::NoCondition,
    Way::EffectTakesLiteralSet,
    Way::EffectRemovesTwice,
    Way::EffectRemovesElementVariable,
    Way::EffectRemovesFromOtherSet,
    Way::EffectAdds,
    Way::EffectKeeps,
    Way::EffectRemovesOtherObject,
    Way::EffectOnOtherSet,
    Way::NoEffect,
    Way::TwoBaseCases,
    Way::TwoBaseConditions,
    Way::NoBaseConditions,
    Way::NoBaseCase,
    Way::BaseDeniedTwice,
    Way::BaseOnOtherSet,
    Way::BaseByCount,
    Way::ElementFirst,
    Way::NoVariable,
];

/// What stands in the place of the profile's condition, a condition or none, if the way is one of a condition.
fn other_condition(way: Way, object: u8, objects: u8) -> Option<Option<Bytes>> {
    let asked = member(obj(object), set(NAMES.todo));
    Some(match way {
        Way::ConditionInsideAnd => Some(and(asked.clone(), asked)),
        Way::ConditionInsideOr => Some(or(asked.clone(), asked)),
        Way::ConditionDeniedTwice => Some(not(not(asked))),
        Way::ConditionOfElementVariable => Some(member(elem(NAMES.at), set(NAMES.todo))),
        Way::ConditionOnOtherSet => Some(member(obj(object), set(NAMES.other))),
        Way::ConditionOnPartOfVariable => {
            let part = remove(elem(NAMES.at), set(NAMES.todo));
            Some(member(obj(object), part))
        }
        Way::ConditionOnLiteralSet => Some(member(obj(object), set_lit(objects, 1 << object))),
        Way::ConditionOfOtherObject => Some(member(obj((object + 1) % objects), set(NAMES.todo))),
        Way::NoCondition => None,
        _ => return None,
    })
}

/// What stands in the place of the effect on variable 0, an effect or none, if the way is one of an effect.
fn other_effect(way: Way, object: u8, objects: u8) -> Option<Option<(u8, Bytes)>> {
    let removed = remove(obj(object), set(NAMES.todo));
    let on_todo = |value| Some((NAMES.todo, value));
    Some(match way {
        Way::EffectTakesLiteralSet => {
            on_todo(without(set(NAMES.todo), set_lit(objects, 1 << object)))
        }
        Way::EffectRemovesTwice => on_todo(remove(obj(object), removed)),
        Way::EffectRemovesElementVariable => on_todo(remove(elem(NAMES.at), set(NAMES.todo))),
        Way::EffectRemovesFromOtherSet => on_todo(remove(obj(object), set(NAMES.other))),
        Way::EffectAdds => on_todo(add(obj(object), set(NAMES.todo))),
        Way::EffectKeeps => on_todo(set(NAMES.todo)),
        Way::EffectRemovesOtherObject => {
            on_todo(remove(obj((object + 1) % objects), set(NAMES.todo)))
        }
        Way::EffectOnOtherSet => Some((NAMES.other, removed)),
        Way::NoEffect => None,
        _ => return None,
    })
}

/// The base cases, if the way is one of base cases.
fn other_base_cases(way: Way) -> Option<Vec<Vec<Bytes>>> {
    let done = || empty(set(NAMES.todo));
    Some(match way {
        Way::TwoBaseCases => vec![vec![done()], vec![done()]],
        Way::TwoBaseConditions => vec![vec![done(), done()]],
        Way::NoBaseConditions => vec![vec![]],
        Way::NoBaseCase => vec![],
        Way::BaseDeniedTwice => vec![vec![not(not(done()))]],
        Way::BaseOnOtherSet => vec![vec![empty(set(NAMES.other))]],
        Way::BaseByCount => vec![vec![equal(count(set(NAMES.todo)), lit(0))]],
        _ => return None,
    })
}

/// A loading order in which the profile's condition of a transition has another in its place.
fn with_condition(random: &mut Random, way: Way, mut order: Order) -> Order {
    let place = random.below(order.loads.len());
    let load = &mut order.loads[place];
    let asked = member(obj(load.object), set(NAMES.todo));
    let other = other_condition(way, load.object, order.objects).expect("a way of a condition");
    let conditions = std::mem::take(&mut load.conditions).into_iter();
    load.conditions = conditions
        .filter_map(|one| {
            if one == asked {
                other.clone()
            } else {
                Some(one)
            }
        })
        .collect();
    order
}

/// A loading order in which the effect on variable 0 of a transition has another in its place.
fn with_effect(random: &mut Random, way: Way, mut order: Order) -> Order {
    let place = random.below(order.loads.len());
    let load = &mut order.loads[place];
    let other = other_effect(way, load.object, order.objects).expect("a way of an effect");
    let written = other.as_ref().map(|(variable, _)| *variable);
    if way == Way::EffectRemovesOtherObject {
        // A condition beside may ask for that object, and then the transition is one of the profile.
        let asked = member(obj((load.object + 1) % order.objects), set(NAMES.todo));
        load.conditions.retain(|one| *one != asked);
    }
    load.effects
        .retain(|(variable, _)| *variable == NAMES.todo || Some(*variable) != written);
    let effects = std::mem::take(&mut load.effects).into_iter();
    load.effects = effects
        .filter_map(|one| {
            if one.0 == NAMES.todo {
                other.clone()
            } else {
                Some(one)
            }
        })
        .collect();
    order
}

/// A random model that is outside the profile in this way alone.
pub fn outside(random: &mut Random, way: Way) -> Build {
    match way {
        Way::ElementFirst => return order(random, &BEHIND_ELEMENT).build(),
        Way::NoVariable => {
            let nothing = empty(set_lit(random.between(1, 64) as u8, 0));
            return Build::new(SUM).base(&[nothing]);
        }
        _ => {}
    }
    // One object has no other, and a model without transitions none to change.
    let order = loop {
        let order = order(random, &NAMES);
        if order.objects > 1 && !order.loads.is_empty() {
            break order;
        }
    };
    if let Some(base_cases) = other_base_cases(way) {
        return Order {
            base_cases,
            ..order
        }
        .build();
    }
    let order = match other_effect(way, 0, 1) {
        Some(_) => with_effect(random, way, order),
        None => with_condition(random, way, order),
    };
    order.build()
}
