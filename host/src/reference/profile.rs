//! The profile for pure loading orders, document 02, §2: each transition takes one named member out of set variable 0, until none is left.

use super::syntax::{Condition, Effect, Element, Expression, Model, Set, Transition, Variable};

/// A way to be outside the profile.
#[derive(Clone, Copy, PartialEq, Eq, Debug)]
pub enum Outside {
    /// There is no variable.
    NoVariable,
    /// Variable 0 is no set.
    NoSet,
    Transition(usize, Lack),
    /// There are so many base cases, and not one.
    BaseCases(usize),
    /// The only base case has so many conditions, and not one.
    BaseConditions(usize),
    /// The base case asks for something else than that variable 0 is empty.
    OtherBase,
}

/// What a transition of the profile has and this one has not.
#[derive(Clone, Copy, PartialEq, Eq, Debug)]
pub enum Lack {
    /// It has no effect on variable 0.
    NoEffect,
    /// Its effect on variable 0 is not that one object, named by its number, is removed from variable 0.
    OtherEffect,
    /// It removes this object, and no condition of its own asks for that object in variable 0.
    NotAsked(u8),
}

/// The object of `30 k 41 00`: an object by its number, beside variable 0.
fn object_beside(element: &Element, set: &Set) -> Option<u8> {
    match (element, set) {
        (Element::Literal(object), Set::Variable(0)) => Some(*object),
        _ => None,
    }
}

/// The object that a condition asks for in variable 0, if it does nothing else.
fn required_object(condition: &Condition) -> Option<u8> {
    match condition {
        Condition::Member(element, set) => object_beside(element, set),
        _ => None,
    }
}

/// The object that an effect removes from variable 0, if it does nothing else.
fn removed_object(effect: &Effect) -> Option<u8> {
    match &effect.value {
        Expression::Set(Set::Remove(element, set)) => object_beside(element, set),
        _ => None,
    }
}

/// What keeps a transition from being one of the profile.
fn lack(transition: &Transition) -> Option<Lack> {
    let mut effects = transition.effects.iter();
    let Some(effect) = effects.find(|effect| effect.variable == 0) else {
        return Some(Lack::NoEffect);
    };
    let Some(removed) = removed_object(effect) else {
        return Some(Lack::OtherEffect);
    };
    let mut conditions = transition.conditions.iter();
    let asked = conditions.any(|condition| required_object(condition) == Some(removed));
    (!asked).then_some(Lack::NotAsked(removed))
}

/// What keeps the base cases from being the one of the profile.
fn outside_by_base_cases(base_cases: &[Vec<Condition>]) -> Option<Outside> {
    let [conditions] = base_cases else {
        return Some(Outside::BaseCases(base_cases.len()));
    };
    match &conditions[..] {
        [Condition::Empty(Set::Variable(0))] => None,
        [_] => Some(Outside::OtherBase),
        _ => Some(Outside::BaseConditions(conditions.len())),
    }
}

impl Model {
    /// Every way in which the model is outside the profile.
    pub fn outside_profile(&self) -> Vec<Outside> {
        let mut ways = Vec::new();
        match self.variables.first() {
            None => ways.push(Outside::NoVariable),
            Some(Variable::Set { .. }) => {}
            Some(_) => ways.push(Outside::NoSet),
        }
        let transitions = self.transitions.iter().enumerate();
        let lacking = transitions.filter_map(|(number, one)| Some((number, lack(one)?)));
        ways.extend(lacking.map(|(number, lack)| Outside::Transition(number, lack)));
        ways.extend(outside_by_base_cases(&self.base_cases));
        ways
    }

    pub fn in_profile(&self) -> bool {
        self.outside_profile().is_empty()
    }

    /// The length that the profile chooses: the number of start members of variable 0, or 1 if there are none.
    pub fn loading_length(&self) -> u64 {
        match self.variables.first() {
            Some(Variable::Set { start, .. }) => u64::from(start.count_ones()).max(1),
            _ => 1,
        }
    }
}
