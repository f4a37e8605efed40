//! Loops, constants and files put in: the plain expressions and parts that they stand for.

use super::constants::{entry, not_constant};
use super::place::{refuse_if, Error, Place};
use super::plain::PlainTransition;
use super::ranges::{bound, values, Item};
use super::scope::{Meaning, Scope};
use super::syntax::{
    Binder, Form, Integer, Joining, Loop, Members, Name, Node, Object, Operator, Part, Side,
    Transition,
};
use crate::numbers::limit;

/// The most expressions that a text may stand for: a model has fewer bytes.
const MOST_PARTS: usize = 4 * limit::MODEL_BYTES;

/// Loop variables with their values, the innermost last.
pub type Bindings = Vec<(String, Item)>;

/// The values of loop variables at a place, and how many parts have been made in all.
#[derive(Default)]
pub struct Expander {
    pub bindings: Bindings,
    made: usize,
}

impl Expander {
    fn count(&mut self, at: Place) -> Result<(), Error> {
        self.made += 1;
        refuse_if(self.made > MOST_PARTS, at, || {
            format!("the loops stand for more than {MOST_PARTS} parts, more than a model can have")
        })
    }

    fn node(&mut self, at: Place, form: Form) -> Result<Node, Error> {
        self.count(at)?;
        Node::new(at, form)
    }

    /// Does something for all values of the variables, the last changing fastest.
    pub fn each(
        &mut self,
        scope: &Scope,
        binders: &[Binder],
        body: &mut dyn FnMut(&mut Expander) -> Result<(), Error>,
    ) -> Result<(), Error> {
        let Some((binder, inner)) = binders.split_first() else {
            return body(self);
        };
        let name = &binder.name;
        if let Ok(meaning) = scope.meaning(name.at, &name.text) {
            let (text, what) = (&name.text, meaning.what());
            let message = format!("`{text}` is {what}: a loop needs a name of its own");
            return Err(Error::new(name.at, message));
        }
        for item in values(scope, &self.bindings, binder)? {
            self.count(name.at)?;
            self.bindings.push((name.text.clone(), item));
            let done = self.each(scope, inner, body);
            self.bindings.pop();
            done?;
        }
        Ok(())
    }

    /// The values of all variables at each turn of a loop.
    pub fn turns(&mut self, scope: &Scope, binders: &[Binder]) -> Result<Vec<Bindings>, Error> {
        let mut turns = Vec::new();
        self.each(scope, binders, &mut |expander| {
            turns.push(expander.bindings.clone());
            Ok(())
        })?;
        Ok(turns)
    }

    // Parts of commands.

    pub fn transition(
        &mut self,
        scope: &Scope,
        step: &Transition,
    ) -> Result<PlainTransition, Error> {
        self.count(step.at)?;
        let words = step.label.iter().map(|word| self.word(word));
        let words: Vec<String> = words.collect();
        let digits = words
            .first()
            .is_some_and(|word| word.starts_with(|letter: char| letter.is_ascii_digit()));
        refuse_if(digits, step.at, || {
            "a transition's name begins with a letter".to_string()
        })?;
        let label = step.label.first().map(|first| Name {
            at: first.at,
            text: words.join(" "),
        });
        let mut effects = Vec::new();
        let conditions = self.conditions(scope, &step.conditions)?;
        let cost = self.plain(scope, &step.cost)?;
        let high = step.high.as_ref();
        let high = high.map(|high| self.plain(scope, high)).transpose()?;
        self.parts(scope, &step.effects, &mut |expander, (variable, value)| {
            let variable = expander.plain(scope, variable)?;
            effects.push((variable, expander.plain(scope, value)?));
            Ok(())
        })?;
        Ok(PlainTransition {
            at: step.at,
            label,
            conditions,
            cost,
            high,
            effects,
        })
    }

    pub fn conditions(&mut self, scope: &Scope, parts: &[Part<Node>]) -> Result<Vec<Node>, Error> {
        let mut conditions = Vec::new();
        self.parts(scope, parts, &mut |expander, condition| {
            conditions.push(expander.plain(scope, condition)?);
            Ok(())
        })?;
        Ok(conditions)
    }

    /// Does something for each part, in loops for all values.
    fn parts<T>(
        &mut self,
        scope: &Scope,
        parts: &[Part<T>],
        one: &mut dyn FnMut(&mut Expander, &T) -> Result<(), Error>,
    ) -> Result<(), Error> {
        for part in parts {
            match part {
                Part::One(part) => one(self, part)?,
                Part::Loop(Loop { binders, body }) => {
                    self.each(scope, binders, &mut |expander| {
                        expander.parts(scope, body, one)
                    })?;
                }
            }
        }
        Ok(())
    }

    /// A word of a transition's name, with the value of a loop's variable in its place.
    fn word(&self, word: &Name) -> String {
        match bound(&self.bindings, &word.text) {
            Some(item) => item.to_string(),
            None => word.text.clone(),
        }
    }

    // Expressions.

    /// The expression without loops, constants and loop variables.
    pub fn plain(&mut self, scope: &Scope, node: &Node) -> Result<Node, Error> {
        let boxed =
            |expander: &mut Expander, part: &Node| expander.plain(scope, part).map(Box::new);
        let form = match &node.form {
            Form::Integer(_) | Form::Object(_) | Form::Numbered(..) => node.form.clone(),
            Form::Name(name) => self.name(scope, node.at, name)?,
            Form::NumberedBy(kind, name) => match bound(&self.bindings, &name.text) {
                Some(Item::Number(value)) => {
                    let (at, value) = (name.at, *value);
                    Form::Numbered(*kind, Integer { at, value })
                }
                _ => {
                    let message = format!("`{}` is no number: the loop goes over names", name.text);
                    return Err(Error::new(name.at, message));
                }
            },
            Form::Members(members, side) => Form::Members(self.members(members), side.clone()),
            Form::Entry(table, row, column) => {
                let row = boxed(self, row)?;
                let column = match column {
                    Some(column) => Some(boxed(self, column)?),
                    None => None,
                };
                entry(scope, node.at, table, row, column)?
            }
            Form::EntrySum(table, set, column) => {
                not_constant(scope, table)?;
                let set = boxed(self, set)?;
                let column = match column {
                    Some(column) => Some(boxed(self, column)?),
                    None => None,
                };
                Form::EntrySum(table.clone(), set, column)
            }
            Form::Lesser(first, second) => Form::Lesser(boxed(self, first)?, boxed(self, second)?),
            Form::Greater(first, second) => {
                Form::Greater(boxed(self, first)?, boxed(self, second)?)
            }
            Form::Count(part) => Form::Count(boxed(self, part)?),
            Form::Choice(condition, first, second) => Form::Choice(
                boxed(self, condition)?,
                boxed(self, first)?,
                boxed(self, second)?,
            ),
            Form::Complement(part) => Form::Complement(boxed(self, part)?),
            Form::Empty(part) => Form::Empty(boxed(self, part)?),
            Form::Not(part) => Form::Not(boxed(self, part)?),
            Form::Binary(operator, first, second) => {
                Form::Binary(*operator, boxed(self, first)?, boxed(self, second)?)
            }
            Form::Over(joining, binders, part) => {
                let mut parts = Vec::new();
                self.each(scope, binders, &mut |expander| {
                    parts.push(expander.plain(scope, part)?);
                    Ok(())
                })?;
                return self.joined(node.at, *joining, parts);
            }
            Form::Several(joining, parts) => {
                let parts: Result<Vec<Node>, Error> =
                    parts.iter().map(|part| self.plain(scope, part)).collect();
                return self.joined(node.at, *joining, parts?);
            }
        };
        self.node(node.at, form)
    }

    /// A loop's variable by its value, every other name as it is.
    fn name(&self, scope: &Scope, at: Place, name: &str) -> Result<Form, Error> {
        match bound(&self.bindings, name) {
            Some(Item::Number(value)) => Ok(Form::Integer(*value)),
            Some(Item::Name(value)) => Ok(Form::Name(value.clone())),
            None => {
                if let Ok(Meaning::ConstantTable(_)) = scope.meaning(at, name) {
                    let message =
                        format!("`{name}` is a table: its entries are written `{name}[object]`");
                    return Err(Error::new(at, message));
                }
                Ok(Form::Name(name.to_string()))
            }
        }
    }

    fn members(&self, members: &Members) -> Members {
        let object = |object: &Object| match object {
            Object::Name(name) => match bound(&self.bindings, &name.text) {
                Some(item) => item.object(name.at),
                None => object.clone(),
            },
            Object::Number(_) => object.clone(),
        };
        let members = members.iter();
        let replaced = members.map(|(first, last)| (object(first), last.as_ref().map(object)));
        replaced.collect()
    }

    /// The parts as a balanced tree; of none, what changes nothing.
    fn joined(&mut self, at: Place, joining: Joining, mut parts: Vec<Node>) -> Result<Node, Error> {
        if parts.len() > 1 {
            let second = parts.split_off(parts.len() / 2);
            let first = Box::new(self.joined(at, joining, parts)?);
            let second = Box::new(self.joined(at, joining, second)?);
            let form = match joining {
                Joining::All => Form::Binary(Operator::And, first, second),
                Joining::Some => Form::Binary(Operator::Or, first, second),
                Joining::Sum => Form::Binary(Operator::Plus, first, second),
                Joining::Greatest => Form::Greater(first, second),
                Joining::Least => Form::Lesser(first, second),
            };
            return self.node(at, form);
        }
        match (parts.pop(), joining) {
            (Some(part), _) => Ok(part),
            (None, Joining::All) => self.always(at),
            (None, Joining::Some) => {
                let always = Box::new(self.always(at)?);
                self.node(at, Form::Not(always))
            }
            (None, Joining::Sum) => self.node(at, Form::Integer(0)),
            (None, _) => Err(Error::new(
                at,
                "the loop goes over nothing, which has no greatest or least",
            )),
        }
    }

    /// A condition that holds in every state.
    fn always(&mut self, at: Place) -> Result<Node, Error> {
        let one = Side::Count(Integer { at, value: 1 });
        let nothing = Box::new(self.node(at, Form::Members(Vec::new(), Some(one)))?);
        self.node(at, Form::Empty(nothing))
    }
}
