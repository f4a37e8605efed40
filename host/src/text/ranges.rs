//! What loops go over: objects by name, numbers, or other names.

use super::place::{refuse_if, Error, Place};
use super::scope::{Meaning, Scope};
use super::syntax::{Binder, Integer, Members, Name, Object, Span};
use std::fmt;

/// The most numbers in a run.
const LONGEST_RUN: i64 = 65_536;

/// What a loop's variable stands for in one turn.
#[derive(Clone, PartialEq, Eq, Debug)]
pub enum Item {
    Name(String),
    Number(i64),
}

impl fmt::Display for Item {
    fn fmt(&self, out: &mut fmt::Formatter) -> fmt::Result {
        match self {
            Item::Name(name) => write!(out, "{name}"),
            Item::Number(number) => write!(out, "{number}"),
        }
    }
}

impl Item {
    pub fn object(&self, at: Place) -> Object {
        match self {
            Item::Name(text) => {
                let text = text.clone();
                Object::Name(Name { at, text })
            }
            Item::Number(value) => Object::Number(Integer { at, value: *value }),
        }
    }
}

/// The value of the innermost loop variable of this name.
pub fn bound<'a>(bindings: &'a [(String, Item)], name: &str) -> Option<&'a Item> {
    let mut inner = bindings.iter().rev();
    inner.find(|(bound, _)| bound == name).map(|(_, item)| item)
}

/// What loops around a range stand for, and what is declared.
struct Ranges<'a> {
    scope: &'a Scope,
    bindings: &'a [(String, Item)],
}

/// The values of a loop's variable, in their order.
pub fn values(
    scope: &Scope,
    bindings: &[(String, Item)],
    binder: &Binder,
) -> Result<Vec<Item>, Error> {
    let ranges = Ranges { scope, bindings };
    let one = |object: &Object| -> Result<Vec<Item>, Error> {
        let item = ranges.item(object)?;
        let found = ranges.group(&item);
        found.ok_or_else(|| {
            Error::new(
                object.at(),
                format!("a loop goes over a group of objects, a set in braces or a run; `{item}` is none"),
            )
        })
    };
    let mut items = match &binder.over {
        Span::One(object) => one(object)?,
        other => ranges.several(other)?,
    };
    for without in &binder.without {
        let out = match without {
            Span::One(object) => {
                let item = ranges.item(object)?;
                ranges.group(&item).unwrap_or_else(|| vec![item])
            }
            other => ranges.several(other)?,
        };
        items.retain(|item| !out.iter().any(|other| ranges.same(item, other)));
    }
    Ok(items)
}

impl Ranges<'_> {
    /// What an object's name or number stands for here; names have to be declared.
    fn item(&self, object: &Object) -> Result<Item, Error> {
        match object {
            Object::Number(number) => Ok(Item::Number(number.value)),
            Object::Name(name) => match bound(self.bindings, &name.text) {
                Some(item) => Ok(item.clone()),
                None => {
                    self.scope.meaning(name.at, &name.text)?;
                    Ok(Item::Name(name.text.clone()))
                }
            },
        }
    }

    /// The objects of the group that the item names, if it names one.
    fn group(&self, item: &Item) -> Option<Vec<Item>> {
        let Item::Name(name) = item else {
            return None;
        };
        match self.scope.meaning(Place::first(0), name) {
            Ok(Meaning::Group(group)) => {
                let objects = self.scope.names.groups[group].objects.iter();
                Some(objects.cloned().map(Item::Name).collect())
            }
            _ => None,
        }
    }

    fn several(&self, span: &Span) -> Result<Vec<Item>, Error> {
        match span {
            Span::One(object) => Ok(vec![self.item(object)?]),
            Span::Members(members) => self.members(members),
            Span::Run(first, last) => self.run(first, last),
        }
    }

    fn members(&self, members: &Members) -> Result<Vec<Item>, Error> {
        let mut items: Vec<Item> = Vec::new();
        for (first, last) in members {
            let more = match last {
                Some(last) => self.run(first, last)?,
                None => vec![self.item(first)?],
            };
            for item in more {
                let twice = items.iter().any(|other| self.same(&item, other));
                refuse_if(twice, first.at(), || {
                    format!("`{item}` is a member already")
                })?;
                items.push(item);
            }
        }
        Ok(items)
    }

    /// The numbers, or the objects of one group, from the first to the last.
    fn run(&self, first: &Object, last: &Object) -> Result<Vec<Item>, Error> {
        let at = first.at();
        let (from, to) = (self.item(first)?, self.item(last)?);
        let backwards = || format!("the run from `{from}` to `{to}` goes backwards");
        if let (Item::Number(from), Item::Number(to)) = (&from, &to) {
            refuse_if(to < from, at, backwards)?;
            refuse_if(to - from >= LONGEST_RUN, at, || {
                format!("a run has at most {LONGEST_RUN} numbers")
            })?;
            return Ok((*from..=*to).map(Item::Number).collect());
        }
        let (Some((group, from_number)), Some((other, to_number))) =
            (self.object(&from), self.object(&to))
        else {
            let message = format!("a run goes over numbers or over the objects of one group, not from `{from}` to `{to}`");
            return Err(Error::new(at, message));
        };
        refuse_if(group != other, at, || {
            format!("`{from}` and `{to}` are objects of different groups")
        })?;
        refuse_if(to_number < from_number, at, backwards)?;
        let objects = &self.scope.names.groups[group].objects;
        let run = &objects[usize::from(from_number)..=usize::from(to_number)];
        Ok(run.iter().cloned().map(Item::Name).collect())
    }

    /// The group and the number of the object that the item names.
    fn object(&self, item: &Item) -> Option<(usize, u8)> {
        let Item::Name(name) = item else {
            return None;
        };
        match self.scope.meaning(Place::first(0), name) {
            Ok(Meaning::Object(group, object)) => Some((group, object)),
            _ => None,
        }
    }

    /// Whether two items are the same; an object's number is that object.
    fn same(&self, first: &Item, second: &Item) -> bool {
        let number = |item: &Item| match item {
            Item::Number(value) => Some(*value),
            Item::Name(_) => self.object(item).map(|(_, object)| i64::from(object)),
        };
        let by_number = matches!(first, Item::Number(_)) || matches!(second, Item::Number(_));
        if by_number {
            number(first).is_some() && number(first) == number(second)
        } else {
            first == second
        }
    }
}
