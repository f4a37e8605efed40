//! What is declared so far: names with what they mean, kinds and object counts of variables, sides of tables.

use super::constants::ConstantTable;
use super::foreign::hint;
use super::names::{kind_name, Group, Names, VariableName};
use super::place::{refuse_if, Error, Place};
use super::syntax::{Integer, Members, Name, Object, Reference, Side};
use crate::numbers::limit;
use crate::reference::syntax::Kind;
use std::collections::{HashMap, HashSet};

/// What a name stands for.
#[derive(Clone, Copy)]
pub enum Meaning {
    Group(usize),
    /// A group, and the object's number in it.
    Object(usize, u8),
    Variable(usize),
    Table(usize),
    Constant,
    ConstantTable(usize),
}

impl Meaning {
    /// The thing in words.
    pub fn what(self) -> &'static str {
        match self {
            Meaning::Group(_) => "a group of objects",
            Meaning::Object(..) => "an object",
            Meaning::Variable(_) => "a variable",
            Meaning::Table(_) => "a table",
            Meaning::Constant | Meaning::ConstantTable(_) => "a constant",
        }
    }
}

#[derive(Default)]
pub struct Scope {
    meanings: HashMap<String, Meaning>,
    labels: HashSet<String>,
    /// Object counts of variables; 0 for numbers.
    counts: Vec<u8>,
    /// Rows and columns of tables.
    sides: Vec<(u8, u8)>,
    pub constants: Vec<ConstantTable>,
    /// Names in commands that could not be read.
    pub unread: HashSet<String>,
    pub names: Names,
}

/// An object count between 1 and 64.
fn count(given: Integer) -> Result<u8, Error> {
    let most = limit::OBJECTS;
    refuse_if(
        !(1..=i64::from(most)).contains(&given.value),
        given.at,
        || format!("an object count is 1 to {most}, not {}", given.value),
    )?;
    Ok(given.value as u8)
}

/// An object's number, below 64.
pub fn object_number(at: Place, value: i64) -> Result<u8, Error> {
    let last = limit::OBJECTS - 1;
    refuse_if(!(0..=i64::from(last)).contains(&value), at, || {
        format!("an object's number is 0 to {last}, not {value}")
    })?;
    Ok(value as u8)
}

/// A number between −2^31 and 2^31 − 1.
pub fn number_in_range(at: Place, value: i64) -> Result<i32, Error> {
    i32::try_from(value).map_err(|_| {
        let (least, most) = (i32::MIN, i32::MAX);
        Error::new(at, format!("a number lies between {least} and {most}"))
    })
}

impl Object {
    pub fn at(&self) -> Place {
        match self {
            Object::Number(number) => number.at,
            Object::Name(name) => name.at,
        }
    }
}

impl Scope {
    pub fn meaning(&self, at: Place, name: &str) -> Result<Meaning, Error> {
        match self.meanings.get(name) {
            Some(meaning) => Ok(*meaning),
            None if self.unread.contains(name) => Err(Error::consequence(at)),
            None => {
                let hint = hint(name);
                Err(Error::new(at, format!("`{name}` is not declared{hint}")))
            }
        }
    }

    pub fn declare(&mut self, name: &Name, meaning: Meaning) -> Result<(), Error> {
        if let Some(other) = self.meanings.get(&name.text) {
            let (text, what) = (&name.text, other.what());
            return Err(Error::new(
                name.at,
                format!("`{text}` is already the name of {what}"),
            ));
        }
        self.meanings.insert(name.text.clone(), meaning);
        Ok(())
    }

    // Declarations.

    pub fn declare_objects(&mut self, group: &Name, objects: &[Name]) -> Result<(), Error> {
        let index = self.names.groups.len();
        self.declare(group, Meaning::Group(index))?;
        let most = usize::from(limit::OBJECTS);
        let names = objects.iter().take(most).map(|object| object.text.clone());
        self.names.groups.push(Group {
            name: group.text.clone(),
            objects: names.collect(),
        });
        for (number, object) in objects.iter().enumerate() {
            refuse_if(number >= most, object.at, || {
                format!("a group has at most {most} objects")
            })?;
            self.declare(object, Meaning::Object(index, number as u8))?;
        }
        Ok(())
    }

    pub fn declare_variable(
        &mut self,
        name: Option<&Name>,
        kind: Kind,
        count: u8,
        group: Option<usize>,
    ) -> Result<(), Error> {
        if let Some(name) = name {
            self.declare(name, Meaning::Variable(self.counts.len()))?;
        }
        self.counts.push(count);
        let name = name.map(|name| name.text.clone());
        self.names
            .variables
            .push(VariableName { kind, name, group });
        Ok(())
    }

    pub fn declare_table(&mut self, name: Option<&Name>, sides: (u8, u8)) -> Result<(), Error> {
        if let Some(name) = name {
            self.declare(name, Meaning::Table(self.sides.len()))?;
        }
        self.sides.push(sides);
        self.names.tables.push(name.map(|name| name.text.clone()));
        Ok(())
    }

    pub fn declare_transition(&mut self, label: Option<&Name>) -> Result<(), Error> {
        if let Some(label) = label {
            let new = self.labels.insert(label.text.clone());
            refuse_if(!new, label.at, || {
                format!("`{}` is already the name of a transition", label.text)
            })?;
        }
        let label = label.map(|label| label.text.clone());
        self.names.transitions.push(label);
        Ok(())
    }

    // Objects and sets of objects.

    /// An object count, and the group if it is a group's.
    pub fn side(&self, side: &Side) -> Result<(u8, Option<usize>), Error> {
        match side {
            Side::Count(given) => Ok((count(*given)?, None)),
            Side::Group(name) => match self.meaning(name.at, &name.text)? {
                Meaning::Group(group) => {
                    Ok((self.names.groups[group].objects.len() as u8, Some(group)))
                }
                other => Err(wrong_name(name, "a group of objects", other)),
            },
        }
    }

    /// An object's number, and its group if it is named.
    fn object(&self, object: &Object) -> Result<(u8, Option<usize>), Error> {
        match object {
            Object::Number(number) => Ok((object_number(number.at, number.value)?, None)),
            Object::Name(name) => match self.meaning(name.at, &name.text)? {
                Meaning::Object(group, object) => Ok((object, Some(group))),
                other => Err(wrong_name(name, "an object", other)),
            },
        }
    }

    /// An object's number, below the count.
    pub fn object_below(&self, count: u8, object: &Object) -> Result<u8, Error> {
        let (number, _) = self.object(object)?;
        refuse_if(number >= count, object.at(), || {
            format!("object {number} is not below the object count {count}")
        })?;
        Ok(number)
    }

    /// The members as bits, all below the count, none of them twice.
    pub fn members(&self, count: u8, members: &Members) -> Result<u64, Error> {
        let mut bits = 0;
        for (first, last) in members {
            let from = self.object_below(count, first)?;
            let to = match last {
                Some(last) => self.object_below(count, last)?,
                None => from,
            };
            refuse_if(to < from, first.at(), || {
                format!("the run from object {from} to object {to} goes backwards")
            })?;
            for object in from..=to {
                refuse_if(bits >> object & 1 == 1, first.at(), || {
                    format!("object {object} is a member already")
                })?;
                bits |= 1 << object;
            }
        }
        Ok(bits)
    }

    /// The object count of a set that does not state it: that of the one group its named members are of.
    pub fn count_of_members(&self, at: Place, members: &Members) -> Result<u8, Error> {
        let mut found: Option<usize> = None;
        let objects = members
            .iter()
            .flat_map(|(first, last)| [Some(first), last.as_ref()]);
        for object in objects.flatten() {
            let (_, group) = self.object(object)?;
            refuse_if(
                found.is_some() && group.is_some() && found != group,
                object.at(),
                || {
                    "the members are of several groups: `of` and an object count are due behind the set"
                    .to_string()
                },
            )?;
            found = found.or(group);
        }
        match found {
            Some(group) => Ok(self.names.groups[group].objects.len() as u8),
            None => Err(Error::new(
                at,
                "`of` and an object count are due behind a set without named members",
            )),
        }
    }

    // Variables and tables.

    /// The variable that is called by its kind and number.
    pub fn numbered(&self, kind: Kind, number: Integer) -> Result<usize, Error> {
        let index = usize::try_from(number.value).unwrap_or(usize::MAX);
        let Some(variable) = self.names.variables.get(index) else {
            let value = number.value;
            return Err(Error::new(
                number.at,
                format!("variable {value} is not declared"),
            ));
        };
        refuse_if(variable.kind != kind, number.at, || {
            let (is, not) = (kind_name(variable.kind), kind_name(kind));
            format!("variable {index} is declared as `{is}`, not as `{not}`")
        })?;
        Ok(index)
    }

    pub fn kind_of(&self, variable: usize) -> Kind {
        self.names.variables[variable].kind
    }

    pub fn count_of(&self, variable: usize) -> u8 {
        self.counts[variable]
    }

    /// The table's number, its rows and its columns.
    pub fn table(&self, table: &Reference) -> Result<(u8, u8, u8), Error> {
        let index = match table {
            Reference::Number(number) => {
                let index = usize::try_from(number.value).unwrap_or(usize::MAX);
                refuse_if(index >= self.sides.len(), number.at, || {
                    format!("table {} is not declared", number.value)
                })?;
                index
            }
            Reference::Name(name) => match self.meaning(name.at, &name.text)? {
                Meaning::Table(index) => index,
                other => return Err(wrong_name(name, "a table", other)),
            },
        };
        let (rows, columns) = self.sides[index];
        Ok((index as u8, rows, columns))
    }
}

fn wrong_name(name: &Name, due: &str, found: Meaning) -> Error {
    let (text, what) = (&name.text, found.what());
    Error::new(name.at, format!("expected {due}, `{text}` is {what}"))
}
