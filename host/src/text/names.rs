//! The names that a text gives to variables, objects, tables and transitions, looked up by index.

use crate::reference::syntax::{Kind, Variable};
use crate::reference::{Model, Value};

/// The objects that belong together, in the order of their numbers.
#[derive(Clone, PartialEq, Eq, Debug)]
pub struct Group {
    pub name: String,
    pub objects: Vec<String>,
}

/// A variable's kind, its name, and the group that its objects come from.
#[derive(Clone, PartialEq, Eq, Debug)]
pub struct VariableName {
    pub kind: Kind,
    pub name: Option<String>,
    pub group: Option<usize>,
}

/// Names by index. What has none is called by its kind and its number.
#[derive(Clone, PartialEq, Eq, Debug, Default)]
pub struct Names {
    pub groups: Vec<Group>,
    pub variables: Vec<VariableName>,
    pub tables: Vec<Option<String>>,
    pub transitions: Vec<Option<String>>,
    /// Tables of constants, which are no part of the model.
    pub constants: Vec<String>,
}

/// The word for a kind, as in `set 0`.
pub fn kind_name(kind: Kind) -> &'static str {
    match kind {
        Kind::Number => "number",
        Kind::Element => "element",
        Kind::Set => "set",
        Kind::Condition => "condition",
    }
}

fn name_or(names: &[Option<String>], index: usize, what: &str) -> String {
    match names.get(index) {
        Some(Some(name)) => name.clone(),
        _ => format!("{what} {index}"),
    }
}

impl Names {
    /// No names at all: everything in the model is called by its kind and its number.
    pub fn by_number(model: &Model) -> Names {
        let variables = model.variables.iter().map(|variable| VariableName {
            kind: match variable {
                Variable::Set { .. } => Kind::Set,
                Variable::Element { .. } => Kind::Element,
                Variable::Number { .. } => Kind::Number,
            },
            name: None,
            group: None,
        });
        Names {
            groups: Vec::new(),
            variables: variables.collect(),
            tables: vec![None; model.tables.len()],
            transitions: vec![None; model.transitions.len()],
            constants: Vec::new(),
        }
    }

    /// The variable's name, or such as `set 0`.
    pub fn variable(&self, index: usize) -> String {
        match self.variables.get(index) {
            Some(variable) => match &variable.name {
                Some(name) => name.clone(),
                None => format!("{} {index}", kind_name(variable.kind)),
            },
            None => format!("variable {index}"),
        }
    }

    /// The table's name, or such as `table 0`.
    pub fn table(&self, index: usize) -> String {
        name_or(&self.tables, index, "table")
    }

    /// The transition's name, or such as `transition 3`.
    pub fn transition(&self, index: usize) -> String {
        name_or(&self.transitions, index, "transition")
    }

    /// The name of an object as a value or a member of this variable, or the object's number.
    pub fn object(&self, variable: usize, object: u8) -> String {
        let group = self.variables.get(variable).and_then(|found| found.group);
        let objects = group.and_then(|group| self.groups.get(group));
        match objects.and_then(|group| group.objects.get(usize::from(object))) {
            Some(name) => name.clone(),
            None => object.to_string(),
        }
    }

    /// A value of this variable in the words of the text, as `{a, b}`, `a` or `3`.
    pub fn value(&self, variable: usize, value: &Value) -> String {
        match value {
            Value::Set(members) => {
                let members = (0..64).filter(|object| members >> object & 1 == 1);
                let names: Vec<String> = members
                    .map(|object| self.object(variable, object))
                    .collect();
                format!("{{{}}}", names.join(", "))
            }
            Value::Element(object) => self.object(variable, *object),
            Value::Number(number) => number.to_string(),
        }
    }
}
