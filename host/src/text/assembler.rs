//! Commands to bytes, with the sizes that document 01 allows. What is wrong is noted, and the next command taken.

use super::expand::Expander;
use super::names::Names;
use super::parser::Parsed;
use super::place::{refuse_if, Error, Place};
use super::plain::{Plain, PlainTransition};
use super::scope::{number_in_range, Meaning, Scope};
use super::sizes::within;
use super::sources::Sources;
use super::syntax::{Command, Form, Loop, Name, Node, Start};
use crate::build::Bytes;
use crate::numbers::limit;
use crate::reference::syntax::{CostRule, Kind, Preference};

/// The bytes of a text, its names, and the plain commands that it stands for.
pub struct Assembly {
    pub bytes: Bytes,
    pub names: Names,
    pub plain: Vec<Plain>,
}

/// The bytes of the commands, 0E behind them, with names and plain commands; or all that is wrong.
pub fn assembled(sources: &Sources, parsed: Parsed) -> Result<Assembly, Vec<Error>> {
    let mut assembler = Assembler::new(sources);
    assembler.errors = parsed.errors;
    assembler.scope.unread = parsed.unread;
    for command in &parsed.commands {
        let done = assembler.command(command);
        assembler.keep(done);
    }
    if !assembler.errors.is_empty() {
        return Err(assembler.errors);
    }
    assembler.bytes.push(0x0E);
    let constants = assembler.scope.constant_names();
    let mut names = assembler.scope.names.clone();
    names.constants = constants.map(str::to_string).collect();
    Ok(Assembly {
        bytes: assembler.bytes,
        names,
        plain: assembler.plain,
    })
}

pub struct Assembler<'a> {
    pub sources: &'a Sources,
    pub scope: Scope,
    expander: Expander,
    bytes: Bytes,
    plain: Vec<Plain>,
    errors: Vec<Error>,
    base_cases: usize,
    constraints: usize,
    bounds: usize,
}

/// Errors beyond this many are not looked for.
const MOST_ERRORS: usize = 200;

fn preference_byte(preference: Preference) -> u8 {
    match preference {
        Preference::None => 0,
        Preference::Less => 1,
        Preference::More => 2,
    }
}

impl Assembler<'_> {
    fn new(sources: &Sources) -> Assembler<'_> {
        Assembler {
            sources,
            scope: Scope::default(),
            expander: Expander::default(),
            bytes: Bytes::new(),
            plain: Vec::new(),
            errors: Vec::new(),
            base_cases: 0,
            constraints: 0,
            bounds: 0,
        }
    }

    /// The result, or nothing where there is an error, which is noted.
    fn keep<T>(&mut self, result: Result<T, Error>) -> Option<T> {
        match result {
            Ok(value) => Some(value),
            Err(error) => {
                self.errors.push(error);
                None
            }
        }
    }

    fn command(&mut self, command: &Command) -> Result<(), Error> {
        let (expander, scope) = (&mut self.expander, &self.scope);
        match command {
            Command::Cost(rule) => {
                self.bytes
                    .extend([0x01, u8::from(*rule == CostRule::Largest)]);
                self.plain.push(Plain::Cost(*rule));
                Ok(())
            }
            Command::Objects(group, objects) => {
                if let Err(error) = self.scope.declare_objects(group, objects) {
                    let names = objects.iter().map(|object| object.text.clone());
                    self.scope.unread.extend(names);
                    return Err(error);
                }
                let plain = Plain::Objects(group.clone(), objects.clone());
                self.plain.push(plain);
                Ok(())
            }
            Command::Constant(name) => self.scope.declare_constant(name),
            Command::ConstantTable(table) => self.constants(table),
            Command::Variable(at, name, start) => {
                let done = self.variable(*at, name.as_ref(), start);
                self.declared(name.as_ref(), done)?;
                let plain = Plain::Variable(name.clone(), start.clone());
                self.plain.push(plain);
                self.within_bytes(*at)
            }
            Command::Table(table) => {
                let plain = self.plain_table(table);
                let plain = self.declared(table.name.as_ref(), plain)?;
                let done = self.table(&plain);
                self.declared(table.name.as_ref(), done)?;
                self.plain.push(Plain::Table(plain));
                self.within_bytes(table.at)
            }
            Command::Transition(step) => {
                let plain = expander.transition(scope, step)?;
                self.transition(&plain)?;
                self.plain.push(Plain::Transition(plain));
                self.within_bytes(step.at)
            }
            Command::Base(at, conditions) => {
                let plain = expander.conditions(scope, conditions)?;
                within(self.base_cases, limit::BASE_CASES, *at, "base cases")?;
                self.base_cases += 1;
                self.put(&[0x0B]);
                self.conditions(&plain);
                self.plain.push(Plain::Base(plain));
                self.within_bytes(*at)
            }
            Command::Constraint(at, condition) => {
                let plain = expander.plain(scope, condition)?;
                within(self.constraints, limit::CONSTRAINTS, *at, "constraints")?;
                self.constraints += 1;
                let bytes = self.scope.condition(&plain)?;
                self.put(&[0x0C]);
                self.put(&bytes);
                self.plain.push(Plain::Constraint(plain));
                self.within_bytes(*at)
            }
            Command::Bound(at, number) => {
                let plain = expander.plain(scope, number)?;
                within(self.bounds, limit::BOUNDS, *at, "bounds")?;
                self.bounds += 1;
                let bytes = self.scope.number(&plain)?;
                self.put(&[0x0D]);
                self.put(&bytes);
                self.plain.push(Plain::Bound(plain));
                self.within_bytes(*at)
            }
            Command::Loop(repeated) => self.repeated(repeated),
        }
    }

    /// The commands of a loop, once for all values of its variables.
    fn repeated(&mut self, repeated: &Loop<Command>) -> Result<(), Error> {
        let turns = self.expander.turns(&self.scope, &repeated.binders)?;
        let before = self.expander.bindings.clone();
        for turn in turns {
            self.expander.bindings = turn;
            for command in &repeated.body {
                let done = self.command(command);
                self.keep(done);
            }
            if self.errors.len() > MOST_ERRORS {
                break;
            }
        }
        self.expander.bindings = before;
        Ok(())
    }

    /// Where a declaration fails, uses of its name are not told as well.
    pub fn declared<T>(&mut self, name: Option<&Name>, done: Result<T, Error>) -> Result<T, Error> {
        if let (Err(_), Some(name)) = (&done, name) {
            self.scope.unread.insert(name.text.clone());
        }
        done
    }

    pub fn put(&mut self, bytes: &[u8]) {
        self.bytes.extend_from_slice(bytes);
    }

    /// The bytes so far and the end command fit in a model.
    fn within_bytes(&self, at: Place) -> Result<(), Error> {
        let most = limit::MODEL_BYTES;
        refuse_if(self.bytes.len() + 1 > most, at, || {
            format!("with this command the model has more than {most} bytes")
        })
    }

    fn variable(&mut self, at: Place, name: Option<&Name>, start: &Start) -> Result<(), Error> {
        let already = self.scope.names.variables.len();
        within(already, limit::VARIABLES, at, "variables")?;
        match start {
            Start::Set(side, members) => {
                let (count, group) = self.scope.side(side)?;
                let members = self.scope.members(count, members)?;
                self.put(&[0x02, count]);
                self.put(&members.to_le_bytes());
                self.scope.declare_variable(name, Kind::Set, count, group)
            }
            Start::Element(side, object, preference) => {
                let (count, group) = self.scope.side(side)?;
                let object = self.scope.object_below(count, object)?;
                self.put(&[0x03, count, preference_byte(*preference), object]);
                self.scope
                    .declare_variable(name, Kind::Element, count, group)
            }
            Start::Number(number, preference) => {
                let value = number_in_range(number.at, number.value)?;
                self.put(&[0x04, preference_byte(*preference)]);
                self.put(&value.to_le_bytes());
                self.scope.declare_variable(name, Kind::Number, 0, None)
            }
        }
    }

    fn transition(&mut self, transition: &PlainTransition) -> Result<(), Error> {
        let already = self.scope.names.transitions.len();
        within(already, limit::TRANSITIONS, transition.at, "transitions")?;
        self.put(&[0x07]);
        self.conditions(&transition.conditions);
        let cost = self.scope.number(&transition.cost);
        self.put(&[0x09]);
        if let Some(cost) = self.keep(cost) {
            self.put(&cost);
        }
        if let Some(high) = &transition.high {
            let high = self.scope.number(high);
            self.put(&[0x10]);
            if let Some(high) = self.keep(high) {
                self.put(&high);
            }
        }
        let mut changed = Vec::new();
        for (variable, value) in &transition.effects {
            let done = self.one_effect(&mut changed, variable, value);
            self.keep(done);
        }
        self.scope.declare_transition(transition.label.as_ref())
    }

    fn one_effect(
        &mut self,
        changed: &mut Vec<usize>,
        variable: &Node,
        value: &Node,
    ) -> Result<(), Error> {
        let index = self.changed_variable(variable)?;
        refuse_if(changed.contains(&index), variable.at, || {
            let name = self.scope.names.variable(index);
            format!("a second effect on `{name}` in this transition")
        })?;
        changed.push(index);
        self.effect(index, value)
    }

    fn conditions(&mut self, conditions: &[Node]) {
        for (already, condition) in conditions.iter().enumerate() {
            let fits = within(already, limit::CONDITIONS, condition.at, "conditions");
            let bytes = fits.and_then(|()| self.scope.condition(condition));
            if let Some(bytes) = self.keep(bytes) {
                self.put(&[0x08]);
                self.put(&bytes);
            }
        }
    }

    fn changed_variable(&self, node: &Node) -> Result<usize, Error> {
        match &node.form {
            Form::Numbered(kind, number) => self.scope.numbered(*kind, *number),
            Form::Name(name) => match self.scope.meaning(node.at, name)? {
                Meaning::Variable(variable) => Ok(variable),
                other => Err(Error::new(
                    node.at,
                    format!("expected a variable, `{name}` is {}", other.what()),
                )),
            },
            _ => Err(Error::new(node.at, "expected a variable")),
        }
    }

    fn effect(&mut self, variable: usize, value: &Node) -> Result<(), Error> {
        let due = self.scope.count_of(variable);
        let bytes = match self.scope.kind_of(variable) {
            Kind::Set => {
                let (bytes, count) = self.scope.set(value)?;
                refuse_if(count != due, value.at, || {
                    format!("a set of {count} objects does not fit a variable of {due}")
                })?;
                bytes
            }
            Kind::Element => {
                let (bytes, count) = self.scope.element(value)?;
                refuse_if(count > due, value.at, || {
                    format!("an element of {count} objects does not fit a variable of {due}")
                })?;
                bytes
            }
            _ => self.scope.number(value)?,
        };
        self.put(&[0x0A, variable as u8]);
        self.put(&bytes);
        Ok(())
    }
}
