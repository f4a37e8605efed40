//! Tokens to single commands.

use super::cursor::Cursor;
use super::expressions::kind_word;
use super::lexer::Token;
use super::loops::Margin;
use super::place::{Error, Place};
use super::sources::Sources;
use super::syntax::{
    Command, Effect, Entries, Form, Integer, Name, Node, Part, Side, Start, Table, Transition,
};
use crate::reference::syntax::{CostRule, Kind, Preference};

/// What is said of a second high cost.
const ONE_HIGH: &str = "a transition has one high cost";

impl Cursor {
    /// The command that begins here; files with tables are read at once.
    pub fn command(&mut self, sources: &mut Sources) -> Result<Command, Error> {
        let (at, margin) = (self.place(), self.margin());
        if self.take_word("cost") {
            self.cost_rule()
        } else if self.take_word("objects") {
            self.objects()
        } else if self.take_word("constant") {
            self.constant(at, sources)
        } else if self.take_word("table") {
            self.table(at, sources).map(Command::Table)
        } else if self.take_word("transition") {
            self.transition(at, margin).map(Command::Transition)
        } else if self.take_word("base") {
            self.symbol(":")?;
            Ok(Command::Base(at, self.conditions(margin)?))
        } else if self.take_word("constraint") {
            Ok(Command::Constraint(at, self.expression()?))
        } else if self.take_word("bound") {
            Ok(Command::Bound(at, self.expression()?))
        } else {
            self.variable(at)
        }
    }

    fn cost_rule(&mut self) -> Result<Command, Error> {
        if self.take_word("sum") {
            Ok(Command::Cost(CostRule::Sum))
        } else if self.take_word("largest") {
            Ok(Command::Cost(CostRule::Largest))
        } else {
            Err(self.expected("`sum` or `largest`"))
        }
    }

    /// The error that a name was due here, which a word of the language cannot be.
    fn expected_name(&self, what: &str) -> Error {
        match self.peek() {
            Token::Word(word) => {
                let message = format!("expected {what}; `{word}` is a word of the language");
                Error::new(self.place(), message)
            }
            _ => self.expected(what),
        }
    }

    fn objects(&mut self) -> Result<Command, Error> {
        let group = self.free_name();
        let group = group.ok_or_else(|| self.expected_name("a name for the group of objects"))?;
        self.symbol("=")?;
        let mut objects = Vec::new();
        while let Some(object) = self.free_name() {
            objects.push(object);
        }
        if objects.is_empty() || matches!(self.peek(), Token::Integer(_)) {
            return Err(self.expected_name("the name of an object"));
        }
        Ok(Command::Objects(group, objects))
    }

    /// A named whole number, or a table of whole numbers.
    fn constant(&mut self, at: Place, sources: &mut Sources) -> Result<Command, Error> {
        let name = self.free_name();
        let name = name.ok_or_else(|| self.expected_name("a name for the constant"))?;
        if self.at_symbol("[") {
            let table = self.sides_and_entries(at, Some(name), sources)?;
            return Ok(Command::ConstantTable(table));
        }
        self.symbol("=")?;
        let value = self.whole_number()?.value;
        self.constants.insert(name.text.clone(), value);
        Ok(Command::Constant(name))
    }

    fn variable(&mut self, at: Place) -> Result<Command, Error> {
        let kind = match self.peek() {
            Token::Word(word) => kind_word(word),
            _ => None,
        };
        let Some(kind) = kind else {
            return Err(self.expected("a command or the end of the text"));
        };
        self.pass();
        let name = self.free_name();
        let start = match kind {
            Kind::Set => {
                let side = self.side_and_equals()?;
                Start::Set(side, self.members()?)
            }
            Kind::Element => {
                let side = self.side_and_equals()?;
                let start = self.object()?;
                Start::Element(side, start, self.preference()?)
            }
            _ => {
                self.symbol("=")?;
                let start = self.whole_number()?;
                Start::Number(start, self.preference()?)
            }
        };
        Ok(Command::Variable(at, name, start))
    }

    fn side_and_equals(&mut self) -> Result<Side, Error> {
        self.word("of")?;
        let side = self.side()?;
        self.symbol("=")?;
        Ok(side)
    }

    fn whole_number(&mut self) -> Result<Integer, Error> {
        let integer = self.integer();
        integer.ok_or_else(|| self.expected("a whole number"))
    }

    fn preference(&mut self) -> Result<Preference, Error> {
        if !self.take_word("prefer") {
            Ok(Preference::None)
        } else if self.take_word("less") {
            Ok(Preference::Less)
        } else if self.take_word("more") {
            Ok(Preference::More)
        } else {
            Err(self.expected("`less` or `more`"))
        }
    }

    fn table(&mut self, at: Place, sources: &mut Sources) -> Result<Table, Error> {
        let name = self.free_name();
        self.sides_and_entries(at, name, sources)
    }

    fn sides_and_entries(
        &mut self,
        at: Place,
        name: Option<Name>,
        sources: &mut Sources,
    ) -> Result<Table, Error> {
        self.symbol("[")?;
        let rows = self.side()?;
        let columns = if self.take_symbol(",") {
            Some(self.side()?)
        } else {
            None
        };
        self.symbol("]")?;
        let entries = if self.take_word("from") {
            self.entries_from(sources)?
        } else if self.take_symbol("=") {
            self.rows()?
        } else {
            return Err(self.expected("`=` or `from`"));
        };
        Ok(Table {
            at,
            name,
            rows,
            columns,
            entries,
        })
    }

    /// A file with entries, and the heading of the column that a list takes from it.
    fn entries_from(&mut self, sources: &mut Sources) -> Result<Entries, Error> {
        let name = self.quoted()?;
        let mut column = None;
        if self.take_word("column") {
            column = match self.peek() {
                Token::Quoted(_) => Some(self.quoted()?),
                _ => self.free_name(),
            };
            if column.is_none() {
                return Err(self.expected("a column's heading"));
            }
        }
        let file = sources.read(name.at, &name.text)?;
        Ok(Entries::File { file, column })
    }

    fn rows(&mut self) -> Result<Entries, Error> {
        let mut rows = vec![self.row()?];
        while self.take_symbol("/") {
            rows.push(self.row()?);
        }
        Ok(Entries::Rows(rows))
    }

    /// The entries up to the next `/` or the end of the table.
    fn row(&mut self) -> Result<Vec<Integer>, Error> {
        let mut row = vec![self.whole_number()?];
        while let Some(entry) = self.integer() {
            row.push(entry);
        }
        Ok(row)
    }

    fn transition(&mut self, at: Place, margin: Margin) -> Result<Transition, Error> {
        let label = self.label();
        self.symbol(":")?;
        let conditions = self.conditions(margin)?;
        if self.at_word("high") {
            let message = "`high` stands behind `cost`, which is the low cost then";
            return Err(Error::new(self.place(), message));
        }
        if !self.take_word("cost") {
            return Err(self.expected("`when` or `cost`"));
        }
        let cost = self.expression()?;
        if self.at_symbol("..") {
            let message =
                "a range of costs takes two lines: `cost` with the low one, `high` with the high one";
            return Err(Error::new(self.place(), message));
        }
        let high = self.take_word("high");
        let high = high.then(|| self.expression()).transpose()?;
        if high.is_some() && self.at_word("high") {
            return Err(Error::new(self.place(), ONE_HIGH));
        }
        let effects = self.parts(margin, Cursor::effect)?;
        self.after_effects()?;
        Ok(Transition {
            at,
            label,
            conditions,
            cost,
            high,
            effects,
        })
    }

    /// A transition's name: a name, then names and numbers.
    fn label(&mut self) -> Vec<Name> {
        let mut label: Vec<Name> = self.free_name().into_iter().collect();
        while !label.is_empty() {
            let at = self.place();
            if let Some(name) = self.free_name() {
                label.push(name);
            } else if let Token::Integer(digits) = self.peek() {
                let text = digits.clone();
                label.push(Name { at, text });
                self.pass();
            } else {
                break;
            }
        }
        label
    }

    fn conditions(&mut self, margin: Margin) -> Result<Vec<Part<Node>>, Error> {
        self.parts(margin, |cursor| {
            let here = cursor.take_word("when");
            here.then(|| cursor.expression()).transpose()
        })
    }

    /// An effect, if one begins here.
    fn effect(&mut self) -> Result<Option<Effect>, Error> {
        let Some(variable) = self.assigned()? else {
            return Ok(None);
        };
        self.symbol(":=")?;
        Ok(Some((variable, self.expression()?)))
    }

    /// The variable of an effect, if an effect begins here.
    fn assigned(&mut self) -> Result<Option<Node>, Error> {
        let at = self.place();
        let kind = match self.peek() {
            Token::Word(word) => kind_word(word),
            _ => None,
        };
        let by_number = match self.peek_second() {
            Token::Integer(_) => true,
            Token::Word(word) => self.bound.contains(word),
            _ => false,
        };
        let form = match kind {
            Some(kind) if by_number => {
                self.pass();
                self.numbered(kind)
            }
            _ => self.free_name().map(|name| Form::Name(name.text)),
        };
        form.map(|form| Node::new(at, form)).transpose()
    }

    /// Tells what often stands by mistake behind a transition's effects.
    fn after_effects(&self) -> Result<(), Error> {
        let told = [
            ("when", "conditions stand before the cost"),
            ("cost", "a transition has one cost"),
            (
                "high",
                "the high cost stands directly behind the cost, before the effects",
            ),
            ("set", "an effect is written with `:=`, as `name := value`"),
        ];
        match told.iter().find(|(word, _)| self.at_word(word)) {
            Some((_, message)) => Err(Error::new(self.place(), *message)),
            None => Ok(()),
        }
    }
}
