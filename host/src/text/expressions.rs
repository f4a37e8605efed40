//! Tokens to expressions, by precedence. Kinds are not looked at here.

use super::cursor::Cursor;
use super::foreign::hint;
use super::lexer::Token;
use super::place::{Error, Place};
use super::syntax::{Form, Joining, Node, Operator, Reference};
use crate::reference::syntax::Kind;

/// How tightly `not` binds: looser than comparisons, tighter than `and`.
const NOT_LEVEL: u8 = 3;
const COMPARISON_LEVEL: u8 = 4;

/// How the two sides of a sign are put together.
#[derive(Clone, Copy, PartialEq, Eq)]
enum Sides {
    AsWritten,
    /// `x > y` is `y < x`.
    Swapped,
    /// `x != y` is `not x = y`.
    Negated,
}

/// The operator that a token writes, how its sides are put together, and how tightly it binds.
fn operator(token: &Token) -> Option<(Operator, Sides, u8)> {
    let written = match token {
        Token::Word(word) => word.as_str(),
        Token::Symbol(symbol) => symbol,
        Token::Integer(_) | Token::Quoted(_) | Token::End => return None,
    };
    let (operator, level) = match written {
        "or" => (Operator::Or, 1),
        "and" => (Operator::And, 2),
        "=" | "!=" => (Operator::Equal, COMPARISON_LEVEL),
        "<" | ">" => (Operator::Less, COMPARISON_LEVEL),
        "<=" | ">=" => (Operator::AtMost, COMPARISON_LEVEL),
        "in" => (Operator::In, COMPARISON_LEVEL),
        "subset" => (Operator::Subset, COMPARISON_LEVEL),
        "|" => (Operator::Union, 5),
        "&" => (Operator::Intersection, 6),
        "+" => (Operator::Plus, 7),
        "-" => (Operator::Minus, 7),
        "*" => (Operator::Times, 8),
        "/" => (Operator::By, 8),
        _ => return None,
    };
    let sides = match written {
        ">" | ">=" => Sides::Swapped,
        "!=" => Sides::Negated,
        _ => Sides::AsWritten,
    };
    Some((operator, sides, level))
}

/// The expression that a sign and its sides stand for.
fn joined(
    at: Place,
    operator: Operator,
    sides: Sides,
    left: Node,
    right: Node,
) -> Result<Node, Error> {
    let (first, second) = match sides {
        Sides::Swapped => (right, left),
        _ => (left, right),
    };
    let form = Form::Binary(operator, Box::new(first), Box::new(second));
    let node = Node::new(at, form)?;
    match sides {
        Sides::Negated => Node::new(at, Form::Not(Box::new(node))),
        _ => Ok(node),
    }
}

/// The kind that a word names, where a variable is called by its number.
pub fn kind_word(word: &str) -> Option<Kind> {
    match word {
        "set" => Some(Kind::Set),
        "element" => Some(Kind::Element),
        "number" => Some(Kind::Number),
        _ => None,
    }
}

impl Cursor {
    /// A whole expression: a choice, or operands joined by operators.
    pub fn expression(&mut self) -> Result<Node, Error> {
        self.enter()?;
        let node = if self.at_word("if") {
            self.choice()?
        } else if let Some(joining) = self.joining() {
            self.over(joining)?
        } else {
            self.operation(1)?
        };
        self.leave();
        Ok(node)
    }

    pub fn boxed(&mut self) -> Result<Box<Node>, Error> {
        self.expression().map(Box::new)
    }

    fn choice(&mut self) -> Result<Node, Error> {
        let at = self.place();
        self.word("if")?;
        let condition = self.boxed()?;
        self.word("then")?;
        let first = self.boxed()?;
        self.word("else")?;
        Node::new(at, Form::Choice(condition, first, self.boxed()?))
    }

    /// Operands joined by operators that bind at least at this level, from left to right.
    fn operation(&mut self, least: u8) -> Result<Node, Error> {
        let at = self.place();
        let mut left = self.operand()?;
        while let Some((operator, sides, level)) = operator(self.peek()) {
            if level < least {
                break;
            }
            self.pass();
            let right = self.operation(level + 1)?;
            left = joined(at, operator, sides, left, right)?;
        }
        Ok(left)
    }

    /// An atom, behind any `not`, `~` and `-`.
    fn operand(&mut self) -> Result<Node, Error> {
        let at = self.place();
        if let Some(integer) = self.integer() {
            return Node::new(at, Form::Integer(integer.value));
        }
        let negated = self.take_word("not");
        let minus = !negated && self.take_symbol("-");
        if !negated && !minus && !self.take_symbol("~") {
            return self.atom();
        }
        self.enter()?;
        let form = if negated {
            Form::Not(Box::new(self.operation(NOT_LEVEL)?))
        } else if minus {
            let nothing = Node::new(at, Form::Integer(0))?;
            Form::Binary(
                Operator::Minus,
                Box::new(nothing),
                Box::new(self.operand()?),
            )
        } else {
            Form::Complement(Box::new(self.operand()?))
        };
        self.leave();
        Node::new(at, form)
    }

    fn atom(&mut self) -> Result<Node, Error> {
        let at = self.place();
        if self.take_symbol("(") {
            let node = self.expression()?;
            self.symbol(")")?;
            return Ok(node);
        }
        if self.at_symbol("{") {
            return self.set_of_members();
        }
        if let Some(name) = self.free_name() {
            if self.at_symbol("[") {
                let (row, column) = self.indices()?;
                return Node::new(at, Form::Entry(Reference::Name(name), row, column));
            }
            if self.at_symbol("(") {
                let hint = hint(&name.text);
                let message = format!("`{}` is no function{hint}", name.text);
                return Err(Error::new(at, message));
            }
            return Node::new(at, Form::Name(name.text));
        }
        self.worded_atom(at)
    }

    /// An atom that begins with a word of the language.
    fn worded_atom(&mut self, at: Place) -> Result<Node, Error> {
        let word = match self.peek() {
            Token::Word(word) => word.clone(),
            _ => String::new(),
        };
        if let Some(kind) = kind_word(&word) {
            self.pass();
            let form = self.numbered(kind);
            return Node::new(
                at,
                form.ok_or_else(|| self.expected("a variable's number"))?,
            );
        }
        let form = match word.as_str() {
            "object" => {
                self.pass();
                let number = self.digits();
                Form::Object(number.ok_or_else(|| self.expected("an object's number"))?)
            }
            "table" => {
                let table = self.table_reference()?;
                let (row, column) = self.indices()?;
                Form::Entry(table, row, column)
            }
            "sum" => self.entry_sum()?,
            "min" => self.several(Joining::Least)?,
            "max" => self.several(Joining::Greatest)?,
            "count" => Form::Count(self.argument()?),
            "empty" => Form::Empty(self.argument()?),
            "if" => return Err(self.expected("an operand; parentheses go around `if`")),
            "forall" | "exists" => {
                let due = format!("an operand; parentheses go around `{word}`");
                return Err(self.expected(&due));
            }
            _ => return Err(self.expected("an expression")),
        };
        Node::new(at, form)
    }

    fn set_of_members(&mut self) -> Result<Node, Error> {
        let at = self.place();
        let members = self.members()?;
        let side = if self.take_word("of") {
            Some(self.side()?)
        } else {
            None
        };
        Node::new(at, Form::Members(members, side))
    }

    /// A row, and a column where one is written, in brackets.
    fn indices(&mut self) -> Result<(Box<Node>, Option<Box<Node>>), Error> {
        self.symbol("[")?;
        let row = self.boxed()?;
        let column = if self.take_symbol(",") {
            Some(self.boxed()?)
        } else {
            None
        };
        if !self.take_symbol("]") {
            let due = if column.is_some() {
                "`]`"
            } else {
                "`,` or `]`"
            };
            return Err(self.expected(due));
        }
        Ok((row, column))
    }

    /// A table by its name, or `table` and its number.
    fn table_reference(&mut self) -> Result<Reference, Error> {
        if self.take_word("table") {
            let number = self.digits().map(Reference::Number);
            return number.ok_or_else(|| self.expected("a table's number"));
        }
        let name = self.free_name().map(Reference::Name);
        name.ok_or_else(|| self.expected("a table"))
    }

    fn entry_sum(&mut self) -> Result<Form, Error> {
        self.pass();
        self.symbol("(")?;
        self.no_loop("sum")?;
        let table = self.table_reference()?;
        let (set, column) = self.indices()?;
        self.symbol(")")?;
        Ok(Form::EntrySum(table, set, column))
    }

    fn argument(&mut self) -> Result<Box<Node>, Error> {
        self.pass();
        self.symbol("(")?;
        let part = self.boxed()?;
        self.symbol(")")?;
        Ok(part)
    }

    /// The variable of this kind that is called by its number, which a loop may give.
    pub fn numbered(&mut self, kind: Kind) -> Option<Form> {
        if let Some(number) = self.digits() {
            return Some(Form::Numbered(kind, number));
        }
        let name = self.bound_name()?;
        Some(Form::NumberedBy(kind, name))
    }
}
