//! The kind of an expression, as its form and the declared names give it.

use super::place::{Error, Place};
use super::scope::{Meaning, Scope};
use super::syntax::{Form, Joining, Node, Operator};
use crate::reference::syntax::Kind;

/// A kind in words.
fn a_kind(kind: Kind) -> &'static str {
    match kind {
        Kind::Number => "a number",
        Kind::Element => "an element",
        Kind::Set => "a set",
        Kind::Condition => "a condition",
    }
}

impl Scope {
    /// The kind that the expression's own form gives it. Digits are a number.
    pub fn kind(&self, node: &Node) -> Result<Kind, Error> {
        Ok(match &node.form {
            Form::Name(name) => self.kind_of_name(node.at, name)?,
            Form::Numbered(kind, number) => {
                self.numbered(*kind, *number)?;
                *kind
            }
            Form::Integer(_)
            | Form::Entry(..)
            | Form::EntrySum(..)
            | Form::Lesser(..)
            | Form::Greater(..)
            | Form::Count(_)
            | Form::Choice(..) => Kind::Number,
            Form::Object(_) => Kind::Element,
            Form::Members(..) | Form::Complement(_) => Kind::Set,
            Form::Empty(_) | Form::Not(_) => Kind::Condition,
            Form::NumberedBy(kind, _) => *kind,
            Form::Over(joining, ..) | Form::Several(joining, _) => match joining {
                Joining::All | Joining::Some => Kind::Condition,
                Joining::Sum | Joining::Greatest | Joining::Least => Kind::Number,
            },
            Form::Binary(operator, left, _) => match operator {
                Operator::Plus | Operator::Minus => match self.kind(left)? {
                    Kind::Set => Kind::Set,
                    _ => Kind::Number,
                },
                Operator::Times | Operator::By => Kind::Number,
                Operator::Union | Operator::Intersection => Kind::Set,
                _ => Kind::Condition,
            },
        })
    }

    fn kind_of_name(&self, at: Place, name: &str) -> Result<Kind, Error> {
        match self.meaning(at, name)? {
            Meaning::Variable(variable) => Ok(self.kind_of(variable)),
            Meaning::Object(..) => Ok(Kind::Element),
            Meaning::Table(_) => {
                let message =
                    format!("`{name}` is a table: its entries are written `{name}[row, column]`");
                Err(Error::new(at, message))
            }
            Meaning::Group(_) => {
                let message = format!("`{name}` is a group of objects, not an expression");
                Err(Error::new(at, message))
            }
            Meaning::Constant | Meaning::ConstantTable(_) => Ok(Kind::Number),
        }
    }

    /// The error that an expression of another kind is due.
    pub fn misfit<T>(&self, due: &str, node: &Node) -> Result<T, Error> {
        let found = a_kind(self.kind(node)?);
        Err(Error::new(
            node.at,
            format!("expected {due}, found {found}"),
        ))
    }

    /// The variable of this kind that the expression is, if it is one.
    pub fn variable(&self, kind: Kind, node: &Node) -> Result<Option<u8>, Error> {
        let variable = match &node.form {
            Form::Numbered(its_kind, number) => {
                let variable = self.numbered(*its_kind, *number)?;
                Some(variable)
            }
            Form::Name(name) => match self.meaning(node.at, name)? {
                Meaning::Variable(variable) => Some(variable),
                _ => None,
            },
            _ => None,
        };
        let fitting = variable.filter(|variable| self.kind_of(*variable) == kind);
        Ok(fitting.map(|variable| variable as u8))
    }

    /// Whether the expression may stand for an element: its kind is one, or it is digits.
    pub fn may_be_element(&self, node: &Node) -> Result<bool, Error> {
        let digits = matches!(node.form, Form::Integer(_));
        Ok(digits || self.kind(node)? == Kind::Element)
    }
}
