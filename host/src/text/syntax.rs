//! A text as commands and expressions with their places, before names and kinds are known.

use super::place::{refuse_if, Error, Place};
use crate::numbers::limit;
use crate::reference::syntax::{CostRule, Kind, Preference};

/// A name where it is written.
#[derive(Clone, Debug)]
pub struct Name {
    pub at: Place,
    pub text: String,
}

/// A whole number where it is written.
#[derive(Clone, Copy, Debug)]
pub struct Integer {
    pub at: Place,
    pub value: i64,
}

/// An object count: a number, or the size of a group of objects.
#[derive(Clone, Debug)]
pub enum Side {
    Count(Integer),
    Group(Name),
}

/// One object, by number or by name.
#[derive(Clone, Debug)]
pub enum Object {
    Number(Integer),
    Name(Name),
}

/// A set's members: single objects, and runs from one object to another.
pub type Members = Vec<(Object, Option<Object>)>;

/// What a loop goes over, or what is left out of it.
#[derive(Clone, Debug)]
pub enum Span {
    /// A group, or one object.
    One(Object),
    Members(Members),
    Run(Object, Object),
}

/// A loop's variable, what it goes over, and what is left out of that.
#[derive(Clone, Debug)]
pub struct Binder {
    pub name: Name,
    pub over: Span,
    pub without: Vec<Span>,
}

/// Parts that a loop repeats for all values of its variables, the last changing fastest.
#[derive(Clone, Debug)]
pub struct Loop<T> {
    pub binders: Vec<Binder>,
    pub body: Vec<T>,
}

/// A part that stands once, or parts that a loop repeats.
#[derive(Clone, Debug)]
pub enum Part<T> {
    One(T),
    Loop(Loop<Part<T>>),
}

/// A start value, with the preference where there may be one.
#[derive(Clone, Debug)]
pub enum Start {
    Set(Side, Members),
    Element(Side, Object, Preference),
    Number(Integer, Preference),
}

/// The variable of an effect, and its new value.
pub type Effect = (Node, Node);

#[derive(Clone, Debug)]
pub struct Transition {
    pub at: Place,
    /// The words of the name, some of them perhaps variables of loops.
    pub label: Vec<Name>,
    pub conditions: Vec<Part<Node>>,
    /// The low cost, which is the whole cost where no high one is written.
    pub cost: Node,
    pub high: Option<Node>,
    pub effects: Vec<Part<Effect>>,
}

/// A table's entries in the text, or the file they come from with the heading of a list's column.
#[derive(Clone, Debug)]
pub enum Entries {
    Rows(Vec<Vec<Integer>>),
    File { file: usize, column: Option<Name> },
}

#[derive(Clone, Debug)]
pub struct Table {
    pub at: Place,
    pub name: Option<Name>,
    pub rows: Side,
    /// A table without columns is a list: one column.
    pub columns: Option<Side>,
    pub entries: Entries,
}

#[derive(Clone, Debug)]
pub enum Command {
    Cost(CostRule),
    Objects(Name, Vec<Name>),
    /// A named whole number, which the parser has put in its places.
    Constant(Name),
    /// A table whose entries are put in its places as whole numbers.
    ConstantTable(Table),
    Variable(Place, Option<Name>, Start),
    Table(Table),
    Transition(Transition),
    Base(Place, Vec<Part<Node>>),
    Constraint(Place, Node),
    Bound(Place, Node),
    Loop(Loop<Command>),
}

/// A table or a variable by its number or its name.
#[derive(Clone, Debug)]
pub enum Reference {
    Number(Integer),
    Name(Name),
}

#[derive(Clone, Copy, PartialEq, Eq, Debug)]
pub enum Operator {
    Or,
    And,
    Equal,
    Less,
    AtMost,
    In,
    Subset,
    Union,
    Intersection,
    Plus,
    Minus,
    Times,
    By,
}

/// How many parts are joined to one expression.
#[derive(Clone, Copy, PartialEq, Eq, Debug)]
pub enum Joining {
    All,
    Some,
    Sum,
    Greatest,
    Least,
}

/// An expression before its names and its kind are known.
#[derive(Clone, Debug)]
pub enum Form {
    Integer(i64),
    Object(Integer),
    Name(String),
    /// `set 0`, `element 1`, `number 2`.
    Numbered(Kind, Integer),
    /// `number k`, where a loop gives the number.
    NumberedBy(Kind, Name),
    Members(Members, Option<Side>),
    Entry(Reference, Box<Node>, Option<Box<Node>>),
    EntrySum(Reference, Box<Node>, Option<Box<Node>>),
    Lesser(Box<Node>, Box<Node>),
    Greater(Box<Node>, Box<Node>),
    Count(Box<Node>),
    Choice(Box<Node>, Box<Node>, Box<Node>),
    Complement(Box<Node>),
    Empty(Box<Node>),
    Not(Box<Node>),
    Binary(Operator, Box<Node>, Box<Node>),
    /// `forall`, `exists`, `sum`, `max` and `min` over what their variables go over.
    Over(Joining, Vec<Binder>, Box<Node>),
    /// `max` and `min` of three and more.
    Several(Joining, Vec<Node>),
}

/// An expression, the place where it begins, and its nesting.
#[derive(Clone, Debug)]
pub struct Node {
    pub at: Place,
    pub form: Form,
    pub depth: u32,
}

impl Node {
    /// The expression, unless it is nested too deep. What loops stand for is counted when they are put in.
    pub fn new(at: Place, form: Form) -> Result<Node, Error> {
        let deepest = form.parts().iter().map(|part| part.depth).max();
        let own = u32::from(!matches!(form, Form::Over(..) | Form::Several(..)));
        let depth = own + deepest.unwrap_or(0);
        refuse_if(depth > limit::NESTING, at, || too_deep(depth, &form))?;
        Ok(Node { at, form, depth })
    }
}

/// What is said of too deep an expression; a row of one sign can be balanced.
fn too_deep(depth: u32, form: &Form) -> String {
    let most = limit::NESTING;
    let hint = match form {
        Form::Binary(Operator::And | Operator::Or | Operator::Plus | Operator::Times, ..) => {
            ": `forall`, `exists` and `sum` over a loop are balanced, and so are parentheses around halves"
        }
        _ => "",
    };
    format!(
        "the expression that begins here is nested {depth} deep; at most {most} is allowed{hint}"
    )
}

impl Form {
    fn parts(&self) -> Vec<&Node> {
        match self {
            Form::Integer(_)
            | Form::Object(_)
            | Form::Name(_)
            | Form::Numbered(..)
            | Form::NumberedBy(..)
            | Form::Members(..) => Vec::new(),
            Form::Entry(_, first, second) | Form::EntrySum(_, first, second) => {
                let column = second.as_deref();
                [&**first].into_iter().chain(column).collect()
            }
            Form::Lesser(first, second)
            | Form::Greater(first, second)
            | Form::Binary(_, first, second) => vec![first, second],
            Form::Count(part)
            | Form::Complement(part)
            | Form::Empty(part)
            | Form::Not(part)
            | Form::Over(_, _, part) => vec![part],
            Form::Choice(condition, first, second) => vec![condition, first, second],
            Form::Several(_, parts) => parts.iter().collect(),
        }
    }
}
