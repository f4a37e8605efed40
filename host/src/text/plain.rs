//! A text without loops, constants and other files: each command stands for its bytes.

use super::place::Place;
use super::syntax::{Effect, Integer, Name, Node, Side, Start};
use crate::reference::syntax::CostRule;

#[derive(Debug)]
pub struct PlainTransition {
    pub at: Place,
    pub label: Option<Name>,
    pub conditions: Vec<Node>,
    /// The low cost, which is the whole cost where no high one is written.
    pub cost: Node,
    pub high: Option<Node>,
    pub effects: Vec<Effect>,
}

#[derive(Debug)]
pub struct PlainTable {
    pub at: Place,
    pub name: Option<Name>,
    pub rows: Side,
    /// A table without columns is a list: one column.
    pub columns: Option<Side>,
    pub entries: Vec<Vec<Integer>>,
}

#[derive(Debug)]
pub enum Plain {
    Cost(CostRule),
    Objects(Name, Vec<Name>),
    Variable(Option<Name>, Start),
    Table(PlainTable),
    Transition(PlainTransition),
    Base(Vec<Node>),
    Constraint(Node),
    Bound(Node),
}
