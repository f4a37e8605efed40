//! The abstract syntax of a model, cases in the order of the format's bytes.

#[derive(Clone, Copy, PartialEq, Eq, Debug)]
pub enum CostRule {
    Sum,
    Largest,
}

#[derive(Clone, Copy, PartialEq, Eq, Debug)]
pub enum Preference {
    None,
    Less,
    More,
}

/// The kinds of expressions.
#[derive(Clone, Copy, PartialEq, Eq, Debug)]
pub enum Kind {
    Number,
    Element,
    Set,
    Condition,
}

#[derive(Clone, Debug)]
pub enum Variable {
    Set {
        count: u8,
        start: u64,
    },
    Element {
        count: u8,
        preference: Preference,
        start: u8,
    },
    Number {
        preference: Preference,
        start: i64,
    },
}

#[derive(Clone, Debug)]
pub struct Table {
    pub rows: u8,
    pub columns: u8,
    pub entries: Vec<i64>,
}

#[derive(Clone, Debug)]
pub enum Number {
    Literal(i64),
    Variable(usize),
    Sum(Box<Number>, Box<Number>),
    Difference(Box<Number>, Box<Number>),
    Product(Box<Number>, Box<Number>),
    Quotient(Box<Number>, Box<Number>),
    Lesser(Box<Number>, Box<Number>),
    Greater(Box<Number>, Box<Number>),
    Entry(usize, Element, Element),
    Count(Set),
    EntrySum(usize, Set, Element),
    Choice(Box<Condition>, Box<Number>, Box<Number>),
}

#[derive(Clone, Debug)]
pub enum Element {
    Literal(u8),
    Variable(usize),
}

#[derive(Clone, Debug)]
pub enum Set {
    Literal(u64),
    Variable(usize),
    Add(Element, Box<Set>),
    Remove(Element, Box<Set>),
    Union(Box<Set>, Box<Set>),
    Intersection(Box<Set>, Box<Set>),
    Difference(Box<Set>, Box<Set>),
    /// The object count, and the set whose complement is taken.
    Complement(u8, Box<Set>),
}

#[derive(Clone, Debug)]
pub enum Condition {
    Equal(Number, Number),
    Less(Number, Number),
    AtMost(Number, Number),
    SameElement(Element, Element),
    Member(Element, Set),
    Empty(Set),
    Subset(Set, Set),
    Not(Box<Condition>),
    And(Box<Condition>, Box<Condition>),
    Or(Box<Condition>, Box<Condition>),
}

#[derive(Clone, Debug)]
pub enum Expression {
    Set(Set),
    Element(Element),
    Number(Number),
}

#[derive(Clone, Debug)]
pub struct Effect {
    pub variable: usize,
    pub value: Expression,
}

#[derive(Clone, Debug)]
pub struct Transition {
    pub conditions: Vec<Condition>,
    /// The cost at low figures.
    pub cost: Number,
    /// The cost at high figures, where it is written; else it is the low one.
    pub high: Option<Number>,
    pub effects: Vec<Effect>,
}

#[derive(Clone, Debug)]
pub struct Model {
    pub rule: CostRule,
    pub variables: Vec<Variable>,
    pub tables: Vec<Table>,
    pub transitions: Vec<Transition>,
    pub base_cases: Vec<Vec<Condition>>,
    pub constraints: Vec<Condition>,
    pub bounds: Vec<Number>,
}
