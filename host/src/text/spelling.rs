//! The bytes of a well-made model, walked from the front; and its expressions as text.

use super::names::Names;

/// How tightly an expression's outermost sign binds, as in the grammar.
pub mod level {
    pub const CHOICE: u8 = 0;
    pub const OR: u8 = 1;
    pub const AND: u8 = 2;
    pub const NOT: u8 = 3;
    pub const COMPARISON: u8 = 4;
    pub const UNION: u8 = 5;
    pub const INTERSECTION: u8 = 6;
    pub const SUM: u8 = 7;
    pub const PRODUCT: u8 = 8;
    pub const ATOM: u8 = 9;
}

/// An expression's text and the level of its outermost sign.
struct Spelled {
    text: String,
    level: u8,
}

impl Spelled {
    /// The text, in parentheses if its sign binds more loosely than the level.
    fn at_least(self, level: u8) -> String {
        if self.level < level {
            format!("({})", self.text)
        } else {
            self.text
        }
    }
}

fn atom(text: String) -> Spelled {
    let level = level::ATOM;
    Spelled { text, level }
}

/// The members between braces, three or more in a row as a run.
pub fn braces(members: u64) -> String {
    let mut parts = Vec::new();
    let mut object = 0;
    while object < 64 {
        let run = (members >> object).trailing_ones();
        match run {
            0 => {}
            1 | 2 => parts.extend((object..object + run).map(|member| member.to_string())),
            _ => parts.push(format!("{object}..{}", object + run - 1)),
        }
        object += run + 1;
    }
    format!("{{{}}}", parts.join(", "))
}

/// The entries as lines of one row each, in columns that end together.
pub fn aligned(entries: &[String], columns: usize) -> Vec<String> {
    let width = entries.iter().map(String::len).max().unwrap_or(0);
    let line = |row: &[String]| {
        let cells: Vec<String> = row.iter().map(|entry| format!("{entry:>width$}")).collect();
        format!("    {}", cells.join(" "))
    };
    entries.chunks(columns).map(line).collect()
}

pub struct Spelling<'a> {
    rest: &'a [u8],
    names: &'a Names,
    /// Which tables have one column.
    lists: Vec<bool>,
}

impl<'a> Spelling<'a> {
    /// Variables and tables are called by these names, objects by their numbers.
    pub fn new(bytes: &'a [u8], names: &'a Names, lists: Vec<bool>) -> Spelling<'a> {
        let rest = bytes;
        Spelling { rest, names, lists }
    }

    // Operands.

    pub fn peek(&self) -> u8 {
        self.rest[0]
    }

    pub fn byte(&mut self) -> u8 {
        self.operand::<1>()[0]
    }

    pub fn number(&mut self) -> i32 {
        i32::from_le_bytes(self.operand())
    }

    pub fn members(&mut self) -> u64 {
        u64::from_le_bytes(self.operand())
    }

    fn operand<const WIDTH: usize>(&mut self) -> [u8; WIDTH] {
        let (operand, rest) = self.rest.split_at(WIDTH);
        self.rest = rest;
        operand.try_into().expect("an operand of its width")
    }

    // Expressions.

    /// The next expression as text.
    pub fn expression(&mut self) -> String {
        self.spelled().text
    }

    fn spelled(&mut self) -> Spelled {
        match self.byte() {
            0x20 => atom(self.number().to_string()),
            0x21 => self.variable(),
            0x22 => self.infix("+", level::SUM),
            0x23 => self.infix("-", level::SUM),
            0x24 => self.infix("*", level::PRODUCT),
            0x25 => self.infix("/", level::PRODUCT),
            0x26 => self.two_arguments("min"),
            0x27 => self.two_arguments("max"),
            0x28 => atom(self.entry()),
            0x29 => self.argument("count"),
            0x2A => {
                let entry = self.entry();
                atom(format!("sum({entry})"))
            }
            0x2B => self.choice(),
            0x30 => atom(self.byte().to_string()),
            0x31 => self.variable(),
            0x40 => {
                let count = self.byte();
                atom(format!("{} of {count}", braces(self.members())))
            }
            0x41 => self.variable(),
            0x42 => self.with_element("+"),
            0x43 => self.with_element("-"),
            0x44 => self.two_sets("|", level::UNION),
            0x45 => self.two_sets("&", level::INTERSECTION),
            0x46 => self.two_sets("-", level::SUM),
            0x47 => {
                let part = self.spelled().at_least(level::ATOM);
                atom(format!("~{part}"))
            }
            0x50 => self.infix("=", level::COMPARISON),
            0x51 => self.infix("<", level::COMPARISON),
            0x52 => self.infix("<=", level::COMPARISON),
            0x53 => self.same_element(),
            0x54 => self.infix("in", level::COMPARISON),
            0x55 => self.argument("empty"),
            0x56 => self.infix("subset", level::COMPARISON),
            0x57 => {
                let part = self.spelled().at_least(level::NOT);
                let text = format!("not {part}");
                let level = level::NOT;
                Spelled { text, level }
            }
            0x58 => self.infix("and", level::AND),
            _ => self.infix("or", level::OR),
        }
    }

    fn variable(&mut self) -> Spelled {
        let variable = self.byte();
        atom(self.names.variable(usize::from(variable)))
    }

    /// Two parts joined by a sign; what binds alike is grouped from the left, and comparisons not at all.
    fn infix(&mut self, sign: &str, level: u8) -> Spelled {
        let looser = u8::from(level == level::COMPARISON);
        let first = self.spelled().at_least(level + looser);
        let second = self.spelled().at_least(level + 1);
        let text = format!("{first} {sign} {second}");
        Spelled { text, level }
    }

    fn argument(&mut self, name: &str) -> Spelled {
        let part = self.expression();
        atom(format!("{name}({part})"))
    }

    fn two_arguments(&mut self, name: &str) -> Spelled {
        let first = self.expression();
        let second = self.expression();
        atom(format!("{name}({first}, {second})"))
    }

    /// A table with its indices; the only column of a list is not written.
    fn entry(&mut self) -> String {
        let table = usize::from(self.byte());
        let name = self.names.table(table);
        let row = self.expression();
        if self.lists[table] && self.rest.starts_with(&[0x30, 0]) {
            self.operand::<2>();
            return format!("{name}[{row}]");
        }
        let column = self.expression();
        format!("{name}[{row}, {column}]")
    }

    fn choice(&mut self) -> Spelled {
        let condition = self.expression();
        let first = self.spelled().at_least(level::OR);
        let second = self.expression();
        let text = format!("if {condition} then {first} else {second}");
        let level = level::CHOICE;
        Spelled { text, level }
    }

    /// Bytes have the element first, text the set.
    fn with_element(&mut self, sign: &str) -> Spelled {
        let element = self.expression();
        let set = self.set_before(level::SUM);
        let text = format!("{set} {sign} {element}");
        let level = level::SUM;
        Spelled { text, level }
    }

    fn two_sets(&mut self, sign: &str, level: u8) -> Spelled {
        let first = self.set_before(level);
        let second = self.spelled().at_least(level::ATOM);
        let text = format!("{first} {sign} {second}");
        Spelled { text, level }
    }

    /// The set before a sign of sets: parentheses stand wherever the signs differ.
    fn set_before(&mut self, level: u8) -> String {
        let set = self.spelled();
        if set.level == level {
            set.text
        } else {
            set.at_least(level::ATOM)
        }
    }

    /// Two objects by number are marked as objects, since digits beside digits are numbers.
    fn same_element(&mut self) -> Spelled {
        let both_objects = self.rest[0] == 0x30 && self.rest[2] == 0x30;
        let mut equality = self.infix("=", level::COMPARISON);
        if both_objects {
            equality.text.insert_str(0, "object ");
        }
        equality
    }
}
