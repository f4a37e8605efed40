//! Expression trees over states of sixteen words, and their values.
//!
//! The first trouble of an evaluation is noted in the view, and the evaluation goes on with a value that nobody uses.

use crate::numbers::limit::VARIABLES;
use crate::numbers::refusal::{DIVISOR_ZERO, OUT_OF_RANGE};
use std::cell::Cell;

/// One word a variable: a set's members as bits, an element, or a number in two's complement.
pub type State = [u64; VARIABLES];

/// The sums of a table's column over the members of each byte of a set.
pub type ByteSums = Vec<[i64; 256]>;

/// What expressions are evaluated in: the entries of all tables, a state, and the first trouble met.
pub struct View<'a> {
    entries: &'a [i64],
    sums: &'a [ByteSums],
    state: &'a State,
    trouble: Cell<Option<u8>>,
}

pub enum Number {
    Literal(i32),
    Variable(u8),
    Sum(Box<[Number; 2]>),
    Difference(Box<[Number; 2]>),
    Product(Box<[Number; 2]>),
    Quotient(Box<[Number; 2]>),
    Lesser(Box<[Number; 2]>),
    Greater(Box<[Number; 2]>),
    /// The entry at offset + row * stride + column.
    Entry {
        offset: u32,
        stride: u8,
        row: Element,
        column: Element,
    },
    Count(Box<Set>),
    /// The sum of the entries at offset + member * stride + column.
    EntrySum {
        offset: u32,
        stride: u8,
        column: u8,
        set: Box<Set>,
    },
    /// The same for a fixed column, by the sums numbered.
    ColumnSum(u32, Box<Set>),
    Choice(Box<(Condition, Number, Number)>),
}

#[derive(Clone, Copy)]
pub enum Element {
    Literal(u8),
    Variable(u8),
}

pub enum Set {
    Literal(u64),
    Variable(u8),
    Add(Element, Box<Set>),
    Remove(Element, Box<Set>),
    Union(Box<[Set; 2]>),
    Intersection(Box<[Set; 2]>),
    Difference(Box<[Set; 2]>),
    /// All objects, and the set whose complement is taken.
    Complement(Box<(u64, Set)>),
}

pub enum Condition {
    Equal(Number, Number),
    Less(Number, Number),
    AtMost(Number, Number),
    SameElement(Element, Element),
    Member(Element, Set),
    /// A set variable has one of these members, or has none of them.
    Meets(u8, u64),
    Misses(u8, u64),
    Empty(Set),
    Subset(Set, Set),
    Not(Box<Condition>),
    And(Box<[Condition; 2]>),
    Or(Box<[Condition; 2]>),
}

impl<'a> View<'a> {
    pub fn new(entries: &'a [i64], sums: &'a [ByteSums], state: &'a State) -> View<'a> {
        View {
            entries,
            sums,
            state,
            trouble: Cell::new(None),
        }
    }

    /// What was evaluated, unless there was trouble.
    #[inline]
    pub fn checked<T>(&self, value: T) -> Result<T, u8> {
        match self.trouble.get() {
            None => Ok(value),
            Some(number) => Err(number),
        }
    }

    #[inline]
    fn word(&self, variable: u8) -> u64 {
        self.state[usize::from(variable)]
    }

    #[cold]
    fn note(&self, number: u8) -> i64 {
        if self.trouble.get().is_none() {
            self.trouble.set(Some(number));
        }
        0
    }

    /// The value, which must be a number of 32 bits.
    #[inline]
    fn ranged(&self, value: i64) -> i64 {
        if i64::from(value as i32) == value {
            value
        } else {
            self.note(OUT_OF_RANGE)
        }
    }

    /// The quotient rounded down. Neither operand passes 32 bits, so the division has a value.
    fn quotient(&self, dividend: i64, divisor: i64) -> i64 {
        if divisor == 0 {
            return self.note(DIVISOR_ZERO);
        }
        let rest = dividend.rem_euclid(divisor);
        let rounded = (dividend - rest) / divisor;
        let below_zero = divisor < 0 && rest != 0;
        self.ranged(rounded - i64::from(below_zero))
    }

    /// The sum of the entries at first + member * stride.
    fn total(&self, first: usize, stride: u8, mut members: u64) -> i64 {
        let mut total = 0;
        while members != 0 {
            let member = members.trailing_zeros() as usize;
            total += self.entries[first + member * usize::from(stride)];
            members &= members - 1;
        }
        self.ranged(total)
    }

    fn column_sum(&self, column: u32, members: u64) -> i64 {
        let sums = self.sums[column as usize].iter();
        let by_byte = sums.zip(members.to_le_bytes());
        let total = by_byte.map(|(sums, byte)| sums[usize::from(byte)]).sum();
        self.ranged(total)
    }
}

impl Number {
    #[inline(always)]
    pub fn value(&self, view: &View) -> i64 {
        match self {
            Number::Literal(value) => i64::from(*value),
            Number::Variable(variable) => view.word(*variable) as i64,
            _ => self.value_of_parts(view),
        }
    }

    fn value_of_parts(&self, view: &View) -> i64 {
        match self {
            Number::Literal(value) => i64::from(*value),
            Number::Variable(variable) => view.word(*variable) as i64,
            Number::Sum(parts) => view.ranged(parts[0].value(view) + parts[1].value(view)),
            Number::Difference(parts) => view.ranged(parts[0].value(view) - parts[1].value(view)),
            Number::Product(parts) => view.ranged(parts[0].value(view) * parts[1].value(view)),
            Number::Quotient(parts) => view.quotient(parts[0].value(view), parts[1].value(view)),
            Number::Lesser(parts) => parts[0].value(view).min(parts[1].value(view)),
            Number::Greater(parts) => parts[0].value(view).max(parts[1].value(view)),
            Number::Entry {
                offset,
                stride,
                row,
                column,
            } => {
                let row = row.value(view) * usize::from(*stride);
                view.entries[*offset as usize + row + column.value(view)]
            }
            Number::Count(set) => i64::from(set.value(view).count_ones()),
            Number::EntrySum {
                offset,
                stride,
                column,
                set,
            } => {
                let first = *offset as usize + view.word(*column) as usize;
                view.total(first, *stride, set.value(view))
            }
            Number::ColumnSum(column, set) => view.column_sum(*column, set.value(view)),
            Number::Choice(parts) => {
                if parts.0.holds(view) {
                    parts.1.value(view)
                } else {
                    parts.2.value(view)
                }
            }
        }
    }
}

impl Element {
    #[inline(always)]
    pub fn value(self, view: &View) -> usize {
        match self {
            Element::Literal(object) => usize::from(object),
            Element::Variable(variable) => view.word(variable) as usize,
        }
    }
}

impl Set {
    #[inline(always)]
    pub fn value(&self, view: &View) -> u64 {
        match self {
            Set::Literal(members) => *members,
            Set::Variable(variable) => view.word(*variable),
            _ => self.value_of_parts(view),
        }
    }

    fn value_of_parts(&self, view: &View) -> u64 {
        match self {
            Set::Literal(members) => *members,
            Set::Variable(variable) => view.word(*variable),
            Set::Add(element, set) => set.value(view) | 1 << element.value(view),
            Set::Remove(element, set) => set.value(view) & !(1 << element.value(view)),
            Set::Union(parts) => parts[0].value(view) | parts[1].value(view),
            Set::Intersection(parts) => parts[0].value(view) & parts[1].value(view),
            Set::Difference(parts) => parts[0].value(view) & !parts[1].value(view),
            Set::Complement(parts) => parts.0 & !parts.1.value(view),
        }
    }
}

impl Condition {
    #[inline(always)]
    pub fn holds(&self, view: &View) -> bool {
        match self {
            Condition::Meets(variable, members) => view.word(*variable) & members != 0,
            Condition::Misses(variable, members) => view.word(*variable) & members == 0,
            _ => self.holds_by_parts(view),
        }
    }

    fn holds_by_parts(&self, view: &View) -> bool {
        match self {
            Condition::Equal(first, second) => first.value(view) == second.value(view),
            Condition::Less(first, second) => first.value(view) < second.value(view),
            Condition::AtMost(first, second) => first.value(view) <= second.value(view),
            Condition::SameElement(first, second) => first.value(view) == second.value(view),
            Condition::Member(element, set) => set.value(view) >> element.value(view) & 1 == 1,
            Condition::Meets(variable, members) => view.word(*variable) & members != 0,
            Condition::Misses(variable, members) => view.word(*variable) & members == 0,
            Condition::Empty(set) => set.value(view) == 0,
            Condition::Subset(first, second) => first.value(view) & !second.value(view) == 0,
            Condition::Not(part) => !part.holds(view),
            Condition::And(parts) => parts[0].holds(view) && parts[1].holds(view),
            Condition::Or(parts) => parts[0].holds(view) || parts[1].holds(view),
        }
    }
}
