//! From the syntax of a model to the trees that are evaluated.

use super::expression::{ByteSums, Condition, Element, Number, Set};
use crate::reference::syntax;

/// Where a table lies among all entries, row by row.
struct Place {
    offset: usize,
    rows: usize,
    columns: usize,
}

/// The tables in one list, and the sums of columns that expressions ask for.
pub struct Tables {
    pub entries: Vec<i64>,
    pub sums: Vec<ByteSums>,
    places: Vec<Place>,
    summed: Vec<(usize, usize)>,
}

impl Tables {
    pub fn of(tables: &[syntax::Table]) -> Tables {
        let mut all = Tables {
            entries: Vec::new(),
            sums: Vec::new(),
            places: Vec::new(),
            summed: Vec::new(),
        };
        for table in tables {
            all.places.push(Place {
                offset: all.entries.len(),
                rows: usize::from(table.rows),
                columns: usize::from(table.columns),
            });
            all.entries.extend_from_slice(&table.entries);
        }
        all
    }

    /// The number of the sums of a column, made where they are asked for first.
    fn column_sums(&mut self, table: usize, column: usize) -> usize {
        let known = self.summed.iter().position(|key| *key == (table, column));
        known.unwrap_or_else(|| {
            self.summed.push((table, column));
            self.sums.push(self.byte_sums(table, column));
            self.sums.len() - 1
        })
    }

    fn byte_sums(&self, table: usize, column: usize) -> ByteSums {
        let place = &self.places[table];
        let entry = |row: usize| self.entries[place.offset + row * place.columns + column];
        let of_byte = |byte: usize| {
            let mut sums = [0; 256];
            for members in 1..256usize {
                let lowest = members.trailing_zeros() as usize;
                let row = 8 * byte + lowest;
                let value = if row < place.rows { entry(row) } else { 0 };
                sums[members] = sums[members & (members - 1)] + value;
            }
            sums
        };
        (0..place.rows.div_ceil(8)).map(of_byte).collect()
    }

    fn two_numbers(&mut self, first: &syntax::Number, second: &syntax::Number) -> Box<[Number; 2]> {
        Box::new([self.number(first), self.number(second)])
    }

    pub fn number(&mut self, number: &syntax::Number) -> Number {
        use syntax::Number as From;
        match number {
            From::Literal(value) => Number::Literal(*value as i32),
            From::Variable(variable) => Number::Variable(*variable as u8),
            From::Sum(first, second) => Number::Sum(self.two_numbers(first, second)),
            From::Difference(first, second) => Number::Difference(self.two_numbers(first, second)),
            From::Product(first, second) => Number::Product(self.two_numbers(first, second)),
            From::Quotient(first, second) => Number::Quotient(self.two_numbers(first, second)),
            From::Lesser(first, second) => Number::Lesser(self.two_numbers(first, second)),
            From::Greater(first, second) => Number::Greater(self.two_numbers(first, second)),
            From::Entry(table, row, column) => Number::Entry {
                offset: self.places[*table].offset as u32,
                stride: self.places[*table].columns as u8,
                row: element(row),
                column: element(column),
            },
            From::Count(members) => Number::Count(Box::new(set(members))),
            From::EntrySum(table, members, column) => match element(column) {
                Element::Literal(column) => {
                    let sums = self.column_sums(*table, usize::from(column));
                    Number::ColumnSum(sums as u32, Box::new(set(members)))
                }
                Element::Variable(column) => Number::EntrySum {
                    offset: self.places[*table].offset as u32,
                    stride: self.places[*table].columns as u8,
                    column,
                    set: Box::new(set(members)),
                },
            },
            From::Choice(part, first, second) => {
                let part = self.condition(part);
                Number::Choice(Box::new((part, self.number(first), self.number(second))))
            }
        }
    }

    pub fn condition(&mut self, condition: &syntax::Condition) -> Condition {
        use syntax::Condition as From;
        match condition {
            From::Equal(first, second) => Condition::Equal(self.number(first), self.number(second)),
            From::Less(first, second) => Condition::Less(self.number(first), self.number(second)),
            From::AtMost(first, second) => {
                Condition::AtMost(self.number(first), self.number(second))
            }
            From::SameElement(first, second) => {
                Condition::SameElement(element(first), element(second))
            }
            From::Member(part, members) => member(element(part), set(members)),
            From::Empty(members) => empty(set(members)),
            From::Subset(first, second) => Condition::Subset(set(first), set(second)),
            From::Not(part) => match self.condition(part) {
                Condition::Meets(variable, members) => Condition::Misses(variable, members),
                Condition::Misses(variable, members) => Condition::Meets(variable, members),
                part => Condition::Not(Box::new(part)),
            },
            From::And(first, second) => {
                Condition::And(Box::new([self.condition(first), self.condition(second)]))
            }
            From::Or(first, second) => {
                Condition::Or(Box::new([self.condition(first), self.condition(second)]))
            }
        }
    }

    /// Conditions to be tried in order. The parts of an outermost 58 stand as two.
    pub fn conditions(&mut self, conditions: &[syntax::Condition]) -> Vec<Condition> {
        let mut flat = Vec::new();
        for condition in conditions {
            self.flatten(condition, &mut flat);
        }
        flat
    }

    fn flatten(&mut self, condition: &syntax::Condition, flat: &mut Vec<Condition>) {
        if let syntax::Condition::And(first, second) = condition {
            self.flatten(first, flat);
            self.flatten(second, flat);
        } else {
            flat.push(self.condition(condition));
        }
    }
}

fn member(part: Element, members: Set) -> Condition {
    match (part, members) {
        (Element::Literal(object), Set::Variable(variable)) => {
            Condition::Meets(variable, 1 << object)
        }
        (part, members) => Condition::Member(part, members),
    }
}

fn empty(members: Set) -> Condition {
    match members {
        Set::Variable(variable) => Condition::Misses(variable, u64::MAX),
        Set::Intersection(parts) => match *parts {
            [Set::Literal(members), Set::Variable(variable)]
            | [Set::Variable(variable), Set::Literal(members)] => {
                Condition::Misses(variable, members)
            }
            parts => Condition::Empty(Set::Intersection(Box::new(parts))),
        },
        members => Condition::Empty(members),
    }
}

pub fn element(element: &syntax::Element) -> Element {
    match element {
        syntax::Element::Literal(object) => Element::Literal(*object),
        syntax::Element::Variable(variable) => Element::Variable(*variable as u8),
    }
}

pub fn set(members: &syntax::Set) -> Set {
    use syntax::Set as From;
    let two = |first: &syntax::Set, second: &syntax::Set| Box::new([set(first), set(second)]);
    match members {
        From::Literal(members) => Set::Literal(*members),
        From::Variable(variable) => Set::Variable(*variable as u8),
        From::Add(part, members) => Set::Add(element(part), Box::new(set(members))),
        From::Remove(part, members) => Set::Remove(element(part), Box::new(set(members))),
        From::Union(first, second) => Set::Union(two(first, second)),
        From::Intersection(first, second) => Set::Intersection(two(first, second)),
        From::Difference(first, second) => Set::Difference(two(first, second)),
        From::Complement(count, members) => {
            Set::Complement(Box::new((u64::MAX >> (64 - count), set(members))))
        }
    }
}
