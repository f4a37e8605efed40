//! Reading: model bytes to abstract syntax, or the first refusal from the front.
//!
//! One place is a byte with its fixed operands. The tests of a place come in the order
//! 4, 8 (expressions), 5, 6 for kind, 4 for operands, 7, 6 for names; 6 for counts comes after the parts.

use super::syntax::{
    Condition, CostRule, Effect, Element, Expression, Kind, Model, Number, Preference, Set, Table,
    Transition, Variable,
};
use crate::numbers::limit;
use crate::numbers::refusal::{
    BYTES_AFTER_END, ENDS_EARLY, MISMATCH, NOT_DUE, OFF_LIMITS, TOO_DEEP,
};

/// The model that the bytes spell, or the refusal number. The length of the bytes is tested by the caller.
pub fn read_model(bytes: &[u8]) -> Result<Model, u8> {
    let model = Model {
        rule: CostRule::Sum,
        variables: Vec::new(),
        tables: Vec::new(),
        transitions: Vec::new(),
        base_cases: Vec::new(),
        constraints: Vec::new(),
        bounds: Vec::new(),
    };
    let mut reader = Reader {
        bytes,
        at: 0,
        model,
    };
    reader.commands()?;
    Ok(reader.model)
}

/// All objects below `count` as bits.
pub fn all_objects(count: u8) -> u64 {
    if count >= 64 {
        u64::MAX
    } else {
        (1 << count) - 1
    }
}

/// The kind of the expression that a byte begins, and the number of its operand bytes.
fn expression_head(byte: u8) -> Option<(Kind, usize)> {
    match byte {
        0x20 => Some((Kind::Number, 4)),
        0x21 | 0x28 | 0x2A => Some((Kind::Number, 1)),
        0x22..=0x27 | 0x29 | 0x2B => Some((Kind::Number, 0)),
        0x30 | 0x31 => Some((Kind::Element, 1)),
        0x40 => Some((Kind::Set, 9)),
        0x41 => Some((Kind::Set, 1)),
        0x42..=0x47 => Some((Kind::Set, 0)),
        0x50..=0x59 => Some((Kind::Condition, 0)),
        _ => None,
    }
}

fn preference(byte: u8) -> Result<Preference, u8> {
    match byte {
        0 => Ok(Preference::None),
        1 => Ok(Preference::Less),
        2 => Ok(Preference::More),
        _ => Err(OFF_LIMITS),
    }
}

fn number_of(bytes: &[u8]) -> i64 {
    i64::from(i32::from_le_bytes(bytes.try_into().unwrap()))
}

fn members_of(bytes: &[u8]) -> u64 {
    u64::from_le_bytes(bytes.try_into().unwrap())
}

fn refuse_if(wrong: bool, refusal: u8) -> Result<(), u8> {
    if wrong {
        Err(refusal)
    } else {
        Ok(())
    }
}

fn side_fits(count: u8) -> bool {
    (1..=limit::OBJECTS).contains(&count)
}

struct Reader<'a> {
    bytes: &'a [u8],
    at: usize,
    model: Model,
}

impl Reader<'_> {
    /// The byte due here, without passing it.
    fn peek(&self) -> Result<u8, u8> {
        self.bytes.get(self.at).copied().ok_or(ENDS_EARLY)
    }

    /// The next `count` operand bytes.
    fn operands(&mut self, count: usize) -> Result<Vec<u8>, u8> {
        let taken = self.bytes.get(self.at..self.at + count).ok_or(ENDS_EARLY)?;
        self.at += count;
        Ok(taken.to_vec())
    }

    // Commands.

    fn commands(&mut self) -> Result<(), u8> {
        refuse_if(self.peek()? != 0x01, NOT_DUE)?;
        self.at += 1;
        self.model.rule = match self.operands(1)?[0] {
            0 => CostRule::Sum,
            1 => CostRule::Largest,
            _ => return Err(OFF_LIMITS),
        };
        while (0x02..=0x04).contains(&self.peek()?) {
            self.variable()?;
        }
        while self.peek()? == 0x05 {
            self.table()?;
        }
        while self.peek()? == 0x07 {
            self.transition()?;
        }
        while self.peek()? == 0x0B {
            self.at += 1;
            refuse_if(self.model.base_cases.len() == limit::BASE_CASES, OFF_LIMITS)?;
            let conditions = self.conditions()?;
            self.model.base_cases.push(conditions);
        }
        while self.peek()? == 0x0C {
            self.at += 1;
            refuse_if(
                self.model.constraints.len() == limit::CONSTRAINTS,
                OFF_LIMITS,
            )?;
            let constraint = self.condition(1)?;
            self.model.constraints.push(constraint);
        }
        while self.peek()? == 0x0D {
            self.at += 1;
            refuse_if(self.model.bounds.len() == limit::BOUNDS, OFF_LIMITS)?;
            let bound = self.number(1)?;
            self.model.bounds.push(bound);
        }
        refuse_if(self.peek()? != 0x0E, NOT_DUE)?;
        self.at += 1;
        refuse_if(self.at < self.bytes.len(), BYTES_AFTER_END)
    }

    fn variable(&mut self) -> Result<(), u8> {
        let command = self.peek()?;
        self.at += 1;
        let operands = self.operands(match command {
            0x02 => 9,
            0x03 => 3,
            _ => 5,
        })?;
        refuse_if(self.model.variables.len() == limit::VARIABLES, OFF_LIMITS)?;
        let variable = match command {
            0x02 => {
                let (count, start) = (operands[0], members_of(&operands[1..]));
                refuse_if(!side_fits(count), OFF_LIMITS)?;
                refuse_if(start & !all_objects(count) != 0, OFF_LIMITS)?;
                Variable::Set { count, start }
            }
            0x03 => {
                let (count, start) = (operands[0], operands[2]);
                refuse_if(!side_fits(count), OFF_LIMITS)?;
                let preference = preference(operands[1])?;
                refuse_if(start >= count, OFF_LIMITS)?;
                Variable::Element {
                    count,
                    preference,
                    start,
                }
            }
            _ => Variable::Number {
                preference: preference(operands[0])?,
                start: number_of(&operands[1..]),
            },
        };
        self.model.variables.push(variable);
        Ok(())
    }

    fn table(&mut self) -> Result<(), u8> {
        self.at += 1;
        let sides = self.operands(2)?;
        let (rows, columns) = (sides[0], sides[1]);
        refuse_if(self.model.tables.len() == limit::TABLES, OFF_LIMITS)?;
        refuse_if(!side_fits(rows) || !side_fits(columns), OFF_LIMITS)?;
        let size = usize::from(rows) * usize::from(columns);
        let mut entries = Vec::new();
        while entries.len() < size {
            refuse_if(self.peek()? != 0x06, NOT_DUE)?;
            self.at += 1;
            entries.push(number_of(&self.operands(4)?));
        }
        self.model.tables.push(Table {
            rows,
            columns,
            entries,
        });
        Ok(())
    }

    fn transition(&mut self) -> Result<(), u8> {
        self.at += 1;
        refuse_if(
            self.model.transitions.len() == limit::TRANSITIONS,
            OFF_LIMITS,
        )?;
        let conditions = self.conditions()?;
        refuse_if(self.peek()? != 0x09, NOT_DUE)?;
        self.at += 1;
        let cost = self.number(1)?;
        let mut high = None;
        if self.peek()? == 0x10 {
            self.at += 1;
            high = Some(self.number(1)?);
        }
        let mut effects: Vec<Effect> = Vec::new();
        while self.peek()? == 0x0A {
            self.at += 1;
            let variable = usize::from(self.operands(1)?[0]);
            let second = effects.iter().any(|effect| effect.variable == variable);
            refuse_if(second, OFF_LIMITS)?;
            let value = self.effect_value(variable)?;
            effects.push(Effect { variable, value });
        }
        self.model.transitions.push(Transition {
            conditions,
            cost,
            high,
            effects,
        });
        Ok(())
    }

    /// An effect's expression, of the kind of its variable and with a count that fits it.
    fn effect_value(&mut self, variable: usize) -> Result<Expression, u8> {
        match self.declared(variable)? {
            Variable::Set { count, .. } => {
                let (value, value_count) = self.set(1)?;
                refuse_if(value_count != count, MISMATCH)?;
                Ok(Expression::Set(value))
            }
            Variable::Element { count, .. } => {
                let (value, value_count) = self.element(1)?;
                refuse_if(value_count > count, MISMATCH)?;
                Ok(Expression::Element(value))
            }
            Variable::Number { .. } => Ok(Expression::Number(self.number(1)?)),
        }
    }

    /// The 08 commands of a transition or base case.
    fn conditions(&mut self) -> Result<Vec<Condition>, u8> {
        let mut conditions = Vec::new();
        while self.peek()? == 0x08 {
            self.at += 1;
            refuse_if(conditions.len() == limit::CONDITIONS, OFF_LIMITS)?;
            conditions.push(self.condition(1)?);
        }
        Ok(conditions)
    }

    // Names.

    fn declared(&self, variable: usize) -> Result<Variable, u8> {
        let declared = self.model.variables.get(variable);
        declared.cloned().ok_or(MISMATCH)
    }

    fn table_sides(&self, table: usize) -> Result<(u8, u8), u8> {
        let table = self.model.tables.get(table).ok_or(MISMATCH)?;
        Ok((table.rows, table.columns))
    }

    // Expressions. Each reader is given the depth of the expression, 1 for the outermost.

    /// Passes the byte of an expression of this kind and its operands, which are answered behind the byte.
    fn head(&mut self, kind: Kind, depth: u32) -> Result<Vec<u8>, u8> {
        let byte = self.peek()?;
        refuse_if(depth > limit::NESTING, TOO_DEEP)?;
        let (its_kind, width) = expression_head(byte).ok_or(NOT_DUE)?;
        refuse_if(its_kind != kind, MISMATCH)?;
        self.operands(1 + width)
    }

    fn number(&mut self, depth: u32) -> Result<Number, u8> {
        let head = self.head(Kind::Number, depth)?;
        let inner = depth + 1;
        Ok(match head[0] {
            0x20 => Number::Literal(number_of(&head[1..])),
            0x21 => {
                let variable = usize::from(head[1]);
                match self.declared(variable)? {
                    Variable::Number { .. } => Number::Variable(variable),
                    _ => return Err(MISMATCH),
                }
            }
            0x22 => Number::Sum(self.boxed_number(inner)?, self.boxed_number(inner)?),
            0x23 => Number::Difference(self.boxed_number(inner)?, self.boxed_number(inner)?),
            0x24 => Number::Product(self.boxed_number(inner)?, self.boxed_number(inner)?),
            0x25 => Number::Quotient(self.boxed_number(inner)?, self.boxed_number(inner)?),
            0x26 => Number::Lesser(self.boxed_number(inner)?, self.boxed_number(inner)?),
            0x27 => Number::Greater(self.boxed_number(inner)?, self.boxed_number(inner)?),
            0x28 => self.entry(usize::from(head[1]), inner)?,
            0x29 => Number::Count(self.set(inner)?.0),
            0x2A => {
                let table = usize::from(head[1]);
                let (rows, columns) = self.table_sides(table)?;
                let (set, set_count) = self.set(inner)?;
                let (column, column_count) = self.element(inner)?;
                refuse_if(set_count > rows || column_count > columns, MISMATCH)?;
                Number::EntrySum(table, set, column)
            }
            _ => Number::Choice(
                Box::new(self.condition(inner)?),
                self.boxed_number(inner)?,
                self.boxed_number(inner)?,
            ),
        })
    }

    fn boxed_number(&mut self, depth: u32) -> Result<Box<Number>, u8> {
        Ok(Box::new(self.number(depth)?))
    }

    fn entry(&mut self, table: usize, inner: u32) -> Result<Number, u8> {
        let (rows, columns) = self.table_sides(table)?;
        let (row, row_count) = self.element(inner)?;
        let (column, column_count) = self.element(inner)?;
        refuse_if(row_count > rows || column_count > columns, MISMATCH)?;
        Ok(Number::Entry(table, row, column))
    }

    /// An element expression and its count.
    fn element(&mut self, depth: u32) -> Result<(Element, u8), u8> {
        let head = self.head(Kind::Element, depth)?;
        match head[0] {
            0x30 => {
                refuse_if(head[1] >= limit::OBJECTS, OFF_LIMITS)?;
                Ok((Element::Literal(head[1]), head[1] + 1))
            }
            _ => {
                let variable = usize::from(head[1]);
                match self.declared(variable)? {
                    Variable::Element { count, .. } => Ok((Element::Variable(variable), count)),
                    _ => Err(MISMATCH),
                }
            }
        }
    }

    /// A set expression and its count.
    fn set(&mut self, depth: u32) -> Result<(Set, u8), u8> {
        let head = self.head(Kind::Set, depth)?;
        let inner = depth + 1;
        match head[0] {
            0x40 => {
                let (count, members) = (head[1], members_of(&head[2..]));
                refuse_if(!side_fits(count), OFF_LIMITS)?;
                refuse_if(members & !all_objects(count) != 0, OFF_LIMITS)?;
                Ok((Set::Literal(members), count))
            }
            0x41 => {
                let variable = usize::from(head[1]);
                match self.declared(variable)? {
                    Variable::Set { count, .. } => Ok((Set::Variable(variable), count)),
                    _ => Err(MISMATCH),
                }
            }
            0x42 => {
                let (element, set, count) = self.element_and_set(inner)?;
                Ok((Set::Add(element, Box::new(set)), count))
            }
            0x43 => {
                let (element, set, count) = self.element_and_set(inner)?;
                Ok((Set::Remove(element, Box::new(set)), count))
            }
            0x44 => {
                let (first, second, count) = self.two_sets(inner)?;
                Ok((Set::Union(Box::new(first), Box::new(second)), count))
            }
            0x45 => {
                let (first, second, count) = self.two_sets(inner)?;
                Ok((Set::Intersection(Box::new(first), Box::new(second)), count))
            }
            0x46 => {
                let (first, second, count) = self.two_sets(inner)?;
                Ok((Set::Difference(Box::new(first), Box::new(second)), count))
            }
            _ => {
                let (set, count) = self.set(inner)?;
                Ok((Set::Complement(count, Box::new(set)), count))
            }
        }
    }

    /// An element and a set in which it fits, with the set's count.
    fn element_and_set(&mut self, depth: u32) -> Result<(Element, Set, u8), u8> {
        let (element, element_count) = self.element(depth)?;
        let (set, set_count) = self.set(depth)?;
        refuse_if(element_count > set_count, MISMATCH)?;
        Ok((element, set, set_count))
    }

    /// Two sets of equal count.
    fn two_sets(&mut self, depth: u32) -> Result<(Set, Set, u8), u8> {
        let (first, first_count) = self.set(depth)?;
        let (second, second_count) = self.set(depth)?;
        refuse_if(first_count != second_count, MISMATCH)?;
        Ok((first, second, first_count))
    }

    fn condition(&mut self, depth: u32) -> Result<Condition, u8> {
        let head = self.head(Kind::Condition, depth)?;
        let inner = depth + 1;
        Ok(match head[0] {
            0x50 => Condition::Equal(self.number(inner)?, self.number(inner)?),
            0x51 => Condition::Less(self.number(inner)?, self.number(inner)?),
            0x52 => Condition::AtMost(self.number(inner)?, self.number(inner)?),
            0x53 => Condition::SameElement(self.element(inner)?.0, self.element(inner)?.0),
            0x54 => {
                let (element, set, _) = self.element_and_set(inner)?;
                Condition::Member(element, set)
            }
            0x55 => Condition::Empty(self.set(inner)?.0),
            0x56 => {
                let (first, second, _) = self.two_sets(inner)?;
                Condition::Subset(first, second)
            }
            0x57 => Condition::Not(self.boxed_condition(inner)?),
            0x58 => Condition::And(self.boxed_condition(inner)?, self.boxed_condition(inner)?),
            _ => Condition::Or(self.boxed_condition(inner)?, self.boxed_condition(inner)?),
        })
    }

    fn boxed_condition(&mut self, depth: u32) -> Result<Box<Condition>, u8> {
        Ok(Box::new(self.condition(depth)?))
    }
}
