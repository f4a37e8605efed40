//! Expressions to bytes: each kind has its function, which answers the object count too where there is one.

use super::place::{refuse_if, Error, Place};
use super::scope::{number_in_range, object_number, Meaning, Scope};
use super::syntax::{Form, Members, Node, Operator, Reference, Side};
use crate::build::{self, Bytes};
use crate::reference::syntax::Kind;

/// An expression's bytes and its object count.
type Counted = (Bytes, u8);

impl Scope {
    // Numbers.

    pub fn number(&self, node: &Node) -> Result<Bytes, Error> {
        if let Some(variable) = self.variable(Kind::Number, node)? {
            return Ok(build::num(variable));
        }
        match &node.form {
            Form::Integer(value) => Ok(build::lit(number_in_range(node.at, *value)?)),
            Form::Binary(operator, left, right) => self.arithmetic(node, *operator, left, right),
            Form::Lesser(first, second) => {
                Ok(build::lesser(self.number(first)?, self.number(second)?))
            }
            Form::Greater(first, second) => {
                Ok(build::greater(self.number(first)?, self.number(second)?))
            }
            Form::Entry(table, row, column) => self.entry(node.at, table, row, column.as_deref()),
            Form::Count(set) => Ok(build::count(self.set(set)?.0)),
            Form::EntrySum(table, set, column) => {
                self.entry_sum(node.at, table, set, column.as_deref())
            }
            Form::Choice(condition, first, second) => Ok(build::choice(
                self.condition(condition)?,
                self.number(first)?,
                self.number(second)?,
            )),
            _ => self.misfit("a number", node),
        }
    }

    fn arithmetic(
        &self,
        node: &Node,
        operator: Operator,
        left: &Node,
        right: &Node,
    ) -> Result<Bytes, Error> {
        let join = match operator {
            Operator::Plus => build::sum,
            Operator::Minus => build::difference,
            Operator::Times => build::product,
            Operator::By => build::quotient,
            _ => return self.misfit("a number", node),
        };
        if self.kind(node)? != Kind::Number {
            return self.misfit("a number", node);
        }
        Ok(join(self.number(left)?, self.number(right)?))
    }

    fn entry(
        &self,
        at: Place,
        table: &Reference,
        row: &Node,
        column: Option<&Node>,
    ) -> Result<Bytes, Error> {
        let (table, rows, columns) = self.table(table)?;
        if self.kind(row)? == Kind::Set {
            let message = "the entries at the rows of a set are written `sum(table[set, column])`";
            return Err(Error::new(row.at, message));
        }
        let (row_bytes, row_count) = self.element(row)?;
        fits_side(row.at, row_count, rows, "rows")?;
        let column = self.column(at, columns, column)?;
        Ok(build::entry(table, row_bytes, column))
    }

    fn entry_sum(
        &self,
        at: Place,
        table: &Reference,
        set: &Node,
        column: Option<&Node>,
    ) -> Result<Bytes, Error> {
        let (table, rows, columns) = self.table(table)?;
        let (set_bytes, set_count) = self.set(set)?;
        fits_side(set.at, set_count, rows, "rows")?;
        let column = self.column(at, columns, column)?;
        Ok(build::entry_sum(table, set_bytes, column))
    }

    /// The column written, or a list's only one.
    fn column(&self, at: Place, columns: u8, column: Option<&Node>) -> Result<Bytes, Error> {
        let Some(column) = column else {
            refuse_if(columns > 1, at, || {
                format!("a column is due: the table has {columns} columns")
            })?;
            return Ok(build::obj(0));
        };
        let (bytes, count) = self.element(column)?;
        fits_side(column.at, count, columns, "columns")?;
        Ok(bytes)
    }

    // Elements.

    pub fn element(&self, node: &Node) -> Result<Counted, Error> {
        if let Some(variable) = self.variable(Kind::Element, node)? {
            return Ok((build::elem(variable), self.count_of(usize::from(variable))));
        }
        let object = match &node.form {
            Form::Integer(value) => object_number(node.at, *value)?,
            Form::Object(number) => object_number(number.at, number.value)?,
            Form::Name(name) => match self.meaning(node.at, name)? {
                Meaning::Object(_, object) => object,
                _ => return self.misfit("an element", node),
            },
            _ => return self.misfit("an element", node),
        };
        Ok((build::obj(object), object + 1))
    }

    // Sets.

    pub fn set(&self, node: &Node) -> Result<Counted, Error> {
        if let Some(variable) = self.variable(Kind::Set, node)? {
            return Ok((build::set(variable), self.count_of(usize::from(variable))));
        }
        match &node.form {
            Form::Members(members, side) => self.set_literal(node.at, members, side.as_ref()),
            Form::Binary(operator, left, right) => self.joined(node, *operator, left, right),
            Form::Complement(part) => {
                let (bytes, count) = self.set(part)?;
                Ok((build::complement(bytes), count))
            }
            _ => self.misfit("a set", node),
        }
    }

    fn set_literal(
        &self,
        at: Place,
        members: &Members,
        side: Option<&Side>,
    ) -> Result<Counted, Error> {
        let count = match side {
            Some(side) => self.side(side)?.0,
            None => self.count_of_members(at, members)?,
        };
        Ok((build::set_lit(count, self.members(count, members)?), count))
    }

    /// A set joined with a set, or with an element by plus and minus.
    fn joined(
        &self,
        node: &Node,
        operator: Operator,
        left: &Node,
        right: &Node,
    ) -> Result<Counted, Error> {
        if self.kind(node)? != Kind::Set {
            return self.misfit("a set", node);
        }
        match operator {
            Operator::Plus if self.may_be_element(right)? => {
                self.with_element(build::add, right, left)
            }
            Operator::Plus => self.misfit("an element; sets are joined by `|`", right),
            Operator::Minus if self.may_be_element(right)? => {
                self.with_element(build::remove, right, left)
            }
            Operator::Union => self.two_sets(build::union, left, right),
            Operator::Intersection => self.two_sets(build::intersection, left, right),
            _ => self.two_sets(build::without, left, right),
        }
    }

    fn with_element(
        &self,
        join: fn(Bytes, Bytes) -> Bytes,
        element: &Node,
        set: &Node,
    ) -> Result<Counted, Error> {
        let (set_bytes, set_count) = self.set(set)?;
        let (bytes, count) = self.element(element)?;
        refuse_if(count > set_count, element.at, || {
            format!("an element of {count} objects does not fit a set of {set_count}")
        })?;
        Ok((join(bytes, set_bytes), set_count))
    }

    fn two_sets(
        &self,
        join: fn(Bytes, Bytes) -> Bytes,
        left: &Node,
        right: &Node,
    ) -> Result<Counted, Error> {
        let (left_bytes, count) = self.set(left)?;
        let (right_bytes, right_count) = self.set(right)?;
        refuse_if(count != right_count, right.at, || {
            format!("a set of {right_count} objects does not fit a set of {count}")
        })?;
        Ok((join(left_bytes, right_bytes), count))
    }

    // Conditions.

    pub fn condition(&self, node: &Node) -> Result<Bytes, Error> {
        match &node.form {
            Form::Binary(operator, left, right) => self.relation(node, *operator, left, right),
            Form::Empty(set) => Ok(build::empty(self.set(set)?.0)),
            Form::Not(part) => Ok(build::not(self.condition(part)?)),
            _ => self.misfit("a condition", node),
        }
    }

    fn relation(
        &self,
        node: &Node,
        operator: Operator,
        left: &Node,
        right: &Node,
    ) -> Result<Bytes, Error> {
        match operator {
            Operator::Equal => self.equality(left, right),
            Operator::Less => Ok(build::less(self.number(left)?, self.number(right)?)),
            Operator::AtMost => Ok(build::at_most(self.number(left)?, self.number(right)?)),
            Operator::In => Ok(self.with_element(build::member, left, right)?.0),
            Operator::Subset => Ok(self.two_sets(build::subset, left, right)?.0),
            Operator::And => Ok(build::and(self.condition(left)?, self.condition(right)?)),
            Operator::Or => Ok(build::or(self.condition(left)?, self.condition(right)?)),
            _ => self.misfit("a condition", node),
        }
    }

    /// Elements are equal if a side is an element by its form, else numbers.
    fn equality(&self, left: &Node, right: &Node) -> Result<Bytes, Error> {
        let kinds = [self.kind(left)?, self.kind(right)?];
        for (kind, node) in kinds.iter().zip([left, right]) {
            if matches!(kind, Kind::Set | Kind::Condition) {
                return self.misfit("a number or an element beside `=`", node);
            }
        }
        if kinds.contains(&Kind::Element) {
            Ok(build::same(self.element(left)?.0, self.element(right)?.0))
        } else {
            Ok(build::equal(self.number(left)?, self.number(right)?))
        }
    }
}

/// An index count that a table's side must reach.
fn fits_side(at: Place, count: u8, side: u8, sides: &str) -> Result<(), Error> {
    refuse_if(count > side, at, || {
        format!("an index of {count} objects does not fit {side} {sides}")
    })
}
