//! Constants: numbers and tables that are put in where they are named, and take no place in the model.

use super::place::{refuse_if, Error, Place};
use super::scope::{object_number, Meaning, Scope};
use super::syntax::{Form, Name, Node, Reference};

/// A table that is put in entry by entry, with its entries row by row.
pub struct ConstantTable {
    name: String,
    rows: u8,
    columns: Option<u8>,
    entries: Vec<i64>,
}

impl Scope {
    pub fn declare_constant(&mut self, name: &Name) -> Result<(), Error> {
        self.declare(name, Meaning::Constant)
    }

    /// Declares a table of constants with its entries row by row.
    pub fn declare_constants(
        &mut self,
        name: &Name,
        (rows, columns): (u8, Option<u8>),
        entries: Vec<i64>,
    ) -> Result<(), Error> {
        self.declare(name, Meaning::ConstantTable(self.constants.len()))?;
        self.constants.push(ConstantTable {
            name: name.text.clone(),
            rows,
            columns,
            entries,
        });
        Ok(())
    }

    /// The names of constant tables.
    pub fn constant_names(&self) -> impl Iterator<Item = &str> {
        self.constants.iter().map(|table| table.name.as_str())
    }

    /// The entry of a table of constants at objects that are known.
    pub fn constant_entry(
        &self,
        constant: usize,
        at: Place,
        row: &Node,
        column: Option<&Node>,
    ) -> Result<i64, Error> {
        let table = &self.constants[constant];
        let row = self.known_object(row, table.rows, "rows")?;
        let column = match (table.columns, column) {
            (None, None) => 0,
            (Some(columns), Some(column)) => self.known_object(column, columns, "columns")?,
            (None, Some(column)) => {
                let message = format!("`{}` is a list: it has no columns", table.name);
                return Err(Error::new(column.at, message));
            }
            (Some(columns), None) => {
                let message = format!("a column is due: the table has {columns} columns");
                return Err(Error::new(at, message));
            }
        };
        let columns = usize::from(table.columns.unwrap_or(1));
        Ok(table.entries[usize::from(row) * columns + usize::from(column)])
    }

    /// An index that is an object by name or number, below the side.
    fn known_object(&self, node: &Node, side: u8, sides: &str) -> Result<u8, Error> {
        let object = match &node.form {
            Form::Integer(value) => object_number(node.at, *value)?,
            Form::Object(number) => object_number(number.at, number.value)?,
            Form::Name(name) => match self.meaning(node.at, name)? {
                Meaning::Object(_, object) => object,
                other => {
                    let what = other.what();
                    let message = format!("a constant's entry is at an object that is known before the run; `{name}` is {what}: a table can be read there");
                    return Err(Error::new(node.at, message));
                }
            },
            _ => {
                let message = "a constant's entry is at an object that is known before the run";
                return Err(Error::new(node.at, message));
            }
        };
        refuse_if(object >= side, node.at, || {
            format!(
                "an index of {} objects does not fit {side} {sides}",
                object + 1
            )
        })?;
        Ok(object)
    }
}

/// The error that the rows of a constant table cannot be those of a set.
pub fn not_constant(scope: &Scope, table: &Reference) -> Result<(), Error> {
    let Reference::Name(name) = table else {
        return Ok(());
    };
    let constant = matches!(
        scope.meaning(name.at, &name.text),
        Ok(Meaning::ConstantTable(_))
    );
    refuse_if(constant, name.at, || {
        format!("`{}` is a constant: the members of a set are not known before the run; declare it as a table", name.text)
    })
}

/// An entry of a table of the model, or the value of a constant's entry.
pub fn entry(
    scope: &Scope,
    at: Place,
    table: &Reference,
    row: Box<Node>,
    column: Option<Box<Node>>,
) -> Result<Form, Error> {
    if let Reference::Name(name) = table {
        if let Ok(Meaning::ConstantTable(constant)) = scope.meaning(name.at, &name.text) {
            let value = scope.constant_entry(constant, at, &row, column.as_deref())?;
            return Ok(Form::Integer(value));
        }
    }
    Ok(Form::Entry(table.clone(), row, column))
}
