//! Tables to bytes, or to constants: their entries from the text or from a file.

use super::assembler::Assembler;
use super::csv;
use super::place::{refuse_if, Error, Place};
use super::plain::PlainTable;
use super::scope::number_in_range;
use super::sizes::within;
use super::syntax::{Entries, Integer, Table};
use crate::numbers::limit;

impl Assembler<'_> {
    /// The table with its entries, from its file if it has one.
    pub fn plain_table(&self, table: &Table) -> Result<PlainTable, Error> {
        let rows = self.scope.side(&table.rows)?;
        let side = |side| self.scope.side(side);
        let columns = table.columns.as_ref().map(side).transpose()?;
        let entries = match &table.entries {
            Entries::Rows(rows) => rows.clone(),
            Entries::File { file, column } => {
                let text = (*file, self.sources.text(*file));
                csv::entries(&self.scope, text, rows, columns, column.as_ref())?
            }
        };
        Ok(PlainTable {
            at: table.at,
            name: table.name.clone(),
            rows: table.rows.clone(),
            columns: table.columns.clone(),
            entries,
        })
    }

    /// The rows and columns of a table that has as many entries as they say; a list has no columns.
    fn sides(&self, table: &PlainTable) -> Result<(u8, Option<u8>), Error> {
        let (rows, _) = self.scope.side(&table.rows)?;
        let Some(side) = &table.columns else {
            has_list(table, rows)?;
            return Ok((rows, None));
        };
        let (columns, _) = self.scope.side(side)?;
        has_rows(table, rows, columns)?;
        Ok((rows, Some(columns)))
    }

    pub fn table(&mut self, table: &PlainTable) -> Result<(), Error> {
        let already = self.scope.names.tables.len();
        within(already, limit::TABLES, table.at, "tables")?;
        let (rows, columns) = self.sides(table)?;
        let columns = columns.unwrap_or(1);
        self.put(&[0x05, rows, columns]);
        for entry in table.entries.iter().flatten() {
            let value = number_in_range(entry.at, entry.value)?;
            self.put(&[0x06]);
            self.put(&value.to_le_bytes());
        }
        self.scope
            .declare_table(table.name.as_ref(), (rows, columns))
    }

    /// A table of constants, which has no bytes of its own.
    pub fn constants(&mut self, table: &Table) -> Result<(), Error> {
        let Some(name) = &table.name else {
            return Ok(());
        };
        let read = |assembler: &Assembler| -> Result<_, Error> {
            let plain = assembler.plain_table(table)?;
            let sides = assembler.sides(&plain)?;
            let entries: Vec<i64> = plain
                .entries
                .iter()
                .flatten()
                .map(|entry| entry.value)
                .collect();
            Ok((sides, entries))
        };
        let read = read(self);
        let (sides, entries) = self.declared(Some(name), read)?;
        self.scope.declare_constants(name, sides, entries)
    }
}

/// The place of a row, or of the table.
fn row_place(table: &PlainTable, row: &[Integer]) -> Place {
    row.first().map_or(table.at, |entry| entry.at)
}

/// Every row has as many entries as there are columns, and there are as many rows as stated.
fn has_rows(table: &PlainTable, rows: u8, columns: u8) -> Result<(), Error> {
    for (place, row) in table.entries.iter().enumerate() {
        refuse_if(place >= usize::from(rows), row_place(table, row), || {
            format!("the table has {rows} rows, and this is one more")
        })?;
        refuse_if(
            row.len() != usize::from(columns),
            row_place(table, row),
            || format!("entries in this row: {}; due: {columns}", row.len()),
        )?;
    }
    let given = table.entries.len();
    refuse_if(given != usize::from(rows), table.at, || {
        format!("rows in this table: {given}; due: {rows}")
    })
}

/// A list is one row of text, with as many entries as stated.
fn has_list(table: &PlainTable, rows: u8) -> Result<(), Error> {
    if let Some(second) = table.entries.get(1) {
        let message = "a table with one side is a list: it has no `/`";
        return Err(Error::new(row_place(table, second), message));
    }
    let given = table.entries[0].len();
    refuse_if(given != usize::from(rows), table.at, || {
        format!("entries in this list: {given}; due: {rows}")
    })
}
