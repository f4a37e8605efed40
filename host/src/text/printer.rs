//! Model bytes to text without names: every thing is called by its number.

use super::names::Names;
use super::spelling::{aligned, braces, Spelling};
use crate::numbers::limit;
use crate::numbers::refusal::MODEL_TOO_LONG;
use crate::reference::{read_model, Model};
use std::fmt::Write;

/// The text of a model that the reader accepts, which assembles to the same bytes; or the refusal number.
pub fn disassemble(bytes: &[u8]) -> Result<String, u8> {
    if bytes.len() > limit::MODEL_BYTES {
        return Err(MODEL_TOO_LONG);
    }
    let model = read_model(bytes)?;
    let names = Names::by_number(&model);
    let mut printer = Printer {
        bytes: Spelling::new(bytes, &names, lists(&model)),
        text: String::new(),
        variables: 0,
        tables: 0,
        transitions: 0,
    };
    while printer.command() {}
    Ok(printer.text)
}

/// Which tables have one column.
pub fn lists(model: &Model) -> Vec<bool> {
    let lists = model.tables.iter().map(|table| table.columns == 1);
    lists.collect()
}

struct Printer<'a> {
    bytes: Spelling<'a>,
    text: String,
    variables: usize,
    tables: usize,
    transitions: usize,
}

/// The words for a preference, with a blank before them.
fn preference(byte: u8) -> &'static str {
    match byte {
        1 => " prefer less",
        2 => " prefer more",
        _ => "",
    }
}

impl Printer<'_> {
    fn line(&mut self, line: &str) {
        writeln!(self.text, "{line}").expect("a string takes every line");
    }

    /// Writes the next command; false at the end command.
    fn command(&mut self) -> bool {
        match self.bytes.byte() {
            0x01 => {
                let rule = ["sum", "largest"][usize::from(self.bytes.byte())];
                self.line(&format!("cost {rule}\n"));
            }
            command @ 0x02..=0x04 => self.variable(command),
            0x05 => self.table(),
            0x07 => {
                let number = self.transitions;
                self.transitions += 1;
                self.line(&format!("\ntransition:  # {number}"));
            }
            0x08 => self.expression("    when "),
            0x09 => self.expression("    cost "),
            0x10 => self.expression("    high "),
            0x0A => {
                let variable = self.bytes.byte();
                let kind = match self.bytes.peek() {
                    0x20..=0x2F => "number",
                    0x30..=0x3F => "element",
                    _ => "set",
                };
                self.expression(&format!("    {kind} {variable} := "));
            }
            0x0B => self.line("\nbase:"),
            0x0C => self.expression("\nconstraint "),
            0x0D => self.expression("\nbound "),
            _ => return false,
        }
        true
    }

    fn expression(&mut self, before: &str) {
        let expression = self.bytes.expression();
        self.line(&format!("{before}{expression}"));
    }

    fn variable(&mut self, command: u8) {
        let (kind, declared) = match command {
            0x02 => {
                let (count, start) = (self.bytes.byte(), self.bytes.members());
                ("set", format!("of {count} = {}", braces(start)))
            }
            0x03 => {
                let (count, prefer) = (self.bytes.byte(), preference(self.bytes.byte()));
                let start = self.bytes.byte();
                ("element", format!("of {count} = {start}{prefer}"))
            }
            _ => {
                let prefer = preference(self.bytes.byte());
                ("number", format!("= {}{prefer}", self.bytes.number()))
            }
        };
        let number = self.variables;
        self.variables += 1;
        self.line(&format!("{kind} {declared}  # {kind} {number}"));
    }

    fn table(&mut self) {
        let (rows, columns) = (self.bytes.byte(), self.bytes.byte());
        let number = self.tables;
        self.tables += 1;
        let size = usize::from(rows) * usize::from(columns);
        let entries: Vec<String> = (0..size)
            .map(|_| {
                self.bytes.byte();
                self.bytes.number().to_string()
            })
            .collect();
        if columns == 1 {
            self.line(&format!("\ntable [{rows}] =  # table {number}"));
            self.line(&format!("    {}", entries.join(" ")));
            return;
        }
        self.line(&format!("\ntable [{rows}, {columns}] =  # table {number}"));
        let lines = aligned(&entries, usize::from(columns));
        self.line(&lines.join(" /\n"));
    }
}
