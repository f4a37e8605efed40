//! The bytes of a model that the reader accepts, changed: started in another state, without its declarations, or with one cost a step.

use crate::reference::{State, Value};
use std::ops::Range;

/// How many operand bytes an expression's byte has, and how many parts follow them.
fn form(byte: u8) -> (usize, usize) {
    match byte {
        0x20 => (4, 0),
        0x21 | 0x30 | 0x31 | 0x41 => (1, 0),
        0x28 | 0x2A => (1, 2),
        0x29 | 0x47 | 0x55 | 0x57 => (0, 1),
        0x2B => (0, 3),
        0x40 => (9, 0),
        _ => (0, 2),
    }
}

/// Where the expression that begins there ends.
fn expression_end(model: &[u8], mut at: usize) -> usize {
    let mut due = 1;
    while due > 0 && at < model.len() {
        let (operands, parts) = form(model[at]);
        at += 1 + operands;
        due += parts;
        due -= 1;
    }
    at
}

/// The commands of the model, each from its byte to the end of its expressions.
fn commands(model: &[u8]) -> Vec<Range<usize>> {
    let mut commands = Vec::new();
    let mut at = 0;
    while at < model.len() {
        let end = match model[at] {
            0x01 => at + 2,
            0x02 => at + 10,
            0x03 => at + 4,
            0x04 => at + 6,
            0x05 => at + 3,
            0x06 => at + 5,
            0x08 | 0x09 | 0x10 | 0x0C | 0x0D => expression_end(model, at + 1),
            0x0A => expression_end(model, at + 2),
            _ => at + 1,
        };
        commands.push(at..end.min(model.len()));
        at = end;
    }
    commands
}

/// The model with these start values.
pub fn started_in(model: &[u8], state: &State) -> Vec<u8> {
    let mut bytes = model.to_vec();
    let variables = commands(model)
        .into_iter()
        .filter(|command| (0x02..=0x04).contains(&model[command.start]));
    for (command, value) in variables.zip(state) {
        match value {
            Value::Set(members) => {
                bytes[command.start + 2..command.end].copy_from_slice(&members.to_le_bytes());
            }
            Value::Element(object) => bytes[command.start + 3] = *object,
            Value::Number(number) => {
                let number = *number as i32;
                bytes[command.start + 2..command.end].copy_from_slice(&number.to_le_bytes());
            }
        }
    }
    bytes
}

/// The model without bounds and without preferences, which has the same plans at the same costs.
pub fn undeclared(model: &[u8]) -> Vec<u8> {
    let mut bytes = Vec::new();
    for command in commands(model) {
        let from = bytes.len();
        match model[command.start] {
            0x0D => continue,
            0x03 => {
                bytes.extend_from_slice(&model[command]);
                bytes[from + 2] = 0;
            }
            0x04 => {
                bytes.extend_from_slice(&model[command]);
                bytes[from + 1] = 0;
            }
            _ => bytes.extend_from_slice(&model[command]),
        }
    }
    bytes
}

/// The model whose costs are the low ones: it has no high cost.
pub fn at_low(model: &[u8]) -> Vec<u8> {
    let commands = commands(model).into_iter();
    let kept = commands.filter(|command| model[command.start] != 0x10);
    kept.flat_map(|command| model[command].to_vec()).collect()
}

/// The model whose costs are the high ones.
pub fn at_high(model: &[u8]) -> Vec<u8> {
    let mut bytes = Vec::new();
    let mut cost = 0;
    for command in commands(model) {
        match model[command.start] {
            0x09 => cost = bytes.len(),
            0x10 => {
                bytes.truncate(cost);
                bytes.push(0x09);
                bytes.extend_from_slice(&model[command.start + 1..command.end]);
                continue;
            }
            _ => {}
        }
        bytes.extend_from_slice(&model[command]);
    }
    bytes
}
