//! A quotation as text.

use super::{Quotation, Said, TITLE};
use crate::beam::{joined, Beam};
use crate::command::words::verdict_name;

/// How many bytes of the model stand in a line.
const BYTES: usize = 32;

/// The mark in words.
pub fn mark(said: &Said) -> String {
    let [verdict, flag, cost, bound, .., low] = said.fields;
    let name = verdict_name(verdict as u8);
    match flag {
        1 if low != cost => format!("{name}, a plan at cost {cost}, low {low}, bound {bound}"),
        1 => format!("{name}, a plan at cost {cost}, bound {bound}"),
        _ => format!("{name}, without a plan, bound {bound}"),
    }
}

/// The text on one line, whatever it holds.
pub fn one_line(text: &str) -> String {
    let letter = |letter: char| if letter.is_control() { '?' } else { letter };
    text.trim().chars().map(letter).collect()
}

pub fn written(quotation: &Quotation) -> String {
    let Quotation {
        beam,
        length,
        budget,
        said,
        model,
        ..
    } = quotation;
    let mut text = format!("{TITLE}\n\n");
    let widths = match beam {
        Beam::UpTo(width) => ("width", width.to_string()),
        Beam::Listed(widths) => ("widths", joined(widths, ",")),
    };
    let head = [
        ("model", one_line(&quotation.title)),
        ("version", one_line(&quotation.version)),
        ("kit", one_line(&quotation.kit)),
        widths,
        ("length", length.to_string()),
        ("budget", budget.to_string()),
        ("line", said.line()),
        ("mark", mark(said)),
    ];
    for (name, value) in head {
        text += format!("{name}: {value}").trim_end();
        text.push('\n');
    }
    text += &format!("\nsteps: {}\n", said.plan.len());
    for (step, name) in said.plan.iter().zip(&quotation.names) {
        text += format!("    {step} {}", one_line(name)).trim_end();
        text.push('\n');
    }
    text += &format!("\nbytes: {}\n", model.len());
    for line in model.chunks(BYTES) {
        let bytes: Vec<String> = line.iter().map(|byte| format!("{byte:02x}")).collect();
        text += &format!("    {}\n", bytes.join(" "));
    }
    text += "end\n";
    text
}
