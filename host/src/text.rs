//! The text form of models: a planner writes and reads it, and it stands for exact bytes. Its grammar is docs/TEXT.md.

mod assembler;
mod commands;
mod constants;
mod csv;
mod cursor;
mod expand;
mod expressions;
mod foreign;
mod kinds;
mod lexer;
mod listing;
mod loops;
mod names;
mod parser;
mod place;
mod plain;
mod printer;
mod ranges;
mod scope;
mod sizes;
mod sources;
mod spelling;
mod syntax;
mod tables;
mod terms;
mod writer;

use crate::reference::read_model;

pub use listing::{Listing, Step};
pub use names::{kind_name, Group, Names, VariableName};
pub use place::{Error, Place};
pub use printer::disassemble;
pub use sources::{Sources, LONGEST_TEXT};
pub use spelling::braces;

/// What a text stands for: the model's bytes, the names and the expressions as written, and the text without loops.
pub struct Assembled {
    pub bytes: Vec<u8>,
    pub names: Names,
    pub listing: Listing,
    pub plain: String,
}

/// The text of these sources assembled, or all that is wrong with it, by place.
pub fn assemble_sources(sources: &mut Sources) -> Result<Assembled, Vec<Error>> {
    let parsed = parser::parsed(sources);
    let assembly = assembler::assembled(sources, parsed).map_err(place::told)?;
    debug_assert!(read_model(&assembly.bytes).is_ok());
    Ok(Assembled {
        listing: writer::listing(&assembly.plain, &assembly.names),
        plain: writer::written(&assembly.plain),
        bytes: assembly.bytes,
        names: assembly.names,
    })
}

/// A text that reads no other files; of what is wrong with it, the first.
pub fn assemble_text(text: &str) -> Result<Assembled, Error> {
    let assembled = assemble_sources(&mut Sources::of_text(text));
    assembled.map_err(|mut errors| errors.swap_remove(0))
}

/// The bytes of the model that the text describes, or what is wrong with the text.
pub fn assemble(text: &str) -> Result<Vec<u8>, Error> {
    assemble_text(text).map(|assembled| assembled.bytes)
}

/// The names that the text gives to variables, objects, tables and transitions.
pub fn names(text: &str) -> Result<Names, Error> {
    assemble_text(text).map(|assembled| assembled.names)
}

/// Both at once.
pub fn assemble_with_names(text: &str) -> Result<(Vec<u8>, Names), Error> {
    assemble_text(text).map(|assembled| (assembled.bytes, assembled.names))
}
