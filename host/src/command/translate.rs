//! `repgypsum assemble`, `expand` and `disassemble`: text models to bytes, to plain text, and bytes to text.

use super::arguments::Arguments;
use super::input::{looks_like_text, model_bytes, text_model, title};
use super::words::refusal_name;
use super::{Complaint, Done, ANSWERED, REFUSED};
use crate::text;
use std::ffi::OsString;
use std::io::Read;

pub fn assemble(arguments: &[OsString], input: &mut dyn Read) -> Result<Done, Complaint> {
    let arguments = Arguments::read(arguments, &[], &[])?;
    let (source, _) = text_model(arguments.file(), input)?;
    Ok(Done::new(source.model, ANSWERED))
}

/// The text without loops, constants and other files, which assembles to the same bytes.
pub fn expand(arguments: &[OsString], input: &mut dyn Read) -> Result<Done, Complaint> {
    let arguments = Arguments::read(arguments, &[], &[])?;
    let (_, plain) = text_model(arguments.file(), input)?;
    Ok(Done::new(plain.into_bytes(), ANSWERED))
}

/// A model that the reader refuses has no text: that is told on standard error, as a refusal.
pub fn disassemble(arguments: &[OsString], input: &mut dyn Read) -> Result<Done, Complaint> {
    let arguments = Arguments::read(arguments, &[], &[])?;
    let file = arguments.file();
    let model = model_bytes(file, input)?;
    match text::disassemble(&model) {
        Ok(text) => Ok(Done::new(text.into_bytes(), ANSWERED)),
        Err(number) => {
            let title = title(file);
            let name = refusal_name(number);
            let hint = if looks_like_text(&model) {
                "; this looks like text, where the bytes of a model are due"
            } else {
                ""
            };
            let mut complaint = Complaint::new(format!("{title}: refused {number}, {name}{hint}"));
            complaint.status = REFUSED;
            Err(complaint)
        }
    }
}
