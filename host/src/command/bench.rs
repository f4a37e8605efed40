//! `bench`: the proved search against the fast plain one on the families of models.

use super::{Complaint, Done, ANSWERED};
use crate::bench;
use std::ffi::OsString;
use std::io::Read;

/// Measures the families that the arguments name.
pub fn run(arguments: &[OsString], _input: &mut dyn Read) -> Result<Done, Complaint> {
    let names: Vec<String> = arguments
        .iter()
        .map(|name| name.to_string_lossy().into_owned())
        .collect();
    let mut output = Vec::new();
    bench::run(&names, &mut output).map_err(Complaint::new)?;
    Ok(Done::new(output, ANSWERED))
}
