//! The text form: round trips, each form's bytes, errors with their places, damaged texts, names.

#[path = "text/damage.rs"]
mod damage;
#[path = "text/deep.rs"]
mod deep;
#[path = "text/errors.rs"]
mod errors;
#[path = "text/files.rs"]
mod files;
#[path = "text/forms.rs"]
mod forms;
#[path = "text/limits.rs"]
mod limits;
#[path = "text/listing.rs"]
mod listing;
#[path = "text/loops.rs"]
mod loops;
#[path = "text/names.rs"]
mod names;
#[path = "text/ranges.rs"]
mod ranges;
#[path = "text/trips.rs"]
mod trips;

use repgypsum_host::numbers::{limit, refusal};
use repgypsum_host::reference::read_model;
use repgypsum_host::text::{assemble, disassemble};
use std::path::Path;

/// Variables, objects and tables for the expressions to be tried, on three lines.
const PRELUDE: &str = "cost sum objects node = home east west
    set todo of node = {east, west} set done of 3 = {} element at of node = home
    number time = 0 table far[node, node] = 0 1 2 / 3 4 5 / 6 7 8 table near[3] = 1 2 3\n";

/// Whether the reader accepts the bytes; then text and back gives the same bytes, else the reader's refusal.
fn round_trip(bytes: &[u8]) -> bool {
    let read = if bytes.len() > limit::MODEL_BYTES {
        Err(refusal::MODEL_TOO_LONG)
    } else {
        read_model(bytes).map(|_| ())
    };
    match (read, disassemble(bytes)) {
        (Ok(()), Ok(text)) => {
            let again = assemble(&text).unwrap_or_else(|error| panic!("{error}\n{text}"));
            assert!(again == bytes, "{text}");
            true
        }
        (Err(refused), Err(told)) => {
            assert_eq!(refused, told);
            false
        }
        (read, text) => panic!("{read:?} but {text:?}"),
    }
}

fn example_texts() -> Vec<String> {
    let directory = Path::new(env!("CARGO_MANIFEST_DIR")).join("../examples");
    [
        "three-designs",
        "tsptw",
        "sop",
        "assembly-line",
        "open-stacks",
        "tardiness",
        "reload-hours",
    ]
    .iter()
    .map(|name| std::fs::read_to_string(directory.join(format!("{name}.dp"))).unwrap())
    .collect()
}
