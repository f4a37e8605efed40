//! The sizes that document 01 allows, told with what can be done.

use super::place::{refuse_if, Error, Place};

/// What can be done where a model has as many of something as it may have.
fn advice(what: &str) -> &'static str {
    match what {
        "tables" => "; the entries of a `constant` table take no place in the model",
        "transitions" => "; a loop over fewer objects makes fewer of them",
        "base cases" => "; cases can be one, with `or` between their conditions",
        "constraints" => "; join several by `and`, or write `constraint forall d in group: ...`: one balanced `and` counts once",
        "bounds" => "; `bound max(x, y, ...)` is one bound",
        "conditions" => "; join several by `and`, or write `when forall d in group: ...`: one balanced `and` counts once",
        _ => "",
    }
}

/// One more of something of which there may be `most`.
pub fn within(already: usize, most: usize, at: Place, what: &str) -> Result<(), Error> {
    refuse_if(already >= most, at, || {
        format!(
            "at most {most} {what} are allowed, and this is one more{}",
            advice(what)
        )
    })
}
