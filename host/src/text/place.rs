//! Places in a text, and the errors that name one.

use std::fmt;

/// A line and a column, both from 1, in the file of that number. Columns count characters.
#[derive(Clone, Copy, PartialEq, Eq, PartialOrd, Ord, Debug)]
pub struct Place {
    pub file: usize,
    pub line: usize,
    pub column: usize,
}

impl Place {
    /// Where a file begins.
    pub fn first(file: usize) -> Place {
        let (line, column) = (1, 1);
        Place { file, line, column }
    }
}

/// What is wrong with a text, and where.
#[derive(Clone, PartialEq, Eq, Debug)]
pub struct Error {
    pub place: Place,
    pub message: String,
}

impl Error {
    pub fn new(place: Place, message: impl Into<String>) -> Error {
        let message = message.into();
        Error { place, message }
    }

    /// The consequence of an error told elsewhere, which is not told itself.
    pub fn consequence(place: Place) -> Error {
        Error::new(place, "")
    }

    pub fn is_consequence(&self) -> bool {
        self.message.is_empty()
    }
}

impl fmt::Display for Error {
    fn fmt(&self, out: &mut fmt::Formatter) -> fmt::Result {
        let Place { line, column, .. } = self.place;
        write!(out, "line {line}, column {column}: {}", self.message)
    }
}

impl std::error::Error for Error {}

/// An error at the place, if `wrong`.
pub fn refuse_if(wrong: bool, place: Place, message: impl FnOnce() -> String) -> Result<(), Error> {
    if wrong {
        Err(Error::new(place, message()))
    } else {
        Ok(())
    }
}

/// The errors to be told: by place, one for each place, without mere consequences.
pub fn told(mut errors: Vec<Error>) -> Vec<Error> {
    let some_cause = errors.iter().any(|error| !error.is_consequence());
    errors.retain(|error| !(some_cause && error.is_consequence()));
    errors.sort_by_key(|error| error.place);
    errors.dedup_by_key(|error| error.place);
    errors
}
