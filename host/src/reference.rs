//! Documents 01 and 02 as plain code, written for reading: model, meaning, plan check, loading profile, widths and search.

pub mod check;
pub mod meaning;
pub mod profile;
pub mod read;
pub mod search;
pub mod syntax;
pub mod widths;

pub use check::plan_check;
pub use meaning::{Costs, State, Value};
pub use read::read_model;
pub use search::{load, load_widths, search, search_widths};
pub use syntax::Model;
