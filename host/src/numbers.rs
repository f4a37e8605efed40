//! The numbers that document 01 fixes, under the names that the definitions give them (crates/model/specs/Numbers.antt,
//! crates/search/specs/Answer.antt and Run.antt).

/// Refusals: 1 to 9, 15 and 16 by the input, 11 to 14 and 17 by a state.
pub mod refusal {
    pub const MODEL_TOO_LONG: u8 = 1;
    pub const BAD_SETTING: u8 = 2;
    pub const TOO_LITTLE_LENT: u8 = 3;
    pub const ENDS_EARLY: u8 = 4;
    pub const NOT_DUE: u8 = 5;
    pub const MISMATCH: u8 = 6;
    pub const OFF_LIMITS: u8 = 7;
    pub const TOO_DEEP: u8 = 8;
    pub const BYTES_AFTER_END: u8 = 9;
    pub const OUT_OF_RANGE: u8 = 11;
    pub const DIVISOR_ZERO: u8 = 12;
    pub const NEGATIVE_COST: u8 = 13;
    pub const NOT_A_PLAN: u8 = 14;
    pub const OUTSIDE_PROFILE: u8 = 15;
    pub const BAD_WIDTHS: u8 = 16;
    pub const HIGH_BELOW_LOW: u8 = 17;

    /// Whether the refusal was met in a state of a search, so that a path leads to it.
    pub fn by_state(number: u8) -> bool {
        (OUT_OF_RANGE..=NEGATIVE_COST).contains(&number) || number == HIGH_BELOW_LOW
    }
}

/// How a run that is not refused ends.
pub mod verdict {
    pub const CHEAPEST: u8 = 0;
    pub const NO_PLAN: u8 = 1;
    pub const WIDTH_STOP: u8 = 2;
    pub const LENGTH_STOP: u8 = 3;
    pub const BUDGET_SPENT: u8 = 4;
    pub const CONTRADICTED: u8 = 5;
}

/// The most of each thing: `VARIABLES` is `most_variables` there.
pub mod limit {
    pub const MODEL_BYTES: usize = 65_536;
    pub const VARIABLES: usize = 16;
    pub const TABLES: usize = 32;
    /// Rows, columns and object counts.
    pub const OBJECTS: u8 = 64;
    pub const TRANSITIONS: usize = 256;
    pub const BASE_CASES: usize = 16;
    pub const CONSTRAINTS: usize = 32;
    pub const BOUNDS: usize = 8;
    /// Per transition or base case.
    pub const CONDITIONS: usize = 16;
    /// The outermost expression counts 1.
    pub const NESTING: u32 = 32;
    pub const WIDTH: u64 = 4_096;
    /// The entries of a list of widths.
    pub const WIDTHS: usize = 16;
    pub const LENGTH: u64 = 256;
    pub const PLAN_BYTES: usize = LENGTH as usize;
}

/// The working words of 64 bits that a search with these settings has to be lent.
pub fn words_needed(width: u64, length: u64) -> u64 {
    64 * width + width * (length + 1)
}
