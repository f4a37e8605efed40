//! The answer of a search, in the fields of crates/search_report/src/answers.rt.

/// `verdict` is the refusal's number when `refused`, else the verdict's.
#[derive(Clone, Copy, PartialEq, Eq, Debug, Default)]
pub struct Answer {
    pub refused: bool,
    pub verdict: u8,
    /// Whether a plan is given.
    pub flag: bool,
    pub cost: u64,
    pub bound: u64,
    /// The steps of the plan, or of the path to the state of a refusal.
    pub length: u64,
    pub expansions: u64,
    /// Rounds begun.
    pub rounds: u64,
    /// The beam width of the last round.
    pub width: u64,
    /// The cost at low figures, beside `cost`, which is at high ones.
    pub low: u64,
}

impl Answer {
    /// Refused by the input: all other fields are 0.
    pub fn refused_by_input(refusal: u8) -> Answer {
        Answer {
            refused: true,
            verdict: refusal,
            ..Answer::default()
        }
    }
}
