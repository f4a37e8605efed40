//! The widths of a search's rounds, as a caller gives them.

/// 1, 2, 4 up to the widest, which is W; or a list that is lent, whose last entry is W.
#[derive(Clone, PartialEq, Eq, Debug)]
pub enum Beam {
    UpTo(u64),
    Listed(Vec<u16>),
}

impl Beam {
    /// W, by which the working words are counted; 0 for an empty list.
    pub fn widest(&self) -> u64 {
        match self {
            Beam::UpTo(widest) => *widest,
            Beam::Listed(widths) => widths.last().map_or(0, |last| u64::from(*last)),
        }
    }

    /// The list, if one is lent.
    pub fn list(&self) -> Option<&[u16]> {
        match self {
            Beam::UpTo(_) => None,
            Beam::Listed(widths) => Some(widths),
        }
    }
}

/// The entries of a list with this text between two.
pub fn joined(widths: &[u16], between: &str) -> String {
    let entries: Vec<String> = widths.iter().map(u16::to_string).collect();
    entries.join(between)
}
