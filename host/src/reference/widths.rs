//! The widths of the rounds: 1, 2, 4 up to the widest, or a list that is lent, document 02, §4.

use crate::numbers::limit;

#[derive(Clone, Copy)]
pub enum Widths<'a> {
    UpTo(u64),
    Listed(&'a [u16]),
}

/// What is wrong with a list of widths. Entries are counted from 1.
#[derive(Clone, Copy, PartialEq, Eq, Debug)]
pub enum Fault {
    Empty,
    /// It has so many entries.
    TooLong(usize),
    /// Entry so and so is 0.
    Zero(usize),
    /// This entry is above the widest beam there is.
    TooWide(usize, u16),
    /// This entry is not above the one before it.
    NotRising(usize, u16, u16),
}

/// All that is wrong with a list of widths.
pub fn faults(list: &[u16]) -> Vec<Fault> {
    let mut faults = Vec::new();
    if list.is_empty() {
        faults.push(Fault::Empty);
    }
    if list.len() > limit::WIDTHS {
        faults.push(Fault::TooLong(list.len()));
    }
    for (number, entry) in (1..).zip(list) {
        if *entry == 0 {
            faults.push(Fault::Zero(number));
        }
        if u64::from(*entry) > limit::WIDTH {
            faults.push(Fault::TooWide(number, *entry));
        }
    }
    for (number, pair) in (2..).zip(list.windows(2)) {
        if pair[0] >= pair[1] {
            faults.push(Fault::NotRising(number, pair[0], pair[1]));
        }
    }
    faults
}

impl Widths<'_> {
    /// Whether the widest beam is within its range. With a list it is no setting, and nothing is asked of it here.
    pub fn setting_fits(&self) -> bool {
        match self {
            Widths::UpTo(widest) => (1..=limit::WIDTH).contains(widest) && widest.is_power_of_two(),
            Widths::Listed(_) => true,
        }
    }

    /// Whether the list, if one is lent, has nothing wrong.
    pub fn list_fits(&self) -> bool {
        match self {
            Widths::UpTo(_) => true,
            Widths::Listed(list) => faults(list).is_empty(),
        }
    }

    /// W: the widest width, or the last entry.
    pub fn widest(&self) -> u64 {
        match self {
            Widths::UpTo(widest) => *widest,
            Widths::Listed(list) => u64::from(list[list.len() - 1]),
        }
    }

    /// The width of a round, counted from 1. Behind the last width every round has that one.
    pub fn of_round(&self, round: u64) -> u64 {
        match self {
            Widths::UpTo(widest) => {
                let doublings = (round - 1).min(limit::WIDTH.ilog2().into());
                (*widest).min(1 << doublings)
            }
            Widths::Listed(list) => {
                let entries = list.len() as u64;
                u64::from(list[round.min(entries) as usize - 1])
            }
        }
    }
}
