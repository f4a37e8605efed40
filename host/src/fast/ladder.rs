//! The widths that a run climbs through, a rung for each round until the top is reached.

use crate::numbers::{limit, refusal};

pub struct Ladder {
    rungs: Vec<u64>,
    at: usize,
}

impl Ladder {
    /// 1, 2, 4 up to the widest.
    pub fn doubling(widest: u64) -> Result<Ladder, u8> {
        if !widest.is_power_of_two() || widest > limit::WIDTH {
            return Err(refusal::BAD_SETTING);
        }
        let rungs = (0..=widest.ilog2()).map(|height| 1 << height).collect();
        Ok(Ladder { rungs, at: 0 })
    }

    /// The entries of a list, each above the one before it and none above the widest beam there is.
    pub fn listed(list: &[u16]) -> Result<Ladder, u8> {
        let mut rungs: Vec<u64> = Vec::new();
        for width in list.iter().map(|width| u64::from(*width)) {
            let below = rungs.last().copied().unwrap_or(0);
            if width <= below || width > limit::WIDTH {
                return Err(refusal::BAD_WIDTHS);
            }
            rungs.push(width);
        }
        match rungs.len() {
            1..=limit::WIDTHS => Ok(Ladder { rungs, at: 0 }),
            _ => Err(refusal::BAD_WIDTHS),
        }
    }

    pub fn width(&self) -> u64 {
        self.rungs[self.at]
    }

    pub fn at_top(&self) -> bool {
        self.at + 1 == self.rungs.len()
    }

    /// One rung up, if there is one.
    pub fn climb(&mut self) {
        if !self.at_top() {
            self.at += 1;
        }
    }
}
