//! Random lists of widths: rising ones, and each way to be refused with 16.

use super::Random;
use crate::numbers::limit;

/// The ways in which a list is no list of widths.
#[derive(Clone, Copy, PartialEq, Eq, Debug)]
pub enum Way {
    Empty,
    TooLong,
    BeginsWithZero,
    ZeroLater,
    TooWide,
    Equal,
    Falling,
}

pub const WAYS: [Way; 7] = [
    Way::Empty,
    Way::TooLong,
    Way::BeginsWithZero,
    Way::ZeroLater,
    Way::TooWide,
    Way::Equal,
    Way::Falling,
];

/// So many widths, each above the one before it by at most `most`.
fn steps(random: &mut Random, entries: usize, most: usize) -> Vec<u16> {
    let mut last = 0;
    let mut next = || {
        last += 1 + random.below(most) as u16;
        last
    };
    (0..entries).map(|_| next()).collect()
}

/// A rising list. Most are short and narrow; some have the most entries, some end with the widest beam there is.
pub fn rising(random: &mut Random) -> Vec<u16> {
    let mut list = match random.below(10) {
        0 => steps(random, limit::WIDTHS, 6),
        1..=2 => {
            let entries = random.between(1, 16) as usize;
            steps(random, entries, 20)
        }
        _ => {
            let entries = random.between(1, 5) as usize;
            steps(random, entries, 3)
        }
    };
    if random.chance(2) {
        let end = list.len() - 1;
        list[end] = limit::WIDTH as u16;
    }
    list
}

/// A list that is wrong in one way, and in no other than follows from it.
pub fn bad(random: &mut Random, way: Way) -> Vec<u16> {
    let mut list = rising(random);
    let last = list.len() - 1;
    match way {
        Way::Empty => list.clear(),
        Way::TooLong => {
            let entries = limit::WIDTHS + 1 + random.below(3);
            list = steps(random, entries, 20);
        }
        Way::BeginsWithZero => list[0] = 0,
        Way::ZeroLater => {
            list = steps(random, 3, 5);
            list[1 + random.below(2)] = 0;
        }
        Way::TooWide => list[last] = limit::WIDTH as u16 + 1 + random.below(60_000) as u16,
        Way::Equal => {
            list.truncate(limit::WIDTHS - 1);
            let place = random.below(list.len());
            list.insert(place, list[place]);
        }
        Way::Falling => {
            list = steps(random, 4, 9);
            let place = random.below(3);
            list.swap(place, place + 1);
        }
    }
    list
}

/// Every rising list of widths from 1 to `last`, which is at most 16.
pub fn rising_to(last: u16) -> Vec<Vec<u16>> {
    let chosen = |set: u32| (1..=last).filter(move |width| set >> (width - 1) & 1 == 1);
    (1..1 << last).map(|set| chosen(set).collect()).collect()
}
