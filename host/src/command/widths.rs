//! The widths of the rounds: how they are said, what a list of them gives, and what is wrong with one.

use super::part::Part;
use super::settings::Settings;
use super::theorems::{BUILT_IN, RISING_LIST};
use super::words::grouped;
use crate::beam::{joined, Beam};
use crate::numbers::limit;
use crate::reference::widths::{faults, Fault};

/// The most entries, or faults, that are told.
const TOLD: usize = limit::WIDTHS;

/// The entries with a comma between two, as the option takes them.
pub fn option(widths: &[u16]) -> String {
    joined(widths, ",")
}

/// The entries as a reader likes them; of a long list the first.
fn entries(widths: &[u16]) -> String {
    match widths.len() {
        0..=TOLD => joined(widths, ", "),
        more => format!(
            "{} and {} more",
            joined(&widths[..TOLD], ", "),
            grouped((more - TOLD) as u64)
        ),
    }
}

/// The setting, in the words of an explanation's head.
pub fn setting(beam: &Beam) -> String {
    match beam {
        Beam::UpTo(widest) => format!("Widest beam {}", grouped(*widest)),
        Beam::Listed(widths) if widths.is_empty() => "An empty list of widths".to_string(),
        Beam::Listed(widths) => format!("Widths {}", entries(widths)),
    }
}

/// What the list of a run gives; nothing without one.
pub fn part(settings: &Settings) -> Option<Part> {
    let widths = settings.beam.list()?;
    let mut part = Part::new("The widths");
    let first = grouped(widths.first().copied().unwrap_or(0).into());
    let last = grouped(settings.beam.widest());
    part.say(match widths.len() {
        1 => format!("Every round has width {first}, the only entry of the list."),
        _ => format!(
            "Round 1 has width {first}, each round after it the next entry of the list, and {last} again once that is reached."
        ),
    });
    part.say(format!(
        "What is proved holds of every rising list, with its last entry as the widest beam [{RISING_LIST}]."
    ));
    part.say(format!(
        "Without a list the widths are 1, 2, 4 up to the widest beam, which is such a list too [{BUILT_IN}]."
    ));
    Some(part)
}

/// What is wrong, in a sentence.
fn sentence(fault: &Fault) -> String {
    let most = grouped(limit::WIDTH);
    match *fault {
        Fault::Empty => format!("It is empty, and has to have 1 to {} entries.", limit::WIDTHS),
        Fault::TooLong(entries) => format!(
            "It has {} entries, and at most {} can be taken.",
            grouped(entries as u64),
            limit::WIDTHS
        ),
        Fault::Zero(number) => format!("Entry {number} is 0; a width is from 1 to {most}."),
        Fault::TooWide(number, width) => format!(
            "Entry {number} is {}; a width is from 1 to {most}.",
            grouped(width.into())
        ),
        Fault::NotRising(number, before, width) => format!(
            "Entry {number} is {}, and the one before it {}; each has to be above the one before it.",
            grouped(width.into()),
            grouped(before.into())
        ),
    }
}

/// What refusal 16 means for a list.
pub fn say_wrong(settings: &Settings, part: &mut Part) {
    let widths = settings.beam.list().unwrap_or_default();
    let faults = faults(widths);
    part.say("The list of widths cannot be taken:");
    for fault in faults.iter().take(TOLD) {
        part.say(format!("  {}", sentence(fault)));
    }
    if faults.len() > TOLD {
        let more = grouped((faults.len() - TOLD) as u64);
        part.say(format!("  And {more} more like these."));
    }
    part.say("Without --widths they are 1, 2, 4 up to --width.");
}

/// A list that is wider at its end, to be tried behind a width stop; nothing where it ends with the widest beam there is.
pub fn wider(widths: &[u16]) -> Option<Vec<u16>> {
    let last = u64::from(*widths.last()?);
    if last >= limit::WIDTH {
        return None;
    }
    let next = (2 * last).min(limit::WIDTH) as u16;
    let mut wider = widths.to_vec();
    if wider.len() == limit::WIDTHS {
        wider.pop();
    }
    wider.push(next);
    Some(wider)
}
