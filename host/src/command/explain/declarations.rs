//! The bounds and preferences that a model declares, and what it takes for them to be true.

use crate::command::known::Known;
use crate::command::part::Part;
use crate::command::words::counted;

/// What the model declares, and when that is true.
pub fn part(known: &Known) -> Part {
    let mut part = Part::new("What the model declares");
    let bounds = &known.listing.bounds;
    if bounds.is_empty() {
        part.say("No bounds.");
    } else {
        part.say(format!("{}:", counted(bounds.len() as u64, "bound")));
        for (number, bound) in bounds.iter().enumerate() {
            part.say(format!("  bound {number}: {bound}"));
        }
        part.say(match known.has_ranges() {
            true => "Bounds are true if, in every state that allowed steps reach, none is above the cost of a plan from there at low",
            false => "Bounds are true if, in every state that allowed steps reach, none is above the cost of a plan from there.",
        });
        if known.has_ranges() {
            part.say("figures. What is proved holds as well where none is above the cost of a plan at high figures.");
        }
    }
    let preferences = known.preferences();
    if preferences.is_empty() {
        part.say("No preferences.");
    } else {
        let count = counted(preferences.len() as u64, "preference");
        part.say(format!("{count}:"));
        for preference in preferences {
            part.say(format!("  {preference}"));
        }
        part.say("Preferences are true if a reachable state that is no worse by them than another, and equal in the rest, has");
        part.say(match known.has_ranges() {
            true => "for each plan of the other a plan that costs no more at high figures.",
            false => "for each plan of the other a plan that costs no more.",
        });
    }
    part.say("The search does not test whether they are true; `repgypsum declarations` looks for what shows one false,");
    part.say("and `plan --unconditional` plans without them.");
    part
}
