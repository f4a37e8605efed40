//! Refusals by the input: what each means, and what to change.

use super::input::{looks_like_text, Source};
use super::part::Part;
use super::profile;
use super::settings::{length_fits, width_fits, Run, Settings};
use super::widths;
use super::words::{counted, grouped};
use crate::beam::Beam;
use crate::numbers::{limit, refusal};
use crate::reference::read_model;

/// What a refusal by the input means for this call.
pub fn by_input(source: &Source, settings: &Settings, number: u8) -> Part {
    let mut part = Part::new("What it means");
    match number {
        refusal::MODEL_TOO_LONG => part.say(format!(
            "The model has more than {}.",
            counted(limit::MODEL_BYTES as u64, "byte")
        )),
        refusal::BAD_SETTING => out_of_range(settings, &mut part),
        refusal::TOO_LITTLE_LENT => too_little_lent(settings, &mut part),
        refusal::OUTSIDE_PROFILE => profile::say_outside(source, &mut part),
        refusal::BAD_WIDTHS => widths::say_wrong(settings, &mut part),
        _ => {
            part.say(meaning(number));
            if number == refusal::NOT_DUE && looks_like_text(&source.model) {
                part.say(LOOKS_LIKE_TEXT);
            }
            unreadable(&source.model, number, &mut part);
        }
    }
    part.say("Nothing was searched, no lent buffer was changed, and nothing is said about plans.");
    part
}

/// The line that goes with a bare refusal: which setting, how much is lent too little, text in place of bytes, why a model is outside the
/// loading profile, or what is wrong with a list of widths.
pub fn note(source: &Source, settings: &Settings, run: &Run) -> Option<String> {
    if !run.answer.refused {
        return None;
    }
    let mut part = Part::new("");
    match run.answer.verdict {
        refusal::BAD_SETTING => out_of_range(settings, &mut part),
        refusal::TOO_LITTLE_LENT => too_little_lent(settings, &mut part),
        refusal::NOT_DUE if looks_like_text(&source.model) => part.say(LOOKS_LIKE_TEXT),
        refusal::OUTSIDE_PROFILE => profile::say_outside(source, &mut part),
        refusal::BAD_WIDTHS => widths::say_wrong(settings, &mut part),
        _ => return None,
    }
    let lines: Vec<&str> = part.lines.iter().map(|line| line.trim_start()).collect();
    Some(lines.join(" "))
}

/// What is said of text where bytes are due.
pub const LOOKS_LIKE_TEXT: &str = "The input looks like text, where the bytes of a model are due: a text is read from a file that ends in .dp, or assembled first.";

/// What is wrong with the bytes of a model.
fn meaning(number: u8) -> &'static str {
    match number {
        refusal::ENDS_EARLY => "The bytes end where more are due: the model is cut off, or lacks its end command 0E.",
        refusal::NOT_DUE => {
            "A byte begins no command that is due in its place, or no expression at all where one is due."
        }
        refusal::MISMATCH => {
            "An expression or a variable has the wrong kind, a name is not declared, or object counts do not fit."
        }
        refusal::OFF_LIMITS => {
            "An operand or a start value is outside its limits, there is one command too many, or a variable has a second effect."
        }
        refusal::TOO_DEEP => "An expression is nested deeper than 32.",
        refusal::BYTES_AFTER_END => "Bytes follow the end command 0E.",
        _ => "There is no such refusal by the input.",
    }
}

fn out_of_range(settings: &Settings, part: &mut Part) {
    match settings.beam {
        Beam::UpTo(width) if !width_fits(width) => part.say(format!(
            "The widest beam is {}; it has to be a power of two from 1 to {}.",
            grouped(width),
            grouped(limit::WIDTH)
        )),
        _ => {}
    }
    if !settings.loading && !length_fits(settings.length) {
        part.say(format!(
            "The length limit is {}; it has to be from 1 to {}.",
            grouped(settings.length.into()),
            grouped(limit::LENGTH)
        ));
    }
}

fn too_little_lent(settings: &Settings, part: &mut Part) {
    let (plan_bytes, words) = settings.lent();
    part.say(format!(
        "Lent: {} and {}.",
        counted(plan_bytes as u64, "plan byte"),
        counted(words as u64, "working word")
    ));
    let (plan_bytes, words) = settings.due();
    let settings = match settings.loading {
        true => format!("the length chosen, {}", settings.length),
        false => "these settings".to_string(),
    };
    part.say(format!(
        "Due at {settings}: {} and {}.",
        counted(plan_bytes as u64, "plan byte"),
        counted(words as u64, "working word")
    ));
}

/// Where the reader stops: the last byte of the shortest front part that is refused with this number.
fn unreadable(model: &[u8], number: u8, part: &mut Part) {
    if number == refusal::ENDS_EARLY {
        part.say(format!("It has {}.", counted(model.len() as u64, "byte")));
        return;
    }
    let (mut ends_early, mut refused) = (0, model.len());
    while refused - ends_early > 1 {
        let middle = (ends_early + refused) / 2;
        match read_model(&model[..middle]) {
            Err(refusal::ENDS_EARLY) | Ok(_) => ends_early = middle,
            Err(_) => refused = middle,
        }
    }
    let Some(last) = refused.checked_sub(1) else {
        return;
    };
    part.say(format!(
        "The reader stops at byte {last}, counted from 0, which is {:02X}.",
        model[last]
    ));
    part.say(
        "This place is found by the independent implementation, which is tested and not proved.",
    );
}
