//! A search's settings and buffers, and its run by the proved search.

use super::arguments::{decimal, Arguments};
use super::Complaint;
use crate::answer::Answer;
use crate::beam::Beam;
use crate::line;
use crate::numbers::{limit, words_needed};
use crate::proved;
use crate::reference::read_model;
use crate::reference::widths::faults;
use std::ffi::OsStr;

const WIDTH: &str = "--width";
const WIDTHS: &str = "--widths";

/// The options that `Settings::read` understands.
pub const OPTIONS: [&str; 6] = [
    WIDTH,
    WIDTHS,
    "--length",
    "--budget",
    "--plan-bytes",
    "--words",
];

/// The most bytes or words that can be asked to be lent.
const MOST_LENT: u32 = 1 << 24;

/// The flags that ask for the loading profile, which are the same.
pub const FLAGS: [&str; 2] = ["--loading", "--profile"];

/// The settings, and how many plan bytes and working words are asked to be lent.
#[derive(Clone, PartialEq, Eq, Debug)]
pub struct Settings {
    pub beam: Beam,
    /// The length limit. In the loading profile it is the one that is chosen, and 0 where none is.
    pub length: u32,
    pub budget: u32,
    pub loading: bool,
    plan_bytes: Option<usize>,
    words: Option<usize>,
}

/// An answer of the proved search, and the steps at the front of the plan buffer.
pub struct Run {
    pub answer: Answer,
    pub steps: Vec<u8>,
}

/// Whether a search can have this widest beam.
pub fn width_fits(width: u64) -> bool {
    width <= limit::WIDTH && width.is_power_of_two()
}

/// Whether a search can have this length limit.
pub fn length_fits(length: u32) -> bool {
    (1..=limit::LENGTH).contains(&u64::from(length))
}

/// The widest beam or the list of widths that is given.
fn beam(arguments: &Arguments) -> Result<Beam, Complaint> {
    let width = arguments.number(WIDTH, u32::MAX)?;
    match (width, arguments.value(WIDTHS)) {
        (Some(_), Some(_)) => Err(Complaint::new(format!(
            "{WIDTH} or {WIDTHS}, not both: the last entry of the list is the widest beam"
        ))),
        (None, Some(list)) => Ok(Beam::Listed(listed(list)?)),
        (width, None) => Ok(Beam::UpTo(width.map_or(line::WIDTH, u64::from))),
    }
}

/// Numbers of 16 bits with a comma between two; none in an empty text.
fn listed(list: &OsStr) -> Result<Vec<u16>, Complaint> {
    let list = list.to_string_lossy();
    if list.is_empty() {
        return Ok(Vec::new());
    }
    let entry = |text: &str| match decimal(text, u16::MAX.into()) {
        Some(width) => Ok(width as u16),
        None => Err(Complaint::new(format!(
            "{WIDTHS}: `{text}` is no number from 0 to {}; a list is written 1,200",
            u16::MAX
        ))),
    };
    list.split(',').map(entry).collect()
}

impl Settings {
    /// The settings given, and document 01's for the rest.
    pub fn read(arguments: &Arguments) -> Result<Settings, Complaint> {
        let setting = |name, usual: u64| -> Result<u32, Complaint> {
            Ok(arguments.number(name, u32::MAX)?.unwrap_or(usual as u32))
        };
        let beam = beam(arguments)?;
        let length = setting("--length", line::LENGTH)?;
        let budget = setting("--budget", line::BUDGET)?;
        let asked = FLAGS.into_iter().find(|flag| arguments.flag(flag));
        if let (Some(flag), true) = (asked, arguments.value("--length").is_some()) {
            return Err(Complaint::new(format!(
                "{flag} chooses the length itself: {flag} or --length, not both"
            )));
        }
        let lent = |name| -> Result<Option<usize>, Complaint> {
            let asked = arguments.number(name, MOST_LENT)?;
            Ok(asked.map(|number| number as usize))
        };
        Ok(Settings {
            beam,
            length,
            budget,
            loading: asked.is_some(),
            plan_bytes: lent("--plan-bytes")?,
            words: lent("--words")?,
        })
    }

    /// Whether a search can have this widest beam, or this list of widths.
    fn beam_fits(&self) -> bool {
        match &self.beam {
            Beam::UpTo(width) => width_fits(*width),
            Beam::Listed(widths) => faults(widths).is_empty(),
        }
    }

    /// The plan bytes and words due; none at settings that the search refuses.
    pub fn due(&self) -> (usize, usize) {
        if !self.beam_fits() || !length_fits(self.length) {
            return (0, 0);
        }
        let words = words_needed(self.beam.widest(), u64::from(self.length));
        (self.length as usize, words as usize)
    }

    /// The same for a model. Which length the loading profile chooses is found by the independent implementation; the proved search chooses
    /// it itself, and is lent what that length needs.
    pub fn for_model(mut self, model: &[u8]) -> Settings {
        if self.loading {
            let model = read_model(model).ok();
            let model = model.filter(|model| model.in_profile());
            self.length = model.map_or(0, |model| model.loading_length() as u32);
        }
        self
    }

    /// How many plan bytes and working words are lent: those asked for, else those due.
    pub fn lent(&self) -> (usize, usize) {
        let (plan_bytes, words) = self.due();
        (
            self.plan_bytes.unwrap_or(plan_bytes),
            self.words.unwrap_or(words),
        )
    }

    /// Searches the model with buffers of these sizes.
    pub fn search(&self, model: &[u8]) -> Run {
        let (plan_bytes, words) = self.lent();
        let mut plan = vec![0; plan_bytes];
        let mut words = vec![0; words];
        let (plan_lent, words_lent) = (&mut plan[..], &mut words[..]);
        let (length, budget) = (self.length, self.budget);
        let answer = match (&self.beam, self.loading) {
            (Beam::UpTo(width), true) => {
                proved::load(model, *width as u32, budget, plan_lent, words_lent)
            }
            (Beam::UpTo(width), false) => {
                proved::search(model, *width as u32, length, budget, plan_lent, words_lent)
            }
            (Beam::Listed(widths), true) => {
                proved::load_widths(model, widths, budget, plan_lent, words_lent)
            }
            (Beam::Listed(widths), false) => {
                proved::search_widths(model, widths, length, budget, plan_lent, words_lent)
            }
        };
        plan.truncate(answer.length as usize);
        Run {
            answer,
            steps: plan,
        }
    }
}
