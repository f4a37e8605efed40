//! A month, plainly: the names in a list, what each comes to, and the closing line. Written from document 02, §7, apart from crates/month.

use crate::answer::Answer;
use crate::line::{answer_line, BUDGET, LENGTH, LONGEST_MODEL, WIDTH};
use crate::numbers::{refusal, words_needed};
use crate::reference::search;
use std::ffi::OsStr;
use std::fs::File;
use std::io::{self, Read};
use std::os::unix::ffi::OsStrExt;
use std::path::Path;

/// How many names are taken, and how many bytes a name may have.
pub const MOST_NAMES: usize = 1000;
pub const MOST_NAME_BYTES: usize = 255;

/// What a name comes to: an answer with its steps, or no file is read by it.
#[derive(Clone, PartialEq, Eq, Debug)]
pub enum Entry {
    Answered(Answer, Vec<u8>),
    Unread,
}

impl Entry {
    /// The usual line.
    pub fn line(&self) -> String {
        match self {
            Entry::Answered(answer, steps) => answer_line(answer, steps),
            Entry::Unread => "refused 0".to_string(),
        }
    }
}

/// The lines of a list, the first thousand. No line is behind a line feed at the very end.
pub fn lines(list: &[u8]) -> Vec<&[u8]> {
    if list.is_empty() {
        return Vec::new();
    }
    let list = list.strip_suffix(b"\n").unwrap_or(list);
    let lines = list.split(|byte| *byte == b'\n');
    lines.take(MOST_NAMES).collect()
}

/// Whether a line names a file.
pub fn is_name(line: &[u8]) -> bool {
    (1..=MOST_NAME_BYTES).contains(&line.len()) && !line.contains(&0)
}

/// The bytes of a file, at most one more than a model may have here.
fn bytes_of(path: &Path) -> io::Result<Vec<u8>> {
    let mut bytes = Vec::new();
    let most = LONGEST_MODEL as u64 + 1;
    File::open(path)?.take(most).read_to_end(&mut bytes)?;
    Ok(bytes)
}

/// What a line comes to; names start from this folder. `search` gives the answer to a model at the program's settings, with the plan buffer.
pub fn entry(line: &[u8], folder: &Path, search: fn(&[u8], &mut [u8]) -> Answer) -> Entry {
    if !is_name(line) {
        return Entry::Unread;
    }
    let Ok(model) = bytes_of(&folder.join(OsStr::from_bytes(line))) else {
        return Entry::Unread;
    };
    let mut plan = vec![0; LENGTH as usize];
    let answer = search(&model, &mut plan);
    plan.truncate(answer.length as usize);
    Entry::Answered(answer, plan)
}

/// The plain second search at the program's settings.
pub fn reference_search(model: &[u8], plan: &mut [u8]) -> Answer {
    if model.len() > LONGEST_MODEL {
        return Answer::refused_by_input(refusal::MODEL_TOO_LONG);
    }
    search(
        model,
        WIDTH,
        LENGTH,
        BUDGET,
        plan,
        words_needed(WIDTH, LENGTH),
    )
}

/// The twelve figures of the closing line.
#[derive(Clone, Copy, PartialEq, Eq, Debug, Default)]
pub struct Closing {
    pub names: u64,
    pub verdicts: [u64; 6],
    pub refused: u64,
    pub sum: u64,
    pub whole: u64,
    pub remainder: u64,
    pub gap: u64,
}

impl Closing {
    /// The figures of these answers.
    pub fn of(entries: &[Entry]) -> Closing {
        let answers = entries.iter().filter_map(|entry| match entry {
            Entry::Answered(answer, _) if !answer.refused => Some(answer),
            _ => None,
        });
        let verdicts: Vec<&Answer> = answers.collect();
        let count = |number: u8| {
            let same = verdicts.iter().filter(|answer| answer.verdict == number);
            same.count() as u64
        };
        let cheapest = verdicts.iter().filter(|answer| answer.verdict == 0);
        let sum = cheapest.map(|answer| answer.cost).sum();
        let open = verdicts.iter().filter(|answer| answer.flag);
        let open = open.filter(|answer| (2..=4).contains(&answer.verdict));
        let gap = open.map(|answer| answer.cost.saturating_sub(answer.bound));
        Closing {
            names: entries.len() as u64,
            verdicts: std::array::from_fn(|number| count(number as u8)),
            refused: (entries.len() - verdicts.len()) as u64,
            sum,
            whole: sum.checked_div(count(0)).unwrap_or(0),
            remainder: sum.checked_rem(count(0)).unwrap_or(0),
            gap: gap.max().unwrap_or(0),
        }
    }

    /// The figures in their order.
    pub fn numbers(&self) -> Vec<u64> {
        let mut numbers = vec![self.names];
        numbers.extend(self.verdicts);
        numbers.extend([self.refused, self.sum, self.whole, self.remainder, self.gap]);
        numbers
    }

    /// The closing line.
    pub fn line(&self) -> String {
        let numbers: Vec<String> = self.numbers().iter().map(u64::to_string).collect();
        numbers.join(" ")
    }
}

/// What the program prints for a list: a line for each name, then the closing line.
pub fn printed(list: &[u8], folder: &Path, search: fn(&[u8], &mut [u8]) -> Answer) -> String {
    let entries: Vec<Entry> = lines(list)
        .into_iter()
        .map(|line| entry(line, folder, search))
        .collect();
    let mut text = String::new();
    for entry in &entries {
        text += &format!("{}\n", entry.line());
    }
    text + &format!("{}\n", Closing::of(&entries).line())
}
