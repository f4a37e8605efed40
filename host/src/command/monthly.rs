//! `repgypsum monthly`: the lines and the closing line of a list of files; `repgypsum figures`: the closing line of lines that were joined.

use super::arguments::Arguments;
use super::input::title;
use super::json::{self, Members, JSON};
use super::{Complaint, Done, ANSWERED, REFUSED};
use crate::answer::Answer;
use crate::json::Json;
use crate::line::{BUDGET, LENGTH, LONGEST_MODEL, WIDTH};
use crate::month::{entry, lines, Closing, Entry};
use crate::numbers::{refusal, words_needed};
use crate::proved;
use std::ffi::{OsStr, OsString};
use std::fs::File;
use std::io::Read;
use std::path::Path;

/// Every byte of a file, or of standard input without one or with `-`.
fn all_of(file: Option<&OsStr>, input: &mut dyn Read) -> Result<Vec<u8>, Complaint> {
    let mut bytes = Vec::new();
    let read = match file.filter(|name| *name != "-") {
        Some(path) => File::open(path).and_then(|mut file| file.read_to_end(&mut bytes)),
        None => input.read_to_end(&mut bytes),
    };
    match read {
        Ok(_) => Ok(bytes),
        Err(error) => Err(Complaint::new(format!(
            "{}: cannot be read: {error}",
            title(file)
        ))),
    }
}

/// The proved search at the program's settings.
pub fn search(model: &[u8], plan: &mut [u8]) -> Answer {
    if model.len() > LONGEST_MODEL {
        return Answer::refused_by_input(refusal::MODEL_TOO_LONG);
    }
    let mut words = vec![0; words_needed(WIDTH, LENGTH) as usize];
    let (width, length, budget) = (WIDTH as u32, LENGTH as u32, BUDGET as u32);
    proved::search(model, width, length, budget, plan, &mut words)
}

/// The closing figures by name, and their line.
fn closing_members(closing: &Closing) -> Members {
    let figures = Json::Object(vec![
        ("names", closing.names.into()),
        ("verdicts", closing.verdicts.to_vec().into()),
        ("refused", closing.refused.into()),
        ("sum", closing.sum.into()),
        ("mean", closing.whole.into()),
        ("remainder", closing.remainder.into()),
        ("gap", closing.gap.into()),
    ]);
    vec![("closing", figures), ("line", closing.line().into())]
}

pub fn run(arguments: &[OsString], input: &mut dyn Read) -> Result<Done, Complaint> {
    let arguments = Arguments::read(arguments, &[], &[JSON])?;
    let list = all_of(arguments.file(), input)?;
    let names = lines(&list);
    let here = Path::new("");
    let entries: Vec<Entry> = names.iter().map(|line| entry(line, here, search)).collect();
    let closing = Closing::of(&entries);
    if arguments.flag(JSON) {
        let one = |(name, entry): (&&[u8], &Entry)| {
            let name = String::from_utf8_lossy(name).into_owned();
            Json::Object(vec![("name", name.into()), ("line", entry.line().into())])
        };
        let answers = names.iter().zip(&entries).map(one).collect();
        let mut members: Members = vec![("answers", Json::List(answers))];
        members.extend(closing_members(&closing));
        let text = json::document("monthly", ANSWERED, members);
        return Ok(Done::new(text, ANSWERED));
    }
    let mut text = String::new();
    for entry in &entries {
        text += &format!("{}\n", entry.line());
    }
    text += &format!("{}\n", closing.line());
    Ok(Done::new(text.into_bytes(), ANSWERED))
}

/// A line that was printed: of a name, or closing.
enum Line {
    Of(Entry),
    Closing(Vec<u64>),
}

fn numbers(text: &str) -> Option<Vec<u64>> {
    let parts = text.split(' ').filter(|part| !part.is_empty());
    parts.map(|part| part.parse().ok()).collect()
}

/// The refusal with this number; 0 is that of a name by which no file is read.
fn refused(number: u8) -> Entry {
    match number {
        0 => Entry::Unread,
        _ => Entry::Answered(Answer::refused_by_input(number), Vec::new()),
    }
}

/// What a printed line says. Fields behind the ninth are taken as they are, and so are the steps.
fn read_line(line: &str) -> Option<Line> {
    if let Some(number) = line.strip_prefix("refused ") {
        return Some(Line::Of(refused(number.parse().ok()?)));
    }
    let Some((fields, steps)) = line.split_once(':') else {
        let figures = numbers(line)?;
        return (figures.len() == 12).then_some(Line::Closing(figures));
    };
    numbers(steps)?;
    let fields = numbers(fields)?;
    let [verdict @ 0..=5, flag @ 0..=1, cost, bound, length, expansions, rounds, width, low, ..] =
        fields[..]
    else {
        return None;
    };
    let answer = Answer {
        refused: false,
        verdict: verdict as u8,
        flag: flag == 1,
        cost,
        bound,
        length,
        expansions,
        rounds,
        width,
        low,
    };
    Some(Line::Of(Entry::Answered(answer, Vec::new())))
}

/// The closing figures of lines that were joined. A closing line among them has to be that of the lines since the last one.
pub fn figures(arguments: &[OsString], input: &mut dyn Read) -> Result<Done, Complaint> {
    let arguments = Arguments::read(arguments, &[], &[JSON])?;
    let bytes = all_of(arguments.file(), input)?;
    let text = String::from_utf8_lossy(&bytes);
    let mut entries = Vec::new();
    let mut closed = 0;
    let mut closings = 0;
    for (number, line) in text.lines().enumerate() {
        let place = format!("{}: line {}", title(arguments.file()), number + 1);
        match read_line(line) {
            Some(Line::Of(entry)) => entries.push(entry),
            Some(Line::Closing(figures)) => {
                if figures != Closing::of(&entries[closed..]).numbers() {
                    let lines = entries.len() - closed;
                    let message = format!(
                        "{place}: this closing line is not that of the {lines} lines before it"
                    );
                    return Err(Complaint {
                        status: REFUSED,
                        ..Complaint::new(message)
                    });
                }
                closed = entries.len();
                closings += 1;
            }
            None => return Err(Complaint::new(format!("{place}: no line of an answer"))),
        }
    }
    let closing = Closing::of(&entries);
    let open = entries.len() - closed;
    let note = (closings > 0 && open > 0)
        .then(|| format!("{open} lines at the end have no closing line: a list may not be whole"));
    if arguments.flag(JSON) {
        let mut members = closing_members(&closing);
        members.push(("note", note.into()));
        let text = json::document("figures", ANSWERED, members);
        return Ok(Done::new(text, ANSWERED));
    }
    let text = format!("{}\n", closing.line());
    let done = Done::new(text.into_bytes(), ANSWERED);
    Ok(done.note(note))
}
