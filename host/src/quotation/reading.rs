//! A quotation read back from its text, line by line in the order in which it is written.

use super::writing::mark;
use super::{Quotation, Said, FIELDS, OLDER_TITLE, TITLE};
use crate::beam::Beam;
use crate::numbers::{limit, verdict};
use crate::text::{Error, Place};

/// The lines of a text with their places, blank ones left out.
struct Lines<'a> {
    lines: Vec<(usize, &'a str)>,
    at: usize,
}

impl<'a> Lines<'a> {
    fn of(text: &'a str) -> Lines<'a> {
        let lines = text.lines().map(|line| line.trim_end_matches('\r'));
        let lines = lines.enumerate().map(|(number, line)| (number + 1, line));
        Lines {
            lines: lines.filter(|(_, line)| !line.trim().is_empty()).collect(),
            at: 0,
        }
    }

    fn place(&self, column: usize) -> Place {
        let last = self.lines.last().map_or(1, |(line, _)| line + 1);
        let line = self.lines.get(self.at).map_or(last, |(line, _)| *line);
        let file = 0;
        Place { file, line, column }
    }

    fn wrong<T>(&self, column: usize, message: impl Into<String>) -> Result<T, Error> {
        Err(Error::new(self.place(column), message))
    }

    fn peek(&self) -> Option<&'a str> {
        self.lines.get(self.at).map(|(_, line)| *line)
    }

    /// The value behind a name and a colon, with the column where it begins.
    fn value(&mut self, name: &str) -> Result<(usize, &'a str), Error> {
        let line = self.peek().unwrap_or("");
        let Some(value) = line
            .strip_prefix(name)
            .and_then(|rest| rest.strip_prefix(':'))
        else {
            return self.wrong(1, format!("expected `{name}:` and its value"));
        };
        let blanks = value.len() - value.trim_start().len();
        Ok((name.len() + 2 + blanks, value.trim()))
    }

    fn text(&mut self, name: &str) -> Result<String, Error> {
        let (_, value) = self.value(name)?;
        self.at += 1;
        Ok(value.to_string())
    }

    fn number(&mut self, name: &str, most: u32) -> Result<u32, Error> {
        let (column, value) = self.value(name)?;
        let Some(number) = digits(value).filter(|number| *number <= u64::from(most)) else {
            return self.wrong(column, format!("expected a number from 0 to {most}"));
        };
        self.at += 1;
        Ok(number as u32)
    }
}

/// The number that digits alone spell.
fn digits(text: &str) -> Option<u64> {
    let plain = !text.is_empty() && text.bytes().all(|byte| byte.is_ascii_digit());
    plain.then(|| text.parse().ok()).flatten()
}

/// The quotation that the text is, or what is wrong with it.
pub fn read(text: &str) -> Result<Quotation, Error> {
    let mut lines = Lines::of(text);
    let older = lines.peek() == Some(OLDER_TITLE);
    if lines.peek() != Some(TITLE) && !older {
        return lines.wrong(1, format!("a quotation begins with the line `{TITLE}`"));
    }
    lines.at += 1;
    let title = lines.text("model")?;
    let version = lines.text("version")?;
    let kit = lines.text("kit")?;
    let beam = beam(&mut lines)?;
    let length = lines.number("length", limit::LENGTH as u32)?;
    let budget = lines.number("budget", u32::MAX)?;
    let said = said(&mut lines, older)?;
    let (column, value) = lines.value("mark")?;
    if value != mark(&said) {
        return lines.wrong(column, format!("the line says: {}", mark(&said)));
    }
    lines.at += 1;
    let names = names(&mut lines, &said.plan)?;
    let model = bytes(&mut lines)?;
    if lines.peek() != Some("end") {
        return lines.wrong(1, "expected `end`");
    }
    lines.at += 1;
    if lines.peek().is_some() {
        return lines.wrong(1, "nothing stands behind `end`");
    }
    Ok(Quotation {
        title,
        version,
        kit,
        beam,
        length,
        budget,
        said,
        names,
        model,
    })
}

/// The widest beam, or the widths of a list with a comma between two.
fn beam(lines: &mut Lines) -> Result<Beam, Error> {
    let most = limit::WIDTH as u32;
    if !lines.peek().unwrap_or("").starts_with("widths:") {
        return Ok(Beam::UpTo(lines.number("width", most)?.into()));
    }
    let (column, value) = lines.value("widths")?;
    let width = |item: &str| digits(item).filter(|width| *width <= u64::from(most));
    let widths = value.split(',').map(|item| Some(width(item)? as u16));
    let Some(widths) = widths.collect::<Option<Vec<u16>>>() else {
        let message = format!("expected numbers from 0 to {most} with a comma between two");
        return lines.wrong(column, message);
    };
    lines.at += 1;
    Ok(Beam::Listed(widths))
}

/// The fields, a colon and the plan. In the older form there is no low figure: it is the cost.
fn said(lines: &mut Lines, older: bool) -> Result<Said, Error> {
    let (column, value) = lines.value("line")?;
    let items: Vec<&str> = value.split(' ').collect();
    let due = FIELDS.len() - usize::from(older);
    let numbers = items.iter().take(due).filter_map(|item| digits(item));
    let mut numbers: Vec<u64> = numbers.collect();
    if older && numbers.len() == due {
        numbers.push(numbers[2]);
    }
    let fields: Option<[u64; FIELDS.len()]> = numbers.try_into().ok();
    let (Some(fields), Some(&":")) = (fields, items.get(due)) else {
        let count = if older { "eight" } else { "nine" };
        let message = format!("expected the {count} fields of an answer, a colon and the plan");
        return lines.wrong(column, message);
    };
    if fields[0] > u64::from(verdict::CONTRADICTED) || fields[1] > 1 {
        return lines.wrong(
            column,
            "expected a verdict from 0 to 5 and a plan flag of 0 or 1",
        );
    }
    let steps = items[due + 1..].iter().map(|item| {
        let number = digits(item)?;
        u8::try_from(number).ok()
    });
    let Some(plan) = steps.collect::<Option<Vec<u8>>>() else {
        return lines.wrong(
            column,
            "expected transition numbers from 0 to 255 behind the colon",
        );
    };
    if plan.len() as u64 != fields[4] {
        let message = format!(
            "the plan has {} steps, and its length is stated as {}",
            plan.len(),
            fields[4]
        );
        return lines.wrong(column, message);
    }
    lines.at += 1;
    Ok(Said { fields, plan })
}

/// The names of the plan's steps, which are listed with their numbers.
fn names(lines: &mut Lines, plan: &[u8]) -> Result<Vec<String>, Error> {
    let (column, value) = lines.value("steps")?;
    if digits(value) != Some(plan.len() as u64) {
        return lines.wrong(column, format!("the plan has {} steps", plan.len()));
    }
    lines.at += 1;
    let mut names = Vec::new();
    for step in plan {
        let line = lines.peek().unwrap_or("").trim();
        let (number, name) = line.split_once(' ').unwrap_or((line, ""));
        if digits(number) != Some(u64::from(*step)) {
            return lines.wrong(
                1,
                format!("expected step {step} of the line's plan, and its name"),
            );
        }
        names.push(name.trim().to_string());
        lines.at += 1;
    }
    Ok(names)
}

/// The model's bytes, two hexadecimal digits each.
fn bytes(lines: &mut Lines) -> Result<Vec<u8>, Error> {
    let due = lines.number("bytes", limit::MODEL_BYTES as u32)? as usize;
    let mut bytes = Vec::new();
    while let Some(line) = lines.peek().filter(|line| *line != "end") {
        for item in line.split_ascii_whitespace() {
            let column = item.as_ptr() as usize - line.as_ptr() as usize + 1;
            let digits = item.len() == 2 && item.bytes().all(|byte| byte.is_ascii_hexdigit());
            let Some(byte) = digits.then(|| u8::from_str_radix(item, 16).ok()).flatten() else {
                return lines.wrong(column, "expected a byte as two hexadecimal digits");
            };
            bytes.push(byte);
        }
        lines.at += 1;
    }
    if bytes.len() != due {
        return lines.wrong(
            1,
            format!("{} bytes stand here, and {due} are stated", bytes.len()),
        );
    }
    Ok(bytes)
}
