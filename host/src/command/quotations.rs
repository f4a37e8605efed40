//! Quotations: `plan --quote`, `repgypsum verify` and `repgypsum compare`.

use super::arguments::Arguments;
use super::input::{first_bytes, source, title, Source};
use super::settings::{Run, Settings};
use super::words::refusal_name;
use super::{Complaint, Done, ANSWERED, REFUSED};
use crate::proved;
use crate::quotation::{changes, read, written, Quotation, Said, FIELDS, KIT, VERSION};
use crate::text::Sources;
use std::ffi::{OsStr, OsString};
use std::fs::File;
use std::io::{self, Read, Write};
use std::path::Path;

/// The longest quotation that is read, in bytes.
const LONGEST: usize = 1 << 20;

/// The quotation of a run; nothing for a refusal.
pub fn quotation(source: &Source, settings: &Settings, run: &Run) -> Option<Quotation> {
    let said = Said::of(&run.answer, &run.steps)?;
    let name = |step: &u8| {
        let names = source.names.as_ref()?;
        names.transitions.get(usize::from(*step))?.clone()
    };
    let names = run.steps.iter().map(|step| name(step).unwrap_or_default());
    Some(Quotation {
        title: source.title.clone(),
        version: VERSION.to_string(),
        kit: KIT.trim().to_string(),
        beam: settings.beam.clone(),
        length: settings.length,
        budget: settings.budget,
        said,
        names: names.collect(),
        model: source.model.clone(),
    })
}

/// Writes the quotation to a file that is not there yet; answers what is wrong.
pub fn quote(out: &OsStr, quotation: Option<Quotation>) -> Option<String> {
    let name = out.to_string_lossy();
    let Some(quotation) = quotation else {
        return Some(format!("{name}: not written: a refusal is not quoted"));
    };
    let file = File::options().write(true).create_new(true).open(out);
    let put = |mut file: File| file.write_all(written(&quotation).as_bytes());
    match file.and_then(put) {
        Ok(()) => None,
        Err(error) if error.kind() == io::ErrorKind::AlreadyExists => Some(format!(
            "{name}: not written: it is there already, and a quotation replaces nothing"
        )),
        Err(error) => Some(format!("{name}: cannot be written: {error}")),
    }
}

/// The quotation in a file.
fn quoted(file: Option<&OsStr>, input: &mut dyn Read) -> Result<Quotation, Complaint> {
    let title = title(file);
    let bytes = first_bytes(file, input, LONGEST)?;
    if bytes.len() > LONGEST {
        let message = format!("{title}: a quotation has at most {LONGEST} bytes");
        return Err(Complaint::new(message));
    }
    let (sources, decoded) = Sources::of_bytes(title, Path::new(""), bytes);
    let quotation = decoded.and_then(|()| read(sources.text(0)));
    quotation.map_err(|error| Complaint::report(sources.report(&[error])))
}

/// Reruns a quotation's search and plan check, and compares all that they say.
pub fn verify(arguments: &[OsString], input: &mut dyn Read) -> Result<Done, Complaint> {
    let arguments = Arguments::read_files(arguments, &[], &[], 2)?;
    let quotation = quoted(arguments.file(), input)?;
    let mut differences = Vec::new();
    if let Some(model) = arguments.files().get(1) {
        let source = source(Some(model), input)?;
        differences.extend(from_model(&quotation, &source));
    }
    differences.extend(from_search(&quotation));
    differences.extend(from_plan_check(&quotation));
    let mut text = if differences.is_empty() {
        format!(
            "The same: the search run again gives every count of the quotation, and the plan check the cost.\n  {}\n",
            quotation.said.line()
        )
    } else {
        let lines = differences.iter().map(|line| format!("  {line}\n"));
        format!("Different:\n{}", lines.collect::<String>())
    };
    for (what, quoted, own) in [
        ("version", &quotation.version, VERSION),
        ("kit", &quotation.kit, KIT.trim()),
    ] {
        if quoted != own {
            text += &format!("The quotation is from {what} {quoted}; this is {what} {own}.\n");
        }
    }
    let status = if differences.is_empty() {
        ANSWERED
    } else {
        REFUSED
    };
    Ok(Done::new(text.into_bytes(), status))
}

/// How a model differs from the quoted one, in its bytes and in the names of the plan's steps.
fn from_model(quotation: &Quotation, source: &Source) -> Vec<String> {
    let mut differences = Vec::new();
    let (quoted, given) = (&quotation.model, &source.model);
    let title = &source.title;
    if quoted != given {
        let same = quoted.iter().zip(given).take_while(|(old, new)| old == new);
        differences.push(format!(
            "the model: {} bytes in the quotation, {} in {title}, the first that differs at {}",
            quoted.len(),
            given.len(),
            same.count()
        ));
    }
    if let Some(names) = &source.names {
        for (place, (step, quoted)) in quotation.said.plan.iter().zip(&quotation.names).enumerate()
        {
            let given = names.transitions.get(usize::from(*step)).cloned().flatten();
            let given = given.unwrap_or_default();
            if *quoted != given {
                let place = place + 1;
                differences.push(format!(
                    "the name of step {place}: `{quoted}` in the quotation, `{given}` in {title}"
                ));
            }
        }
    }
    differences
}

fn from_search(quotation: &Quotation) -> Vec<String> {
    let said = match quotation.rerun() {
        Ok(said) => said,
        Err(number) => {
            let name = refusal_name(number);
            return vec![format!("the search: now refused {number}, {name}")];
        }
    };
    let mut differences = Vec::new();
    let fields = quotation.said.fields.iter().zip(said.fields);
    for (name, (quoted, now)) in FIELDS.iter().zip(fields) {
        if *quoted != now {
            differences.push(format!("{name}: {quoted} in the quotation, {now} now"));
        }
    }
    if quotation.said.plan != said.plan {
        differences.push(format!("the plan: now {:?}", said.plan));
    }
    differences
}

fn from_plan_check(quotation: &Quotation) -> Option<String> {
    if quotation.said.fields[1] == 0 {
        return None;
    }
    let checked = proved::plan_check(&quotation.model, &quotation.said.plan);
    let (answer, cost, low) = checked;
    let fields = &quotation.said.fields;
    let due = (0, fields[2], fields[8]);
    let name = if answer == 0 {
        "a plan"
    } else {
        refusal_name(answer)
    };
    (checked != due).then(|| {
        format!(
            "the plan check: answer {answer}, {name}, cost {cost}, low {low}; {} and {} in the quotation",
            due.1, due.2
        )
    })
}

/// Says what changed from one quotation to another.
pub fn compare(arguments: &[OsString], input: &mut dyn Read) -> Result<Done, Complaint> {
    let arguments = Arguments::read_files(arguments, &[], &[], 2)?;
    let [old, new] = arguments.files() else {
        return Err(Complaint::new("two quotations are due"));
    };
    let (old, new) = (quoted(Some(old), input)?, quoted(Some(new), input)?);
    let told = changes(&old, &new);
    let mut text: String = told.iter().map(|line| format!("{line}\n")).collect();
    if told.is_empty() {
        text = "Nothing changed: the same model, settings, mark, cost, bound, order and counts.\n"
            .to_string();
    }
    Ok(Done::new(text.into_bytes(), ANSWERED))
}
