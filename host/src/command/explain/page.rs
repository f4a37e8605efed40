//! The auditor's page: one file of HTML with nothing beside it, for the screen and for paper.

mod again;
mod pieces;

use super::walk::{headings, rows, OUTSIDE};
use super::{ended, given, made_file, Explained};
use crate::command::declarations::tested;
use crate::command::markup::escaped;
use crate::command::part::Part;
use crate::command::target;
use crate::command::theorems::{cited, Theorem, THEOREMS};
use crate::command::words::{capital, refusal_name, verdict_name};
use crate::numbers::verdict;
use crate::quotation::{KIT, VERSION};
use crate::text::disassemble;
use pieces::{heading, listing, paragraph, part, smaller_heading, table, Column};

const STYLE: &str = include_str!("page/style.css");

/// What is said of the theorems, and of what stands outside them.
const ABOUT_THEOREMS: &str = "They speak of every model and every setting, and rest on no test. docs/AUDIT.md of the repository says which contract of the compiled search goes with each, what has to be believed, and what is assumed.";
const OUTSIDE_PROOFS: &str = "This page stands outside the proofs, and so do the text form of models, the costs and states of single steps, the declarations' test and the chart. They are tested.";

/// The page of a run.
pub fn html(explained: &Explained) -> String {
    let known = explained.known;
    let declarations = known.map(|known| tested(explained.source, known));
    let declarations = declarations.unwrap_or_default();
    let sections = [
        verdict(explained),
        stands_on(explained),
        theorems(explained.parts.iter().chain(&declarations)),
        tested_declarations(&declarations),
        plan(explained),
        model(explained),
        again::html(explained),
    ];
    format!(
        "{}\n<html lang=\"en\">\n<head>\n<meta charset=\"utf-8\"/>\n\
         <meta name=\"viewport\" content=\"width=device-width, initial-scale=1\"/>\n\
         <title>{}</title>\n<style>\n{STYLE}</style>\n</head>\n<body>\n{}</body>\n</html>\n",
        made_file::PAGE.beginning,
        escaped(&explained.heading()),
        sections.concat()
    )
}

/// A heading, the verdict in a box, and the settings.
fn verdict(explained: &Explained) -> String {
    let run = explained.run();
    let number = run.answer.verdict;
    let name = capital(verdict_name(number));
    let (kind, name, more) = match (run.answer.refused, number) {
        (true, _) => {
            let name = format!("Refused: {}", refusal_name(number));
            ("refused", name, ended(run))
        }
        (_, verdict::CHEAPEST | verdict::NO_PLAN) => ("sure", name, given(run)),
        (_, verdict::CONTRADICTED) => ("false", name, given(run)),
        _ => {
            let name = format!("Stopped: {}", verdict_name(number));
            ("open", name, given(run))
        }
    };
    let lines = explained.head().into_iter().enumerate();
    let lines = lines.filter(|(place, _)| *place != super::ENDED);
    let lines: String = lines.map(|(_, line)| paragraph(&line)).collect();
    format!(
        "<h1>{}</h1>\n<p class=\"made\">repgypsum {}, proved with {}</p>\n\
         <div class=\"verdict {kind}\"><strong>{}</strong>\n{}{}</div>\n{lines}",
        escaped(&explained.heading()),
        escaped(VERSION),
        escaped(KIT.trim()),
        escaped(&name),
        paragraph(&more),
        supposing(explained).map_or(String::new(), paragraph)
    )
}

/// Whether the mark rests on declarations, in a sentence; nothing for a refusal and for a contradiction.
fn supposing(explained: &Explained) -> Option<&'static str> {
    let (known, run) = (explained.known?, explained.run());
    if run.answer.refused || run.answer.verdict == verdict::CONTRADICTED {
        return None;
    }
    match known.declares() && !target::decides(known, run) {
        true => Some("The mark supposes that what the model declares is true; what was seen of that stands below."),
        false => Some("The mark rests on no declaration."),
    }
}

/// All that is said of the answer, but for the table of steps.
fn stands_on(explained: &Explained) -> String {
    let parts = explained.parts.iter();
    let parts = parts.filter(|part| part.rows.is_empty()).map(part);
    heading("What the answer stands on") + &parts.collect::<String>()
}

/// The theorems that are cited in these parts, and what stands outside them.
fn theorems<'a>(parts: impl Iterator<Item = &'a Part>) -> String {
    let sentences = parts.flat_map(|part| part.sentences());
    let named: Vec<&str> = sentences
        .flat_map(|sentence| cited(&sentence.text))
        .map(|theorem| theorem.name)
        .collect();
    let cited = THEOREMS.iter().filter(|one| named.contains(&one.name));
    let row = |theorem: &Theorem| [theorem.name, theorem.says, theorem.file].map(str::to_string);
    let rows: Vec<[String; 3]> = cited.map(row).collect();
    let mut html = heading("What the theorems say");
    if rows.is_empty() {
        html += &paragraph("Nothing here rests on a theorem.");
    } else {
        let columns = [
            ("theorem", Column::Code),
            ("it says", Column::Words),
            ("it stands in", Column::Code),
        ];
        html += &table(&columns, &rows, |row| Some(row[0].clone()));
        html += &paragraph(ABOUT_THEOREMS);
    }
    html + &paragraph(OUTSIDE_PROOFS)
}

/// The test of the bounds and preferences, as `repgypsum declarations` makes it; nothing where the model is refused.
fn tested_declarations(parts: &[Part]) -> String {
    if parts.is_empty() {
        return String::new();
    }
    heading("The declarations, tested") + &parts.iter().map(part).collect::<String>()
}

/// The chart and the table of steps.
fn plan(explained: &Explained) -> String {
    let (Some(known), Some(stages)) = (explained.known, &explained.stages) else {
        return String::new();
    };
    let answer = &explained.run().answer;
    let mut html = heading(match answer.refused {
        true => "The path to the refusal",
        false => "The plan",
    });
    if !answer.flag && !answer.refused {
        return html + &paragraph("No plan is given.");
    }
    if let Some(drawing) = explained.drawing() {
        html += &format!("<figure class=\"scroll\">\n{drawing}</figure>\n");
    }
    let kind = |numbers| match numbers {
        true => Column::Numbers,
        false => Column::Words,
    };
    let columns: Vec<(&str, Column)> = headings(known)
        .into_iter()
        .map(|(name, numbers)| (name, kind(numbers)))
        .collect();
    html += &table(&columns, &rows(known, stages), |_| None);
    html + &paragraph(OUTSIDE)
}

/// The files of the model's text, or the text of its bytes.
fn model(explained: &Explained) -> String {
    let source = explained.source;
    let mut html = heading("The model");
    if source.files.is_empty() {
        return match disassemble(&source.model) {
            Ok(text) => {
                html +=
                    &paragraph("The bytes were given; this text stands for them, without names.");
                html + &listing(&text)
            }
            Err(_) => html + &paragraph("These bytes are no model."),
        };
    }
    for (title, text) in &source.files {
        html += &smaller_heading(title);
        html += &listing(text);
    }
    html
}
