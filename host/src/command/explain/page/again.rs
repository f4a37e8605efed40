//! The quotation on the page, and how to see the same again.

use super::pieces::{heading, listing, paragraph};
use crate::beam::Beam;
use crate::command::explain::Explained;
use crate::command::markup::{escaped, percent_encoded};
use crate::command::quotations::quotation;
use crate::command::widths;
use crate::quotation::written;
use std::path::Path;

/// The quotation and the commands; of a refusal the command alone.
pub fn html(explained: &Explained) -> String {
    let finished = explained.finished;
    let settings = &finished.settings;
    let title = word(&explained.source.title);
    let length = match settings.loading {
        true => "--loading".to_string(),
        false => format!("--length {}", settings.length),
    };
    let width = match &settings.beam {
        Beam::UpTo(width) => format!("--width {width}"),
        Beam::Listed(list) => format!("--widths {}", word(&widths::option(list))),
    };
    let plan = format!(
        "repgypsum plan {width} {length} --budget {} {title}",
        settings.budget
    );
    let Some(quotation) = quotation(explained.source, settings, &finished.run) else {
        return heading("How to run it again")
            + &commands(&[("The same refusal, from the model:", &plan)]);
    };
    let text = written(&quotation);
    let stem = Path::new(&explained.source.title).file_stem();
    let stem = stem.map_or("model".into(), |name| name.to_string_lossy());
    let file = format!("{stem}.quote");
    let verify = format!("repgypsum verify {}", word(&file));
    let with_model = format!("{verify} {title}");
    heading("The quotation")
        + &paragraph("The settings, the line, the steps and the bytes of the model: all that a second run needs.")
        + &format!(
            "<p class=\"download\"><a download=\"{name}\" href=\"data:text/plain;charset=utf-8,{}\">Save it as {name}</a></p>\n",
            percent_encoded(&text),
            name = escaped(&file),
        )
        + &listing(&text)
        + &heading("How to run it again")
        + &commands(&[
            ("Search and plan check again, every count compared with the quotation:", &verify),
            ("The same, and whether the model on the desk is still the quoted one:", &with_model),
            ("The line alone, from the model:", &plan),
            (
                "The proofs, in the repository: the library with its contracts, then everything:",
                "(cd crates/repgypsum && rt check)\n.ci/run",
            ),
        ])
}

fn commands(lines: &[(&str, &str)]) -> String {
    let line = |(what, command): &(&str, &str)| paragraph(what) + &listing(command);
    lines.iter().map(line).collect()
}

/// The text as one word of a shell's line.
fn word(text: &str) -> String {
    let plain = |letter: char| letter.is_ascii_alphanumeric() || "/._-+=:,@%".contains(letter);
    match !text.is_empty() && !text.starts_with('-') && text.chars().all(plain) {
        true => text.to_string(),
        false => format!("'{}'", text.replace('\'', "'\\''")),
    }
}
