//! Pieces of the page: headings, sentences with links to theorems, tables and listings.

use crate::command::markup::{escaped, escaped_lines};
use crate::command::part::Part;
use crate::command::theorems::{cited, Theorem};

pub fn heading(text: &str) -> String {
    format!("<h2>{}</h2>\n", escaped(text))
}

pub fn smaller_heading(text: &str) -> String {
    format!("<h3>{}</h3>\n", escaped(text))
}

/// The text with what stands between backticks as code, and every theorem that it cites as a link to the table of theorems.
fn linked(text: &str) -> String {
    let mut html = String::new();
    for (place, piece) in escaped(text).split('`').enumerate() {
        html += &match place % 2 {
            0 => piece.to_string(),
            _ => format!("<code>{piece}</code>"),
        };
    }
    for Theorem { name, .. } in cited(text) {
        let link = format!("[<a class=\"theorem\" href=\"#{name}\">{name}</a>]");
        html = html.replace(&format!("[{name}]"), &link);
    }
    html
}

pub fn paragraph(text: &str) -> String {
    format!("<p>{}</p>\n", linked(text))
}

/// Sentences as paragraphs, items as a list.
fn sentences(part: &Part) -> String {
    let mut html = String::new();
    let mut listed = false;
    for sentence in part.sentences() {
        if sentence.item != listed {
            html += if sentence.item { "<ul>\n" } else { "</ul>\n" };
            listed = sentence.item;
        }
        html += &match sentence.item {
            true => format!("<li>{}</li>\n", linked(&sentence.text)),
            false => paragraph(&sentence.text),
        };
    }
    html + if listed { "</ul>\n" } else { "" }
}

/// A part with its heading and sentences; rows are left to a table.
pub fn part(part: &Part) -> String {
    smaller_heading(part.heading()) + &sentences(part)
}

pub fn listing(text: &str) -> String {
    format!("<pre>{}</pre>\n", escaped_lines(text))
}

/// How a column of a table is set.
#[derive(Clone, Copy, PartialEq, Eq)]
pub enum Column {
    Words,
    Numbers,
    Code,
}

impl Column {
    fn class(self) -> &'static str {
        match self {
            Column::Words => "",
            Column::Numbers => " class=\"number\"",
            Column::Code => " class=\"code\"",
        }
    }

    /// A cell's content; code may be broken behind a slash.
    fn cell(self, text: &str) -> String {
        let text = escaped(text);
        match self {
            Column::Code => text.replace('/', "/<wbr/>"),
            _ => text,
        }
    }
}

/// A table of columns with headings. Rows have an anchor each, if one is given.
pub fn table<Row: AsRef<[String]>>(
    columns: &[(&str, Column)],
    rows: &[Row],
    anchor: impl Fn(&Row) -> Option<String>,
) -> String {
    let head: String = columns
        .iter()
        .map(|(name, column)| format!("<th{}>{}</th>", column.class(), escaped(name)))
        .collect();
    let line = |row: &Row| {
        let id = anchor(row).map(|id| format!(" id=\"{}\"", escaped(&id)));
        let cells = row.as_ref().iter().zip(columns);
        let cells: String = cells
            .map(|(text, (_, column))| format!("<td{}>{}</td>", column.class(), column.cell(text)))
            .collect();
        format!("<tr{}>{cells}</tr>\n", id.unwrap_or_default())
    };
    let body: String = rows.iter().map(line).collect();
    format!(
        "<div class=\"scroll\"><table>\n<thead><tr>{head}</tr></thead>\n<tbody>\n{body}</tbody>\n</table></div>\n"
    )
}
