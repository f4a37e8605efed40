//! Parts of what is said: a heading, rows of a table, and sentences.

/// A heading with rows and sentences under it.
pub struct Part {
    heading: String,
    /// Rows of a table, with their columns already in line.
    pub rows: Vec<String>,
    pub lines: Vec<String>,
}

/// A sentence in one piece; an item belongs to the sentence before it.
pub struct Sentence {
    pub text: String,
    pub item: bool,
}

impl Part {
    pub fn new(heading: impl Into<String>) -> Part {
        Part {
            heading: heading.into(),
            rows: Vec::new(),
            lines: Vec::new(),
        }
    }

    pub fn say(&mut self, line: impl Into<String>) {
        self.lines.push(line.into());
    }

    pub fn heading(&self) -> &str {
        &self.heading
    }

    /// The sentences: a line that begins with a small letter goes on with the one before it, an indented one is an item.
    pub fn sentences(&self) -> Vec<Sentence> {
        let mut sentences: Vec<Sentence> = Vec::new();
        for line in &self.lines {
            let goes_on = line.starts_with(|first: char| first.is_ascii_lowercase());
            match sentences.last_mut() {
                Some(last) if goes_on => last.text = format!("{} {line}", last.text),
                _ => sentences.push(Sentence {
                    text: line.trim().to_string(),
                    item: line.starts_with(' '),
                }),
            }
        }
        sentences
    }

    /// The part as text, its rows and sentences indented under the heading.
    pub fn text(&self) -> String {
        let lines = self.rows.iter().chain(&self.lines);
        let lines = lines.map(|line| format!("  {line}\n"));
        format!("\n{}\n{}", self.heading, lines.collect::<String>())
    }
}
