//! The files that a text is made of: the text itself, what it includes, and the tables that it reads.

use super::place::{Error, Place};
use std::io::{self, Read};
use std::path::{Path, PathBuf};

/// The longest text, and the most that all files of a model have together, in bytes.
pub const LONGEST_TEXT: usize = 16 << 20;

/// The most files that a model is made of.
const MOST_FILES: usize = 200;

/// The most errors that are told in one go.
const MOST_TOLD: usize = 10;

/// The longest part of a source line that is shown.
const SHOWN: usize = 100;

/// A file's content with what messages call it, and the folder that names in it start from.
struct Source {
    title: String,
    folder: Option<PathBuf>,
    text: String,
}

/// The files read so far, numbered from 0, which is the text itself.
pub struct Sources {
    files: Vec<Source>,
    bytes: usize,
}

/// The bytes as text, or the place of the first that is none.
fn decoded(file: usize, bytes: Vec<u8>) -> Result<String, Error> {
    String::from_utf8(bytes).map_err(|error| {
        let valid = error.utf8_error().valid_up_to();
        let before = String::from_utf8_lossy(&error.as_bytes()[..valid]).into_owned();
        let line = before.matches('\n').count() + 1;
        let start = before.rfind('\n').map_or(0, |end| end + 1);
        let column = before[start..].chars().count() + 1;
        let place = Place { file, line, column };
        Error::new(place, "the text is not UTF-8 from here on")
    })
}

impl Sources {
    /// A text alone, which can read no other files.
    pub fn of_text(text: &str) -> Sources {
        let text = text.to_string();
        let (title, folder) = ("text".to_string(), None);
        Sources {
            bytes: text.len(),
            files: vec![Source {
                title,
                folder,
                text,
            }],
        }
    }

    /// A text with its title; names of other files in it start from the folder.
    pub fn of_bytes(title: String, folder: &Path, bytes: Vec<u8>) -> (Sources, Result<(), Error>) {
        let length = bytes.len();
        let shown = String::from_utf8_lossy(&bytes).into_owned();
        let (text, read) = match decoded(0, bytes) {
            Ok(text) => (text, Ok(())),
            Err(error) => (shown, Err(error)),
        };
        let folder = Some(folder.to_path_buf());
        let files = vec![Source {
            title,
            folder,
            text,
        }];
        let bytes = length;
        (Sources { files, bytes }, read)
    }

    pub fn text(&self, file: usize) -> &str {
        &self.files[file].text
    }

    /// The title and the text of every file, in the order in which they are named.
    pub fn contents(&self) -> Vec<(String, String)> {
        let content = |file: &Source| (file.title.clone(), file.text.clone());
        self.files.iter().map(content).collect()
    }

    /// Reads the file that is named at this place, and gives its number.
    pub fn read(&mut self, at: Place, name: &str) -> Result<usize, Error> {
        let Some(folder) = &self.files[at.file].folder else {
            return Err(Error::new(at, "no files can be read from here"));
        };
        if self.files.len() >= MOST_FILES {
            let message = format!("a model is made of at most {MOST_FILES} files");
            return Err(Error::new(at, message));
        }
        let path = folder.join(name);
        let title = path.display().to_string();
        if let Some(known) = self.files.iter().position(|file| file.title == title) {
            return Ok(known);
        }
        let bytes = self.bytes_of(&path);
        let bytes =
            bytes.map_err(|error| Error::new(at, format!("{title}: cannot be read: {error}")))?;
        let Some(bytes) = bytes else {
            let message = format!("the files of a model have at most {LONGEST_TEXT} bytes");
            return Err(Error::new(at, message));
        };
        self.bytes += bytes.len();
        let file = self.files.len();
        let text = String::from_utf8_lossy(&bytes).into_owned();
        let parent = path.parent().map(Path::to_path_buf);
        self.files.push(Source {
            title,
            folder: parent,
            text,
        });
        decoded(file, bytes)?;
        Ok(file)
    }

    /// The file's content, unless there is too much of it.
    fn bytes_of(&self, path: &Path) -> io::Result<Option<Vec<u8>>> {
        let room = LONGEST_TEXT.saturating_sub(self.bytes);
        let mut bytes = Vec::new();
        let file = std::fs::File::open(path)?;
        file.take(room as u64 + 1).read_to_end(&mut bytes)?;
        Ok((bytes.len() <= room).then_some(bytes))
    }

    /// The errors, each as `file:line:column: message` with the source line and a caret; at most ten.
    pub fn report(&self, errors: &[Error]) -> String {
        let mut report = String::new();
        for error in errors.iter().take(MOST_TOLD) {
            let Place { file, line, column } = error.place;
            let source = &self.files[file];
            let title = &source.title;
            report += &format!("{title}:{line}:{column}: {}\n", error.message);
            let text = source.text.lines().nth(line - 1).unwrap_or("");
            let (shown, before) = excerpt(text, column - 1);
            report += &format!("    {shown}\n    {}^\n", " ".repeat(before));
        }
        if errors.len() > MOST_TOLD {
            let more = errors.len() - MOST_TOLD;
            report += &format!("and {more} more\n");
        }
        report
    }
}

/// A part of the line around the column, and how many characters of it stand before that column.
fn excerpt(line: &str, column: usize) -> (String, usize) {
    let from = column.saturating_sub(SHOWN * 3 / 4);
    let part = line.chars().skip(from).take(SHOWN);
    let shown: String = part
        .map(|letter| if letter.is_control() { ' ' } else { letter })
        .collect();
    (shown.trim_end().to_string(), column - from)
}
