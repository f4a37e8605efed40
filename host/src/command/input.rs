//! Models from files and standard input.

use super::Complaint;
use crate::numbers::limit;
use crate::text::{assemble_sources, Listing, Names, Sources, LONGEST_TEXT};
use std::ffi::OsStr;
use std::fs::File;
use std::io::{self, Read};
use std::path::Path;

/// The ending of files with text models.
const TEXT_ENDING: &str = ".dp";

/// A model's bytes, what it is called, and of a text the files that it is made of, the names and the expressions as they are
/// written.
pub struct Source {
    pub title: String,
    pub model: Vec<u8>,
    /// Titles and contents, the text itself first.
    pub files: Vec<(String, String)>,
    pub names: Option<Names>,
    pub listing: Option<Listing>,
}

/// The file's path, if the input is a file.
fn path(file: Option<&OsStr>) -> Option<&Path> {
    file.filter(|name| *name != "-").map(Path::new)
}

/// What messages call the input.
pub fn title(file: Option<&OsStr>) -> String {
    match path(file) {
        Some(path) => path.display().to_string(),
        None => "standard input".to_string(),
    }
}

/// The first bytes of the input, at most one more than the limit.
pub fn first_bytes(
    file: Option<&OsStr>,
    input: &mut dyn Read,
    limit: usize,
) -> Result<Vec<u8>, Complaint> {
    let most = limit as u64 + 1;
    let read = |source: &mut dyn Read| -> io::Result<Vec<u8>> {
        let mut bytes = Vec::new();
        source.take(most).read_to_end(&mut bytes)?;
        Ok(bytes)
    };
    let bytes = match path(file) {
        Some(path) => File::open(path).and_then(|mut file| read(&mut file)),
        None => read(input),
    };
    bytes.map_err(|error| Complaint::new(format!("{}: cannot be read: {error}", title(file))))
}

/// The bytes of a model, at most one more than a model may have.
pub fn model_bytes(file: Option<&OsStr>, input: &mut dyn Read) -> Result<Vec<u8>, Complaint> {
    first_bytes(file, input, limit::MODEL_BYTES)
}

/// The model that a text describes, and the text without loops. Names of other files start from the text's folder.
pub fn text_model(
    file: Option<&OsStr>,
    input: &mut dyn Read,
) -> Result<(Source, String), Complaint> {
    let title = title(file);
    let bytes = first_bytes(file, input, LONGEST_TEXT)?;
    if bytes.len() > LONGEST_TEXT {
        let message = format!("{title}: the text has more than {LONGEST_TEXT} bytes");
        return Err(Complaint::new(message));
    }
    if bytes.first() == Some(&1) {
        let message = format!("{title}: these are the bytes of a model, where its text is due");
        return Err(Complaint::new(message));
    }
    let folder = path(file).and_then(Path::parent).unwrap_or(Path::new(""));
    let (mut sources, decoded) = Sources::of_bytes(title.clone(), folder, bytes);
    let assembled = match decoded {
        Ok(()) => assemble_sources(&mut sources),
        Err(error) => Err(vec![error]),
    };
    match assembled {
        Ok(assembled) => {
            let source = Source {
                title,
                model: assembled.bytes,
                files: sources.contents(),
                names: Some(assembled.names),
                listing: Some(assembled.listing),
            };
            Ok((source, assembled.plain))
        }
        Err(errors) => Err(Complaint::report(sources.report(&errors))),
    }
}

/// The model in the input: text in a file with the ending for text, else bytes.
pub fn source(file: Option<&OsStr>, input: &mut dyn Read) -> Result<Source, Complaint> {
    let ending = TEXT_ENDING.as_bytes();
    if file.is_some_and(|name| name.as_encoded_bytes().ends_with(ending)) {
        return text_model(file, input).map(|(source, _)| source);
    }
    Ok(Source {
        title: title(file),
        model: model_bytes(file, input)?,
        files: Vec::new(),
        names: None,
        listing: None,
    })
}

/// Whether the input is text and not the bytes of a model, which begin with 01.
pub fn looks_like_text(bytes: &[u8]) -> bool {
    let bytes = bytes.strip_prefix(b"\xEF\xBB\xBF").unwrap_or(bytes);
    let letters = bytes.iter().take(64);
    let readable =
        |byte: &u8| byte.is_ascii_graphic() || byte.is_ascii_whitespace() || *byte >= 128;
    bytes.len() > 4 && letters.clone().all(readable) && letters.clone().any(u8::is_ascii_alphabetic)
}
