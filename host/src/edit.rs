//! Edits of text: a fault as one or more replacements in a file. The form is that of the crates' must-fail edits.
//!
//! A first line says what the fault is. A `file:` line names a file, and each pair of an `old:` and a `new:` line behind it is a
//! replacement there. A text begins behind one space and ends with its line; `new:` alone takes the old text out. Other lines say
//! nothing. Replacements are made in order, and each old text stands exactly once.

use std::collections::BTreeMap;
use std::fs;
use std::io;
use std::path::Path;

#[derive(Clone, PartialEq, Eq, Debug)]
pub struct Edit {
    pub sentence: String,
    pub replacements: Vec<Replacement>,
}

#[derive(Clone, PartialEq, Eq, Debug)]
pub struct Replacement {
    pub file: String,
    pub old: String,
    pub new: String,
}

/// The edits of a folder by name, each with its text.
pub fn edits(folder: &Path) -> io::Result<BTreeMap<String, String>> {
    let mut texts = BTreeMap::new();
    for entry in fs::read_dir(folder)? {
        let path = entry?.path();
        let name = path.file_stem().unwrap_or_default().to_string_lossy();
        texts.insert(name.into_owned(), fs::read_to_string(&path)?);
    }
    Ok(texts)
}

impl Edit {
    /// The edit that the text spells, or what is wrong with it.
    pub fn read(text: &str) -> Result<Edit, String> {
        let sentence = text.lines().next().unwrap_or_default().to_string();
        let mut replacements = Vec::new();
        let (mut file, mut old) = (None, None);
        for line in text.lines() {
            if let Some(name) = line.strip_prefix("file: ") {
                file = Some(name.to_string());
            } else if let Some(text) = line.strip_prefix("old: ") {
                old = Some(text.to_string());
            } else if let Some(text) = line.strip_prefix("new:") {
                let (Some(file), Some(old)) = (file.clone(), old.take()) else {
                    return Err("a new: line has no file: or no old: line above it".to_string());
                };
                let new = text.strip_prefix(' ').unwrap_or(text).to_string();
                replacements.push(Replacement { file, old, new });
            }
        }
        if replacements.is_empty() || old.is_some() {
            return Err("an edit has pairs of old: and new: lines".to_string());
        }
        Ok(Edit {
            sentence,
            replacements,
        })
    }

    /// The files below a folder that the edit changes, with their texts afterwards; or what keeps it from being made.
    pub fn made(&self, folder: &Path) -> Result<BTreeMap<String, String>, String> {
        let mut texts = BTreeMap::new();
        for Replacement { file, old, new } in &self.replacements {
            let before = match texts.remove(file) {
                Some(before) => before,
                None => fs::read_to_string(folder.join(file))
                    .map_err(|error| format!("{file} cannot be read: {error}"))?,
            };
            let found = before.matches(old.as_str()).count();
            if old.is_empty() || found != 1 {
                return Err(format!("an old text stands {found} times in {file}"));
            }
            texts.insert(file.clone(), before.replace(old.as_str(), new));
        }
        Ok(texts)
    }
}
