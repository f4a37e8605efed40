//! Files that are made anew: written whole or not at all, in place of an older file of the same kind and of nothing else.

use crate::command::part::Part;
use std::ffi::{OsStr, OsString};
use std::fs::{self, File};
use std::io::{self, Read, Write};
use std::path::Path;

/// A kind of file, and what is said of it.
pub struct Kind {
    /// What one is called.
    pub noun: &'static str,
    /// How every one begins.
    pub beginning: &'static str,
    /// What is said where it is made, before the file's name, and where it is not.
    pub made: &'static str,
    pub not_made: &'static str,
}

pub const CHART: Kind = Kind {
    noun: "chart",
    beginning: "<svg xmlns=",
    made: "The plan is drawn in",
    not_made: "It is not drawn.",
};

pub const PAGE: Kind = Kind {
    noun: "page",
    beginning: "<!DOCTYPE html>\n<!-- repgypsum page, form 1 -->",
    made: "All of this, with the declarations' test, the model and the quotation, stands in",
    not_made: "It is not written.",
};

/// What stands at the path.
enum There {
    /// No file, or one without content.
    Nothing,
    /// One of the kind.
    Older,
    /// Something that is written through, such as a device.
    Device,
    Other,
}

impl Kind {
    fn there(&self, path: &Path) -> There {
        let Ok(found) = fs::metadata(path) else {
            return There::Nothing;
        };
        if found.is_dir() {
            return There::Other;
        }
        if !found.is_file() {
            return There::Device;
        }
        let beginning = self.beginning.as_bytes();
        let mut front = Vec::new();
        let length = beginning.len() as u64;
        let read = File::open(path).and_then(|file| file.take(length).read_to_end(&mut front));
        match read {
            Ok(_) if front == beginning => There::Older,
            Ok(0) => There::Nothing,
            _ => There::Other,
        }
    }

    /// Takes an older file of the kind away, and says so.
    fn remove(&self, path: &Path, part: &mut Part) {
        if matches!(self.there(path), There::Older) && fs::remove_file(path).is_ok() {
            let name = path.display();
            part.say(format!("The older {} in {name} is removed.", self.noun));
        }
    }

    /// Writes the content; without one an older file is taken away. Says what was done, and what could not be.
    pub fn put(&self, out: &OsStr, content: Option<String>) -> (Part, Option<String>) {
        let mut part = Part::new(format!("The {}", self.noun));
        let name = out.to_string_lossy();
        let path = Path::new(out);
        let Some(content) = content else {
            part.say("No plan is given, so none is drawn.");
            self.remove(path, &mut part);
            return (part, None);
        };
        if matches!(self.there(path), There::Other) {
            part.say(self.not_made);
            let wrong = format!(
                "{name}: cannot be written: it is there already, and is no {}",
                self.noun
            );
            return (part, Some(wrong));
        }
        match self.write(path, &content) {
            Ok(()) => {
                part.say(format!("{} {name}.", self.made));
                (part, None)
            }
            Err(error) => {
                part.say(self.not_made);
                self.remove(path, &mut part);
                (part, Some(format!("{name}: cannot be written: {error}")))
            }
        }
    }

    /// Through a file beside it that takes its name when it is whole.
    fn write(&self, path: &Path, content: &str) -> io::Result<()> {
        if matches!(self.there(path), There::Device) {
            return fs::write(path, content);
        }
        let mut name: OsString = path.as_os_str().to_owned();
        name.push(format!(".{}.part", std::process::id()));
        let beside = Path::new(&name);
        let file = File::options().write(true).create_new(true).open(beside);
        let put = |mut file: File| file.write_all(content.as_bytes());
        let written = file.and_then(put).and_then(|()| fs::rename(beside, path));
        if written.is_err() {
            // What is left of it is of no use.
            let _ = fs::remove_file(beside);
        }
        written
    }
}
