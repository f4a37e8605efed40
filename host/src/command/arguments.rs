//! The arguments behind a command: options with values, flags, and files.

use super::Complaint;
use std::ffi::{OsStr, OsString};
use std::os::unix::ffi::OsStrExt;

/// Arguments by option. An option is written `--width 16` or `--width=16`; behind `--` there are files only.
#[derive(Default)]
pub struct Arguments {
    files: Vec<OsString>,
    values: Vec<(&'static str, OsString)>,
    flags: Vec<&'static str>,
}

/// Whether the page of help is asked for.
pub fn asks_help(arguments: &[OsString]) -> bool {
    let mut options = arguments.iter().take_while(|argument| *argument != "--");
    options.any(|argument| argument == "--help" || argument == "-h")
}

/// An option's name and the value written in the same argument, which may be any bytes; nothing if it is a file.
fn option(argument: &OsStr) -> Option<(String, Option<OsString>)> {
    let bytes = argument.as_bytes();
    if !bytes.starts_with(b"-") || bytes == b"-" {
        return None;
    }
    let name = |bytes: &[u8]| String::from_utf8_lossy(bytes).into_owned();
    match bytes.iter().position(|byte| *byte == b'=') {
        Some(end) => {
            let value = OsStr::from_bytes(&bytes[end + 1..]).to_owned();
            Some((name(&bytes[..end]), Some(value)))
        }
        None => Some((name(bytes), None)),
    }
}

impl Arguments {
    /// Reads the arguments of a command that has these options with a value and these flags, and one file.
    pub fn read(
        arguments: &[OsString],
        valued: &[&'static str],
        flags: &[&'static str],
    ) -> Result<Arguments, Complaint> {
        Arguments::read_files(arguments, valued, flags, 1)
    }

    /// The same with as many files.
    pub fn read_files(
        arguments: &[OsString],
        valued: &[&'static str],
        flags: &[&'static str],
        most: usize,
    ) -> Result<Arguments, Complaint> {
        let mut read = Arguments::default();
        let mut rest = arguments.iter();
        while let Some(argument) = rest.next() {
            if argument == "--" {
                for file in rest.by_ref() {
                    read.put_file(file, most)?;
                }
                break;
            }
            let Some((name, value)) = option(argument) else {
                read.put_file(argument, most)?;
                continue;
            };
            if let Some(name) = valued.iter().find(|known| **known == name) {
                let value = value.or_else(|| rest.next().cloned());
                read.put_value(name, value)?;
            } else if let Some(name) = flags.iter().find(|known| **known == name) {
                read.put_flag(name, value.is_some())?;
            } else {
                return Err(Complaint::new(format!("`{name}` is no option here")));
            }
        }
        Ok(read)
    }

    /// For what takes no arguments at all.
    pub fn none(arguments: &[OsString]) -> Result<(), Complaint> {
        match Arguments::read(arguments, &[], &[])?.file() {
            None => Ok(()),
            Some(file) => Err(Complaint::new(format!(
                "`{}` is one argument too many",
                file.to_string_lossy()
            ))),
        }
    }

    fn put_file(&mut self, file: &OsStr, most: usize) -> Result<(), Complaint> {
        if self.files.len() < most {
            self.files.push(file.to_owned());
            return Ok(());
        }
        let name = file.to_string_lossy();
        Err(Complaint::new(match most {
            1 => format!("`{name}` is a second file; one is read"),
            _ => format!("`{name}` is one file more than the {most} that are read"),
        }))
    }

    /// The first file, if one is given.
    pub fn file(&self) -> Option<&OsStr> {
        self.files.first().map(OsString::as_os_str)
    }

    pub fn files(&self) -> &[OsString] {
        &self.files
    }

    fn put_value(&mut self, name: &'static str, value: Option<OsString>) -> Result<(), Complaint> {
        let Some(value) = value else {
            return Err(Complaint::new(format!("a value is due behind {name}")));
        };
        if self.value(name).is_some() {
            return Err(Complaint::new(format!("{name} is given twice")));
        }
        self.values.push((name, value));
        Ok(())
    }

    fn put_flag(&mut self, name: &'static str, valued: bool) -> Result<(), Complaint> {
        if valued {
            return Err(Complaint::new(format!("{name} takes no value")));
        }
        self.flags.push(name);
        Ok(())
    }

    /// The value of an option, if it is given.
    pub fn value(&self, name: &str) -> Option<&OsStr> {
        let mut values = self.values.iter();
        let found = values.find(|(given, _)| *given == name);
        found.map(|(_, value)| value.as_os_str())
    }

    pub fn flag(&self, name: &str) -> bool {
        self.flags.contains(&name)
    }

    /// The number given with an option, from 0 to `most`.
    pub fn number(&self, name: &str, most: u32) -> Result<Option<u32>, Complaint> {
        let Some(value) = self.value(name) else {
            return Ok(None);
        };
        let value = value.to_string_lossy();
        match decimal(&value, most) {
            Some(number) => Ok(Some(number)),
            None => Err(Complaint::new(format!(
                "{name}: `{value}` is no number from 0 to {most}"
            ))),
        }
    }
}

/// The number that digits alone spell, if it is at most `most`.
pub fn decimal(text: &str, most: u32) -> Option<u32> {
    let digits = text.bytes().all(|byte| byte.is_ascii_digit());
    let number: u32 = text.parse().ok()?;
    (digits && number <= most).then_some(number)
}
