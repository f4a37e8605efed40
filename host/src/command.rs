//! The command line `repgypsum`: planning, checking, translating, explaining and measuring.

mod arguments;
mod bench;
mod check;
mod declarations;
mod explain;
mod help;
mod input;
mod interrupt;
mod json;
mod known;
mod long_runs;
mod markup;
pub mod monthly;
mod part;
mod plan;
mod profile;
mod quotations;
mod refusals;
mod settings;
mod target;
pub mod theorems;
mod translate;
mod unconditional;
mod warnings;
mod why;
mod widths;
pub mod words;

use std::ffi::OsString;
use std::io::Read;

/// Exit statuses: an answer, a refusal, and what cannot be done at all.
pub const ANSWERED: u8 = 0;
pub const REFUSED: u8 = 1;
pub const CANNOT: u8 = 2;

/// What a command leaves: its standard output, what is said on standard error behind it, and its exit status.
#[derive(Debug)]
pub struct Done {
    pub output: Vec<u8>,
    pub notes: Vec<String>,
    pub status: u8,
}

impl Done {
    pub fn new(output: Vec<u8>, status: u8) -> Done {
        let notes = Vec::new();
        Done {
            output,
            notes,
            status,
        }
    }

    /// The same with a line on standard error behind it.
    pub fn note(mut self, note: Option<String>) -> Done {
        self.notes.extend(note);
        self
    }

    /// The same, where something asked for beside the output could not be done.
    pub fn failed(mut self, wrong: Option<String>) -> Done {
        if wrong.is_some() {
            self.status = self.status.max(CANNOT);
        }
        self.note(wrong)
    }
}

/// What is said on standard error in place of an output, and the exit status.
#[derive(Debug)]
pub struct Complaint {
    pub message: String,
    pub status: u8,
    /// Whether the message is lines of its own, each with the place it speaks of.
    report: bool,
}

impl Complaint {
    /// Bad usage, a file that cannot be read or written.
    pub fn new(message: impl Into<String>) -> Complaint {
        Complaint {
            message: message.into(),
            status: CANNOT,
            report: false,
        }
    }

    /// What is wrong with a text, place by place.
    pub fn report(report: String) -> Complaint {
        Complaint {
            message: report,
            status: CANNOT,
            report: true,
        }
    }

    /// What is written on standard error.
    pub fn text(&self) -> String {
        if self.report {
            self.message.clone()
        } else {
            format!("repgypsum: {}\n", self.message)
        }
    }
}

/// Does what the arguments ask, which stand behind the program's name.
pub fn run(arguments: &[OsString], input: &mut dyn Read) -> Result<Done, Complaint> {
    let Some((command, rest)) = arguments.split_first() else {
        return Err(Complaint::new(help::NO_COMMAND));
    };
    let run = match command.to_str() {
        Some("plan") => plan::run,
        Some("check") => check::run,
        Some("verify") => quotations::verify,
        Some("compare") => quotations::compare,
        Some("assemble") => translate::assemble,
        Some("expand") => translate::expand,
        Some("disassemble") => translate::disassemble,
        Some("explain") => explain::run,
        Some("declarations") => declarations::run,
        Some("monthly") => monthly::run,
        Some("figures") => monthly::figures,
        Some("bench") => bench::run,
        Some("help" | "--help" | "-h") => help::page,
        Some("--version") => help::version,
        _ => {
            let name = command.to_string_lossy();
            let message = format!("`{name}` is no command; `repgypsum help` lists them");
            return Err(Complaint::new(message));
        }
    };
    if arguments::asks_help(rest) {
        return help::page(&[], input);
    }
    run(rest, input)
}
