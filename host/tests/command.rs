//! The command line, by the built program: every command, every exit status, damaged input.

#[path = "command/chart.rs"]
mod chart;
#[path = "command/check.rs"]
mod check;
#[path = "command/damage.rs"]
mod damage;
#[path = "command/declarations.rs"]
mod declarations;
#[path = "command/explain.rs"]
mod explain;
#[path = "command/fuzz.rs"]
mod fuzz;
#[path = "command/json.rs"]
mod json;
#[path = "command/json_text.rs"]
mod json_text;
#[path = "command/loading.rs"]
mod loading;
#[path = "command/long_runs.rs"]
mod long_runs;
#[path = "command/markup.rs"]
mod markup;
#[path = "command/monthly.rs"]
mod monthly;
#[path = "command/page.rs"]
mod page;
#[path = "command/plan.rs"]
mod plan;
#[path = "command/quotation_texts.rs"]
mod quotation_texts;
#[path = "command/quotations.rs"]
mod quotations;
#[path = "command/ranges.rs"]
mod ranges;
#[path = "command/refusals.rs"]
mod refusals;
#[path = "command/translate.rs"]
mod translate;
#[path = "command/usage.rs"]
mod usage;
#[path = "command/widths.rs"]
mod widths;

use repgypsum_host::beam::{joined, Beam};
use std::io::Write;
use std::path::{Path, PathBuf};
use std::process::{Command, Stdio};

/// What a run of the program leaves.
struct Left {
    status: i32,
    output: Vec<u8>,
    errors: String,
}

impl Left {
    fn text(&self) -> String {
        String::from_utf8(self.output.clone()).expect("the output is text")
    }

    /// An output and nothing on standard error.
    fn is(&self, status: i32, output: &str) {
        let left = (self.status, self.text(), self.errors.as_str());
        assert_eq!(left, (status, output.to_string(), ""));
    }

    /// No output, and one line on standard error that holds these words.
    fn complains(&self, status: i32, words: &str) {
        assert_eq!(self.status, status, "{}", self.errors);
        assert!(self.output.is_empty(), "{}", self.text());
        assert!(self.errors.starts_with("repgypsum: "), "{}", self.errors);
        assert_eq!(self.errors.matches('\n').count(), 1, "{}", self.errors);
        assert!(self.errors.contains(words), "{words}: {}", self.errors);
    }
}

impl Left {
    /// An output, and nothing but notes on standard error.
    fn gives(&self, status: i32, output: &str) {
        assert_eq!((self.status, self.text().as_str()), (status, output));
        self.only_notes();
    }

    /// Standard error has whole lines of notes, or nothing.
    fn only_notes(&self) {
        let note = |line: &str| line.starts_with("repgypsum: ");
        assert!(self.errors.lines().all(note), "{}", self.errors);
        assert!(self.errors.is_empty() || self.errors.ends_with('\n'));
    }

    /// No output, and errors of a text on standard error: the first is at this place, each with its line and a caret.
    fn reports(&self, place: &str) {
        assert_eq!(self.status, 2, "{}", self.errors);
        assert!(self.output.is_empty(), "{}", self.text());
        assert!(self.errors.starts_with(place), "{place}: {}", self.errors);
        let lines: Vec<&str> = self.errors.lines().collect();
        let told = lines.len() - lines.len() % 3;
        assert!((3..=30).contains(&told), "{}", self.errors);
        for error in lines[..told].chunks(3) {
            assert_eq!(error[2].trim_start(), "^", "{}", self.errors);
        }
    }
}

/// Runs the program with these arguments, behind them `input` on its standard input.
fn run_with(arguments: &[&str], input: &[u8]) -> Left {
    let mut command = Command::new(env!("CARGO_BIN_EXE_repgypsum"));
    let piped = command
        .args(arguments)
        .stdin(Stdio::piped())
        .stdout(Stdio::piped())
        .stderr(Stdio::piped());
    let mut child = piped.spawn().expect("the program starts");
    let mut pipe = child.stdin.take().expect("its input is a pipe");
    let input = input.to_vec();
    // The program may end before it has read all.
    let writer = std::thread::spawn(move || drop(pipe.write_all(&input)));
    let left = child.wait_with_output().expect("the program ends");
    writer.join().expect("the writer ends");
    Left {
        status: left.status.code().expect("the program is not killed"),
        output: left.stdout,
        errors: String::from_utf8(left.stderr).expect("messages are text"),
    }
}

fn run(arguments: &[&str]) -> Left {
    run_with(arguments, &[])
}

fn repository() -> PathBuf {
    Path::new(env!("CARGO_MANIFEST_DIR")).join("..")
}

/// The path of an example's file.
fn example(name: &str) -> String {
    let path = repository().join("examples").join(name);
    path.to_str().expect("a path in plain text").to_string()
}

/// A file of the tests' own with this content, and its path.
fn file(name: &str, content: &[u8]) -> String {
    let folder = Path::new(env!("CARGO_TARGET_TMPDIR")).join("command");
    std::fs::create_dir_all(&folder).expect("a folder for the tests");
    let path = folder.join(name);
    std::fs::write(&path, content).expect("a file for the tests");
    path.to_str().expect("a path in plain text").to_string()
}

/// The option that gives a widest beam or a list of widths.
fn beam_option(beam: &Beam) -> String {
    match beam {
        Beam::UpTo(width) => format!("--width={width}"),
        Beam::Listed(widths) => format!("--widths={}", joined(widths, ",")),
    }
}

/// The names of the examples.
const EXAMPLES: [&str; 8] = [
    "assembly-line",
    "loading-order",
    "open-stacks",
    "reload-hours",
    "sop",
    "tardiness",
    "three-designs",
    "tsptw",
];

/// The text of the three designs, with one part replaced.
fn designs_with(old: &str, new: &str) -> String {
    let text = std::fs::read_to_string(example("three-designs.dp")).expect("an example");
    assert_eq!(text.matches(old).count(), 1, "{old}");
    text.replace(old, new)
}

/// The text of the three designs with commands behind its base case.
fn designs_and(more: &str) -> String {
    designs_with("when empty(todo)", &format!("when empty(todo)\n{more}"))
}
