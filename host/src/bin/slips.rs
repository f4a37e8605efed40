//! Plants each slip of host/slips in a copy, and sees that the stored cases refuse it.
//!
//! A slip of host/slips/definitions is an edit of the definitions of crates/model and crates/search. It is refused when
//! crates/test_definitions is not proved any more. That needs `rt`, and takes some half a minute a slip.
//!
//! A slip of host/slips/reference is an edit of host/src/reference. It is refused when two stored cases or more are written with
//! another answer; with the line `enumeration: refuses` its answers must break a sentence of host/tests/enumeration.rs too. That needs
//! target/staticlib/librepgypsum.a, and takes some five seconds a slip.
//!
//! Arguments name the slips to try: `definitions`, `reference`, or single ones as `reference/nesting_33`. Without any, all are
//! tried. The form of an edit is told in host/src/edit.rs.

use repgypsum_host::edit::{edits, Edit};
use std::collections::BTreeMap;
use std::fs;
use std::io;
use std::path::Path;
use std::process::{Command, Output};

/// Slips of a kind: the texts of their edits by name.
type Slips = BTreeMap<String, String>;

/// What became of a slip.
enum Outcome {
    Refused(String),
    NotRefused,
    /// Whether it is refused cannot be said, or not as it should be.
    Wrong(String),
}

/// The line of an edit that enumeration has to refuse too.
const BY_ENUMERATION: &str = "enumeration: refuses";

/// Copies a folder.
fn copy(from: &Path, to: &Path) -> io::Result<()> {
    fs::create_dir_all(to)?;
    for entry in fs::read_dir(from)? {
        let path = entry?.path();
        let copied = to.join(path.file_name().expect("an entry has a name"));
        if path.is_dir() {
            copy(&path, &copied)?;
        } else {
            fs::copy(&path, copied)?;
        }
    }
    Ok(())
}

/// The structs that a crate's code declares, each from its first line to the brace that closes it.
fn structs(code: &str) -> String {
    let mut found = String::new();
    let mut inside = false;
    for line in code.lines() {
        inside |= line.starts_with("pub struct ");
        if inside {
            found += line;
            found += "\n";
        }
        inside &= line != "}";
    }
    found
}

/// A kind of slips, by the copy in which they are planted.
trait Kind {
    fn name(&self) -> &'static str;

    /// Copies what the slips are edits of, and what refuses them.
    fn prepare(&self, root: &Path, copied: &Path) -> io::Result<()>;

    /// Whether the copy is refused with this edit made in it. The empty text is no edit.
    fn outcome(&self, root: &Path, copied: &Path, edit: &str) -> io::Result<Outcome>;
}

struct Definitions;

impl Kind for Definitions {
    fn name(&self) -> &'static str {
        "definitions"
    }

    /// The definitions without the code, but for its structs, which they name, and without the theorems above them; what opens them for
    /// computing; and the cases.
    fn prepare(&self, root: &Path, copied: &Path) -> io::Result<()> {
        let (from, to) = (root.join("crates"), copied.join("crates"));
        for name in ["laws", "model", "search"] {
            copy(&from.join(name).join("specs"), &to.join(name).join("specs"))?;
            fs::create_dir_all(to.join(name).join("src"))?;
            let code = Path::new(name).join("src/lib.rt");
            let structs = structs(&fs::read_to_string(from.join(&code))?);
            fs::write(to.join(code), format!("// Definitions alone.\n{structs}"))?;
        }
        for name in ["model", "search"] {
            let proofs = to.join(name).join("proofs");
            fs::create_dir_all(&proofs)?;
            fs::write(proofs.join("Lib.antt"), "pub mod Opened\n")?;
            let opened = from.join(name).join("proofs/Opened.antt");
            fs::copy(opened, proofs.join("Opened.antt"))?;
        }
        for part in ["specs", "src", "proofs"] {
            let part = Path::new("test_definitions").join(part);
            copy(&from.join(&part), &to.join(&part))?;
        }
        let listed = "laws:\nmodel: laws\nsearch: laws model\ntest_definitions: laws search\n";
        fs::write(copied.join("crates.txt"), listed)
    }

    fn outcome(&self, _root: &Path, copied: &Path, _edit: &str) -> io::Result<Outcome> {
        // Each check takes from the one before it what the slip has left as it was.
        let run = Command::new("rt")
            .arg("check")
            .current_dir(copied.join("crates/test_definitions"))
            .output()?;
        let said = said(&run);
        if run.status.success() {
            return Ok(Outcome::NotRefused);
        }
        if run.status.code() != Some(1) || said.contains("did not build") {
            return Ok(Outcome::Wrong(format!("it is no definition:\n{said}")));
        }
        let disagrees = |line: &&str| line.contains("Agreement.antt") && line.contains("error");
        match said.lines().filter(disagrees).count() {
            0 => Ok(Outcome::Wrong(format!("no case disagrees:\n{said}"))),
            modules => Ok(Outcome::Refused(format!(
                "modules that disagree: {modules}"
            ))),
        }
    }
}

struct Reference;

impl Reference {
    /// Cargo on the copy of the host, which keeps what it has built from slip to slip.
    fn cargo(copied: &Path, arguments: &[&str]) -> io::Result<Output> {
        Command::new("cargo")
            .args(arguments)
            .args(["--offline", "--quiet", "--target-dir"])
            .arg(copied.join("target"))
            .current_dir(copied.join("host"))
            .output()
    }

    /// How many stored cases the copy writes with another answer. A case is a line of a module.
    fn disagreeing(root: &Path, written: &Path) -> io::Result<usize> {
        let modules = "crates/test_definitions/specs";
        let mut count = 0;
        for entry in fs::read_dir(written.join(modules))? {
            let entry = entry?;
            let text = fs::read_to_string(entry.path())?;
            let stored = fs::read_to_string(root.join(modules).join(entry.file_name()))?;
            let lines = stored.lines().zip(text.lines());
            let is_case = |line: &str| line.starts_with(' ');
            let differs = |(stored, written): &(&str, &str)| is_case(stored) && stored != written;
            count += lines.filter(differs).count();
        }
        Ok(count)
    }
}

impl Kind for Reference {
    fn name(&self) -> &'static str {
        "reference"
    }

    fn prepare(&self, root: &Path, copied: &Path) -> io::Result<()> {
        let (from, to) = (root.join("host"), copied.join("host"));
        for folder in ["src", "tests"] {
            copy(&from.join(folder), &to.join(folder))?;
        }
        for file in ["Cargo.toml", "Cargo.lock", "build.rs"] {
            fs::copy(from.join(file), to.join(file))?;
        }
        fs::copy(root.join("kit"), copied.join("kit"))?;
        let archive = "target/staticlib";
        copy(&root.join(archive), &copied.join(archive))
    }

    fn outcome(&self, root: &Path, copied: &Path, edit: &str) -> io::Result<Outcome> {
        let built = Reference::cargo(copied, &["build", "--bin", "vectors"])?;
        if !built.status.success() {
            let said = said(&built);
            return Ok(Outcome::Wrong(format!("it does not compile:\n{said}")));
        }
        let written = copied.join("written");
        let program = copied.join("target/debug/vectors");
        let run = Command::new(program).arg(&written).output()?;
        if !run.status.success() {
            let said = said(&run);
            return Ok(Outcome::Wrong(format!("a case stops it:\n{said}")));
        }
        let cases = Reference::disagreeing(root, &written)?;
        match cases {
            0 => return Ok(Outcome::NotRefused),
            1 => return Ok(Outcome::Wrong("a single case disagrees".to_string())),
            _ => {}
        }
        if !edit.lines().any(|line| line == BY_ENUMERATION) {
            return Ok(Outcome::Refused(format!("cases that disagree: {cases}")));
        }
        let test = ["test", "--test", "enumeration", "demand_three_holds"];
        let run = Reference::cargo(copied, &test)?;
        if !said(&run).contains("answers that break a sentence") {
            return Ok(Outcome::Wrong("enumeration does not refuse it".to_string()));
        }
        let told = format!("cases that disagree: {cases}; by enumeration too");
        Ok(Outcome::Refused(told))
    }
}

fn said(run: &Output) -> String {
    let errors = String::from_utf8_lossy(&run.stderr);
    String::from_utf8_lossy(&run.stdout).into_owned() + &errors
}

/// Makes the edit in the copy, sees what becomes of it, and takes it back.
fn tried(kind: &dyn Kind, root: &Path, copied: &Path, text: &str) -> io::Result<Outcome> {
    let changed = match Edit::read(text).and_then(|edit| edit.made(copied)) {
        Ok(changed) => changed,
        Err(trouble) => return Ok(Outcome::Wrong(trouble)),
    };
    for (file, text) in &changed {
        fs::write(copied.join(file), text)?;
    }
    let outcome = kind.outcome(root, copied, text)?;
    for file in changed.keys() {
        fs::write(copied.join(file), fs::read(root.join(file))?)?;
    }
    Ok(outcome)
}

/// The slips of a kind by name that are asked for: all where nothing is, or those of a word that is the kind, or the kind and the name.
fn asked_for(kind: &dyn Kind, root: &Path, asked: &[String]) -> io::Result<Slips> {
    let mut slips = edits(&root.join("host/slips").join(kind.name()))?;
    slips.retain(|name, _| {
        let label = format!("{}/{name}", kind.name());
        asked.is_empty()
            || asked
                .iter()
                .any(|word| word == kind.name() || *word == label)
    });
    Ok(slips)
}

/// Tries slips of a kind, and answers how many were not refused.
fn failures(kind: &dyn Kind, root: &Path, copied: &Path, slips: &Slips) -> io::Result<usize> {
    kind.prepare(root, copied)?;
    if !matches!(kind.outcome(root, copied, "")?, Outcome::NotRefused) {
        println!("{}: the copy is refused without a slip", kind.name());
        return Ok(slips.len());
    }
    let mut failures = 0;
    for (name, text) in slips {
        let outcome = tried(kind, root, copied, text)?;
        failures += usize::from(!matches!(outcome, Outcome::Refused(_)));
        let told = match outcome {
            Outcome::Refused(how) => format!("refused, {how}"),
            Outcome::NotRefused => "NOT REFUSED".to_string(),
            Outcome::Wrong(why) => format!("WRONG: {why}"),
        };
        println!("{}/{name}: {told}", kind.name());
    }
    let (name, count) = (kind.name(), slips.len());
    println!("{name}: tried {count}, not refused {failures}");
    Ok(failures)
}

fn main() -> io::Result<()> {
    let root = Path::new(env!("CARGO_MANIFEST_DIR")).join("..");
    let asked: Vec<String> = std::env::args().skip(1).collect();
    let folder = std::env::temp_dir().join(format!("slips-{}", std::process::id()));
    let (mut tried, mut failed) = (0, 0);
    for kind in [&Reference as &dyn Kind, &Definitions] {
        let slips = asked_for(kind, &root, &asked)?;
        if !slips.is_empty() {
            tried += slips.len();
            failed += failures(kind, &root, &folder.join(kind.name()), &slips)?;
            fs::remove_dir_all(&folder)?;
        }
    }
    if tried == 0 || failed > 0 {
        eprintln!("slips: tried {tried}, not refused {failed}");
        std::process::exit(1);
    }
    Ok(())
}
