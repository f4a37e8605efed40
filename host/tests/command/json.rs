//! Answers as JSON: every printed document has the names and types of docs/JSON.md, and the page has no others.

use super::damage::corpus;
use super::json_text::{parsed, Value};
use super::{designs_and, example, file, repository, run, run_with, EXAMPLES};
use repgypsum_host::command;
use repgypsum_host::generate::Random;
use std::collections::{BTreeSet, HashMap};
use std::ffi::OsString;

/// The tables of the page by heading: names with their types.
struct Page {
    tables: HashMap<String, Vec<(String, String)>>,
    /// The alternatives of types that some document had, by heading and name.
    seen: BTreeSet<(String, String, String)>,
}

const SCALARS: [&str; 4] = ["text", "number", "truth", "null"];
const COMMANDS: [&str; 4] = ["plan", "check", "explain", "declarations"];

impl Page {
    fn read() -> Page {
        let text = std::fs::read_to_string(repository().join("docs/JSON.md")).unwrap();
        let mut tables: HashMap<String, Vec<(String, String)>> = HashMap::new();
        let mut heading = String::new();
        for line in text.lines() {
            if let Some(name) = line.strip_prefix("##") {
                heading = name.trim_start_matches('#').trim().to_string();
            } else if let Some(row) = line.strip_prefix("| `") {
                let (name, rest) = row.split_once("` | ").expect("a name and a type");
                let kind = rest.split(" |").next().unwrap();
                let table = tables.entry(heading.clone()).or_default();
                table.push((name.to_string(), kind.to_string()));
            }
        }
        let seen = BTreeSet::new();
        Page { tables, seen }
    }

    /// Holds a document to the table of every document and that of its command.
    fn holds(&mut self, document: &Value) {
        let command = document.get("command").text().to_string();
        let Value::Object(members) = document else {
            panic!("a document is an object");
        };
        let every = self.tables["Every document"].len();
        self.has("Every document", &members[..every]);
        self.has(&command, &members[every..]);
    }

    /// The members are those of the table, in its order, each of its type.
    fn has(&mut self, heading: &str, members: &[(String, Value)]) {
        let table = self.tables.get(heading);
        let table = table
            .unwrap_or_else(|| panic!("no table {heading}"))
            .clone();
        let names: Vec<&String> = members.iter().map(|(name, _)| name).collect();
        let due: Vec<&String> = table.iter().map(|(name, _)| name).collect();
        assert_eq!(names, due, "{heading}");
        for ((name, value), (_, kind)) in members.iter().zip(&table) {
            let fitting = kind.split(" or ").find(|one| self.fits(one, value));
            let fitting =
                fitting.unwrap_or_else(|| panic!("{heading} {name}: {value:?} is no {kind}"));
            let place = (heading.to_string(), name.clone(), fitting.to_string());
            self.seen.insert(place);
        }
    }

    /// Whether a value is of this type; an object of a shape is held to its table.
    fn fits(&mut self, kind: &str, value: &Value) -> bool {
        match (kind, value) {
            ("null", Value::Null)
            | ("truth", Value::Truth(_))
            | ("number", Value::Number(_))
            | ("text", Value::Text(_)) => true,
            (_, Value::List(values)) => {
                let Some(part) = kind.strip_prefix("list of ") else {
                    return false;
                };
                values.iter().all(|value| self.fits(part, value))
            }
            (_, Value::Object(members))
                if !SCALARS.contains(&kind) && !kind.starts_with("list of ") =>
            {
                self.has(kind, members);
                true
            }
            _ => false,
        }
    }

    /// Every alternative of every type on the page that no document had.
    fn unseen(&self) -> Vec<String> {
        let mut unseen = Vec::new();
        for (heading, table) in &self.tables {
            for (name, kind) in table {
                for one in kind.split(" or ") {
                    let place = (heading.clone(), name.clone(), one.to_string());
                    if !self.seen.contains(&place) {
                        unseen.push(format!("{heading} {name} {one}"));
                    }
                }
            }
        }
        unseen
    }
}

/// The document that these arguments print, with nothing on standard error.
fn document(page: &mut Page, status: i32, arguments: &[&str]) -> Value {
    let left = run(arguments);
    assert_eq!(
        (left.status, left.errors.as_str()),
        (status, ""),
        "{arguments:?}"
    );
    let document = parsed(&left.text());
    assert_eq!(document.get("command").text(), arguments[0]);
    assert_eq!(*document.get("status"), Value::Number(status.into()));
    page.holds(&document);
    document
}

/// Runs that between them show every alternative of every type.
#[test]
fn documents_are_those_of_the_page() {
    let page = &mut Page::read();
    for name in EXAMPLES {
        let text = example(&format!("{name}.dp"));
        for command in COMMANDS {
            match command {
                "check" => document(page, 1, &[command, "--json", "--plan=", &text]),
                _ => document(page, 0, &[command, "--json", &text]),
            };
        }
    }
    let bytes = example("tsptw.model");
    let bounded = file("json-false.dp", designs_and("bound 9").as_bytes());
    let text = "cost sum\nnumber n = 0 prefer less\ntransition a:\n when n < 2\n cost 1\n n := n + 1\nbase:\n when n = 2\n";
    let preferring = file("json-preferring.dp", text.as_bytes());
    let dead_end = "cost sum\nnumber n = 5 prefer less\ntransition up:\n when n = 5\n cost 1\n n := 9\ntransition down:\n when n = 5\n cost 1\n n := 1\ntransition end:\n when n = 9\n cost 1\n n := 10\nbase:\n when n = 10\n";
    let dead_end = file("json-dead-end.dp", dead_end.as_bytes());
    let troubled = file(
        "json-trouble.dp",
        designs_and("bound 1 / count(todo)").as_bytes(),
    );
    let cut = file("json-cut.model", &[1, 0]);
    document(
        page,
        0,
        &[
            "check",
            "--json",
            "--plan=0,1,2",
            &example("three-designs.dp"),
        ],
    );
    document(page, 0, &["plan", "--json", "--unconditional", &bounded]);
    document(page, 0, &["plan", "--json", &bytes]);
    document(page, 0, &["explain", "--json", &bytes]);
    document(page, 1, &["plan", "--json", "--width=3", &bytes]);
    document(page, 0, &["plan", "--json", "--widths=1,200", &bytes]);
    document(page, 1, &["explain", "--json", "--widths=", &bytes]);
    document(page, 1, &["plan", "--json", &cut]);
    document(page, 1, &["explain", "--json", &cut]);
    document(page, 1, &["explain", "--json", &troubled]);
    document(page, 1, &["declarations", "--json", &cut]);
    document(page, 1, &["declarations", "--json", &bounded]);
    document(page, 1, &["declarations", "--json", &preferring]);
    document(page, 1, &["declarations", "--json", &dead_end]);
    let gap = "--gap=1000";
    let tour = example("tsptw-20/tour.dp");
    document(page, 0, &["plan", "--json", gap, "--width=256", &tour]);
    document(page, 0, &["explain", "--json", gap, "--width=256", &tour]);
    let list = format!("{bytes}\n{cut}\nno/such.model\n");
    let list = file("json-list", list.as_bytes());
    document(page, 0, &["monthly", "--json", &list]);
    for lines in ["refused 4\n", "0 0 0 0 0 0 0 0 0 0 0 0\nrefused 4\n"] {
        let lines = file("json-lines", lines.as_bytes());
        document(page, 0, &["figures", "--json", &lines]);
    }
    assert_eq!(page.unseen(), Vec::<String>::new());
}

/// The line, the fields and the steps are those that are printed without `--json`.
#[test]
fn documents_say_what_lines_say() {
    let page = &mut Page::read();
    for name in EXAMPLES {
        let line = std::fs::read_to_string(example(&format!("{name}.out"))).unwrap();
        let plan = document(
            page,
            0,
            &["plan", "--json", &example(&format!("{name}.dp"))],
        );
        assert_eq!(plan.get("line").text(), line.trim_end());
        let number = |value: &Value| match value {
            Value::Number(number) => number.to_string(),
            Value::Truth(truth) => u8::from(*truth).to_string(),
            _ => panic!("{value:?}"),
        };
        let answer = plan.get("answer");
        let fields = [
            "number",
            "plan",
            "cost",
            "bound",
            "length",
            "expansions",
            "rounds",
            "width",
            "low",
        ];
        let mut words: Vec<String> = fields.iter().map(|name| number(answer.get(name))).collect();
        words.push(":".to_string());
        let steps = plan.get("steps").list().iter();
        words.extend(steps.map(|step| number(step.get("number"))));
        assert_eq!(words.join(" "), line.trim_end());
    }
}

/// The sentences are those that are printed, with their theorems.
#[test]
fn sentences_are_those_of_the_text() {
    let page = &mut Page::read();
    for command in ["explain", "declarations"] {
        for name in EXAMPLES {
            let model = example(&format!("{name}.dp"));
            let words = |text: &str| -> Vec<String> {
                text.split_whitespace().map(str::to_string).collect()
            };
            let printed = words(&run(&[command, &model]).text());
            let document = document(page, 0, &[command, "--json", &model]);
            for part in document.get("parts").list() {
                for sentence in part.get("sentences").list() {
                    let said = words(sentence.get("text").text());
                    assert!(
                        printed.windows(said.len()).any(|window| window == said),
                        "{said:?}"
                    );
                    for theorem in sentence.get("theorems").list() {
                        let cited = format!("[{}]", theorem.text());
                        assert!(sentence.get("text").text().contains(&cited), "{cited}");
                    }
                }
            }
            if command == "explain" {
                let first = &document.get("parts").list()[0];
                let cited = first.get("sentences").list().iter();
                let cited: usize = cited.map(|one| one.get("theorems").list().len()).sum();
                // One more of a model that declares nothing, as the text says it too.
                let bare = |word: &String| word.contains("[nothing_declared_is_true]");
                let bare = usize::from(printed.iter().any(bare));
                // Three more of a plan whose costs are ranges.
                let ranged = |word: &String| word.contains("[real_cost_between_the_figures]");
                let ranged = 3 * usize::from(printed.iter().any(ranged));
                assert_eq!(cited, 2 + bare + ranged, "{name}");
            }
        }
    }
}

/// Signs that JSON keeps for itself, in a name from outside.
#[test]
fn texts_are_escaped() {
    let page = &mut Page::read();
    let model = std::fs::read(example("sop.dp")).unwrap();
    let path = file("a\"b\\c\n\t\u{1}é🙂.dp", &model);
    let document = document(page, 0, &["plan", "--json", &path]);
    assert_eq!(document.get("model").get("title").text(), path);
}

/// No document where nothing can be done; a file that cannot be written is told beside the document.
#[test]
fn failures() {
    run(&["plan", "--json", "no/such.model"]).complains(2, "cannot be read");
    run(&["plan", "--json", "--fields"]).complains(2, "--fields or --json, not both");
    run(&["plan", "--json=1"]).complains(2, "--json takes no value");
    run(&["verify", "--json"]).complains(2, "`--json` is no option here");
    let there = file("json-there.quote", b"x");
    let left = run(&["plan", "--json", "--quote", &there, &example("sop.dp")]);
    assert_eq!(left.status, 2);
    assert!(
        left.errors.contains("it is there already"),
        "{}",
        left.errors
    );
    assert_eq!(*parsed(&left.text()).get("status"), Value::Number(2));
    let left = run_with(&["check", "--json", "--plan=0"], b"what is this");
    assert_eq!((left.status, left.errors.as_str()), (1, ""));
    assert!(parsed(&left.text())
        .get("why")
        .text()
        .contains("looks like text"));
}

/// Damaged and random models: always one document of the page's form, with the exit status in it.
#[test]
fn damaged_models() {
    let page = &mut Page::read();
    let commands: [&[&str]; 6] = [
        &["plan", "--json", "--unconditional", "--budget=200"],
        &[
            "plan",
            "--json",
            "--loading",
            "--unconditional",
            "--budget=200",
        ],
        &["explain", "--json", "--loading", "--budget=200"],
        &[
            "explain",
            "--json",
            "--width=4",
            "--length=6",
            "--budget=200",
        ],
        &["check", "--json", "--plan=0,1"],
        &["declarations", "--json", "--states=60", "--walks=4"],
    ];
    let mut random = Random::new(0x150B);
    let mut statuses = [0; 2];
    for _ in 0..800 {
        let bytes = corpus(&mut random);
        for arguments in commands {
            let arguments: Vec<OsString> = arguments.iter().map(OsString::from).collect();
            let done = command::run(&arguments, &mut &bytes[..]).expect("an answer or a refusal");
            assert!(done.notes.is_empty());
            let document = parsed(&String::from_utf8(done.output).unwrap());
            page.holds(&document);
            assert_eq!(*document.get("status"), Value::Number(done.status.into()));
            statuses[usize::from(done.status)] += 1;
        }
    }
    println!("exit statuses 0 and 1: {statuses:?}");
    assert!(statuses.iter().all(|met| *met >= 200));
}
