//! The stored cases: answers stated by hand, and the files written from them.

use repgypsum_host::cases::text::{modules, plan_checks, search_cases, CASES_PER_MODULE};
use repgypsum_host::cases::{groups, Outcome};
use std::collections::BTreeSet;
use std::path::Path;

#[test]
fn answers_are_as_stated() {
    let mut wrong = 0;
    for (group, cases) in groups() {
        let stated = cases.iter().filter(|case| case.stated.is_some()).count();
        println!("{group}: {} cases, {stated} stated by hand", cases.len());
        for case in &cases {
            let outcome = case.call.run();
            if !case.as_stated(&outcome) {
                wrong += 1;
                println!(
                    "{group}, {}: stated {}, found {:?}",
                    case.note.as_deref().unwrap_or(""),
                    case.stated.as_deref().unwrap_or(""),
                    outcome.fields()
                );
            }
        }
    }
    assert_eq!(wrong, 0);
}

/// The searches are small enough to be computed by the proof checker, and meet every verdict and refusal.
#[test]
fn searches_are_small_and_varied() {
    let mut verdicts = [0; 6];
    let mut refusals = [0; 18];
    for (_, cases) in groups() {
        for case in cases {
            match case.call.run() {
                Outcome::Check(answer, _, _) => refusals[usize::from(answer)] += 1,
                Outcome::Search(answer, _) => {
                    assert!(answer.expansions <= 60);
                    if answer.refused {
                        refusals[usize::from(answer.verdict)] += 1;
                    } else {
                        verdicts[usize::from(answer.verdict)] += 1;
                    }
                }
            }
        }
    }
    println!("verdicts {verdicts:?}, refusals by number {refusals:?}");
    assert!(verdicts.iter().all(|met| *met >= 5));
    assert!((1..18)
        .filter(|number| *number != 10)
        .all(|number| refusals[number] >= 3));
}

/// The names of the modules of cases in a directory.
fn module_names(directory: &Path) -> BTreeSet<String> {
    let entries = std::fs::read_dir(directory).expect("the directory can be listed");
    let names = entries.map(|entry| entry.unwrap().file_name().into_string().unwrap());
    let groups = [
        "Reading", "Meaning", "Plans", "Searches", "Loads", "Widths", "Ranges",
    ];
    let of_a_group = |name: &String| groups.iter().any(|group| name.starts_with(group));
    names.filter(of_a_group).collect()
}

/// Two runs write the same; the stored modules, where they exist, are byte for byte what is written.
#[test]
fn modules_repeat_and_are_stored() {
    let written = modules();
    assert_eq!(written, modules());
    let directory = Path::new(env!("CARGO_MANIFEST_DIR")).join("../crates/test_definitions/specs");
    let stored = directory.exists();
    for (name, text) in &written {
        let forms = [
            "checked (",
            "searched (",
            "loaded (",
            "searched_listed (",
            "loaded_listed (",
        ];
        let cases: usize = forms.iter().map(|form| text.matches(form).count()).sum();
        println!("{name}: {cases} cases, {} bytes", text.len());
        assert!(cases <= CASES_PER_MODULE);
        if stored {
            let found = std::fs::read_to_string(directory.join(name)).unwrap_or_default();
            assert!(found == *text, "{name} is not what the generator writes");
        }
    }
    if stored {
        let names: BTreeSet<String> = written.iter().map(|(name, _)| name.clone()).collect();
        assert_eq!(module_names(&directory), names);
    }
    println!(
        "{} modules, compared with stored ones: {stored}",
        written.len()
    );
}

/// The stored input and output of the program `test_plan_checks` are what the generator writes.
#[test]
fn plan_checks_are_stored() {
    let directory = Path::new(env!("CARGO_MANIFEST_DIR")).join("../crates/test_plan_checks");
    let (input, output) = plan_checks();
    assert!(std::fs::read(directory.join("stdin")).unwrap() == input);
    assert_eq!(
        std::fs::read_to_string(directory.join("stdout")).unwrap(),
        output
    );
    println!(
        "{} plan checks, {} bytes",
        output.lines().count(),
        input.len()
    );
}

/// The stored arguments, models and output of the program `test_searches` are what the generator writes.
#[test]
fn search_cases_are_stored() {
    let directory = Path::new(env!("CARGO_MANIFEST_DIR")).join("../crates/test_searches");
    let cases = search_cases();
    let stored = |name: &str| std::fs::read_to_string(directory.join(name)).unwrap();
    assert_eq!(stored("args"), cases.arguments);
    assert_eq!(stored("stdout"), cases.output);
    let names: BTreeSet<&str> = cases.models.iter().map(|(name, _)| name.as_str()).collect();
    assert_eq!(names.len(), cases.models.len());
    for (name, bytes) in &cases.models {
        assert!(std::fs::read(directory.join("data").join(name)).unwrap() == *bytes);
    }
    let entries = std::fs::read_dir(directory.join("data")).unwrap();
    assert_eq!(entries.count(), cases.models.len());
    println!(
        "{} searches of {} models",
        cases.arguments.lines().count() / 7,
        cases.models.len()
    );
}
