//! Quotations: written once, read back, verified against a new run, and compared.

use super::{designs_and, designs_with, example, file, run, run_with, EXAMPLES};
use repgypsum_host::quotation::{read, written};

/// A path where no file is.
fn free(name: &str) -> String {
    let path = file(name, b"");
    std::fs::remove_file(&path).unwrap();
    path
}

/// A quotation of the model at this path, with more options.
pub fn quoted(name: &str, model: &str, options: &[&str]) -> String {
    let path = free(name);
    let arguments = [&["plan", "--quote", &path, model], options].concat();
    let left = run(&arguments);
    assert_eq!((left.status, left.errors.as_str()), (0, ""));
    path
}

#[test]
fn examples_verified() {
    for name in EXAMPLES {
        for ending in ["dp", "model"] {
            let model = example(&format!("{name}.{ending}"));
            let path = quoted(&format!("{name}-{ending}.quote"), &model, &[]);
            let line = std::fs::read_to_string(example(&format!("{name}.out"))).unwrap();
            let text = std::fs::read_to_string(&path).unwrap();
            assert!(text.contains(&format!("\nline: {line}")), "{text}");
            let left = run(&["verify", &path]);
            assert_eq!((left.status, left.errors.as_str()), (0, ""));
            assert!(left.text().starts_with("The same: "), "{}", left.text());
            run(&["verify", &path, &model]).is(0, &left.text());
            run_with(&["verify", "-"], text.as_bytes()).is(0, &left.text());
        }
    }
    let tour = example("tsptw-20/tour.dp");
    let path = quoted("tour.quote", &tour, &["--width", "256"]);
    let text = std::fs::read_to_string(&path).unwrap();
    assert!(
        text.contains("\nwidth: 256\n") && text.contains("\n    11 visit p12\n"),
        "{text}"
    );
    assert!(run(&["verify", &path, &tour])
        .text()
        .starts_with("The same: "));
}

/// A run that was stopped is quoted with the budget that gives it again.
#[test]
fn stopped_runs() {
    let path = free("stopped.quote");
    let tour = example("tsptw-20/tour.dp");
    let left = run(&[
        "plan", "--width", "4096", "--gap", "190", "--quote", &path, &tour,
    ]);
    assert!(
        left.text()
            .contains("\nstopped by --gap; --budget 1000 gives"),
        "{}",
        left.text()
    );
    let text = std::fs::read_to_string(&path).unwrap();
    assert!(
        text.contains("\nbudget: 1000\n")
            && text.contains("\nmark: budget spent, a plan at cost 355, ")
    );
    assert!(run(&["verify", &path, &tour])
        .text()
        .starts_with("The same: "));
}

#[test]
fn nothing_is_replaced_and_no_refusal_quoted() {
    let kept = file("kept.quote", b"kept");
    let left = run(&["plan", "--quote", &kept, &example("sop.dp")]);
    assert_eq!(
        (left.status, left.text().as_str()),
        (2, "0 1 6 6 4 8 2 2 6 : 0 2 1 3\n")
    );
    assert!(
        left.errors.contains("a quotation replaces nothing"),
        "{}",
        left.errors
    );
    assert_eq!(std::fs::read(&kept).unwrap(), b"kept");
    let left = run(&["plan", "--quote", "/no/such/folder/x", &example("sop.dp")]);
    assert_eq!(left.status, 2);
    assert!(left.errors.contains("cannot be written"), "{}", left.errors);
    let none = free("refused.quote");
    let left = run_with(&["plan", "--quote", &none], &[1, 0, 7]);
    assert_eq!((left.status, left.text().as_str()), (2, "refused 4\n"));
    assert!(
        left.errors.contains("a refusal is not quoted"),
        "{}",
        left.errors
    );
    assert!(!std::path::Path::new(&none).exists());
}

/// Every field of the line, the plan and the bytes, changed one at a time: each is told.
#[test]
fn differences() {
    let path = quoted("differences.quote", &example("three-designs.dp"), &[]);
    let text = std::fs::read_to_string(&path).unwrap();
    let line = "line: 0 1 7 7 3 14 3 4 7 : 0 1 2";
    let changed = [
        (
            "line: 2 1 7 7 3 14 3 4 7 : 0 1 2",
            "verdict: 2 in the quotation, 0 now",
        ),
        (
            "line: 0 1 7 6 3 14 3 4 7 : 0 1 2",
            "bound: 6 in the quotation, 7 now",
        ),
        (
            "line: 0 1 7 7 3 15 3 4 7 : 0 1 2",
            "expansions: 15 in the quotation, 14 now",
        ),
        (
            "line: 0 1 7 7 3 14 2 4 7 : 0 1 2",
            "rounds: 2 in the quotation, 3 now",
        ),
        (
            "line: 0 1 7 7 3 14 3 8 7 : 0 1 2",
            "width: 8 in the quotation, 4 now",
        ),
        (
            "line: 0 1 8 7 3 14 3 4 7 : 0 1 2",
            "cost: 8 in the quotation, 7 now",
        ),
        (
            "line: 0 1 8 7 3 14 3 4 7 : 0 1 2",
            "the plan check: answer 0, a plan, cost 7, low 7; 8 and 7 in the quotation",
        ),
        (
            "line: 0 1 7 7 3 14 3 4 6 : 0 1 2",
            "low: 6 in the quotation, 7 now",
        ),
        (
            "line: 0 1 7 7 3 14 3 4 6 : 0 1 2",
            "the plan check: answer 0, a plan, cost 7, low 7; 7 and 6 in the quotation",
        ),
        (
            "line: 0 0 7 7 3 14 3 4 7 : 0 1 2",
            "plan flag: 0 in the quotation, 1 now",
        ),
    ];
    for (wrong, told) in changed {
        let quotation = text.replace(line, wrong);
        let said = read(&marked(&quotation)).unwrap();
        let path = file("changed.quote", written(&said).as_bytes());
        let left = run(&["verify", &path]);
        assert_eq!(left.status, 1, "{wrong}");
        assert!(left.text().starts_with("Different:\n"), "{}", left.text());
        assert!(left.text().contains(told), "{told}: {}", left.text());
    }
    let other = file(
        "other.dp",
        designs_with("0 0 3 6 /", "0 0 4 6 /").as_bytes(),
    );
    let left = run(&["verify", &path, &other]);
    assert_eq!(left.status, 1);
    assert!(
        left.text().contains("the first that differs at 50"),
        "{}",
        left.text()
    );
    let renamed = file("renamed.dp", designs_with("load b:", "put b:").as_bytes());
    let left = run(&["verify", &path, &renamed]);
    assert!(left
        .text()
        .contains("the name of step 2: `load b` in the quotation, `put b` in "));
    let older = text.replace("kit: ", "kit: an older ");
    let left = run(&["verify", &file("older.quote", older.as_bytes())]);
    assert_eq!(left.status, 0);
    assert!(
        left.text().contains("The quotation is from kit an older "),
        "{}",
        left.text()
    );
    let settings = text.replace("width: 16", "width: 2");
    let left = run(&["verify", &file("settings.quote", settings.as_bytes())]);
    assert!(
        left.text().contains("verdict: 0 in the quotation, 2 now"),
        "{}",
        left.text()
    );
    let byte = text.replace("01 00 02 04 0e", "01 00 02 04 06");
    let left = run(&["verify", &file("byte.quote", byte.as_bytes())]);
    assert_eq!(left.status, 1, "{}", left.text());
}

/// The text with the mark that its line has.
fn marked(text: &str) -> String {
    let wrong = read(text).err();
    let Some(mark) = wrong.and_then(|error| {
        let told = error.message.strip_prefix("the line says: ")?;
        Some(told.to_string())
    }) else {
        return text.to_string();
    };
    let lines = text.lines().map(|line| match line.starts_with("mark: ") {
        true => format!("mark: {mark}\n"),
        false => format!("{line}\n"),
    });
    lines.collect()
}

#[test]
fn compared() {
    let designs = example("three-designs.dp");
    let old = quoted("old.quote", &designs, &[]);
    let again = quoted("again.quote", &designs, &[]);
    let nothing =
        "Nothing changed: the same model, settings, mark, cost, bound, order and counts.\n";
    run(&["compare", &old, &again]).is(0, nothing);
    let dearer = designs_with("0 2 5 4 /", "0 9 5 4 /");
    let path = file("dearer.dp", dearer.as_bytes());
    let new = quoted(
        "new.quote",
        &path,
        &["--width", "64", "--length", "9", "--budget", "500"],
    );
    let left = run(&["compare", &old, &new]);
    assert_eq!((left.status, left.errors.as_str()), (0, ""));
    for sentence in [
        "The model changed:\n",
        "Entries of table 0 that changed: 1; the first in row 0, column 1, from 2 to 9.\n",
        "The widest beam rose by 48, from 16 to 64.\n",
        "The length limit fell by 55, from 64 to 9.\n",
        "The budget fell by 99500, from 100000 to 500.\n",
        "The cost rose by 2, from 7 to 9.\n",
        "The bound rose by 2, from 7 to 9.\n",
        "The order differs from step 1 on: it was load a, load b, load c; it is now load c, load b, load a.\n",
    ] {
        assert!(left.text().contains(sentence), "{sentence}: {}", left.text());
    }
    let bound = file(
        "bound.dp",
        designs_and("constraint not at = b\nbound 1").as_bytes(),
    );
    let left = run(&["compare", &old, &quoted("none.quote", &bound, &[])]);
    for sentence in [
        "There were 0 of its constraints and are now 1.",
        "There were 0 of its bounds and are now 1.",
        "The mark was \"cheapest, a plan at cost 7, bound 7\" and is now \"no plan, without a plan, bound 0\".",
        "There was a plan at cost 7, and now there is none.",
    ] {
        assert!(left.text().contains(sentence), "{sentence}: {}", left.text());
    }
    run(&["compare", &old]).complains(2, "two quotations are due");
    run(&["compare", &old, &old, &old]).complains(2, "one file more than the 2 that are read");
    run(&["compare", &old, "no/such"]).complains(2, "cannot be read");
}
