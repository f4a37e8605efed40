//! `monthly` and `figures`: the lines of a list, and the closing line of lines that were joined.

use super::json_text::{parsed, Value};
use super::{example, file, repository, run, run_with};

/// A list that names these files, one a line.
fn list(names: &[&str]) -> Vec<u8> {
    names.join("\n").into_bytes()
}

#[test]
fn the_lines_of_a_list() {
    let p1 = example("three-designs.model");
    let line = "0 1 7 7 3 14 3 4 7 : 0 1 2\n";
    let alone = format!("{line}1 1 0 0 0 0 0 0 7 7 0 0\n");
    run_with(&["monthly"], p1.as_bytes()).is(0, &alone);
    run_with(&["monthly", "-"], format!("{p1}\n").as_bytes()).is(0, &alone);
    run(&["monthly", &file("month-list", p1.as_bytes())]).is(0, &alone);
    run_with(&["monthly"], b"").is(0, "0 0 0 0 0 0 0 0 0 0 0 0\n");
    run_with(&["monthly"], b"\n").is(0, "refused 0\n1 0 0 0 0 0 0 1 0 0 0 0\n");
    let twice = format!("{line}refused 0\n{line}3 2 0 0 0 0 0 1 14 7 0 0\n");
    run_with(&["monthly"], &list(&[&p1, "", &p1, ""])).is(0, &twice);
}

/// The stored month, from the folder where its files are.
#[test]
fn the_stored_month() {
    let folder = repository().join("crates/monthly");
    let list = std::fs::read(folder.join("stdin")).unwrap();
    let output = std::fs::read_to_string(folder.join("stdout")).unwrap();
    let mut command = std::process::Command::new(env!("CARGO_BIN_EXE_repgypsum"));
    let command = command.current_dir(folder.join("data"));
    let named = file("month-stored", &list);
    let left = command.args(["monthly", &named]).output().unwrap();
    assert_eq!(String::from_utf8(left.stdout).unwrap(), output);
    let closing = output.lines().last().unwrap();
    let json = command.arg("--json").output().unwrap();
    let document = parsed(&String::from_utf8(json.stdout).unwrap());
    assert_eq!(document.get("line").text(), closing);
    let named = document.get("answers").list();
    let lines: Vec<&str> = named.iter().map(|one| one.get("line").text()).collect();
    let due: Vec<&str> = output.lines().collect();
    assert_eq!(lines, due[..due.len() - 1]);
    assert_eq!(named[5].get("name").text(), "missing.model");
    assert_eq!(
        *document.get("closing").get("names"),
        Value::Number(lines.len() as i128)
    );
}

/// Lists of their own, in any order, with their closing lines or without: joined, they have the closing line of the whole.
#[test]
fn joined_lines() {
    let stored = std::fs::read_to_string(repository().join("crates/monthly/stdout")).unwrap();
    let lines: Vec<&str> = stored.lines().collect();
    let (closing, lines) = lines.split_last().unwrap();
    let whole = format!("{closing}\n");
    run_with(&["figures"], stored.as_bytes()).is(0, &whole);
    for parts in [1, 2, 3, 7, lines.len()] {
        let mut joined = String::new();
        let mut bare = String::new();
        for part in lines.chunks(lines.len().div_ceil(parts)).rev() {
            let part: String = part.iter().map(|line| format!("{line}\n")).collect();
            let figures = run_with(&["figures"], part.as_bytes());
            joined += &(part.clone() + &figures.text());
            bare += &part;
        }
        run_with(&["figures"], joined.as_bytes()).is(0, &whole);
        run_with(&["figures"], bare.as_bytes()).is(0, &whole);
        run(&["figures", &file("month-joined", bare.as_bytes())]).is(0, &whole);
    }
    run_with(&["figures"], b"").is(0, "0 0 0 0 0 0 0 0 0 0 0 0\n");
}

#[test]
fn wrong_lines() {
    let other = "refused 4\n1 0 0 0 0 0 0 0 0 0 0 0\n";
    run_with(&["figures"], other.as_bytes()).complains(1, "line 2: this closing line is not that");
    let open = "0 0 0 0 0 0 0 0 0 0 0 0\nrefused 4\n";
    run_with(&["figures"], open.as_bytes()).gives(0, "1 0 0 0 0 0 0 1 0 0 0 0\n");
    for line in [
        "refused",
        "refused x",
        "refused 256",
        "0 1 7 7 3 14 3 4 : 0 1 2",
        "6 1 7 7 3 14 3 4 7 : 0 1 2",
        "0 2 7 7 3 14 3 4 7 : 0 1 2",
        "0 1 7 7 3 14 3 4 7 : a",
        "0 1 7 7 3 14 3 4 7",
        "x",
        "",
    ] {
        let left = run_with(&["figures"], format!("{line}\n").as_bytes());
        left.complains(2, "line 1: no line of an answer");
    }
    run(&["monthly", "no/such/list"]).complains(2, "cannot be read");
    run(&["monthly", &example("")]).complains(2, "cannot be read");
    run(&["figures", "no/such/lines"]).complains(2, "cannot be read");
    run(&["monthly", "--width=4"]).complains(2, "`--width` is no option here");
}
