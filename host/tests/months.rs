//! Stored months: the files of crates/monthly and crates/test_month, by the plain implementation, the proved search and, where it is built, the program.

mod tools;

use repgypsum_host::cases::months::programs;
use repgypsum_host::command::monthly;
use repgypsum_host::generate::Random;
use repgypsum_host::month::{
    entry, is_name, lines, printed, reference_search, Closing, Entry, MOST_NAMES,
};
use std::io::Write;
use std::path::{Path, PathBuf};
use std::process::{Command, Stdio};

fn program(name: &str) -> PathBuf {
    tools::root().join("crates").join(name)
}

/// What is stored is what the plain implementation says, and what the proved search says.
#[test]
fn stored_months() {
    for (name, month) in programs() {
        let folder = program(name);
        let data = folder.join("data");
        assert!(std::fs::read(folder.join("stdin")).unwrap() == month.list);
        for (file, bytes) in &month.files {
            assert!(std::fs::read(data.join(file)).unwrap() == *bytes, "{file}");
        }
        let output = std::fs::read_to_string(folder.join("stdout")).unwrap();
        assert_eq!(printed(&month.list, &data, reference_search), output);
        assert_eq!(printed(&month.list, &data, monthly::search), output);
    }
}

fn entries(list: &[u8], data: &Path) -> Vec<Entry> {
    let taken = lines(list);
    let one = |line: &&[u8]| entry(line, data, monthly::search);
    taken.iter().map(one).collect()
}

/// Every verdict, refusals by the input and by the state and of names are met; a stopped run without a plan; the thousand-and-first is not taken.
#[test]
fn months_are_varied() {
    let [(_, every), (_, many)] = programs();
    let closing = Closing::of(&entries(&every.list, &program("monthly").join("data")));
    assert!(closing.verdicts.iter().all(|met| *met >= 1), "{closing:?}");
    assert!(closing.remainder > 0 && closing.gap > 0, "{closing:?}");
    let output = std::fs::read_to_string(program("monthly").join("stdout")).unwrap();
    for line in [
        "refused 0",
        "refused 1",
        "refused 4",
        "refused 5",
        "refused 12",
        "refused 13",
        "refused 17",
        "0 1 14 14 3 14 3 4 7 : 0 1 2",
    ] {
        assert!(output.lines().any(|one| one == line), "{line}");
    }
    assert!(output.lines().any(|line| line.starts_with("3 0 0 64 ")));
    assert_ne!(every.list.last(), Some(&b'\n'));
    assert_eq!(
        many.list.split(|byte| *byte == b'\n').count(),
        MOST_NAMES + 1
    );
    assert_eq!(lines(&many.list).len(), MOST_NAMES);
}

/// The built program's output, with nothing on standard error.
fn output(program: &Path, data: &Path, list: &[u8]) -> String {
    let mut command = Command::new(program);
    let piped = command.current_dir(data).stdin(Stdio::piped());
    let mut child = piped.stdout(Stdio::piped()).spawn().unwrap();
    let mut pipe = child.stdin.take().unwrap();
    pipe.write_all(list).unwrap();
    drop(pipe);
    let left = child.wait_with_output().unwrap();
    String::from_utf8(left.stdout).unwrap()
}

/// Reordering changes no closing figure: of the answers, of the list, and of the list in the program's hands.
#[test]
fn order_does_not_matter() {
    let [(_, every), _] = programs();
    let data = program("monthly").join("data");
    let mut answers = entries(&every.list, &data);
    let closing = Closing::of(&answers);
    let mut names: Vec<&[u8]> = lines(&every.list);
    let built = tools::root().join("crates/monthly/out/monthly");
    if !built.exists() {
        tools::tell("crates/monthly/out/monthly is not built: its shuffled lists are not run");
    }
    let mut random = Random::new(0x0724);
    for turn in 0..200 {
        random.shuffle(&mut answers);
        assert_eq!(Closing::of(&answers), closing);
        if turn < 5 && built.exists() {
            random.shuffle(&mut names);
            let list = [names.join(&b'\n'), vec![b'\n']].concat();
            let left = output(&built, &data, &list);
            assert_eq!(left, printed(&list, &data, reference_search));
            assert_eq!(left.lines().last().unwrap(), closing.line());
        }
    }
}

/// Lines by a walk over the bytes, as a person would cut them.
fn walked(list: &[u8]) -> Vec<Vec<u8>> {
    let mut lines = Vec::new();
    let mut line = Vec::new();
    let mut open = false;
    for byte in list {
        if *byte == b'\n' {
            lines.push(std::mem::take(&mut line));
            open = false;
        } else {
            line.push(*byte);
            open = true;
        }
    }
    if open {
        lines.push(line);
    }
    lines.truncate(MOST_NAMES);
    lines
}

#[test]
fn lines_of_random_lists() {
    let mut random = Random::new(0x0725);
    for _ in 0..2000 {
        let length = random.below(40);
        let list: Vec<u8> = (0..length).map(|_| random.pick(b"\n\na\0 \r")).collect();
        assert_eq!(lines(&list), walked(&list), "{list:?}");
    }
    let longest = vec![b'x'; 255];
    assert!(is_name(&longest) && !is_name(&vec![b'x'; 256]));
    assert!(!is_name(b"") && !is_name(b"a\0") && is_name(b"\r") && is_name(b" "));
}

/// Closing lines that were stated by hand.
#[test]
fn stated_closing_lines() {
    let data = program("monthly").join("data");
    let close = |list: &str| Closing::of(&entries(list.as_bytes(), &data)).line();
    assert_eq!(close(""), "0 0 0 0 0 0 0 0 0 0 0 0");
    assert_eq!(close("\n"), "1 0 0 0 0 0 0 1 0 0 0 0");
    assert_eq!(close("p1.model"), "1 1 0 0 0 0 0 0 7 7 0 0");
    assert_eq!(close("p1.model\n\np1.model\n"), "3 2 0 0 0 0 0 1 14 7 0 0");
    let seven = "p1.model\np9.model\nlength.model\nnegative.model\np8.model\nmissing\np10.model\n";
    assert_eq!(close(seven), "7 2 1 0 1 0 1 2 10 5 0 36");
}
