//! Long runs: doubled budgets give the answer of one call, and what is stopped can be run again to the same counts.

use super::{example, run, run_with};
use repgypsum_host::families::tsptw::tsptw;
use repgypsum_host::generate::{model, Random};
use std::io::Write;
use std::process::{Command, Stdio};
use std::time::{Duration, Instant};

/// The line of one call.
fn line(model: &[u8], options: &[&str]) -> String {
    run_with(&[&["plan"], options].concat(), model).text()
}

#[test]
fn doubled_budgets_give_the_answer_of_one_call() {
    let mut random = Random::new(0xD0B1E);
    let options = ["--width", "256", "--budget", "5000"];
    for _ in 0..60 {
        let bytes = model(&mut random).end();
        let watched = [&["plan", "--progress", "--quiet"], &options[..]].concat();
        assert_eq!(run_with(&watched, &bytes).text(), line(&bytes, &options));
        let timed = [&["plan", "--seconds", "60"], &options[..]].concat();
        assert_eq!(run_with(&timed, &bytes).text(), line(&bytes, &options));
    }
    let bytes = tsptw(20, 3);
    for budget in [
        "999", "1000", "1001", "2000", "2823", "2824", "2825", "100000",
    ] {
        let options = ["--width", "256", "--budget", budget];
        let watched = [&["plan", "--progress"], &options[..]].concat();
        let left = run_with(&watched, &bytes);
        assert_eq!(left.text(), line(&bytes, &options), "{budget}");
    }
}

/// A line for each budget, and what doubling costs; quiet where nobody watches.
#[test]
fn progress() {
    let tour = example("tsptw-20/tour.dp");
    let options = ["plan", "--width", "256", &tour];
    assert_eq!(run(&options).errors, "");
    let left = run(&[&options[..], &["--progress"]].concat());
    let told: Vec<&str> = left.errors.lines().collect();
    assert_eq!(told.len(), 4, "{}", left.errors);
    assert!(told[0].starts_with("budget 1,000: width 64, best 355, bound 170, gap 185, "));
    assert!(
        told[1].starts_with("budget 2,000: width 128, "),
        "{}",
        told[1]
    );
    assert!(told[2].starts_with("budget 4,000: width 256, best 355, bound 355, gap 0, "));
    assert!(told[..3]
        .iter()
        .all(|line| line.ends_with(" children tried a second")));
    let due = "3 runs, 6,451 expansions in all, 1.87 times those of the last; ";
    assert!(told[3].starts_with(due), "{}", told[3]);
    assert_eq!(
        run(&[&options[..], &["--progress", "--quiet"]].concat()).errors,
        ""
    );
}

/// The budget that a stopped run names gives the same answer again.
fn rerun(bytes: &[u8], said: &str, stop: &str, options: &[&str]) {
    let lines: Vec<&str> = said.lines().collect();
    assert_eq!(lines.len(), 2, "{said}");
    let (by, budget) = lines[1].split_once("; --budget ").expect("a budget");
    assert_eq!(by, format!("stopped by {stop}"));
    let budget = budget.split(' ').next().unwrap();
    let again = line(bytes, &[options, &["--budget", budget]].concat());
    assert_eq!(again, format!("{}\n", lines[0]));
    assert!(lines[0].starts_with("4 "), "{said}");
}

#[test]
fn gaps() {
    let bytes = tsptw(20, 1);
    let options = ["--width", "4096"];
    let left = run_with(&["plan", "--width", "4096", "--gap", "190"], &bytes);
    rerun(&bytes, &left.text(), "--gap", &options);
    let left = run_with(&["plan", "--width", "4096", "--gap", "10"], &bytes);
    assert_eq!(left.text(), line(&bytes, &options));
    let left = run_with(&["explain", "--width", "4096", "--gap", "190"], &bytes);
    assert!(
        left.text().contains("budget 1,000 expansions.\n"),
        "{}",
        left.text()
    );
    assert!(
        left.text()
            .contains("It was stopped by --gap; --budget 1000 gives"),
        "{}",
        left.text()
    );
}

/// A search that goes on far longer than the tests wait for it.
fn endless() -> Vec<u8> {
    tsptw(60, 2)
}

#[test]
fn seconds() {
    let begun = Instant::now();
    let left = run_with(&["plan", "--width", "4096", "--seconds", "1"], &endless());
    assert!(begun.elapsed() < Duration::from_secs(30));
    assert_eq!((left.status, left.errors.as_str()), (0, ""));
    rerun(&endless(), &left.text(), "--seconds", &["--width", "4096"]);
}

/// Ctrl-C: the last finished answer, at once, with its budget.
#[cfg(unix)]
#[test]
fn interrupts() {
    let mut command = Command::new(env!("CARGO_BIN_EXE_repgypsum"));
    let command = command.args(["plan", "--width", "4096", "--seconds", "600"]);
    let piped = command.stdin(Stdio::piped()).stdout(Stdio::piped());
    let mut child = piped.spawn().unwrap();
    child.stdin.take().unwrap().write_all(&endless()).unwrap();
    std::thread::sleep(Duration::from_millis(1_500));
    let begun = Instant::now();
    let number = child.id().to_string();
    let sent = Command::new("kill").args(["-INT", &number]).status();
    assert!(sent.unwrap().success());
    let left = child.wait_with_output().unwrap();
    assert!(begun.elapsed() < Duration::from_secs(10));
    assert_eq!(left.status.code(), Some(0));
    let said = String::from_utf8(left.stdout).unwrap();
    rerun(&endless(), &said, "Ctrl-C", &["--width", "4096"]);
}
