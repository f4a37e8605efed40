//! Help, the version, bad usage, and files that cannot be read or written.

use super::{example, file, run, run_with};
use std::process::{Command, Stdio};

#[test]
fn help_and_version() {
    let page = run(&["help"]);
    assert_eq!((page.status, page.errors.as_str()), (0, ""));
    for command in [
        "plan",
        "explain",
        "check",
        "declarations",
        "verify",
        "compare",
        "assemble",
        "expand",
        "disassemble",
        "monthly",
        "figures",
    ] {
        assert!(
            page.text().contains(&format!("\n  {command} ")),
            "{command}"
        );
        run(&[command, "--help"]).is(0, &page.text());
        run(&[command, "--width", "16", "-h"]).is(0, &page.text());
    }
    for option in [
        "--width",
        "--widths",
        "--length",
        "--loading",
        "--profile",
        "--budget",
        "--plan-bytes",
        "--words",
    ] {
        assert!(page.text().contains(option), "{option}");
    }
    run(&["--help"]).is(0, &page.text());
    run(&["-h"]).is(0, &page.text());
    let kit = include_str!("../../../kit").trim();
    let version = format!(
        "repgypsum {}, proved with {kit}\n",
        env!("CARGO_PKG_VERSION")
    );
    run(&["--version"]).is(0, &version);
}

#[test]
fn bad_usage() {
    run(&[]).complains(2, "a command is due");
    run(&["solve"]).complains(2, "`solve` is no command");
    run(&["PLAN"]).complains(2, "`PLAN` is no command");
    run(&[""]).complains(2, "`` is no command");
    run(&["help", "plan"]).complains(2, "`plan` is one argument too many");
    run(&["--version", "x"]).complains(2, "one argument too many");
    run(&["plan", "--wide", "4"]).complains(2, "`--wide` is no option here");
    run(&["plan", "-w"]).complains(2, "`-w` is no option here");
    run(&["plan", "--svg", "x"]).complains(2, "`--svg` is no option here");
    run(&["check", "--width", "4"]).complains(2, "`--width` is no option here");
    run(&["assemble", "--fields"]).complains(2, "`--fields` is no option here");
    run(&["explain", "--fields"]).complains(2, "`--fields` is no option here");
    run(&["plan", "--width"]).complains(2, "a value is due behind --width");
    run(&["plan", "--fields=1"]).complains(2, "--fields takes no value");
    run(&["plan", "--width", "4", "--width=4"]).complains(2, "--width is given twice");
    run(&["plan", "a.model", "b.model"]).complains(2, "`b.model` is a second file");
    run(&["plan", "--", "-a", "-b"]).complains(2, "`-b` is a second file");
}

/// Numbers that do not fit 32 bits, or are not written in digits alone.
#[test]
fn numbers() {
    let wrong = [
        "4294967296",
        "99999999999999999999",
        "-1",
        "+1",
        "1e3",
        "0x10",
        "",
        " 1",
        "1,000",
        "½",
    ];
    for option in ["--width", "--length", "--budget", "--plan-bytes", "--words"] {
        for value in wrong {
            for command in ["plan", "explain"] {
                let due = format!("{option}: `{value}` is no number from 0 to ");
                let left = run(&[command, option, value, &example("sop.model")]);
                left.complains(2, &due);
            }
        }
    }
    run(&["plan", "--words", "16777217"]).complains(2, "is no number from 0 to 16777216");
}

#[test]
fn files_that_cannot_be_read() {
    for command in ["plan", "explain", "assemble", "disassemble"] {
        run(&[command, "no/such.model"]).complains(2, "no/such.model: cannot be read: ");
        run(&[command, &example("")]).complains(2, ": cannot be read: Is a directory");
    }
    run(&["check", "--plan", "0", "no/such.dp"]).complains(2, "no/such.dp: cannot be read: ");
    run(&["check", "--plan", "0", &example("")]).complains(2, "Is a directory");
    run(&["plan", ""]).complains(2, "cannot be read");
}

/// The explanation is printed even where the chart cannot be written, and what is there and no chart stays.
#[test]
fn files_that_cannot_be_written() {
    let designs = example("three-designs.dp");
    let plain = run(&["explain", &designs]).text();
    for out in ["/no/such/folder/x.svg", &example(""), ""] {
        let left = run(&["explain", "--svg", out, &designs]);
        assert_eq!(left.status, 2);
        assert!(left.text().starts_with(&plain), "{}", left.text());
        assert!(left.text().ends_with("\nThe chart\n  It is not drawn.\n"));
        assert!(
            left.errors.contains(": cannot be written: "),
            "{}",
            left.errors
        );
        left.only_notes();
    }
    let kept = file("kept.dp", b"cost sum\n");
    let left = run(&["explain", "--svg", &kept, &designs]);
    assert!(
        left.errors.contains("it is there already, and is no chart"),
        "{}",
        left.errors
    );
    assert_eq!(std::fs::read(&kept).unwrap(), b"cost sum\n");
}

/// No chart of an older plan stays where no plan is given; a chart replaces a chart.
#[test]
fn charts_are_never_stale() {
    let out = file("stale.svg", b"");
    let designs = example("three-designs.dp");
    let no_plan = file(
        "stale.dp",
        super::designs_and("constraint not at = b").as_bytes(),
    );
    let left = run(&["explain", "--svg", &out, &no_plan]);
    assert!(left
        .text()
        .ends_with("No plan is given, so none is drawn.\n"));
    assert_eq!(std::fs::read(&out).unwrap(), b"");
    run(&["explain", "--svg", &out, &designs]);
    let first = std::fs::read_to_string(&out).unwrap();
    assert!(first.starts_with("<svg xmlns="));
    assert!(first.contains("Hours from the start"));
    run(&["explain", "--svg", &out, &example("tsptw.dp")]);
    let second = std::fs::read_to_string(&out).unwrap();
    assert!(first != second && second.contains("Cost from the start"));
    let left = run(&["explain", "--svg", &out, &no_plan]);
    assert!(
        left.text().contains("The older chart in "),
        "{}",
        left.text()
    );
    assert!(!std::path::Path::new(&out).exists());
}

/// Names behind `--svg=` may be any that the system takes.
#[cfg(unix)]
#[test]
fn odd_names_of_charts() {
    use std::os::unix::ffi::OsStringExt;
    let folder = std::path::Path::new(&file("any.svg", &[])).with_file_name("");
    for name in [
        &b"a=b.svg"[..],
        b"\xFF\xFE.svg",
        b"with blank.svg",
        b"-x.svg",
        b"new\nline.svg",
    ] {
        let path = folder.join(std::ffi::OsString::from_vec(name.to_vec()));
        let _ = std::fs::remove_file(&path);
        let mut option = std::ffi::OsString::from("--svg=");
        option.push(&path);
        let mut command = Command::new(env!("CARGO_BIN_EXE_repgypsum"));
        let command = command.arg("explain").arg(option).arg(example("sop.dp"));
        let left = command.output().unwrap();
        assert_eq!(left.status.code(), Some(0));
        assert!(std::fs::read(&path).unwrap().starts_with(b"<svg"));
    }
}

/// A closed standard output is told; a reader that has gone away is not.
#[cfg(target_os = "linux")]
#[test]
fn closed_outputs() {
    let shell = |line: &str| {
        let mut command = Command::new("sh");
        let command = command.arg("-c").arg(line);
        let command = command.env("R", env!("CARGO_BIN_EXE_repgypsum"));
        command.env("M", example("sop.model")).output().unwrap()
    };
    let left = shell("\"$R\" plan \"$M\" >&-");
    assert_eq!(left.status.code(), Some(2));
    let errors = String::from_utf8(left.stderr).unwrap();
    assert_eq!(
        errors,
        "repgypsum: standard output cannot be written: it is closed\n"
    );
    let left = shell("\"$R\" plan \"$M\" > /dev/null");
    assert_eq!((left.status.code(), left.stderr.len()), (Some(0), 0));
    let left = shell("(\"$R\" explain \"$M\"; echo $? >&2) | true");
    let errors = String::from_utf8(left.stderr).unwrap();
    assert_eq!(errors, "0\n");
}

#[test]
fn a_full_output() {
    let Ok(full) = std::fs::File::options().write(true).open("/dev/full") else {
        return;
    };
    let mut command = Command::new(env!("CARGO_BIN_EXE_repgypsum"));
    let command = command.args(["plan", &example("sop.model")]).stdout(full);
    let left = command.stderr(Stdio::piped()).output().unwrap();
    assert_eq!(left.status.code(), Some(2));
    let errors = String::from_utf8(left.stderr).unwrap();
    assert!(
        errors.starts_with("repgypsum: standard output cannot be written: "),
        "{errors}"
    );
}

/// `-` is standard input, and a name behind `--` is a file even if it looks like an option.
#[test]
fn names_of_inputs() {
    let model = std::fs::read(example("sop.model")).unwrap();
    run_with(&["plan", "-"], &model).is(0, "0 1 6 6 4 8 2 2 6 : 0 2 1 3\n");
    run_with(&["plan", "--", "-"], &model).is(0, "0 1 6 6 4 8 2 2 6 : 0 2 1 3\n");
    run(&["plan", "--", "--fields"]).complains(2, "--fields: cannot be read");
}

/// A file whose name is no text is read, and is named as well as it can be.
#[cfg(unix)]
#[test]
fn names_that_are_no_text() {
    use std::os::unix::ffi::OsStringExt;
    let folder = std::path::Path::new(&file("any.model", &[])).with_file_name("");
    let path = folder.join(std::ffi::OsString::from_vec(b"\xFFsop.dp".to_vec()));
    std::fs::copy(example("sop.dp"), &path).unwrap();
    let mut command = Command::new(env!("CARGO_BIN_EXE_repgypsum"));
    let left = command.arg("explain").arg(&path).output().unwrap();
    assert_eq!(left.status.code(), Some(0));
    let said = String::from_utf8(left.stdout).unwrap();
    assert!(said.contains("\u{FFFD}sop.dp, 345 bytes"), "{said}");
    let mut command = Command::new(env!("CARGO_BIN_EXE_repgypsum"));
    let unknown = std::ffi::OsString::from_vec(b"\xFF".to_vec());
    let left = command.arg(unknown).output().unwrap();
    assert_eq!(left.status.code(), Some(2));
}

/// A family that does not exist is told; nothing is measured.
#[test]
fn bench_of_no_family() {
    run(&["bench", "nothing"]).complains(2, "there is no family `nothing`");
}
