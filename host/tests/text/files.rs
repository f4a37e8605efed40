//! Texts made of several files: included ones, and tables from comma separated values.

use super::PRELUDE;
use repgypsum_host::families::tsptw::tsptw;
use repgypsum_host::generate::Random;
use repgypsum_host::text::{assemble, assemble_sources, Sources};
use std::path::{Path, PathBuf};

/// A folder of the tests' own with these files.
fn folder(name: &str, files: &[(&str, &str)]) -> PathBuf {
    let folder = Path::new(env!("CARGO_TARGET_TMPDIR"))
        .join("text")
        .join(name);
    std::fs::create_dir_all(&folder).unwrap();
    for (file, content) in files {
        std::fs::write(folder.join(file), content).unwrap();
    }
    folder
}

/// The bytes of a text in the folder, or the report of what is wrong without the folder's name.
fn assembled(folder: &Path, text: &str) -> Result<Vec<u8>, String> {
    let bytes = text.as_bytes().to_vec();
    let (mut sources, decoded) = Sources::of_bytes("text.dp".to_string(), folder, bytes);
    decoded.unwrap();
    let assembled = assemble_sources(&mut sources);
    let place = format!("{}/", folder.display());
    assembled
        .map(|assembled| assembled.bytes)
        .map_err(|errors| sources.report(&errors).replace(&place, ""))
}

#[test]
fn the_tour_of_twenty_is_the_generated_model() {
    let folder = Path::new(env!("CARGO_MANIFEST_DIR")).join("../examples/tsptw-20");
    let read = |name: &str| std::fs::read_to_string(folder.join(name)).unwrap();
    let (tour, steps) = (read("tour.dp"), read("steps.dp"));
    assert_eq!(assembled(&folder, &tour).unwrap(), tsptw(20, 1));
    let lines = tour.lines().count() + steps.lines().count();
    println!("{lines} lines");
    assert!(lines <= 40);
}

#[test]
fn included_files() {
    let folder = folder(
        "included",
        &[
            (
                "domain.dp",
                "base: when time = most\ninclude \"inner/more.dp\"\n",
            ),
            ("self.dp", "include \"self.dp\""),
            ("twice.dp", "include \"twice.dp\"\ninclude \"twice.dp\""),
            ("wrong.dp", "base:\n  when tim = 1\n  when at = 9"),
        ],
    );
    std::fs::create_dir_all(folder.join("inner")).unwrap();
    std::fs::write(folder.join("inner/more.dp"), "constraint time < 9").unwrap();
    let text = format!("{PRELUDE}constant most = 3 include \"domain.dp\" bound most");
    let plain = format!("{PRELUDE}base: when time = 3 constraint time < 9 bound 3");
    assert_eq!(
        assembled(&folder, &text).unwrap(),
        assemble(&plain).unwrap()
    );
    let wrong =
        |file: &str| assembled(&folder, &format!("{PRELUDE}include \"{file}\"")).unwrap_err();
    assert!(wrong("self.dp").contains("self.dp:1:9: more than 16 files stand open here"));
    assert!(wrong("twice.dp").contains("twice.dp:1:9: more than 16 files stand open here"));
    std::fs::write(folder.join("empty.dp"), "# nothing\n").unwrap();
    let many = "include \"empty.dp\"\n".repeat(200);
    std::fs::write(folder.join("many.dp"), many).unwrap();
    let due = "many.dp:200:9: a text includes at most 200 files";
    assert!(wrong("many.dp").starts_with(due), "{}", wrong("many.dp"));
    assert!(wrong("none.dp").starts_with("text.dp:4:9: none.dp: cannot be read: "));
    assert_eq!(
        wrong("wrong.dp"),
        "wrong.dp:2:8: `tim` is not declared\n      when tim = 1\n           ^\n"
    );
    let error = assemble(&format!("{PRELUDE}include \"domain.dp\"")).unwrap_err();
    assert_eq!(
        error.to_string(),
        "line 4, column 9: no files can be read from here"
    );
}

#[test]
fn tables_from_files() {
    let folder = folder(
        "tables",
        &[
            ("far.csv", "from,home,east,west\nhome,0,1,2\neast,3,4,5\nwest,6,7,8\n"),
            ("turned.csv", "\u{FEFF}\"from\", west ,home,\"east\"\r\n\r\nwest, 8,6,7\r\nhome,2,0,1\r\neast,5,3,+4\r\n"),
            ("lists.csv", "node,near,\"so far\"\nwest,3,-6\neast,2,-5\nhome,1,-4\n"),
            ("list.csv", "node,hours\nhome,1\neast,2\nwest,3\n"),
            ("numbered.csv", "row,0,1\n1,3,4\n0,1,2\n"),
        ],
    );
    let same = |text: &str, plain: &str| {
        let (text, plain) = (format!("{PRELUDE}{text}"), format!("{PRELUDE}{plain}"));
        let found = assembled(&folder, &text).unwrap_or_else(|report| panic!("{report}"));
        assert_eq!(found, assemble(&plain).unwrap(), "{text}");
    };
    let far = "table t[node, node] = 0 1 2 / 3 4 5 / 6 7 8";
    same("table t[node, node] from \"far.csv\"", far);
    same("table t[node, node] from \"turned.csv\"", far);
    same("table t[node] from \"list.csv\"", "table t[node] = 1 2 3");
    same(
        "table t[node] from \"lists.csv\" column near",
        "table t[node] = 1 2 3",
    );
    same(
        "table t[node] from \"lists.csv\" column \"so far\"",
        "table t[node] = -4 -5 -6",
    );
    same(
        "table t[2, 2] from \"numbered.csv\"",
        "table t[2, 2] = 1 2 / 3 4",
    );
    same(
        "constant c[node, node] from \"far.csv\" bound c[east, west]",
        "bound 5",
    );
}

#[test]
fn wrong_tables_in_files() {
    let told = [
        (
            "",
            "wrong.csv:1:1: the file is empty: a line of headings is due",
        ),
        (
            "from;home\nhome;1",
            "wrong.csv:1:1: cells are separated by commas, not by semicolons",
        ),
        (
            "x,home,east,west\nhome,0,1,2\neast,3,4,5",
            "wrong.csv:1:1: no row for `west`",
        ),
        (
            "x,home,east\nhome,0,1\neast,3,4\nwest,1,2",
            "wrong.csv:1:1: no column for `west`",
        ),
        (
            "x,home,east,wast\nhome,0,1,2\neast,3,4,5\nwest,6,7,8",
            "wrong.csv:1:13: `wast` is no object of `node`",
        ),
        (
            "x,home,east,west\nhome,0,1,2\nhome,3,4,5\nwest,6,7,8",
            "wrong.csv:3:1: `home` has a row already",
        ),
        (
            "x,home,east,west,east\nhome,0,1,2,1\neast,3,4,5,1\nwest,6,7,8,1",
            "wrong.csv:1:18: `east` has a column already",
        ),
        (
            "x,home,east,west\nhome,0,1\neast,3,4,5\nwest,6,7,8",
            "wrong.csv:2:1: cells in this line: 3; headings: 4",
        ),
        (
            "x,home,east,west\nhome,0,1,2\neast,3,4.5,5\nwest,6,7,8",
            "wrong.csv:3:8: a whole number is due, found `4.5`",
        ),
        (
            "x,home,east,west\nhome,0,1,2\neast,3,,5\nwest,6,7,8",
            "wrong.csv:3:8: a whole number is due in this cell, which is empty",
        ),
        (
            "x,home,east,west\nhome,0,1,2\neast,3, 3000000000,5\nwest,6,7,8",
            "wrong.csv:3:9: a number lies between -2147483648 and 2147483647",
        ),
        (
            "x,home,east,west\nhome,0,\"1,2\neast,3,4,5\nwest,6,7,8",
            "wrong.csv:2:8: the quotation mark that begins here is not closed",
        ),
        (
            "x,home,east,west\nhome,0,\"1\" 3,2\neast,3,4,5\nwest,6,7,8",
            "wrong.csv:2:11: expected `,` behind the quotation mark",
        ),
    ];
    for (csv, message) in told {
        let folder = folder("wrong", &[("wrong.csv", csv)]);
        let text = format!("{PRELUDE}table t[node, node] from \"wrong.csv\"\nbound t[at, at]");
        let report = assembled(&folder, &text).unwrap_err();
        assert_eq!(report.lines().next(), Some(message), "{csv}");
        assert_eq!(report.lines().count(), 3, "{report}");
    }
    let folder = folder(
        "wrong",
        &[("wrong.csv", "node,a,b\nhome,1,2\neast,1,2\nwest,1,2")],
    );
    let list = |behind: &str| {
        let text = format!("{PRELUDE}table t[node] from \"wrong.csv\"{behind}");
        assembled(&folder, &text).unwrap_err()
    };
    assert!(list("").starts_with("wrong.csv:1:1: the file has 2 columns behind the names: "));
    assert!(list(" column c").starts_with("text.dp:4:39: the file has no column `c`"));
    assert!(list(" column 3").starts_with("text.dp:4:39: expected a column's heading"));
}

/// Several errors are told in one go, by place, at most ten of them, each with its line and a caret.
#[test]
fn several_errors() {
    let text = "cost sum\nobjects o = a b\nset s of o = {a, c}\nnumber n = 1 prefer most\n\
        transition go:\n    when a in s\n    when x in s\n    cost y == 1\n    n := z\n\
        base:\n    when empty(t)\n\tbound tab\n";
    let report = assembled(Path::new(""), text).unwrap_err();
    let told: Vec<&str> = report
        .lines()
        .filter(|line| line.starts_with("text.dp:"))
        .collect();
    // What is wrong only because the declarations of `s` and `n` could not be read is not told.
    let due = [
        "text.dp:3:18: `c` is not declared",
        "text.dp:4:21: expected `less` or `more`, found `most`",
        "text.dp:8:10: expected a number, found a condition",
        "text.dp:8:12: `==` is written `=`",
        "text.dp:11:16: `t` is not declared",
        "text.dp:12:8: `tab` is not declared",
    ];
    assert_eq!(told, due);
    assert!(report.contains("    bound tab\n           ^\n"), "{report}");
    let many: String = (0..30).map(|number| format!("bound x{number}\n")).collect();
    let report = assembled(Path::new(""), &format!("cost sum\n{many}")).unwrap_err();
    assert_eq!(report.matches("text.dp:").count(), 10);
    assert!(report.ends_with("and 20 more\n"), "{report}");
    let report = assembled(
        Path::new(""),
        "cost sum\nobjects o = a a b\nset s of o = {b}\n",
    )
    .unwrap_err();
    assert_eq!(report.matches("text.dp:").count(), 1, "{report}");
    let open = "bound ((((1 +\n".repeat(60);
    let report = assembled(Path::new(""), &format!("cost sum\n{open}")).unwrap_err();
    assert!(report.ends_with("and 50 more\n"), "{report}");
    let sources = Sources::of_text(&format!("cost sum\n{open}"));
    let errors = assemble_sources(&mut { sources })
        .map(|found| found.bytes)
        .unwrap_err();
    let expected = |error: &repgypsum_host::text::Error| error.message.starts_with("expected ");
    assert!(errors.iter().all(expected), "{errors:?}");
    let marked = assembled(Path::new(""), "\u{FEFF}cost sum\nbound 1\n").unwrap_err();
    assert!(
        marked.starts_with("text.dp:1:1: a UTF-8 byte-order mark stands here"),
        "{marked}"
    );
}

/// Damaged files with tables: bytes, or a report that names a file and a place, and never a panic.
#[test]
fn damaged_files() {
    let mut random = Random::new(0xC57);
    let csv = "from,home,east,west\nhome,0,1,2\neast,3,4,5\nwest,6,7,8\n";
    let put = [
        "\"",
        ",",
        "\n",
        "home",
        "9",
        "-",
        ";",
        "ä",
        "\u{FEFF}",
        " ",
        "\r\n",
        "2147483648",
        "\0",
    ];
    let text = format!("{PRELUDE}table t[node, node] from \"damaged.csv\"\nbound t[at, at]");
    let mut wrong = 0;
    for _ in 0..2_000 {
        let mut letters: Vec<char> = csv.chars().collect();
        for _ in 0..1 + random.below(3) {
            let at = random.below(letters.len());
            match random.below(3) {
                0 => drop(letters.remove(at)),
                1 => letters.insert(at, put[random.below(put.len())].chars().next().unwrap()),
                _ => drop(letters.splice(at..at, put[random.below(put.len())].chars())),
            }
        }
        let damaged: String = letters.into_iter().collect();
        let folder = folder("damaged", &[("damaged.csv", &damaged)]);
        if let Err(report) = assembled(&folder, &text) {
            assert!(report.starts_with("damaged.csv:"), "{report}\n{damaged}");
            wrong += 1;
        }
    }
    println!("{wrong} of 2,000 tables are wrong");
    assert!(wrong >= 500);
}
