//! `make install` into a folder of its own, from what is built already; then C and C++ programs by its pkg-config file, with the archive and
//! through the shared library.

mod tools;

use std::collections::BTreeSet;
use std::path::{Path, PathBuf};
use std::process::{Command, Output};
use tools::{folder, host, root, tell};

/// Whether a tool is there; one that is missing is told.
fn there(tool: &str) -> bool {
    let found = Command::new(tool).arg("--version").output().is_ok();
    if !found {
        tell(&format!("no {tool}: not tried"));
    }
    found
}

fn text(bytes: &[u8]) -> String {
    String::from_utf8(bytes.to_vec()).expect("the output is text")
}

/// The output of a command that ends well.
fn done(command: &mut Command) -> Output {
    let output = command.output().expect("the command starts");
    let said = text(&output.stdout) + &text(&output.stderr);
    assert!(output.status.success(), "{command:?}\n{said}");
    output
}

/// Runs make for this target; libraries are linked in a folder of the test's own.
fn make(target: &str, prefix: &Path, staged: &str, build: &Path) {
    let program = env!("CARGO_BIN_EXE_repgypsum");
    let mut make = Command::new("make");
    make.current_dir(root())
        .arg(target)
        .arg(format!("PREFIX={}", prefix.display()))
        .arg(format!("DESTDIR={staged}"))
        .arg(format!("BUILD={}", build.display()))
        .arg(format!("PROGRAM={program}"))
        .env_remove("MAKEFLAGS")
        .env_remove("MAKELEVEL");
    done(&mut make);
}

/// The files below a folder, by their paths from it.
fn files(folder: &Path) -> BTreeSet<String> {
    let mut found = BTreeSet::new();
    let mut folders = vec![folder.to_path_buf()];
    while let Some(next) = folders.pop() {
        for entry in std::fs::read_dir(next).expect("a folder") {
            let path = entry.expect("an entry").path();
            if path.is_dir() {
                folders.push(path);
            } else {
                let inside = path.strip_prefix(folder).expect("below the folder");
                found.insert(inside.display().to_string());
            }
        }
    }
    found
}

const INSTALLED: [&str; 8] = [
    "bin/repgypsum",
    "include/repgypsum.h",
    "lib/librepgypsum.a",
    "lib/librepgypsum.so",
    "lib/librepgypsum.so.0",
    concat!("lib/librepgypsum.so.", env!("CARGO_PKG_VERSION")),
    "lib/pkgconfig/repgypsum.pc",
    "share/man/man1/repgypsum.1",
];

/// What pkg-config says, or where it is missing what the file itself says.
fn flags(prefix: &Path, asked: &str, heading: &str) -> Vec<String> {
    let folder = prefix.join("lib/pkgconfig");
    let said = match Command::new("pkg-config")
        .arg(asked)
        .arg("repgypsum")
        .env("PKG_CONFIG_PATH", &folder)
        .output()
    {
        Ok(output) => {
            assert!(output.status.success(), "{}", text(&output.stderr));
            text(&output.stdout)
        }
        Err(_) => {
            tell("no pkg-config: its file is read here");
            let file = std::fs::read_to_string(folder.join("repgypsum.pc")).expect("the file");
            let line = file.lines().find_map(|line| line.strip_prefix(heading));
            let line = line
                .expect("the line")
                .replace("${libdir}", "${prefix}/lib");
            let line = line.replace("${includedir}", "${prefix}/include");
            line.replace("${prefix}", &prefix.display().to_string())
        }
    };
    said.split_whitespace().map(str::to_string).collect()
}

/// Compiles a program against what is installed, without a warning: with the archive, or through the shared library.
fn compiled(compiler: &[&str], source: &Path, prefix: &Path, shared: bool, name: &str) -> PathBuf {
    let program = prefix.join(name);
    let mut command = Command::new(compiler[0]);
    command
        .args(&compiler[1..])
        .args(["-Wall", "-Wextra", "-Werror", "-O2", "-pthread"]);
    command
        .args(flags(prefix, "--cflags", "Cflags: "))
        .arg(source);
    if shared {
        command.args(flags(prefix, "--libs", "Libs: "));
        command.arg(format!("-Wl,-rpath,{}", prefix.join("lib").display()));
    } else {
        command.arg(prefix.join("lib/librepgypsum.a"));
    }
    let output = done(command.arg("-o").arg(&program));
    assert_eq!(text(&output.stderr), "");
    program
}

#[test]
fn installed_programs_run() {
    if !there("make") {
        return;
    }
    let (prefix, build) = (folder("install", "prefix"), folder("install", "build"));
    make("install", &prefix, "", &build);
    let due: BTreeSet<String> = INSTALLED.map(str::to_string).into();
    assert_eq!(files(&prefix), due);

    let model = root().join("examples/three-designs.model");
    let output = done(
        Command::new(prefix.join("bin/repgypsum"))
            .arg("plan")
            .arg(&model),
    );
    assert_eq!(text(&output.stdout), "0 1 7 7 3 14 3 4 7 : 0 1 2\n");

    let c = ["cc", "-std=c11"];
    let due = "verdict 0, bound 7, 14 expansions in 3 rounds\ncost 7\nplan: 0 1 2\nplan check: answer 0, cost 7, low 7\n";
    for (shared, name) in [(false, "c-archive"), (true, "c-shared")] {
        let program = compiled(&c, &host().join("example.c"), &prefix, shared, name);
        let output = done(Command::new(&program).arg(&model));
        assert_eq!(text(&output.stdout), due, "{name}");
        assert!(needs_library(&program) != Some(!shared), "{name}");
    }
    if there("c++") {
        let several = ["c++", "-std=c++17"];
        for (shared, name) in [(false, "cpp-archive"), (true, "cpp-shared")] {
            let program = compiled(&several, &host().join("example.cpp"), &prefix, shared, name);
            // Forty threads at once, five for each example, each with the answer that one alone has.
            let (mut models, mut lines) = (Vec::new(), String::new());
            for _ in 0..5 {
                for example in [
                    "three-designs",
                    "sop",
                    "tsptw",
                    "tardiness",
                    "open-stacks",
                    "assembly-line",
                    "loading-order",
                    "reload-hours",
                ] {
                    models.push(root().join(format!("examples/{example}.model")));
                    lines += &line(example);
                }
            }
            let output = done(Command::new(&program).args(&models));
            assert_eq!(text(&output.stdout), lines, "{name}");
            assert!(needs_library(&program) != Some(!shared), "{name}");
        }
    }
    for name in ["c-archive", "c-shared", "cpp-archive", "cpp-shared"] {
        let _ = std::fs::remove_file(prefix.join(name));
    }
    make("uninstall", &prefix, "", &build);
    assert_eq!(files(&prefix), BTreeSet::new());
}

/// The line that the C++ example prints for an example, from the line that is stored for it.
fn line(example: &str) -> String {
    let stored = std::fs::read_to_string(root().join(format!("examples/{example}.out")))
        .expect("a stored line");
    let (fields, plan) = stored.trim_end().split_once(" :").expect("a plan");
    let fields: Vec<&str> = fields.split(' ').collect();
    let (verdict, cost, bound, low) = (fields[0], fields[2], fields[3], fields[8]);
    format!(
        "verdict {verdict}, cost {cost}, bound {bound}, low {low}, plan{plan}; plan check 0, cost {cost}, low {low}\n"
    )
}

/// Whether the program asks the loader for the shared library, if that can be seen.
fn needs_library(program: &Path) -> Option<bool> {
    if !there("ldd") {
        return None;
    }
    let needed = text(&done(Command::new("ldd").arg(program)).stdout);
    Some(needed.contains("librepgypsum.so.0"))
}

/// DESTDIR goes before what is written, and not into what is said there.
#[test]
fn staged_for_a_package() {
    if !there("make") {
        return;
    }
    let (stage, build) = (folder("install", "stage"), folder("install", "stage-build"));
    make(
        "install",
        Path::new("/opt/planner"),
        &stage.display().to_string(),
        &build,
    );
    let inside = stage.join("opt/planner");
    let due: BTreeSet<String> = INSTALLED.map(str::to_string).into();
    assert_eq!(files(&inside), due);
    let file =
        std::fs::read_to_string(inside.join("lib/pkgconfig/repgypsum.pc")).expect("the file");
    assert!(file.starts_with("prefix=/opt/planner\n"), "{file}");
    assert!(
        file.contains(concat!("\nVersion: ", env!("CARGO_PKG_VERSION"), "\n")),
        "{file}"
    );
    make(
        "uninstall",
        Path::new("/opt/planner"),
        &stage.display().to_string(),
        &build,
    );
    assert_eq!(files(&stage), BTreeSet::new());
}

/// Names in the library's symbol table, by the letters that nm gives their kinds.
fn symbols(arguments: &[&str], library: &Path) -> Vec<(char, String)> {
    let output = done(Command::new("nm").args(arguments).arg(library));
    let lines = text(&output.stdout);
    let words = lines
        .lines()
        .map(|line| line.split_whitespace().collect::<Vec<&str>>());
    let symbol = |words: Vec<&str>| match words[..] {
        [.., kind, name] if kind.len() == 1 => Some((kind.chars().next()?, name.to_string())),
        _ => None,
    };
    words.filter_map(symbol).collect()
}

/// The archive has no data that can be written, and needs memcpy and memset alone; both libraries export the header's functions.
#[test]
fn what_the_libraries_have() {
    if !there("nm") || !there("make") {
        return;
    }
    let functions = [
        "repgypsum_check_answer",
        "repgypsum_check_cost",
        "repgypsum_check_low",
        "repgypsum_load",
        "repgypsum_load_widths",
        "repgypsum_search",
        "repgypsum_search_widths",
    ];
    let archive = root().join("target/staticlib/librepgypsum.a");
    let all = symbols(&[], &archive);
    assert!(all.len() > functions.len());
    let named = |kinds: &str| -> Vec<&str> {
        let found = all.iter().filter(|(kind, _)| kinds.contains(*kind));
        let mut names: Vec<&str> = found.map(|(_, name)| name.as_str()).collect();
        names.sort();
        names
    };
    assert_eq!(named("T"), functions);
    assert_eq!(named("U"), ["memcpy", "memset"]);
    assert_eq!(
        named("BbDdCGgSsVvWw"),
        Vec::<&str>::new(),
        "data that outlives a call"
    );

    let (prefix, build) = (
        folder("install", "exports"),
        folder("install", "exports-build"),
    );
    make("install", &prefix, "", &build);
    let shared = symbols(
        &["-D", "--defined-only"],
        &prefix.join("lib/librepgypsum.so"),
    );
    let mut names: Vec<&str> = shared.iter().map(|(_, name)| name.as_str()).collect();
    names.sort();
    assert_eq!(names, functions);
}

/// The number that the header defines under this name.
fn defined(header: &str, name: &str) -> String {
    let start = format!("#define {name} ");
    let line = header.lines().find_map(|line| line.strip_prefix(&start));
    line.unwrap_or_else(|| panic!("{name}"))
        .trim_matches('"')
        .to_string()
}

#[test]
fn the_header_has_version_and_limits() {
    use repgypsum_host::numbers::limit;
    let header = std::fs::read_to_string(host().join("repgypsum.h")).expect("the header");
    let version = env!("CARGO_PKG_VERSION");
    assert_eq!(defined(&header, "REPGYPSUM_VERSION"), version);
    let parts = ["MAJOR", "MINOR", "PATCH"]
        .map(|part| defined(&header, &format!("REPGYPSUM_VERSION_{part}")));
    assert_eq!(parts.join("."), version);
    let limits = [
        ("MODEL_BYTES", limit::MODEL_BYTES as u64),
        ("WIDTH", limit::WIDTH),
        ("WIDTHS", limit::WIDTHS as u64),
        ("STEPS", limit::LENGTH),
        ("TRANSITIONS", limit::TRANSITIONS as u64),
        ("OBJECTS", u64::from(limit::OBJECTS)),
    ];
    for (name, value) in limits {
        assert_eq!(
            defined(&header, &format!("REPGYPSUM_MOST_{name}")),
            value.to_string(),
            "{name}"
        );
    }
    let python =
        std::fs::read_to_string(root().join("python/repgypsum/__init__.py")).expect("the package");
    assert!(python.contains(&format!("__version__ = \"{version}\"\n")));
}

/// The manual page has every command and option of the page of help.
#[test]
fn the_manual_is_whole() {
    let manual = std::fs::read_to_string(host().join("repgypsum.1.in")).expect("the manual");
    let manual = manual.replace("\\-", "-");
    let output = done(Command::new(env!("CARGO_BIN_EXE_repgypsum")).arg("help"));
    let mut words = 0;
    for line in text(&output.stdout).lines() {
        let Some(first) = line
            .strip_prefix("  ")
            .and_then(|line| line.split(' ').next())
        else {
            continue;
        };
        if !first.is_empty() {
            let there = [".B ", ".BI "]
                .iter()
                .any(|font| manual.contains(&format!("{font}{first}")));
            assert!(there, "{first}");
            words += 1;
        }
    }
    assert!(words >= 30, "{words}");
}
