//! The C example: compiled against the header and the proved libraries, run on a model, its output compared.

mod tools;

use std::path::{Path, PathBuf};
use std::process::{Command, Output};
use tools::{compile_c, host};

/// A path in the tests' folder below the target folder.
fn built(name: &str) -> PathBuf {
    Path::new(env!("CARGO_TARGET_TMPDIR")).join(name)
}

/// Compiles the example to a program of this name.
fn compiled(name: &str) -> PathBuf {
    let program = built(name);
    compile_c("example.c", &[], &program);
    program
}

/// The program's exit status and output.
fn left(output: &Output) -> (Option<i32>, String) {
    let text = String::from_utf8(output.stdout.clone()).expect("the output is text");
    (output.status.code(), text)
}

#[test]
fn the_example_plans_and_checks() {
    let program = compiled("c-example");
    let model = host().join("../examples/three-designs.model");
    let output = Command::new(&program).arg(&model).output().unwrap();
    let due = "verdict 0, bound 7, 14 expansions in 3 rounds\ncost 7\nplan: 0 1 2\nplan check: answer 0, cost 7, low 7\n";
    assert_eq!(left(&output), (Some(0), due.to_string()));
}

/// Where hours are ranges both ends are printed, by the search and by the plan check.
#[test]
fn the_example_prints_a_range() {
    let program = compiled("c-example-range");
    let model = host().join("../examples/reload-hours.model");
    let output = Command::new(&program).arg(&model).output().unwrap();
    let due = "verdict 0, bound 22, 41 expansions in 4 rounds\ncost 22, or down to 13 where steps take less than their high costs\nplan: 2 1 0 3\nplan check: answer 0, cost 22, low 13\n";
    assert_eq!(left(&output), (Some(0), due.to_string()));
    // The counting model with low cost x and high cost 1: refused at its third step, and the path is printed.
    let below = built("below.model");
    let bytes = b"\x01\x00\x04\x00\x00\x00\x00\x00\x07\x09\x21\x00\x10\x20\x01\x00\x00\x00\x0A\x00\x22\x21\x00\x20\x01\x00\x00\x00\x0B\x08\x50\x21\x00\x20\x03\x00\x00\x00\x0E";
    std::fs::write(&below, bytes).unwrap();
    let output = Command::new(&program).arg(&below).output().unwrap();
    assert_eq!(
        left(&output),
        (Some(1), "refused 17\npath: 0 0\n".to_string())
    );
}

/// A refused model, a missing file and a missing argument.
#[test]
fn the_example_refuses() {
    let program = compiled("c-example-refusing");
    let cut = built("cut.model");
    std::fs::write(&cut, [1, 0]).unwrap();
    let output = Command::new(&program).arg(&cut).output().unwrap();
    assert_eq!(left(&output), (Some(1), "refused 4\npath:\n".to_string()));
    let output = Command::new(&program)
        .arg("no/such.model")
        .output()
        .unwrap();
    assert_eq!(left(&output), (Some(2), String::new()));
    let output = Command::new(&program).output().unwrap();
    assert_eq!(left(&output), (Some(2), String::new()));
}

/// The header is C++ too, where there is a compiler for it.
#[test]
fn the_header_is_c_plus_plus() {
    let source = built("header.cpp");
    std::fs::write(
        &source,
        "#include \"repgypsum.h\"\nint main() { return 0; }\n",
    )
    .unwrap();
    let compiler = Command::new("c++")
        .args([
            "-std=c++11",
            "-Wall",
            "-Wextra",
            "-Werror",
            "-fsyntax-only",
            "-I",
        ])
        .arg(host())
        .arg(&source)
        .output();
    match compiler {
        Ok(output) => {
            let said = String::from_utf8_lossy(&output.stderr);
            assert!(output.status.success() && said.is_empty(), "{said}");
        }
        Err(_) => println!("no C++ compiler: not tried"),
    }
}
