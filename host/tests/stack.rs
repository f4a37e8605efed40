//! How much stack the proved functions use, by tests/stack.c: on every stored model, and on models nested as deep as the format allows.

mod tools;

use repgypsum_host::build::{
    choice, complement, count, equal, less, lit, not, num, or, set, sum, union, Build, Bytes,
};
use repgypsum_host::cases::groups;
use std::io::Write;
use std::path::Path;
use std::process::{Command, Stdio};
use tools::compile_c;

/// What host/repgypsum.h promises.
const MOST: usize = 48 * 1024;

/// A number nested as deep as `depth`, by a part that the function puts around it.
fn nested(depth: usize, inner: Bytes, around: impl Fn(Bytes) -> Bytes) -> Bytes {
    (1..depth).fold(inner, |part, _| around(part))
}

/// A model whose cost and bound are this number.
fn with_number(number: Bytes) -> Bytes {
    Build::new(0)
        .number(0, 0)
        .set(64, 7)
        .transition(&[], number.clone(), &[(0, sum(num(0), lit(1)))])
        .base(&[less(lit(3), num(0))])
        .bound(number)
        .end()
}

/// A model whose only condition and constraint are this one.
fn with_condition(condition: Bytes) -> Bytes {
    Build::new(0)
        .number(0, 0)
        .set(64, 7)
        .transition(
            std::slice::from_ref(&condition),
            lit(1),
            &[(0, sum(num(0), lit(1)))],
        )
        .base(&[less(lit(3), num(0))])
        .constraint(condition)
        .end()
}

/// Models whose expressions are nested 32 deep, through each way of nesting.
fn deep() -> Vec<Bytes> {
    vec![
        with_number(nested(32, lit(0), |part| sum(lit(0), part))),
        with_number(nested(32, lit(0), |part| sum(part, lit(0)))),
        with_number(nested(32, lit(0), |part| {
            choice(equal(lit(0), lit(0)), part, lit(0))
        })),
        with_number(nested(16, lit(0), |part| {
            choice(equal(part, lit(0)), lit(0), lit(0))
        })),
        with_number(count(nested(31, set(1), complement))),
        with_number(count(nested(31, set(1), |part| union(set(1), part)))),
        with_condition(nested(31, equal(lit(0), lit(0)), not)),
        with_condition(nested(31, equal(lit(0), lit(0)), |part| {
            or(equal(lit(0), lit(1)), part)
        })),
    ]
}

#[test]
fn calls_use_little_stack() {
    let program = Path::new(env!("CARGO_TARGET_TMPDIR")).join("stack");
    compile_c("tests/stack.c", &["-pthread"], &program);

    let stored = groups().into_iter().flat_map(|(_, cases)| cases);
    let models = deep()
        .into_iter()
        .chain(stored.map(|case| case.call.model().clone()));
    let mut input = Vec::new();
    for model in models.filter(|model| model.len() <= 65_536) {
        input.extend((model.len() as u32).to_le_bytes());
        input.extend(model);
    }
    let mut running = Command::new(&program)
        .stdin(Stdio::piped())
        .stdout(Stdio::piped())
        .spawn()
        .expect("the program was built");
    let mut models = running.stdin.take().expect("its input is a pipe");
    models.write_all(&input).expect("it reads all models");
    drop(models);
    let output = running.wait_with_output().expect("it ends");
    let line = String::from_utf8(output.stdout).expect("it writes text");
    let figures: Vec<usize> = line
        .split_whitespace()
        .filter_map(|word| word.parse().ok())
        .collect();
    println!("{line}");
    let [search, load, search_widths, load_widths, check, thread] = figures[..] else {
        panic!("six figures are due: {line}");
    };
    // The thread's own frames are counted; a call that used none of the stack would show that nothing was measured.
    for call in [search, load, search_widths, load_widths, check] {
        assert!(call > thread && call - thread <= MOST, "{line}");
    }
}
