//! What several tests share: the repository's folders, a folder of a test's own, a compiler that has nothing to say.

// No test uses all of it.
#![allow(dead_code)]

use std::io::Write;
use std::path::{Path, PathBuf};
use std::process::Command;

/// The folder of these tests' crate.
pub fn host() -> PathBuf {
    PathBuf::from(env!("CARGO_MANIFEST_DIR"))
}

/// The repository.
pub fn root() -> PathBuf {
    host().join("..").canonicalize().expect("the repository")
}

/// The proved library, as an archive.
pub fn archive() -> PathBuf {
    root().join("target/staticlib/librepgypsum.a")
}

/// An empty folder of a test's own.
pub fn folder(test: &str, name: &str) -> PathBuf {
    let folder = Path::new(env!("CARGO_TARGET_TMPDIR")).join(test).join(name);
    let _ = std::fs::remove_dir_all(&folder);
    std::fs::create_dir_all(&folder).expect("a folder for the tests");
    folder
}

/// Says something on standard error even where the tests' own output is not shown.
pub fn tell(line: &str) {
    let _ = writeln!(std::io::stderr(), "{line}");
}

/// Runs a compiler to this file, which has to end well and without a word.
pub fn compile(compiler: &mut Command, to: &Path) {
    let output = compiler
        .arg("-o")
        .arg(to)
        .output()
        .expect("a C compiler, cc");
    let said = String::from_utf8_lossy(&output.stderr);
    assert!(output.status.success() && said.is_empty(), "{said}");
}

/// Compiles a C file of the host against header and archive, without a warning.
pub fn compile_c(file: &str, options: &[&str], to: &Path) {
    let strict = ["-std=c11", "-Wall", "-Wextra", "-Werror", "-O2"];
    let mut compiler = Command::new("cc");
    compiler
        .args(strict)
        .args(options)
        .arg("-I")
        .arg(host())
        .arg(host().join(file))
        .arg(archive());
    compile(&mut compiler, to);
}
