//! The Python package and the farm example, on a shared library linked for the test. Where there is no Python 3, that is told.

mod tools;

use repgypsum_host::families::families;
use std::path::{Path, PathBuf};
use std::process::Command;
use tools::{archive, compile, folder, host, root, tell};

/// Whether Python is there, and not older than the package asks for.
fn python() -> bool {
    let asked = "import sys; sys.exit(sys.version_info < (3, 8))";
    let found = Command::new("python3").args(["-c", asked]).status();
    let found = found.is_ok_and(|status| status.success());
    if !found {
        tell("no Python of 3.8 or later: not tried");
    }
    found
}

/// The shared library, made of the archive.
fn shared(folder: &Path) -> PathBuf {
    let library = folder.join("librepgypsum.so");
    let exports = host().join("repgypsum.map");
    let mut linker = Command::new("cc");
    linker
        .args(["-shared", "-Wl,-z,defs", "-Wl,--whole-archive"])
        .arg(archive())
        .arg("-Wl,--no-whole-archive")
        .arg(format!("-Wl,--version-script,{}", exports.display()));
    compile(&mut linker, &library);
    library
}

/// Python with the library, the program of this build, and no files of its own beside the sources.
fn running(library: &Path) -> Command {
    let mut python = Command::new("python3");
    python
        .env("PYTHONDONTWRITEBYTECODE", "1")
        .env("REPGYPSUM_LIBRARY", library)
        .env("REPGYPSUM_PROGRAM", env!("CARGO_BIN_EXE_repgypsum"));
    python
}

/// The package's own tests, none passed over, on the models of every family at four sizes.
#[test]
fn the_packages_tests_pass() {
    if !python() {
        return;
    }
    let own = folder("python", "package");
    let models = own.join("families");
    std::fs::create_dir_all(&models).expect("a folder for models");
    for family in families() {
        let sizes = [
            family.smallest,
            family.smallest + 4,
            family.usual,
            family.largest,
        ];
        for (size, seed) in sizes.into_iter().zip([0, 3, 7, u64::MAX]) {
            let path = models.join(format!("{}-{size}-{seed}.model", family.name));
            std::fs::write(path, (family.model)(size, seed)).expect("a model for the tests");
        }
    }
    let output = running(&shared(&own))
        .args(["-m", "unittest"])
        .current_dir(root().join("python"))
        .env("REPGYPSUM_FAMILIES", &models)
        .output()
        .expect("Python runs");
    let said = String::from_utf8_lossy(&output.stderr);
    let last: Vec<&str> = said.trim_end().lines().rev().take(3).collect();
    assert!(output.status.success() && last[0] == "OK", "{said}");
    let count: usize = last[2]
        .split(' ')
        .nth(1)
        .and_then(|word| word.parse().ok())
        .expect("how many were run");
    assert!(count >= 30, "{said}");
}

/// The farm, from its tables to the auditor's page, in one command; the page's quotation passes.
#[test]
fn the_farm_runs_to_its_page() {
    if !python() {
        return;
    }
    let own = folder("python", "farm");
    let output = running(&shared(&own))
        .arg(root().join("examples/farm/farm.py"))
        .arg("farm.html")
        .current_dir(&own)
        .output()
        .expect("Python runs");
    let said = String::from_utf8_lossy(&output.stderr);
    assert!(output.status.success() && said.is_empty(), "{said}");
    let due =
        std::fs::read_to_string(root().join("examples/farm/farm.out")).expect("the output due");
    assert_eq!(String::from_utf8_lossy(&output.stdout), due);

    let page = std::fs::read_to_string(own.join("farm.html")).expect("the page");
    let quotation = page
        .split("<pre>")
        .find(|part| part.starts_with("repgypsum quotation"));
    let quotation = quotation
        .and_then(|part| part.split("</pre>").next())
        .expect("the quotation");
    std::fs::write(own.join("farm.quote"), quotation).expect("a file for the quotation");
    let verified = Command::new(env!("CARGO_BIN_EXE_repgypsum"))
        .args(["verify", "farm.quote"])
        .current_dir(&own)
        .output()
        .expect("the program runs");
    assert!(
        verified.status.success(),
        "{}",
        String::from_utf8_lossy(&verified.stdout)
    );
}
