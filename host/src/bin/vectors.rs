//! Writes the stored cases into the repository named by the first argument: the modules of crates/test_definitions, and what the
//! programs `test_plan_checks`, `test_searches`, `monthly` and `test_month` are given and write.

use repgypsum_host::cases::months::programs;
use repgypsum_host::cases::text::{modules, plan_checks, search_cases};
use repgypsum_host::month::{printed, reference_search};
use std::fs;
use std::io;
use std::path::Path;

/// Writes the files into a folder, which is made where it is missing.
fn write(folder: &Path, files: &[(String, Vec<u8>)]) -> io::Result<()> {
    fs::create_dir_all(folder)?;
    for (name, bytes) in files {
        let path = folder.join(name);
        fs::create_dir_all(path.parent().unwrap_or(folder))?;
        fs::write(path, bytes)?;
    }
    Ok(())
}

fn main() -> io::Result<()> {
    let Some(root) = std::env::args().nth(1) else {
        eprintln!("usage: vectors REPOSITORY");
        std::process::exit(2);
    };
    let crates = Path::new(&root).join("crates");
    let file = |name: &str, text: Vec<u8>| (name.to_string(), text);
    let modules: Vec<_> = modules()
        .into_iter()
        .map(|(name, text)| (name, text.into_bytes()))
        .collect();
    write(&crates.join("test_definitions/specs"), &modules)?;
    let (input, output) = plan_checks();
    let files = [file("stdin", input), file("stdout", output.into_bytes())];
    write(&crates.join("test_plan_checks"), &files)?;
    let cases = search_cases();
    let program = crates.join("test_searches");
    write(&program.join("data"), &cases.models)?;
    let arguments = cases.arguments.into_bytes();
    let files = [
        file("args", arguments),
        file("stdout", cases.output.into_bytes()),
    ];
    write(&program, &files)?;
    for (name, month) in programs() {
        let program = crates.join(name);
        write(&program.join("data"), &month.files)?;
        let output = printed(&month.list, &program.join("data"), reference_search);
        let files = [
            file("stdin", month.list),
            file("stdout", output.into_bytes()),
        ];
        write(&program, &files)?;
    }
    Ok(())
}
