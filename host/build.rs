//! Links the proved library, which `tools/static_library repgypsum` writes.

use std::path::Path;

fn main() {
    let root = std::env::var("CARGO_MANIFEST_DIR").expect("cargo names the crate's folder");
    let folder = Path::new(&root).join("../target/staticlib");
    println!("cargo:rustc-link-search=native={}", folder.display());
    let archive = folder.join("librepgypsum.a");
    println!("cargo:rerun-if-changed={}", archive.display());
    if !archive.exists() {
        println!("cargo:warning=target/staticlib/librepgypsum.a is missing: run `tools/static_library repgypsum` first");
    }
    println!("cargo:rustc-link-lib=static=repgypsum");
}
