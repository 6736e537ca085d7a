//! Links the static library that `tools/staticlib` makes in the repository's root.

use std::path::PathBuf;

const ARCHIVE: &str = "libplpgsql_rewriter.a";

fn main() {
    let root = PathBuf::from(env!("CARGO_MANIFEST_DIR")).join("../..");
    let folder = root.join("target/staticlib");
    let archive = folder.join(ARCHIVE);
    if !archive.is_file() {
        eprintln!("oracle: {} is missing; make it with: tools/staticlib", archive.display());
        std::process::exit(1);
    }
    println!("cargo:rerun-if-changed={}", archive.display());
    println!("cargo:rustc-link-search=native={}", folder.display());
    println!("cargo:rustc-link-lib=static=plpgsql_rewriter");
}
