//! Copies the four published files into the build output and makes a few functions visible.

use std::env;
use std::fs;
use std::path::{Path, PathBuf};

/// The modules in the order in which they are declared.
const MODULES: [&str; 4] = ["error", "context", "scanner", "preprocessor"];

/// The module that holds the lines to edit.
const EDITED: &str = "preprocessor";

/// How the lines to edit start: the body call, and its last four passes, which a table of levels needs one
/// by one. `pub` is put ahead of each.
const HIDDEN: [&str; 5] = [
    "fn transform_body(", "fn transform_elsif(", "fn transform_assignments(",
    "fn transform_select_into(", "fn transform_raise_statements(",
];

/// Said after every error about the folder.
const ADVICE: &str = "name another folder with: oracle/run --source DIR ..";

fn main() {
    println!("cargo:rerun-if-changed=build.rs");
    println!("cargo:rerun-if-env-changed=ORACLE_SOURCE");
    if let Err(message) = build() {
        eprintln!("oracle: {message}");
        std::process::exit(1);
    }
}

fn build() -> Result<(), String> {
    let folder = source_folder()?;
    let out = PathBuf::from(variable("OUT_DIR")?);
    let mut list = String::new();
    for module in MODULES {
        let copy = out.join(format!("{module}.rs"));
        copy_module(&folder, module, &copy)?;
        list.push_str(&format!("#[path = {copy:?}]\npub mod {module};\n"));
    }
    list.push_str("pub use error::Error;\n");
    write(&out.join("reference.rs"), &list)
}

/// The folder named by ORACLE_SOURCE, or else the one beside the repository.
fn source_folder() -> Result<PathBuf, String> {
    let named = env::var_os("ORACLE_SOURCE").filter(|named| !named.is_empty());
    let folder = match named {
        Some(named) => PathBuf::from(named),
        None => Path::new(&variable("CARGO_MANIFEST_DIR")?).join("../../../shared/docs/src"),
    };
    if folder.is_dir() {
        return Ok(folder);
    }
    Err(format!("the source folder {} is missing; {ADVICE}", folder.display()))
}

/// Finds one module directly in the folder or in its `src` subfolder.
fn find_module(folder: &Path, module: &str) -> Result<PathBuf, String> {
    let name = format!("{module}.rs");
    let direct = folder.join(&name);
    let below = folder.join("src").join(&name);
    if direct.is_file() {
        Ok(direct)
    } else if below.is_file() {
        Ok(below)
    } else {
        Err(format!(
            "the source file {} is missing, and so is {}; {ADVICE}",
            direct.display(),
            below.display()
        ))
    }
}

fn copy_module(folder: &Path, module: &str, copy: &Path) -> Result<(), String> {
    let origin = find_module(folder, module)?;
    println!("cargo:rerun-if-changed={}", origin.display());
    let text = fs::read_to_string(&origin)
        .map_err(|error| format!("{} cannot be read: {error}", origin.display()))?;
    if module == EDITED {
        write(copy, &make_visible(&text, &origin)?)
    } else {
        write(copy, &text)
    }
}

/// The only edits: a text in which one of the lines is missing or repeated is refused.
fn make_visible(text: &str, origin: &Path) -> Result<String, String> {
    HIDDEN.iter().try_fold(text.to_string(), |text, hidden| make_one_visible(&text, hidden, origin))
}

fn make_one_visible(text: &str, hidden: &str, origin: &Path) -> Result<String, String> {
    let is_wanted = |line: &&str| line.trim_start().starts_with(hidden);
    let found = text.lines().filter(is_wanted).count();
    if found != 1 {
        return Err(format!(
            "{} must hold exactly one line that starts with `{hidden}`, but holds {found}; {ADVICE}",
            origin.display()
        ));
    }
    let edit = |line: &str| match is_wanted(&line) {
        true => line.replacen(hidden, &format!("pub {hidden}"), 1),
        false => line.to_string(),
    };
    Ok(text.split_inclusive('\n').map(edit).collect())
}

fn variable(name: &str) -> Result<String, String> {
    env::var(name).map_err(|error| format!("the variable {name} cannot be read: {error}"))
}

fn write(path: &Path, text: &str) -> Result<(), String> {
    fs::write(path, text).map_err(|error| format!("{} cannot be written: {error}", path.display()))
}
