//! The scripts refuse a wrong source folder before they build anything.

use std::process::{Command, Output};

fn run(script: &str, words: &[&str]) -> Output {
    let script = format!("{}/../{script}", env!("CARGO_MANIFEST_DIR"));
    Command::new(script).args(words).output().expect("the script starts")
}

fn check_refused(words: &[&str], part: &str) {
    for script in ["run", "compare-run"] {
        check_script(script, words, part);
    }
}

fn check_script(script: &str, words: &[&str], part: &str) {
    let output = run(script, words);
    let message = String::from_utf8(output.stderr).unwrap();
    assert_eq!(output.status.code(), Some(2), "{message}");
    assert_eq!(message.lines().count(), 1, "{message}");
    assert!(message.contains(part), "{message}");
}

#[test]
fn a_missing_folder_is_named() {
    check_refused(&["--source", "no/such/folder", "answers"], "no/such/folder is missing");
}

#[test]
fn a_missing_file_is_named() {
    let folder = env!("CARGO_MANIFEST_DIR");
    check_refused(&["--source", folder, "answers"], "/error.rs is missing");
}

#[test]
fn a_folder_must_follow() {
    check_refused(&["--source"], "--source needs a folder");
}
