//! No test of the proved crates is left out: as many are run as their sources have.

use std::ffi::OsString;
use std::fs;
use std::path::Path;
use std::prelude::rust_2024::*;
use std::process::Command;

/// The lines `#[test]` in the sources below this folder.
fn tests_below(folder: &Path) -> usize {
    let entries = fs::read_dir(folder).expect("a folder of sources");
    let paths = entries.map(|entry| entry.expect("an entry of a folder").path());
    paths.map(|path| if path.is_dir() { tests_below(&path) } else { tests_in(&path) }).sum()
}

fn tests_in(file: &Path) -> usize {
    let text = fs::read_to_string(file).unwrap_or_default();
    text.lines().filter(|line| line.trim() == "#[test]").count()
}

/// The number of tests in this program that are those of a proved crate. `SIDORGHU_RUNNER` has words before it: an emulator and its options.
fn tests_here() -> usize {
    let program = std::env::current_exe().expect("the path of this program");
    let runner = std::env::var("SIDORGHU_RUNNER").unwrap_or_default();
    let mut words: Vec<OsString> = runner.split_whitespace().map(OsString::from).collect();
    words.push(program.into());
    let listed = Command::new(&words[0]).args(&words[1..]).args(["--list", "--format", "terse"]).output().expect("a list of tests");
    let text = String::from_utf8(listed.stdout).expect("names in UTF-8");
    text.lines().filter(|line| line.starts_with("sctp_") && line.ends_with(": test")).count()
}

#[test]
fn each_test_of_the_proved_crates_is_run() {
    let crates = Path::new(env!("CARGO_MANIFEST_DIR")).join("../../crates");
    let wanted = tests_below(&crates);
    assert!(wanted > 0, "no test in the sources");
    assert_eq!(tests_here(), wanted, "tests that are run, and those in the sources of crates/");
}
