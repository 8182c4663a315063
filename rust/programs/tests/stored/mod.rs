//! What the tests share: where the stored files are, how a program is run, how two texts are told apart.
#![allow(dead_code)] // each test uses a part of it

pub mod script;
pub mod transcript;

use std::fs;
use std::io::Write;
use std::path::PathBuf;
use std::process::{Command, Stdio};
use std::thread;

pub const TRACE: &str = env!("CARGO_BIN_EXE_sctp-trace");
pub const END: &str = env!("CARGO_BIN_EXE_sctp-end");
pub const LOOK: &str = env!("CARGO_BIN_EXE_sctp-look");
pub const TRANSCRIPT: &str = env!("CARGO_BIN_EXE_sctp-transcript");

/// What a program wrote, and its exit status, `None` if a signal ended it.
pub struct Ran {
    pub output: Vec<u8>,
    pub faults: Vec<u8>,
    pub status: Option<i32>,
}

/// The path of a file of the checkout.
pub fn path(file: &str) -> PathBuf {
    PathBuf::from(env!("CARGO_MANIFEST_DIR")).join("../..").join(file)
}

/// A file of the checkout as text.
pub fn text(file: &str) -> String {
    fs::read_to_string(path(file)).unwrap_or_else(|error| panic!("{file}: {error}"))
}

/// A file of the checkout as text, empty if there is none.
pub fn text_if_any(file: &str) -> String {
    fs::read_to_string(path(file)).unwrap_or_default()
}

/// The command of a program. `SIDORGHU_RUNNER` has words before it: an emulator and its options.
pub fn command(program: &str) -> Command {
    let runner = std::env::var("SIDORGHU_RUNNER").unwrap_or_default();
    let mut words = runner.split_whitespace().chain([program]);
    let mut command = Command::new(words.next().expect("a program"));
    command.args(words);
    command
}

/// Runs a command over this input, which it needn't read.
pub fn run(mut command: Command, input: &[u8]) -> Ran {
    command.stdin(Stdio::piped()).stdout(Stdio::piped()).stderr(Stdio::piped());
    let mut child = command.spawn().unwrap_or_else(|error| panic!("{command:?}: {error}"));
    let mut to_child = child.stdin.take().expect("a pipe");
    let ended = thread::scope(|scope| {
        // It fails if the program ends before it has read all, which it may.
        scope.spawn(move || to_child.write_all(input).is_ok());
        child.wait_with_output().expect("the end of a program")
    });
    Ran { output: ended.stdout, faults: ended.stderr, status: ended.status.code() }
}

/// Runs a program with these words.
pub fn run_words(program: &str, words: &[&str], input: &[u8]) -> Ran {
    let mut command = command(program);
    command.args(words);
    run(command, input)
}

/// Fails at the first line in which what was written differs from what is wanted.
#[track_caller]
pub fn same(what: &str, wanted: &[u8], written: &[u8]) {
    if wanted == written {
        return;
    }
    let (wanted, written) = (String::from_utf8_lossy(wanted), String::from_utf8_lossy(written));
    let (mut wanted, mut written) = (wanted.split('\n'), written.split('\n'));
    for line in 1.. {
        match (wanted.next(), written.next()) {
            (Some(one), Some(other)) if one == other => {}
            (None, None) => panic!("{what}: bytes that aren't UTF-8 differ"),
            (one, other) => panic!("{what}: line {line} differs\n  wanted:  {}\n  written: {}", shown(one), shown(other)),
        }
    }
}

fn shown(line: Option<&str>) -> String {
    line.map_or("no such line".to_string(), |line| format!("{line:?}"))
}
