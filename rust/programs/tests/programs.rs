//! What no row shows of the programs: help, words that aren't UTF-8, output that can't be written, a line answered before the next one
//! arrives; and the programs that have no input.

mod stored;

use std::ffi::OsStr;
use std::io::{BufRead, BufReader, Write};
use std::process::Stdio;
use stored::{END, LOOK, TRACE, TRANSCRIPT, command, run, run_words, same, text};

/// The three programs, each with words that are right.
const PROGRAMS: [(&str, &str, &str); 3] =
    [("sctp-trace", TRACE, "run"), ("sctp-end", END, "caller 1500 1400 65536 1 data 5000 5001"), ("sctp-look", LOOK, "")];

#[test]
fn sctp_broken() {
    let ran = run_words(TRANSCRIPT, &["sctp_broken"], b"");
    same("sctp_broken", text("crates/sctp_broken/stdout").as_bytes(), &ran.output);
    assert_eq!(ran.status, Some(0));
}

#[test]
fn sctp_example() {
    let ran = run_words(TRANSCRIPT, &["sctp_example"], b"");
    same("sctp_example", text("crates/sctp_example/stdout").as_bytes(), &ran.output);
    assert_eq!(ran.status, Some(0));
}

/// Help is on standard output, with status 0; a wrong word has the same text on standard error, with status 1.
#[test]
fn help_is_told_at_once() {
    for (name, program, _) in PROGRAMS {
        for words in [&["--help"][..], &["-h"], &["help"], &["run", "--help"]] {
            let ran = run_words(program, words, b"");
            let said = String::from_utf8(ran.output).expect("UTF-8");
            assert!(said.starts_with("usage:") && said.ends_with('\n'), "{name} {words:?}: {said:?}");
            assert_eq!((ran.status, ran.faults.len()), (Some(0), 0), "{name} {words:?}");
            let wrong = run_words(program, &["--no-such-word"], b"");
            assert_eq!((wrong.status, wrong.output.len()), (Some(1), 0), "{name}");
            assert!(String::from_utf8_lossy(&wrong.faults).ends_with(&said), "{name}: the usage behind a wrong word");
        }
    }
}

#[cfg(unix)]
#[test]
fn a_word_may_not_be_utf_8() {
    use std::os::unix::ffi::OsStrExt;
    for (name, program, _) in PROGRAMS {
        let mut process = command(program);
        process.arg(OsStr::from_bytes(b"ru\xffn"));
        let ran = run(process, b"");
        assert_eq!((ran.status, ran.output.len()), (Some(1), 0), "{name}");
        let faults = String::from_utf8_lossy(&ran.faults).into_owned();
        assert!(faults.starts_with(&format!("{name}: a word isn't UTF-8\nusage:")), "{name}: {faults:?}");
    }
}

/// A device on which every write fails.
#[cfg(target_os = "linux")]
#[test]
fn a_full_disk_is_status_3() {
    for (name, program, words) in PROGRAMS {
        let input = text(&format!("crates/{}_main/stdin", name.replace('-', "_")));
        let full = std::fs::File::options().write(true).open("/dev/full").expect("/dev/full");
        let mut process = command(program);
        process.args(words.split_whitespace()).stdin(Stdio::piped()).stdout(full).stderr(Stdio::null());
        let mut child = process.spawn().expect("a program");
        let mut to_child = child.stdin.take().expect("a pipe");
        // The program may end before it has read all.
        let _ = to_child.write_all(input.as_bytes());
        drop(to_child);
        assert_eq!(child.wait().expect("its end").code(), Some(3), "{name}");
    }
}

/// An endpoint answers each line before the next one arrives.
#[test]
fn a_line_is_answered_at_once() {
    let mut process = command(END);
    process.args(PROGRAMS[1].2.split(' ')).stdin(Stdio::piped()).stdout(Stdio::piped());
    let mut child = process.spawn().expect("a program");
    let mut to_child = child.stdin.take().expect("a pipe");
    let mut answers = BufReader::new(child.stdout.take().expect("a pipe"));
    to_child.write_all(b"connect 7 100\n").expect("a line written");
    let mut answer = String::new();
    answers.read_line(&mut answer).expect("an answer");
    assert_eq!(answer, "ok\n");
    drop(to_child);
    assert_eq!(child.wait().expect("its end").code(), Some(0));
}
