//! The cases of `crates/sctp_rows` by the programs themselves: words, standard input, both outputs and the exit status of a process.

mod stored;

use stored::script::run_case;
use stored::transcript::{ROWS, cases, subjects};
use stored::{END, LOOK, TRACE, path, run, run_words, same, text, text_if_any};

/// The programs of `crates/` that are run as they are stored: their crates, and what cargo builds of each.
const STORED: [(&str, &str); 6] = [
    ("sctp_trace_main", TRACE),
    ("sctp_trace_fault", TRACE),
    ("sctp_end_main", END),
    ("sctp_end_fault", END),
    ("sctp_look_main", LOOK),
    ("sctp_look_fault", LOOK),
];

/// All cases of the subjects at these places, counted from 0 by steps of `of`.
fn rows_of(part: usize, of: usize) {
    let text = text("crates/sctp_rows/stdin");
    let mut count = 0;
    for subject in subjects(&text).into_iter().skip(part).step_by(of) {
        count += ROWS.pairs(subject).into_iter().map(|(given, stored)| run_case(given, stored)).sum::<usize>();
    }
    assert!(count > 0, "no case");
    println!("{count} processes");
}

#[test]
fn rows_first_part() {
    rows_of(0, 4);
}

#[test]
fn rows_second_part() {
    rows_of(1, 4);
}

#[test]
fn rows_third_part() {
    rows_of(2, 4);
}

#[test]
fn rows_fourth_part() {
    rows_of(3, 4);
}

/// A case without `$ WORDS` can't be a process; all others are.
#[test]
fn no_row_is_left_out() {
    let text = text("crates/sctp_rows/stdin");
    let all = cases(&text);
    let nameless = all.iter().filter(|(_, case)| !case.split('\n').nth(1).unwrap_or("").starts_with("$ ")).count();
    assert!(nameless <= 1 && all.len() > 1_000, "{nameless} cases of {} name no program", all.len());
}

fn stored_run(name: &str, program: &str) {
    let file = |kind: &str| text_if_any(&format!("crates/{name}/{kind}"));
    let (args, status) = (file("args"), file("status"));
    let words: Vec<&str> = args.lines().collect();
    let ran = run_words(program, &words, file("stdin").as_bytes());
    same(name, file("stdout").as_bytes(), &ran.output);
    let wanted = if status.trim().is_empty() { 0 } else { status.trim().parse().expect("a status") };
    assert_eq!(ran.status, Some(wanted), "{name}: status; it said {:?}", String::from_utf8_lossy(&ran.faults));
}

#[test]
fn stored_runs() {
    for (name, program) in STORED {
        stored_run(name, program);
    }
}

/// The form of a program with a fault is the program itself, over other lines.
#[test]
fn a_fault_form_is_the_program() {
    for program in ["trace", "end", "look"] {
        let source = |form: &str| text(&format!("crates/sctp_{program}_{form}/src/main.rt"));
        assert_eq!(source("fault"), source("main"), "sctp-{program}");
    }
}

/// Each crate with a stored output is run: here, or by `programs.rs` and `rows.rs`.
#[test]
fn no_stored_run_is_left_out() {
    let mut found: Vec<String> =
        std::fs::read_dir(path("crates")).expect("crates").map(|it| it.expect("a crate").file_name().into_string().expect("a name")).collect();
    found.retain(|name| ["stdout", "status", "args", "stdin"].iter().any(|file| path(&format!("crates/{name}/{file}")).exists()));
    found.sort();
    let mut run: Vec<&str> = STORED.iter().map(|(name, _)| *name).collect();
    run.extend(["sctp_broken", "sctp_call_rows", "sctp_channel_rows", "sctp_example", "sctp_rows"]);
    run.sort();
    assert_eq!(found, run, "crates with a stored run, and those that are run");
}

#[test]
fn the_first_screen() {
    let ran = run_words(TRACE, &["run"], text("examples/first-screen.script").as_bytes());
    same("examples/first-screen.script", text("examples/first-screen.output").as_bytes(), &ran.output);
    assert_eq!(ran.status, Some(0));
    same("standard error", b"", &ran.faults);
}

/// Each script of `examples/` runs to its end, and writes what its row has.
#[test]
fn example_scripts() {
    let scripts = std::fs::read_dir(path("examples")).expect("examples").map(|it| it.expect("an entry").path());
    let mut count = 0;
    for script in scripts.filter(|path| path.extension().is_some_and(|it| it == "script")) {
        let mut process = stored::command(TRACE);
        process.arg("run");
        let ran = run(process, &std::fs::read(&script).expect("a script"));
        assert_eq!(ran.status, Some(0), "{}: {:?}", script.display(), String::from_utf8_lossy(&ran.faults));
        count += 1;
    }
    assert!(count > 0, "no example");
}
