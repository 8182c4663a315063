//! The transcripts of the programs that run rows: each case of theirs beside the stored one.

use super::{Ran, TRANSCRIPT, run_words, same, text};
use std::sync::LazyLock;

/// What parts a case from the one before it.
const CASE: &str = "\n= ";
/// What stands before the name of a subject, on the lines above its first case.
const SUBJECT: &str = "== ";

/// The input of a program, its stored output, and what it writes now.
pub struct Transcript {
    program: &'static str,
    input: String,
    stored: String,
    ran: Ran,
    written: String,
}

pub static ROWS: LazyLock<Transcript> = LazyLock::new(|| Transcript::of("sctp_rows"));
pub static CALLS: LazyLock<Transcript> = LazyLock::new(|| Transcript::of("sctp_call_rows"));
pub static CHANNELS: LazyLock<Transcript> = LazyLock::new(|| Transcript::of("sctp_channel_rows"));

/// The name of a case.
pub fn name_of(case: &str) -> &str {
    case.split('\n').next().unwrap_or("")
}

/// The name of the subject that begins at the end of this text.
fn subject_at_end(text: &str) -> Option<&str> {
    text.lines().rev().find_map(|line| line.strip_prefix(SUBJECT))
}

/// The cases of a text, each with the name of its subject; what stands before the first is none.
pub fn cases(text: &str) -> Vec<(&str, &str)> {
    let mut parts = text.split(CASE);
    let mut subject = parts.next().and_then(subject_at_end).unwrap_or("");
    let mut found = Vec::new();
    for case in parts {
        found.push((subject, case));
        subject = subject_at_end(case).unwrap_or(subject);
    }
    found
}

/// The subjects of a text, in their order.
pub fn subjects(text: &str) -> Vec<&str> {
    let mut found: Vec<&str> = cases(text).into_iter().map(|(subject, _)| subject).collect();
    found.dedup();
    found
}

impl Transcript {
    fn of(program: &'static str) -> Transcript {
        let (input, stored) = (text(&format!("crates/{program}/stdin")), text(&format!("crates/{program}/stdout")));
        let ran = run_words(TRANSCRIPT, &[program], input.as_bytes());
        let written = String::from_utf8_lossy(&ran.output).into_owned();
        Transcript { program, input, stored, ran, written }
    }

    /// Each case of this subject is written as it is stored. The input has the subjects, an output needn't.
    pub fn subject(&self, subject: &str) {
        let (given, stored, written) = (cases(&self.input), cases(&self.stored), cases(&self.written));
        let mut count = 0;
        for (at, (_, case)) in given.iter().enumerate().filter(|(_, (its, _))| *its == subject) {
            let what = format!("{}: {subject}: {}", self.program, name_of(case));
            let wanted = stored.get(at).map_or("", |(_, case)| case);
            match written.get(at) {
                Some((_, case)) => same(&what, wanted.as_bytes(), case.as_bytes()),
                None => panic!("{what}: not reached: {}", self.end()),
            }
            count += 1;
        }
        assert!(count > 0, "{}: no case has the subject {subject:?}", self.program);
    }

    /// How the program ended, in a line.
    fn end(&self) -> String {
        let said = String::from_utf8_lossy(&self.ran.faults);
        format!("{} ended with status {:?} and said {:?}", self.program, self.ran.status, said.trim())
    }

    /// The whole of it is as stored; each case of the input was run; the subjects are those that have a test, in their order.
    pub fn whole(&self, tested: &[&str]) {
        same(self.program, self.stored.as_bytes(), &self.ran.output);
        assert_eq!(self.ran.status, Some(0), "{}", self.end());
        let counted = |text: &str| text.lines().filter(|line| line.starts_with("= ")).count();
        let count = counted(&self.input);
        assert!(count > 0, "{}: no case", self.program);
        assert_eq!(cases(&self.stored).len(), count, "{}: stored cases, and those of the input", self.program);
        assert_eq!(cases(&self.written).len(), count, "{}: cases written, and those of the input", self.program);
        assert_eq!(subjects(&self.input), tested, "{}: its subjects, and those with a test", self.program);
        println!("{}: {count} cases", self.program);
    }

    /// The cases of the input that have this subject, each with its stored transcript.
    pub fn pairs<'a>(&'a self, subject: &str) -> Vec<(&'a str, &'a str)> {
        let (given, stored) = (cases(&self.input), cases(&self.stored));
        assert_eq!(given.len(), stored.len(), "{}: cases, and those that are stored", self.program);
        let both = given.into_iter().zip(stored);
        both.filter(|((its, _), _)| *its == subject).map(|((_, case), (_, stored))| (case, stored)).collect()
    }
}
