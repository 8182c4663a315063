//! The cases of `crates/sctp_rows`, each run as a process of its own: the bytes of its lines, and what its transcript says of the run.

use super::{END, LOOK, Ran, TRACE, command, run, same};
use sidorghu_programs::is_asked;

/// One run of a case: the lines above its alternatives, whose output isn't shown, its own lines, and what is stored of it.
struct Run<'a> {
    hidden: Vec<&'a str>,
    own: Vec<&'a str>,
    /// What is stored of standard output, of standard error, and of the exit status.
    output: Vec<&'a str>,
    faults: Vec<&'a str>,
    status: i32,
}

/// The lines that a line of a case means: their bytes, and how many they are. A remark means none.
fn meant(shown: &str) -> Option<(Vec<u8>, usize)> {
    let line = shown.strip_prefix('/').unwrap_or(shown);
    let (form, text) = line.split_once(' ').unwrap_or((line, ""));
    let number = |sign: char| form.strip_prefix(sign).and_then(|digits| digits.parse::<usize>().ok());
    let (text, times) = match (number('*'), number('~'), number('x')) {
        (Some(times), _, _) => (text.to_string(), times),
        (_, Some(length), _) => (format!("{text}{}", "0".repeat(length.saturating_sub(text.len()))), 1),
        (_, _, Some(count)) => (text.repeat(count), 1),
        _ if form == ">" || form == "-" => (text.to_string(), 1),
        _ => return None,
    };
    let end = if form == "-" { "" } else { "\n" };
    Some((format!("{text}{end}").into_bytes(), times))
}

/// The lines of a case in groups: those above its alternatives, and each alternative; a case without one is a group of its own.
fn alternatives<'a>(lines: &[&'a str]) -> (Vec<&'a str>, Vec<Vec<&'a str>>) {
    let meaning = lines.iter().copied().filter(|line| meant(line).is_some() || line.starts_with('/'));
    let (mut above, mut groups): (Vec<&str>, Vec<Vec<&str>>) = (Vec::new(), Vec::new());
    for line in meaning {
        match groups.last_mut() {
            _ if line.starts_with('/') => groups.push(vec![line]),
            Some(group) => group.push(line),
            None => above.push(line),
        }
    }
    if groups.is_empty() { (Vec::new(), vec![above]) } else { (above, groups) }
}

/// The runs of a case, as its transcript has them.
fn runs<'a>(given: &'a str, stored: &'a str) -> Vec<Run<'a>> {
    let lines: Vec<&str> = given.split('\n').skip(2).collect();
    let (above, groups) = alternatives(&lines);
    let mut rest = stored.split('\n').skip(2 + above.len());
    let mut found = Vec::new();
    for own in groups {
        let mut run = Run { hidden: above.clone(), own, output: Vec::new(), faults: Vec::new(), status: -1 };
        run.take(&mut rest);
        found.push(run);
    }
    found
}

impl<'a> Run<'a> {
    /// Takes what is stored of it, up to its status.
    fn take(&mut self, rest: &mut impl Iterator<Item = &'a str>) {
        let mut shown = self.own.iter().peekable();
        for line in rest {
            if let Some(status) = line.strip_prefix("status ").and_then(|digits| digits.parse().ok()) {
                self.status = status;
                return;
            } else if shown.peek() == Some(&&line) {
                shown.next();
            } else if let Some(fault) = line.strip_prefix('!') {
                self.faults.push(fault.strip_prefix(' ').unwrap_or(fault));
            } else {
                self.output.push(line);
            }
        }
        panic!("a stored run without a status");
    }

    fn input(&self) -> Vec<u8> {
        let lines = self.hidden.iter().chain(&self.own).filter_map(|line| meant(line));
        lines.flat_map(|(bytes, times)| bytes.repeat(times)).collect()
    }

    /// Whether all that the program writes for its own lines is stored: of a repeated line the last time alone is.
    fn is_shown(&self) -> bool {
        self.own.iter().all(|line| meant(line).is_none_or(|(_, times)| times == 1))
    }

    /// The process ended as it is stored.
    fn compare(&self, what: &str, words: &[&str], ran: &Ran) {
        let faults = joined(&self.faults);
        if is_asked(words) {
            same(&format!("{what}: help on standard output"), faults.as_bytes(), &ran.output);
            same(&format!("{what}: standard error"), b"", &ran.faults);
            return assert_eq!(ran.status, Some(0), "{what}: status");
        }
        same(&format!("{what}: standard error"), faults.as_bytes(), &ran.faults);
        assert_eq!(ran.status, Some(self.status), "{what}: status");
        let (wanted, written) = (joined(&self.output), String::from_utf8_lossy(&ran.output));
        if self.is_shown() {
            let end = if self.hidden.is_empty() { 0 } else { written.len().saturating_sub(wanted.len()) };
            return same(what, wanted.as_bytes(), &ran.output[end..]);
        }
        let mut lines = written.lines();
        for line in &self.output {
            assert!(lines.any(|it| it == *line), "{what}: a line isn't written, or not in its place: {line:?}");
        }
    }
}

fn joined(lines: &[&str]) -> String {
    lines.iter().map(|line| format!("{line}\n")).collect()
}

/// Runs a case by the program that its words name, each alternative as a process; how many there were. A case without the name of a
/// program is none: a process always has one.
pub fn run_case(given: &str, stored: &str) -> usize {
    let mut lines = given.split('\n');
    let (name, words) = (lines.next().unwrap_or(""), lines.next().unwrap_or(""));
    let Some(words) = words.strip_prefix("$ ") else { return 0 };
    let words: Vec<&str> = words.split(' ').collect();
    let program = match words[0] {
        "sctp-end" => END,
        "sctp-look" => LOOK,
        _ => TRACE,
    };
    let all = runs(given, stored);
    for (at, case) in all.iter().enumerate() {
        let mut process = command(program);
        process.args(&words[1..]);
        let ran = run(process, &case.input());
        case.compare(&format!("{name} ({})", at + 1), &words[1..], &ran);
    }
    all.len()
}
