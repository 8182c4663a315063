//! Attributes: those of the proof go, those that mean the same in Rust stay, all others are refused.

use crate::errors;
use crate::refusal::Unknown;
use crate::rows::Row;
use crate::source::Source;

/// Derives that mean the same in Rust.
const SAME: [&str; 9] = ["Clone", "Copy", "Debug", "Default", "Eq", "Hash", "Ord", "PartialEq", "PartialOrd"];

/// The attribute whose `#` stands at `at`; returns the token behind it.
pub(crate) fn attribute(source: &mut Source<'_>, at: usize) -> Result<usize, Unknown> {
    let open = if source.word(at + 1) == "!" { at + 2 } else { at + 1 };
    if source.word(open) != "[" {
        return Err(source.unknown(at, "`#` without an attribute has no row"));
    }
    let end = source.closing(open)?;
    let inside: Vec<&str> = (open + 1..end).map(|place| source.word(place)).collect();
    match inside.as_slice() {
        ["tactic", ..] => source.cut(Row::Tactic, at, end),
        _ if open == at + 2 => return Err(no_row(source, at, &inside)),
        ["derive", "(", names @ .., ")"] => derive(source, at, end, names)?,
        ["error" | "from", ..] => source.cut(Row::Derived, at, end),
        ["inline" | "test" | "must_use" | "non_exhaustive" | "cold"] => {}
        ["inline", "(", "always" | "never", ")"] => {}
        ["repr", "(", "C" | "transparent" | "u8", ")"] => {}
        ["cfg", "(", "test", ")"] => {}
        ["unsafe", "(", "no_mangle", ")"] => {}
        _ => return Err(no_row(source, at, &inside)),
    }
    Ok(end + 1)
}

fn no_row(source: &Source<'_>, at: usize, inside: &[&str]) -> Unknown {
    source.unknown(at, format!("the attribute `{}` has no row", inside.concat()))
}

/// A derive: without `Drop`, and without the `Error` that is written out.
fn derive(source: &mut Source<'_>, at: usize, end: usize, names: &[&str]) -> Result<(), Unknown> {
    let names: Vec<&str> = names.iter().copied().filter(|name| *name != ",").collect();
    if let Some(other) = names.iter().find(|name| !SAME.contains(name) && **name != "Drop" && **name != "Error") {
        return Err(source.unknown(at, format!("derive({other}) has no row")));
    }
    let kept: Vec<&str> = names.iter().copied().filter(|name| SAME.contains(name)).collect();
    let has_error = names.contains(&"Error");
    let row = if names.contains(&"Drop") { Row::DeriveDrop } else { Row::Derived };
    if kept.is_empty() {
        source.cut(row, at, end);
    } else if kept.len() != names.len() {
        source.replace(row, source.start(at), source.end(end), format!("#[derive({})]", kept.join(", ")));
    }
    if has_error {
        errors::write_out(source, end + 1)?;
    }
    Ok(())
}
