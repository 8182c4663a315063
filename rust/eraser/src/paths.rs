//! Imports and paths: roots that are modules now, laws that went, and the prelude.

use crate::erase::Place;
use crate::refusal::Unknown;
use crate::rows::Row;
use crate::source::Source;

/// The names that the shim's prelude has, beside the module `str`: its functions are found by that name in every rustc.
const PRELUDE: [&str; 4] = ["Vec", "String", "Box", "HostRuntime"];

/// What the root of a path is now.
fn root(place: &Place<'_>, word: &str) -> Option<(Row, String)> {
    if word == "std" {
        Some((Row::StdPath, "crate::rattle_std".to_string()))
    } else if word == "crate" {
        Some((Row::CratePath, format!("crate::{}", place.crate_name)))
    } else if place.crates.contains(word) {
        Some((Row::CratePath, format!("crate::{word}")))
    } else if place.libraries.contains(word) {
        Some((Row::LibraryPath, format!("crate::{word}")))
    } else {
        None
    }
}

/// A word that may be a path's root.
pub(crate) fn path(source: &mut Source<'_>, at: usize, place: &Place<'_>) -> Result<usize, Unknown> {
    let follows = at > 0 && (source.word(at - 1) == "." || at > 1 && source.is_path(at - 2));
    if source.is_path(at + 1) && !follows {
        if let Some((row, new)) = root(place, source.word(at)) {
            source.replace(row, source.start(at), source.end(at), new);
        }
    }
    Ok(at + 1)
}

/// An import: returns the token behind its semicolon.
pub(crate) fn use_item(source: &mut Source<'_>, at: usize, place: &Place<'_>) -> Result<usize, Unknown> {
    let end = source.first_of(at, &[";"])?;
    let first = source.word(at + 1);
    if first == "thiserror" {
        source.cut(Row::Derived, item_start(source, at), end);
        return Ok(end + 1);
    }
    if !kept_names(source, at, end, place)? {
        return Ok(end + 1);
    }
    if source.is_path(at + 2) {
        if let Some((row, new)) = root(place, first) {
            source.replace(row, source.start(at + 1), source.end(at + 1), new);
        }
    }
    Ok(end + 1)
}

/// The first token of the item whose keyword stands at `at`.
pub(crate) fn item_start(source: &Source<'_>, at: usize) -> usize {
    let mut first = at;
    loop {
        first = match () {
            () if source.are_before(first, &["pub"]) => first - 1,
            () if first >= 4 && source.are(first - 4, &["pub", "("]) && source.word(first - 1) == ")" => first - 4,
            () if source.are_before(first, &["unsafe"]) || source.are_before(first, &["const"]) => first - 1,
            () if source.are_before(first, &["extern", "\"C\""]) => first - 2,
            () => return first,
        };
    }
}

/// Takes laws and `Model` from an import; whether anything of it is left.
fn kept_names(source: &mut Source<'_>, at: usize, end: usize, place: &Place<'_>) -> Result<bool, Unknown> {
    let of_std = source.word(at + 1) == "std";
    let goes = |word: &str| if of_std && word == "Model" { Some(Row::UseModel) } else { place.laws.has(word).then_some(Row::LawUse) };
    if let Some(renamed) = (at + 1..end).find(|place| source.word(place + 1) == "as" && goes(source.word(*place)).is_some()) {
        return Err(source.unknown(renamed, "a law that is imported by another name has no row"));
    }
    let leaves: Vec<usize> = (at + 1..end).filter(|place| source.is_word(*place) && [",", "}", ";"].contains(&source.word(place + 1))).collect();
    let gone: Vec<(usize, Row)> = leaves.iter().filter_map(|place| goes(source.word(*place)).map(|row| (*place, row))).collect();
    if gone.is_empty() {
        return Ok(true);
    }
    if gone.len() == leaves.len() {
        source.cut(gone[0].1, item_start(source, at), end);
        return Ok(false);
    }
    for (place, row) in &gone {
        let gone: Vec<usize> = gone.iter().map(|(place, _)| *place).collect();
        without(source, *place, *row, &gone)?;
    }
    Ok(true)
}

/// Writes the braces around a leaf of an import without the leaves that are gone.
fn without(source: &mut Source<'_>, place: usize, row: Row, gone: &[usize]) -> Result<(), Unknown> {
    let is_brace = |at: &usize| ["{", "}"].contains(&source.word(*at));
    let open = (0..place).rev().find(is_brace).unwrap_or(0);
    let close = (place..source.len()).find(is_brace).unwrap_or(0);
    if source.word(open) != "{" || source.word(close) != "}" {
        return Err(source.unknown(place, "this form of an import of a law has no row"));
    }
    let (from, to) = (source.start(open), source.end(close));
    if source.edits.iter().any(|edit| edit.start == from) {
        source.insert(row, to, "");
        return Ok(());
    }
    let mut kept = Vec::new();
    let mut at = open + 1;
    while at < close {
        let end = (at..close).find(|place| source.word(*place) == ",").unwrap_or(close);
        if !(at..end).any(|place| gone.contains(&place)) {
            kept.push(&source.text[source.start(at)..source.end(end - 1)]);
        }
        at = end + 1;
    }
    let new = match kept.as_slice() {
        [one] if !one.contains(' ') && *one != "self" => one.to_string(),
        _ => braced(&kept),
    };
    source.replace(row, from, to, new);
    Ok(())
}

/// Names in braces: in one line, or in lines of at most 100 columns.
fn braced(names: &[&str]) -> String {
    let line = names.join(", ");
    if line.len() < 70 {
        return format!("{{{line}}}");
    }
    let (mut out, mut column) = (String::from("{\n   "), 3);
    for name in names {
        if column + name.len() + 2 > 100 {
            (out, column) = (out + "\n   ", 3);
        }
        out += &format!(" {name},");
        column += name.len() + 2;
    }
    out + "\n}"
}

/// The prelude's import, in a file that needs it.
pub(crate) fn prelude(source: &mut Source<'_>) -> Result<(), Unknown> {
    let names = |at: usize| source.is_word(at) && PRELUDE.contains(&source.word(at)) || source.word(at) == "str" && source.is_path(at + 1);
    let needs = (0..source.len()).any(|at| names(at) && !(at > 1 && source.is_path(at - 2)));
    let collects = source.edits.iter().any(|edit| edit.row == Row::Collect);
    if !needs && !collects {
        return Ok(());
    }
    let first = match (0..source.len()).find(|at| source.word(*at) == "use") {
        Some(at) => item_start(source, at),
        None => first_item(source)?,
    };
    let at = source.with_lead(source.start(first));
    let has_imports = (0..source.len()).any(|at| source.word(at) == "use");
    let space = if has_imports { "\n" } else { "\n\n" };
    source.insert(Row::Prelude, at, format!("use crate::rattle_std::prelude::*;{space}"));
    Ok(())
}

/// The first token behind the inner attributes.
fn first_item(source: &Source<'_>) -> Result<usize, Unknown> {
    let mut at = 0;
    while source.are(at, &["#", "!"]) {
        at = source.closing(at + 2)? + 1;
    }
    Ok(at)
}
