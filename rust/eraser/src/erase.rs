//! The walk over one source: each token that a row names is changed, each form that none names is refused.

use crate::apply::{apply, cut_proofs};
use crate::attributes::attribute;
use crate::functions::{emptied, function};
use crate::laws::{Laws, is_item, is_of_trait};
use crate::paths::{path, prelude, use_item};
use crate::refusal::{Refusal, Unknown};
use crate::rows::{Counts, Row};
use crate::source::Source;
use std::collections::BTreeSet;

/// What the erasure of one source looks at beside its text.
pub struct Place<'a> {
    /// The crate that the source is of.
    pub crate_name: &'a str,
    /// The names of all crates that are erased together.
    pub crates: &'a BTreeSet<String>,
    /// The libraries whose functions the shim has.
    pub libraries: &'a BTreeSet<String>,
    /// The laws of all these crates.
    pub laws: &'a Laws,
}

/// The macros of Rust's core that mean the same there.
const CORE_MACROS: [&str; 4] = ["matches", "unreachable", "write", "writeln"];

/// The macros that take an allocator or the process's handle.
const SHIM_MACROS: [&str; 7] = ["assert", "assert_eq", "assert_ne", "eprint", "format", "println", "vec"];

/// Keywords and names of forms that have no row.
const NO_ROW: [&str; 9] = ["async", "await", "macro_rules", "union", "yield", "try", "become", "box", "cfg"];

/// Erases one source: plain Rust, and how often each row was used.
///
/// # Errors
/// A form that has no row, with its file and line.
pub fn erase(file: &str, text: &str, place: &Place<'_>) -> Result<(String, Counts), Refusal> {
    erased(text, place).map_err(|unknown| unknown.of_file(file, text))
}

fn erased(text: &str, place: &Place<'_>) -> Result<(String, Counts), Unknown> {
    let mut source = Source::new(text)?;
    cut_proofs(&mut source);
    let (mut at, mut trait_end) = (0, 0);
    while at < source.len() {
        at = match source.word(at) {
            "#" => attribute(&mut source, at)?,
            "impl" if is_model(&source, at)? => model(&mut source, at)?,
            "impl" | "trait" if is_item(&source, at) => {
                let brace = source.first_of(at, &["{"])?;
                if is_of_trait(&source, at, brace) {
                    trait_end = source.closing(brace)?;
                }
                at + 1
            }
            "use" => use_item(&mut source, at, place)?,
            "fn" if source.is_word(at + 1) => function(&mut source, at, at < trait_end)?,
            _ => token(&mut source, at, place)?,
        };
    }
    emptied(&mut source)?;
    prelude(&mut source)?;
    crate::comments::comments(&mut source, place.laws);
    apply(source)
}

/// Whether `impl .. Model for ..` begins here.
fn is_model(source: &Source<'_>, at: usize) -> Result<bool, Unknown> {
    if !is_item(source, at) {
        return Ok(false);
    }
    let brace = source.first_of(at, &["{"])?;
    Ok((at..brace).any(|place| source.are(place, &["Model", "for"])))
}

/// Takes an `impl Model` away; it has ghost members alone.
fn model(source: &mut Source<'_>, at: usize) -> Result<usize, Unknown> {
    let brace = source.first_of(at, &["{"])?;
    let end = source.closing(brace)?;
    if end != brace + 1 {
        return Err(source.unknown(brace + 1, "an `impl Model` with code in it has no row"));
    }
    let start = source.with_lead(source.start(at));
    source.remove(Row::Model, start, source.end(end));
    Ok(end + 1)
}

/// Any other token.
fn token(source: &mut Source<'_>, at: usize, place: &Place<'_>) -> Result<usize, Unknown> {
    if !source.is_word(at) {
        return Ok(at + 1);
    }
    let word = source.word(at);
    let is_member = at > 0 && source.word(at - 1) == ".";
    if source.word(at + 1) == "!" && ["(", "[", "{"].contains(&source.word(at + 2)) && source.end(at) == source.start(at + 1) {
        return named_macro(source, at, place);
    }
    match word {
        "unsafe" if !["{", "impl"].contains(&source.word(at + 1)) => Err(source.unknown(at, "this form of `unsafe` has no row")),
        "extern" if !source.are(at + 1, &["\"C\"", "fn"]) => Err(source.unknown(at, "this form of `extern` has no row")),
        "static" if source.word(at + 1) == "mut" => Err(source.unknown(at, "`static mut` has no row")),
        "mod" if source.word(at + 2) != ";" => Err(source.unknown(at, "a module in braces has no row")),
        "collect" | "try_collect" if is_member => collect(source, at),
        "Drop" => bound(source, at),
        _ if !is_member && NO_ROW.contains(&word) => Err(source.unknown(at, format!("`{word}` has no row"))),
        _ if source.are(at + 1, &["(", ")"]) && is_law_call(source, at, place) => law_call(source, at),
        _ if source.is_path(at + 1) && source.word(at + 3) == "<" && place.laws.has(word) => {
            Err(source.unknown(at, "a call of a law with types has no row"))
        }
        _ => path(source, at, place),
    }
}

/// A macro by its name.
fn named_macro(source: &mut Source<'_>, at: usize, place: &Place<'_>) -> Result<usize, Unknown> {
    let word = source.word(at);
    if SHIM_MACROS.contains(&word) {
        source.insert(Row::Macro, source.start(at), "crate::rattle_std::");
    } else if !CORE_MACROS.contains(&word) && !place.libraries.contains(word) {
        return Err(source.unknown(at, format!("the macro `{word}!` has no row")));
    }
    Ok(at + 1)
}

/// `.collect(a)`: with an allocator it is the shim's, without one Rust's.
fn collect(source: &mut Source<'_>, at: usize) -> Result<usize, Unknown> {
    if source.word(at + 1) != "(" {
        return Err(source.unknown(at, "`collect` without its argument has no row"));
    }
    if source.word(at + 2) != ")" {
        source.insert(Row::Collect, source.end(at), "_in");
    }
    Ok(at + 1)
}

/// The bound `Drop`, alone or beside others.
fn bound(source: &mut Source<'_>, at: usize) -> Result<usize, Unknown> {
    // `impl<T: Drop` is the shortest text before one.
    if at < 4 {
        return Err(source.unknown(at, "`Drop` here has no row"));
    }
    let (before, after) = (source.word(at - 1), source.word(at + 1));
    match (before, after) {
        (":", "+") => source.replace(Row::BoundDrop, source.start(at), source.start(at + 2), ""),
        ("+", _) => source.replace(Row::BoundDrop, source.end(at - 2), source.end(at), ""),
        (":", "," | ">" | "{") => alone(source, at)?,
        _ => return Err(source.unknown(at, "`Drop` here has no row")),
    }
    Ok(at + 1)
}

/// `T: Drop` without other bounds: in a `where` the whole predicate goes, and the `where` if it was the only one.
fn alone(source: &mut Source<'_>, at: usize) -> Result<(), Unknown> {
    let mut first = at - 2;
    while first > 3 && source.is_path(first - 2) {
        first -= 3;
    }
    let last = if source.word(at + 1) == "," { at + 1 } else { at };
    let is_end = ["{", ";"].contains(&source.word(last + 1));
    match source.word(first - 1) {
        "where" if is_end && first > 1 => {
            let brace = source.word(last + 1) == "{";
            source.replace(Row::BoundDrop, source.end(first - 2), source.end(last), "");
            if brace {
                source.replace(Row::Space, source.end(last), source.start(last + 1), " ");
            }
        }
        "where" => source.cut(Row::BoundDrop, first, last),
        "<" | "," => source.cut(Row::BoundDrop, at - 1, at),
        _ => return Err(source.unknown(at, "`Drop` here has no row")),
    }
    Ok(())
}

fn is_law_call(source: &Source<'_>, at: usize, place: &Place<'_>) -> bool {
    let is_method = at > 0 && source.word(at - 1) == ".";
    let word = source.word(at);
    if is_method { place.laws.has_method(word) } else { place.laws.has(word) }
}

/// A statement that calls a law on names.
fn law_call(source: &mut Source<'_>, at: usize) -> Result<usize, Unknown> {
    let mut first = at;
    loop {
        if first >= 2 && source.word(first - 1) == "." && source.is_word(first - 2) {
            first -= 2;
        } else if first >= 3 && source.is_path(first - 2) && source.is_word(first - 3) {
            first -= 3;
        } else {
            break;
        }
    }
    let begins = first > 0 && [";", "{", "}"].contains(&source.word(first - 1));
    let last = match source.word(at + 3) {
        ";" => at + 3,
        "}" => at + 2,
        _ => 0,
    };
    if !begins || last == 0 {
        return Err(source.unknown(at, "a law that is called within an expression has no row"));
    }
    source.cut(Row::LawCall, first, last);
    Ok(last + 1)
}
