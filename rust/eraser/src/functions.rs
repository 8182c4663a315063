//! Functions: laws go; heads that Rust writes in another way are changed.

use crate::laws::{Head, is_item, is_of_trait};
use crate::paths::item_start;
use crate::refusal::Unknown;
use crate::rows::Row;
use crate::source::Source;

/// The function whose `fn` stands at `at`: returns the token from which the walk goes on.
pub(crate) fn function(source: &mut Source<'_>, at: usize, of_trait: bool) -> Result<usize, Unknown> {
    let head = Head::of(source, at)?;
    if !of_trait && head.is_law(source) {
        return law(source, at, &head);
    }
    let name = source.word(head.name);
    if source.are_before(at, &["extern", "\"C\""]) {
        c_head(source, &head)?;
    } else if source.are_before(at, &["unsafe"]) {
        return Err(source.unknown(at - 1, "this form of `unsafe` has no row"));
    } else if name == "main" {
        main(source, at, &head)?;
    } else if source.are_before(item_start(source, at), &["#", "[", "test", "]"]) {
        test(source, &head)?;
    } else if name == "fmt" && source.word(head.name + 1) == "<" {
        formatter(source, &head)?;
        return Ok(head.body);
    }
    Ok(at + 1)
}

/// Takes a law away, with its comments and attributes.
fn law(source: &mut Source<'_>, at: usize, head: &Head) -> Result<usize, Unknown> {
    let end = source.closing(head.body)?;
    if (head.body..end).any(|place| source.word(place) == "unsafe") {
        return Err(source.unknown(at, "a law with `unsafe` has no row"));
    }
    if (0..source.len()).any(|place| source.word(place) == "Cell") {
        return Err(source.unknown(at, "a law in a file with `Cell`, which is written through `&`, has no row"));
    }
    let start = source.with_lead(source.start(item_start(source, at)));
    source.remove(Row::Law, start, source.end(end));
    Ok(end + 1)
}

/// A program's `main`: the crate may name it.
fn main(source: &mut Source<'_>, at: usize, head: &Head) -> Result<(), Unknown> {
    let takes_handle = source.are(head.open, &["(", "rt", ":", "HostRuntime", ")"]);
    if !takes_handle || item_start(source, at) != at {
        return Err(source.unknown(at, "this form of `main` has no row"));
    }
    source.insert(Row::Main, source.start(at), "pub(crate) ");
    Ok(())
}

/// A test: it takes nothing in Rust.
fn test(source: &mut Source<'_>, head: &Head) -> Result<(), Unknown> {
    if head.close == head.open + 1 {
        return Ok(());
    }
    if !source.are(head.open, &["(", "rt", ":", "HostRuntime", ")"]) {
        return Err(source.unknown(head.name, "this form of a test has no row"));
    }
    source.replace(Row::Test, source.end(head.open), source.start(head.close), "");
    source.insert(Row::Space, source.end(head.body), "\n    let rt = HostRuntime;");
    Ok(())
}

/// A `fmt` that is generic over its writer.
fn formatter(source: &mut Source<'_>, head: &Head) -> Result<(), Unknown> {
    let form =
        ["<", "W", ":", "fmt", ":", ":", "Write", ">", "(", "&", "self", ",", "f", ":", "&", "mut", "fmt", ":", ":", "Formatter", "<", "W", ">", ")"];
    if !source.are(head.name + 1, &form) {
        return Err(source.unknown(head.name, "this form of a generic `fmt` has no row"));
    }
    source.replace(Row::Formatter, source.end(head.name), source.end(head.close), "(&self, f: &mut fmt::Formatter<'_>)");
    Ok(())
}

/// The head of a function for C: slices and the allocator are passed as C has them.
fn c_head(source: &mut Source<'_>, head: &Head) -> Result<(), Unknown> {
    let mut lines = String::new();
    let mut at = head.open + 1;
    while at < head.close {
        let end = parameter_end(source, at, head.close)?;
        let words: Vec<&str> = (at + 2..end).map(|place| source.word(place)).collect();
        let name = source.word(at);
        let space = &source.text[source.end(at - 1)..source.start(at)];
        let space = if space.contains('\n') { "\n    " } else { " " };
        match words.as_slice() {
            ["&", "[", item, "]"] => {
                source.replace(Row::CSlice, source.start(at), source.end(end - 1), format!("{name}: *const {item},{space}{name}_length: usize"));
                lines += &format!("\n    let {name} = unsafe {{ crate::rattle_std::ffi::slice({name}, {name}_length) }};");
            }
            ["&", "mut", "[", item, "]"] => {
                source.replace(Row::CSlice, source.start(at), source.end(end - 1), format!("{name}: *mut {item},{space}{name}_length: usize"));
                lines += &format!("\n    let {name} = unsafe {{ crate::rattle_std::ffi::slice_mut({name}, {name}_length) }};");
            }
            ["Global"] => {
                let last = if source.word(end) == "," { end } else { end - 1 };
                source.cut(Row::CAllocator, at, last);
                lines += &format!("\n    let {name} = Global;");
            }
            [number] if ["u8", "u16", "u32", "u64", "i64", "usize", "bool"].contains(number) => {}
            ["&", item] | ["&", "mut", item] if item.starts_with(char::is_uppercase) || ["u16", "u32", "u64", "bool", "usize"].contains(item) => {}
            ["&", "[", _, ";", _, "]"] | ["&", "mut", "[", _, ";", _, "]"] => {}
            _ => return Err(source.unknown(at, format!("a parameter of this type in `extern \"C\"` has no row: {}", words.concat()))),
        }
        at = end + 1;
    }
    if !lines.is_empty() {
        source.insert(Row::Space, source.end(head.body), lines);
    }
    Ok(())
}

/// The comma behind a parameter, or the bracket that closes the list.
fn parameter_end(source: &Source<'_>, at: usize, close: usize) -> Result<usize, Unknown> {
    let mut place = at;
    while place < close && source.word(place) != "," {
        place = if ["(", "["].contains(&source.word(place)) { source.closing(place)? + 1 } else { place + 1 };
    }
    Ok(place)
}

/// Takes an impl away whose members were all laws. The impl of a trait stays.
pub(crate) fn emptied(source: &mut Source<'_>) -> Result<(), Unknown> {
    let gone: Vec<(usize, usize)> = source.edits.iter().filter(|edit| edit.row == Row::Law).map(|edit| (edit.start, edit.end)).collect();
    for at in 0..source.len() {
        if source.word(at) != "impl" || !is_item(source, at) {
            continue;
        }
        let brace = source.first_of(at, &["{"])?;
        let end = source.closing(brace)?;
        let is_gone = |place: usize| gone.iter().any(|(from, to)| (*from..*to).contains(&source.start(place)));
        if end > brace + 1 && !is_of_trait(source, at, brace) && (brace + 1..end).all(is_gone) {
            let start = source.with_lead(source.start(at));
            source.remove(Row::EmptyImpl, start, source.end(end));
        }
    }
    Ok(())
}
