//! What thiserror's derive makes of an error, written out.

use crate::refusal::Unknown;
use crate::rows::Row;
use crate::source::Source;
use crate::tokens::Kind;

/// How a variant is shown.
#[derive(Clone, Copy)]
enum Shown<'a> {
    /// As its only field is.
    Transparent,
    /// By this format string.
    Message(&'a str),
}

/// The fields of a variant or a struct.
#[derive(Default)]
struct Fields<'a> {
    names: Vec<String>,
    /// `(`, `{` or nothing.
    bracket: &'a str,
    /// The type of the field that is converted from.
    origin: Option<&'a str>,
    /// The token behind them.
    end: usize,
}

/// Attributes before an item, a variant or a field.
#[derive(Default)]
struct Marks<'a> {
    shown: Option<Shown<'a>>,
    is_from: bool,
    end: usize,
}

/// Writes the impls of the error whose derive ends before the token `at`.
pub(crate) fn write_out(source: &mut Source<'_>, at: usize) -> Result<(), Unknown> {
    let marks = marks(source, at)?;
    let mut item = marks.end;
    if source.word(item) == "pub" {
        item += 1;
    }
    if source.word(item) == "(" {
        item = source.closing(item)? + 1;
    }
    let name = source.word(item + 1);
    if source.word(item + 2) == "<" {
        return Err(source.unknown(item, "an error with parameters has no row"));
    }
    let (arms, froms, end) = match source.word(item) {
        "struct" => of_struct(source, name, item + 2, marks.shown)?,
        "enum" => of_enum(source, name, item + 2)?,
        _ => return Err(source.unknown(item, "derive(Error) on what is neither struct nor enum has no row")),
    };
    let out = format!(
        "\n\nimpl core::fmt::Display for {name} {{\n    fn fmt(&self, f: &mut core::fmt::Formatter<'_>) -> core::fmt::Result {{\n        match self {{\n{arms}        }}\n    }}\n}}\n\nimpl core::error::Error for {name} {{}}\n{froms}"
    );
    source.insert(Row::Derived, end, out);
    Ok(())
}

fn of_struct<'a>(source: &Source<'a>, name: &str, at: usize, shown: Option<Shown<'a>>) -> Result<(String, String, usize), Unknown> {
    let fields = fields(source, at)?;
    let end = if fields.bracket == "{" { fields.end - 1 } else { fields.end };
    if fields.origin.is_some() {
        return Err(source.unknown(at, "`from` on a struct's field has no row"));
    }
    Ok((arm(source, at, name, &fields, shown)?, String::new(), source.end(end)))
}

fn of_enum(source: &Source<'_>, name: &str, open: usize) -> Result<(String, String, usize), Unknown> {
    let (mut arms, mut froms) = (String::new(), String::new());
    let end = source.closing(open)?;
    let mut at = open + 1;
    while at < end {
        let marks = marks(source, at)?;
        let variant = source.word(marks.end);
        let fields = fields(source, marks.end + 1)?;
        let head = format!("{name}::{variant}");
        arms += &arm(source, at, &head, &fields, marks.shown)?;
        if let Some(origin) = fields.origin {
            froms += &format!("\nimpl From<{origin}> for {name} {{\n    fn from(inner: {origin}) -> {name} {{\n        {head}(inner)\n    }}\n}}\n");
        }
        at = fields.end;
        if source.word(at) == "," {
            at += 1;
        }
    }
    Ok((arms, froms, source.end(end)))
}

/// The attributes from `at` on: those of thiserror are read, those of Rust are left.
fn marks<'a>(source: &Source<'a>, at: usize) -> Result<Marks<'a>, Unknown> {
    let mut found = Marks { end: at, ..Marks::default() };
    while source.word(found.end) == "#" {
        let at = found.end;
        match source.word(at + 2) {
            "error" if source.word(at + 4) == "transparent" => found.shown = Some(Shown::Transparent),
            "error" if source.token(at + 4).kind == Kind::Text && source.word(at + 5) == ")" => {
                found.shown = Some(Shown::Message(source.word(at + 4)));
            }
            "from" => found.is_from = true,
            "tactic" | "derive" | "repr" | "non_exhaustive" => {}
            _ => return Err(source.unknown(at, "an attribute of an error has no row")),
        }
        found.end = source.closing(at + 1)? + 1;
    }
    Ok(found)
}

fn fields<'a>(source: &Source<'a>, at: usize) -> Result<Fields<'a>, Unknown> {
    let bracket = source.word(at);
    if bracket != "(" && bracket != "{" {
        return Ok(Fields { end: at, ..Fields::default() });
    }
    let end = source.closing(at)?;
    let mut found = Fields { bracket, end: end + 1, ..Fields::default() };
    let mut at = at + 1;
    while at < end {
        let marks = marks(source, at)?;
        at = marks.end;
        while source.word(at) == "pub" {
            at = if source.word(at + 1) == "(" { source.closing(at + 1)? + 1 } else { at + 1 };
        }
        if bracket == "{" {
            found.names.push(source.word(at).to_string());
            at += 2;
        } else {
            found.names.push(format!("_{}", found.names.len()));
        }
        let next = type_end(source, at, end);
        if marks.is_from {
            found.origin = Some(&source.text[source.start(at)..source.end(next - 1)]);
        }
        at = next + 1;
    }
    Ok(found)
}

/// The comma behind a type, or the bracket `end`.
fn type_end(source: &Source<'_>, at: usize, end: usize) -> usize {
    let mut depth = 0i32;
    for place in at..end {
        match source.word(place) {
            "<" | "(" | "[" => depth += 1,
            ">" | ")" | "]" => depth -= 1,
            "," if depth == 0 => return place,
            _ => {}
        }
    }
    end
}

/// One arm of the match that shows an error.
fn arm(source: &Source<'_>, at: usize, head: &str, fields: &Fields<'_>, shown: Option<Shown<'_>>) -> Result<String, Unknown> {
    match shown {
        None => Err(source.unknown(at, "an error without a message has no row")),
        Some(Shown::Transparent) => match fields.names.as_slice() {
            [name] => Ok(format!("            {} => core::fmt::Display::fmt({name}, f),\n", pattern(head, fields, &[name]))),
            _ => Err(source.unknown(at, "`transparent` on what hasn't one field has no row")),
        },
        Some(Shown::Message(text)) => {
            let text = numbered(text);
            let used: Vec<&str> = fields.names.iter().map(String::as_str).filter(|name| is_used(&text, name)).collect();
            Ok(format!("            {} => write!(f, {text}),\n", pattern(head, fields, &used)))
        }
    }
}

/// `{0}` in a message is `{_0}`.
fn numbered(text: &str) -> String {
    let (mut out, mut before) = (String::new(), ' ');
    for c in text.chars() {
        if before == '{' && c.is_ascii_digit() {
            out.push('_');
        }
        out.push(c);
        before = c;
    }
    out
}

fn is_used(text: &str, name: &str) -> bool {
    text.contains(&format!("{{{name}}}")) || text.contains(&format!("{{{name}:"))
}

/// The pattern that names the fields which the message uses.
fn pattern(head: &str, fields: &Fields<'_>, used: &[&str]) -> String {
    let is_named = |name: &String| used.contains(&name.as_str());
    match fields.bracket {
        "(" => {
            let names: Vec<&str> = fields.names.iter().map(|name| if is_named(name) { name.as_str() } else { "_" }).collect();
            format!("{head}({})", names.join(", "))
        }
        "{" if used.len() == fields.names.len() => format!("{head} {{ {} }}", used.join(", ")),
        "{" if used.is_empty() => format!("{head} {{ .. }}"),
        "{" => format!("{head} {{ {}, .. }}", used.join(", ")),
        _ => head.to_string(),
    }
}
