//! Comments: what is said to a reader of Rust.

use crate::laws::Laws;
use crate::rows::Row;
use crate::source::Source;

/// Words in the first line of a table that is of the proof.
const OF_PROOF: [&str; 6] = ["law", "clause", "contract", "promise", "definition", "statement"];

/// What the comment before was part of.
#[derive(Clone, Copy, PartialEq, Eq)]
enum Within {
    Law,
    TableOfProof,
    /// The empty line behind such a table.
    BehindTable,
    OtherTable,
    Nothing,
}

/// Marks examples, takes links to laws apart, and takes away what is of the proof alone: why a law is called, tables of clauses.
pub(crate) fn comments(source: &mut Source<'_>, laws: &Laws) {
    let (mut within, mut end_before) = (Within::Nothing, 0);
    for (start, end) in source.tokens.comments.clone() {
        let text = &source.text[start..end];
        let space = &source.text[end_before..start];
        let before = if space.trim().is_empty() && space.matches('\n').count() == 1 { within } else { Within::Nothing };
        within = part_of(text, before);
        end_before = end;
        match within {
            Within::Law => source.remove(Row::LawComment, start, end),
            Within::TableOfProof | Within::BehindTable => source.remove(Row::Table, start, end),
            Within::OtherTable | Within::Nothing => {
                if let Some((row, new)) = said(text, laws) {
                    source.replace(row, start, end, new);
                }
            }
        }
    }
}

/// What a comment is part of, by what the line before it is part of.
fn part_of(text: &str, before: Within) -> Within {
    let words = text.trim_start_matches(['/', '!']).trim_start();
    let is_doc = text.starts_with("///") || text.starts_with("//!");
    if !is_doc {
        let goes_on = before == Within::Law && text.starts_with("// ");
        return if text.starts_with("// law") || goes_on { Within::Law } else { Within::Nothing };
    }
    match before {
        Within::TableOfProof if words.is_empty() => Within::BehindTable,
        _ if !words.starts_with('|') => Within::Nothing,
        Within::TableOfProof | Within::OtherTable => before,
        _ if OF_PROOF.iter().any(|word| words.contains(word)) => Within::TableOfProof,
        _ => Within::OtherTable,
    }
}

/// What a comment says in Rust, if it differs.
fn said(text: &str, laws: &Laws) -> Option<(Row, String)> {
    let is_doc = text.starts_with("///") || text.starts_with("//!");
    if !is_doc {
        return None;
    }
    if text[3..].trim() == "```rust" {
        return Some((Row::Example, text.trim_end().trim_end_matches("rust").to_string() + "text"));
    }
    let new = without_links(text, laws);
    (new != text).then_some((Row::Link, new))
}

/// [`name`] of a law is `name`.
fn without_links(text: &str, laws: &Laws) -> String {
    let (mut out, mut rest) = (String::new(), text);
    while let Some(at) = rest.find("[`") {
        out.push_str(&rest[..at]);
        rest = &rest[at..];
        let Some(end) = rest.find("`]") else { break };
        let name = &rest[2..end];
        let last = name.rsplit("::").next().unwrap_or(name).trim_end_matches("()");
        if laws.has(last) || laws.has_method(last) {
            out.push_str(&rest[1..=end]);
        } else {
            out.push_str(&rest[..end + 2]);
        }
        rest = &rest[end + 2..];
    }
    out + rest
}
