//! The text after all edits, and the white space around what went.

use crate::refusal::Unknown;
use crate::rows::{Counts, Row};
use crate::source::{Edit, Source};
use crate::tokens::tokens;

/// The erased text, and how often each row was used.
pub(crate) fn apply(mut source: Source<'_>) -> Result<(String, Counts), Unknown> {
    let mut counts = Counts::default();
    let (mut out, mut at) = (String::with_capacity(source.text.len()), 0);
    source.edits.sort_by_key(|edit| (edit.start, edit.row != Row::Prelude, edit.start != edit.end, usize::MAX - edit.end));
    for edit in &source.edits {
        if edit.start < at {
            inside(edit, at)?;
            continue;
        }
        out.push_str(&source.text[at..edit.start]);
        out.push_str(&edit.new);
        at = edit.end;
        counts.add(edit.row);
    }
    out.push_str(&source.text[at..]);
    let made = tidy(&out)?;
    Ok((made, counts))
}

/// An edit of what went already is no edit; one that reaches past it is a fault of the table.
fn inside(edit: &Edit, at: usize) -> Result<(), Unknown> {
    if edit.end > at {
        return Err(Unknown::new(edit.start, "two rows change the same tokens"));
    }
    Ok(())
}

/// The text with at most one empty line between tokens, none inside of braces' ends, and no white space at a line's end.
fn tidy(text: &str) -> Result<String, Unknown> {
    let found = tokens(text)?;
    if let Some(proof) = found.proofs.first() {
        return Err(Unknown::new(proof.start, "proof is left"));
    }
    let mut pieces: Vec<(usize, usize)> = found.code.iter().map(|token| (token.start, token.end)).collect();
    pieces.extend(&found.comments);
    pieces.sort_unstable();
    let (mut out, mut at) = (String::with_capacity(text.len()), 0);
    for (start, end) in pieces {
        let next = &text[start..end];
        let space = gap(&text[at..start], out.chars().next_back(), next);
        out.push_str(&space);
        out.push_str(next.trim_end());
        at = end;
    }
    out.push('\n');
    Ok(out)
}

/// White space between what was written and what follows.
fn gap(space: &str, before: Option<char>, next: &str) -> String {
    let lines = space.matches('\n').count();
    if lines == 0 {
        return if before.is_none() { String::new() } else { space.to_string() };
    }
    let indent = &space[space.rfind('\n').map_or(0, |at| at + 1)..];
    let most = match before {
        None => 0,
        Some('{' | '(' | '[') => 1,
        Some(_) if ["}", ")", "]"].contains(&next) => 1,
        Some(_) => 2,
    };
    format!("{}{indent}", "\n".repeat(lines.min(most)))
}

/// Takes the clauses and other proof of a source away.
pub(crate) fn cut_proofs(source: &mut Source<'_>) {
    use crate::tokens::Ghost;
    for proof in source.tokens.proofs.clone() {
        match proof.ghost {
            Ghost::Use => source.remove(Row::GhostUse, proof.start, proof.end),
            Ghost::Member => {
                let start = source.with_lead(proof.start);
                source.remove(Row::GhostMember, start, proof.end);
            }
            Ghost::Clause => {
                source.replace(Row::Clause, proof.start, proof.end, "");
                close_up(source, proof.before);
            }
        }
    }
}

/// Closes the space where clauses stood before a brace or a semicolon. The brace behind a `where` stays in its line.
fn close_up(source: &mut Source<'_>, next: usize) {
    if next == 0 || source.word(next - 1) == "," {
        return;
    }
    let new = match source.word(next) {
        "{" => " ",
        ";" => "",
        _ => return,
    };
    let (from, to) = (source.end(next - 1), source.start(next));
    let has_comment = source.tokens.comments.iter().any(|(start, _)| (from..to).contains(start));
    let is_done = source.edits.iter().any(|edit| edit.row == Row::Space && edit.start == from);
    if !has_comment && !is_done {
        let clauses: Vec<_> = source.tokens.proofs.iter().filter(|proof| proof.before == next).map(|proof| (proof.start, proof.end)).collect();
        let mut at = from;
        for (start, end) in clauses {
            source.replace(Row::Space, at, start, if at == from { new } else { "" });
            at = end;
        }
        source.replace(Row::Space, at, to, "");
    }
}
