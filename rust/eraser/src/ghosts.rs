//! Where proof begins and ends: clauses, ghost imports, ghost fields and ghost members. Terms of the proof's language stand in braces; of them
//! nothing is read but braces and strings.

use crate::refusal::Unknown;
use crate::tokens::{Ghost, Kind, Proof, Token, Tokens, line_end, next_token, quoted};

/// The end of the proof that this token begins, if it begins one; it is noted.
pub(crate) fn proof(text: &str, found: &mut Tokens, token: Token) -> Result<Option<usize>, Unknown> {
    if token.kind != Kind::Word {
        return Ok(None);
    }
    let (ghost, end) = match &text[token.start..token.end] {
        "requires" | "ensures" => (Ghost::Clause, clause(text, token)?),
        "ghost" => ghost_item(text, token)?,
        _ => return Ok(None),
    };
    let mut start = token.start;
    if ghost == Ghost::Member {
        start = without_visibility(text, found, start);
    }
    let before = found.code.len();
    found.proofs.push(Proof { ghost, start, end, before });
    Ok(Some(end))
}

/// The end of a clause: its word, a star, a name, and a term in braces.
fn clause(text: &str, token: Token) -> Result<usize, Unknown> {
    let mut at = token.end;
    if text[at..].starts_with('*') {
        at += 1;
    }
    at = skip(text, at);
    if !text[at..].starts_with('{') {
        let name = next_token(text, at)?;
        if name.kind != Kind::Word {
            return Err(Unknown::new(token.start, "a clause has neither a name nor a term in braces"));
        }
        at = skip(text, name.end);
    }
    term(text, at)
}

/// The kind and the end of what begins with `ghost`.
fn ghost_item(text: &str, token: Token) -> Result<(Ghost, usize), Unknown> {
    let name = next_token(text, skip(text, token.end))?;
    if name.kind != Kind::Word {
        return Err(Unknown::new(token.start, "a ghost form without a name has no row"));
    }
    if &text[name.start..name.end] == "use" {
        return ghost_use(text, name.end).map(|end| (Ghost::Use, end));
    }
    let (mut at, mut end) = (skip(text, name.end), name.end);
    for sign in [':', '='] {
        if text[at..].starts_with(sign) {
            end = term(text, skip(text, at + 1))?;
            at = skip(text, end);
        }
    }
    match text.as_bytes().get(at) {
        Some(b';' | b',') => Ok((Ghost::Member, at + 1)),
        Some(b'}') => Ok((Ghost::Member, end)),
        _ => Err(Unknown::new(token.start, "a ghost form that isn't an import, a field or a member has no row")),
    }
}

/// The end of a ghost import, behind its semicolon.
fn ghost_use(text: &str, from: usize) -> Result<usize, Unknown> {
    let mut at = from;
    loop {
        match text.as_bytes().get(at) {
            Some(b';') => return Ok(at + 1),
            Some(b'{') => at = term(text, at)?,
            Some(_) => at += 1,
            None => return Err(Unknown::new(from, "a ghost import has no end")),
        }
    }
}

/// The end of a term in braces.
fn term(text: &str, from: usize) -> Result<usize, Unknown> {
    let bytes = text.as_bytes();
    if bytes.get(from) != Some(&b'{') {
        return Err(Unknown::new(from, "a term in braces was expected"));
    }
    let (mut at, mut depth) = (from, 0);
    while let Some(byte) = bytes.get(at) {
        match byte {
            b'"' => at += quoted(&bytes[at..], 0).ok_or(Unknown::new(at, "a string has no end"))?,
            b'{' => (at, depth) = (at + 1, depth + 1),
            b'}' => (at, depth) = (at + 1, depth - 1),
            _ => at += 1,
        }
        if depth == 0 {
            return Ok(at);
        }
    }
    Err(Unknown::new(from, "the braces of a term have no end"))
}

/// Past white space and comments.
fn skip(text: &str, from: usize) -> usize {
    let mut at = from;
    loop {
        let rest = text[at..].trim_start();
        at = text.len() - rest.len();
        if !rest.starts_with("//") {
            return at;
        }
        at = line_end(text, at);
    }
}

/// Takes a visibility before a ghost member from the tokens; returns where it began.
fn without_visibility(text: &str, found: &mut Tokens, start: usize) -> usize {
    let is = |token: &Token, word: &str| &text[token.start..token.end] == word;
    let many = match found.code.as_slice() {
        [.., last] if is(last, "pub") => 1,
        [.., first, _, _, last] if is(first, "pub") && is(last, ")") => 4,
        _ => return start,
    };
    let at = found.code.len() - many;
    let start = found.code[at].start;
    found.code.truncate(at);
    start
}
