//! A source as tokens of Rust, its comments, and the spans of proof between them.

use crate::ghosts;
use crate::refusal::Unknown;

/// What kind of token it is.
#[derive(Clone, Copy, Debug, PartialEq, Eq)]
pub(crate) enum Kind {
    /// A name or a keyword.
    Word,
    /// A number, with its suffix.
    Number,
    /// A string, a byte string, a character or a byte.
    Text,
    /// `'a`.
    Lifetime,
    /// One sign.
    Sign,
}

/// One token: its kind and the bytes where it stands.
#[derive(Clone, Copy, Debug, PartialEq, Eq)]
pub(crate) struct Token {
    pub(crate) kind: Kind,
    pub(crate) start: usize,
    pub(crate) end: usize,
}

/// What kind of proof a span is.
#[derive(Clone, Copy, Debug, PartialEq, Eq)]
pub(crate) enum Ghost {
    /// `requires ..`, `ensures ..`, `ensures* ..`.
    Clause,
    /// `ghost use ..;`.
    Use,
    /// A ghost field or a ghost member.
    Member,
}

/// A span of proof.
#[derive(Clone, Copy, Debug, PartialEq, Eq)]
pub(crate) struct Proof {
    pub(crate) ghost: Ghost,
    pub(crate) start: usize,
    pub(crate) end: usize,
    /// How many tokens stand before it.
    pub(crate) before: usize,
}

/// All tokens of a source but white space.
#[derive(Debug, Default)]
pub(crate) struct Tokens {
    pub(crate) code: Vec<Token>,
    /// Where comments to a line's end begin and end.
    pub(crate) comments: Vec<(usize, usize)>,
    pub(crate) proofs: Vec<Proof>,
}

/// The tokens of a source.
pub(crate) fn tokens(text: &str) -> Result<Tokens, Unknown> {
    let mut found = Tokens::default();
    let mut at = 0;
    while let Some(first) = text[at..].chars().next() {
        if first.is_whitespace() {
            at += first.len_utf8();
        } else if text[at..].starts_with("//") {
            let end = line_end(text, at);
            found.comments.push((at, end));
            at = end;
        } else if text[at..].starts_with("/*") {
            return Err(Unknown::new(at, "a comment in /* */ has no row: write it with //"));
        } else {
            let token = next_token(text, at)?;
            at = match ghosts::proof(text, &mut found, token)? {
                Some(end) => end,
                None => {
                    found.code.push(token);
                    token.end
                }
            };
        }
    }
    Ok(found)
}

/// Where the line of this byte ends, before its line feed.
pub(crate) fn line_end(text: &str, at: usize) -> usize {
    text[at..].find('\n').map_or(text.len(), |length| at + length)
}

/// The token that begins at this byte.
pub(crate) fn next_token(text: &str, at: usize) -> Result<Token, Unknown> {
    let rest = &text.as_bytes()[at..];
    let (kind, length) = match rest {
        [b'"', ..] => (Kind::Text, quoted(rest, 0)),
        [b'b', b'"', ..] => (Kind::Text, quoted(rest, 1)),
        [b'b', b'\'', ..] => (Kind::Text, character(&text[at..], 1)),
        [b'r', b'"' | b'#', ..] | [b'b', b'r', b'"' | b'#', ..] => {
            return Err(Unknown::new(at, "a raw string or a raw name has no row"));
        }
        [b'\'', ..] => quote(&text[at..]),
        [b'0'..=b'9', ..] => (Kind::Number, Some(number(rest))),
        [first, ..] if is_word(*first) => (Kind::Word, Some(word(rest))),
        [first, ..] if first.is_ascii_punctuation() => (Kind::Sign, Some(1)),
        _ => return Err(Unknown::new(at, "a sign that isn't of Rust stands outside of a clause")),
    };
    let Some(length) = length else {
        return Err(Unknown::new(at, "a string or a character has no end"));
    };
    Ok(Token { kind, start: at, end: at + length })
}

fn is_word(byte: u8) -> bool {
    byte == b'_' || byte.is_ascii_alphanumeric()
}

fn word(rest: &[u8]) -> usize {
    rest.iter().take_while(|byte| is_word(**byte)).count()
}

/// A number's length: digits and suffix, and a fraction if digits follow its point.
fn number(rest: &[u8]) -> usize {
    let whole = word(rest);
    match &rest[whole..] {
        [b'.', digit, ..] if digit.is_ascii_digit() => whole + 1 + word(&rest[whole + 1..]),
        _ => whole,
    }
}

/// The length of a string whose quotation mark stands at `open`.
pub(crate) fn quoted(rest: &[u8], open: usize) -> Option<usize> {
    let mut at = open + 1;
    while let Some(byte) = rest.get(at) {
        match byte {
            b'\\' => at += 2,
            b'"' => return Some(at + 1),
            _ => at += 1,
        }
    }
    None
}

/// The length of a character whose quotation mark stands at `open`.
fn character(rest: &str, open: usize) -> Option<usize> {
    let inside = &rest[open + 1..];
    let first = inside.chars().next()?;
    if first != '\\' {
        let end = first.len_utf8();
        return inside[end..].starts_with('\'').then_some(open + 1 + end + 1);
    }
    let end = inside.get(2..)?.find('\'')?;
    Some(open + 1 + 2 + end + 1)
}

/// A lifetime or a character.
fn quote(rest: &str) -> (Kind, Option<usize>) {
    if let Some(length) = character(rest, 0) {
        return (Kind::Text, Some(length));
    }
    match word(&rest.as_bytes()[1..]) {
        0 => (Kind::Text, None),
        length => (Kind::Lifetime, Some(1 + length)),
    }
}
