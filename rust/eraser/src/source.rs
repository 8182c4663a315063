//! One source: its tokens, and the edits that rows make.

use crate::refusal::Unknown;
use crate::rows::Row;
use crate::tokens::{Kind, Token, Tokens, line_end, tokens};

/// A change of the text: bytes that go, and what comes in their place.
#[derive(Clone, Debug, PartialEq, Eq)]
pub(crate) struct Edit {
    pub(crate) row: Row,
    pub(crate) start: usize,
    pub(crate) end: usize,
    pub(crate) new: String,
}

/// What a row may look at, and where it writes.
pub(crate) struct Source<'a> {
    pub(crate) text: &'a str,
    pub(crate) tokens: Tokens,
    pub(crate) edits: Vec<Edit>,
}

impl<'a> Source<'a> {
    pub(crate) fn new(text: &'a str) -> Result<Source<'a>, Unknown> {
        Ok(Source { text, tokens: tokens(text)?, edits: Vec::new() })
    }

    /// How many tokens there are.
    pub(crate) fn len(&self) -> usize {
        self.tokens.code.len()
    }

    /// The text of a token; empty behind the last.
    pub(crate) fn word(&self, at: usize) -> &'a str {
        self.tokens.code.get(at).map_or("", |token| &self.text[token.start..token.end])
    }

    /// A token; behind the last an empty one at the end of the text.
    pub(crate) fn token(&self, at: usize) -> Token {
        let end = Token { kind: Kind::Sign, start: self.text.len(), end: self.text.len() };
        self.tokens.code.get(at).copied().unwrap_or(end)
    }

    /// Where a token begins.
    pub(crate) fn start(&self, at: usize) -> usize {
        self.token(at).start
    }

    /// Where a token ends.
    pub(crate) fn end(&self, at: usize) -> usize {
        self.token(at).end
    }

    pub(crate) fn is_word(&self, at: usize) -> bool {
        self.token(at).kind == Kind::Word
    }

    /// Whether the tokens from `at` on are these.
    pub(crate) fn are(&self, at: usize, words: &[&str]) -> bool {
        words.iter().enumerate().all(|(place, word)| self.word(at + place) == *word)
    }

    /// Whether the tokens before `at` are these.
    pub(crate) fn are_before(&self, at: usize, words: &[&str]) -> bool {
        at >= words.len() && self.are(at - words.len(), words)
    }

    /// Whether `::` stands at `at`.
    pub(crate) fn is_path(&self, at: usize) -> bool {
        self.are(at, &[":", ":"])
    }

    /// The token that closes the bracket at `at`.
    pub(crate) fn closing(&self, at: usize) -> Result<usize, Unknown> {
        let mut depth = 0usize;
        for place in at..self.len() {
            if self.token(place).kind != Kind::Sign {
                continue;
            }
            match self.word(place) {
                "(" | "[" | "{" => depth += 1,
                ")" | "]" | "}" => {
                    depth -= 1;
                    if depth == 0 {
                        return Ok(place);
                    }
                }
                _ => {}
            }
        }
        Err(self.unknown(at, "a bracket has no end"))
    }

    /// The token behind the `>` that closes the `<` at `at`; `at` itself where no `<` stands.
    pub(crate) fn behind_angles(&self, at: usize) -> Result<usize, Unknown> {
        if self.word(at) != "<" {
            return Ok(at);
        }
        let mut depth = 0usize;
        for place in at..self.len() {
            match self.word(place) {
                "<" => depth += 1,
                ">" if self.word(place - 1) != "-" => {
                    depth -= 1;
                    if depth == 0 {
                        return Ok(place + 1);
                    }
                }
                _ => {}
            }
        }
        Err(self.unknown(at, "an angle bracket has no end"))
    }

    /// The first token from `at` on, outside of brackets, that is one of these.
    pub(crate) fn first_of(&self, at: usize, words: &[&str]) -> Result<usize, Unknown> {
        let mut place = at;
        while place < self.len() {
            let word = self.word(place);
            if words.contains(&word) && self.token(place).kind == Kind::Sign {
                return Ok(place);
            }
            place = if ["(", "[", "{"].contains(&word) { self.closing(place)? + 1 } else { place + 1 };
        }
        Err(self.unknown(at, format!("none of {words:?} follows")))
    }

    /// A refusal at this token.
    pub(crate) fn unknown(&self, at: usize, what: impl Into<String>) -> Unknown {
        Unknown::new(self.start(at), what)
    }

    /// Bytes that go, and what comes in their place.
    pub(crate) fn replace(&mut self, row: Row, start: usize, end: usize, new: impl Into<String>) {
        let new = new.into();
        self.edits.push(Edit { row, start, end, new });
    }

    /// What comes in at this byte.
    pub(crate) fn insert(&mut self, row: Row, at: usize, new: impl Into<String>) {
        self.replace(row, at, at, new);
    }

    /// Tokens that go.
    pub(crate) fn cut(&mut self, row: Row, first: usize, last: usize) {
        self.remove(row, self.start(first), self.end(last));
    }

    /// Bytes that go; with them their lines, if nothing else stands in these.
    pub(crate) fn remove(&mut self, row: Row, start: usize, end: usize) {
        let line = self.text[..start].rfind('\n').map_or(0, |at| at + 1);
        let behind = line_end(self.text, end);
        let is_whole = self.text[line..start].trim().is_empty() && self.text[end..behind].trim().is_empty();
        if is_whole {
            self.replace(row, line, (behind + 1).min(self.text.len()), "");
        } else {
            self.replace(row, start, end, "");
        }
    }

    /// The start of the comments and attributes in the lines right before this byte, if nothing but white space is before it in its line.
    pub(crate) fn with_lead(&self, start: usize) -> usize {
        let mut start = start;
        loop {
            let line = self.text[..start].rfind('\n').map_or(0, |at| at + 1);
            if line == 0 || !self.text[line..start].trim().is_empty() {
                return start;
            }
            let before = self.text[..line - 1].rfind('\n').map_or(0, |at| at + 1);
            let words = self.text[before..line - 1].trim_start();
            let is_lead = words.starts_with("//") && !words.starts_with("//!") || words.starts_with("#[");
            if !is_lead {
                return start;
            }
            start = line - 1 - words.len();
        }
    }
}
