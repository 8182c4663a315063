//! Which functions are laws: they take nothing or `&self`, return nothing and have a clause. A trait's functions are none.

use crate::refusal::{Refusal, Unknown};
use crate::source::Source;
use std::collections::BTreeSet;

/// The names of laws in all sources that are erased together.
#[derive(Clone, Debug, Default)]
pub struct Laws {
    free: BTreeSet<String>,
    methods: BTreeSet<String>,
    /// Functions that can be called as a law is, and are none.
    plain: BTreeSet<(bool, String)>,
}

/// The parts of a function's head.
pub(crate) struct Head {
    pub(crate) name: usize,
    pub(crate) open: usize,
    pub(crate) close: usize,
    /// The brace of its body, or the semicolon.
    pub(crate) body: usize,
}

impl Head {
    /// The head of the function whose `fn` stands at `at`.
    pub(crate) fn of(source: &Source<'_>, at: usize) -> Result<Head, Unknown> {
        let open = source.behind_angles(at + 2)?;
        if source.word(open) != "(" {
            return Err(source.unknown(at, "a function's head has no row"));
        }
        let close = source.closing(open)?;
        let body = source.first_of(close + 1, &["{", ";"])?;
        Ok(Head { name: at + 1, open, close, body })
    }

    fn takes_nothing(&self) -> bool {
        self.close == self.open + 1
    }

    fn takes_self(&self, source: &Source<'_>) -> bool {
        source.are(self.open, &["(", "&", "self", ")"])
    }

    /// Whether it has the form of a law: a clause, nothing that it could write to, and no result.
    pub(crate) fn is_law(&self, source: &Source<'_>) -> bool {
        let has_clause = source.tokens.proofs.iter().any(|proof| proof.before == self.body && proof.start > source.start(self.close));
        let is_plain = self.takes_nothing() || self.takes_self(source);
        has_clause && is_plain && self.body == self.close + 1 && source.word(self.body) == "{"
    }
}

/// Whether a brace at `at` opens a trait, or an impl of one, whose header begins at `from`.
pub(crate) fn is_of_trait(source: &Source<'_>, from: usize, brace: usize) -> bool {
    source.word(from) == "trait" || (from..brace).any(|at| source.word(at) == "for")
}

impl Laws {
    /// Notes the functions of a source.
    ///
    /// # Errors
    /// A source that has no tokens of Rust.
    pub fn note(&mut self, file: &str, text: &str) -> Result<(), Refusal> {
        self.collect(text).map_err(|unknown| unknown.of_file(file, text))
    }

    fn collect(&mut self, text: &str) -> Result<(), Unknown> {
        let source = Source::new(text)?;
        let mut trait_end = 0;
        for at in 0..source.len() {
            match source.word(at) {
                "impl" | "trait" if at >= trait_end && is_item(&source, at) => {
                    let brace = source.first_of(at, &["{"])?;
                    if is_of_trait(&source, at, brace) {
                        trait_end = source.closing(brace)?;
                    }
                }
                "fn" if source.is_word(at + 1) => self.function(&source, at, at < trait_end)?,
                _ => {}
            }
        }
        Ok(())
    }

    fn function(&mut self, source: &Source<'_>, at: usize, of_trait: bool) -> Result<(), Unknown> {
        let head = Head::of(source, at)?;
        let name = source.word(head.name).to_string();
        let is_method = source.are(head.open, &["(", "&"]) || source.word(head.open + 1) == "self";
        if !of_trait && head.is_law(source) {
            if is_method {
                self.methods.insert(name)
            } else {
                self.free.insert(name)
            };
        } else if head.takes_nothing() || head.takes_self(source) {
            self.plain.insert((is_method, name));
        }
        Ok(())
    }

    /// A name that is a law's and another function's, which a call couldn't tell apart.
    pub fn doubtful(&self) -> Option<&str> {
        let is_law = |(is_method, name): &&(bool, String)| if *is_method { self.methods.contains(name) } else { self.free.contains(name) };
        self.plain.iter().find(is_law).map(|(_, name)| name.as_str())
    }

    /// Whether a function outside of impls is a law.
    pub(crate) fn has(&self, name: &str) -> bool {
        self.free.contains(name)
    }

    /// Whether a method is a law.
    pub(crate) fn has_method(&self, name: &str) -> bool {
        self.methods.contains(name)
    }
}

/// Whether an `impl` or a `trait` at `at` begins an item: `impl` also stands in types.
pub(crate) fn is_item(source: &Source<'_>, at: usize) -> bool {
    at == 0 || ["}", ";", "]", "unsafe", "pub", ")", "{"].contains(&source.word(at - 1))
}
