//! A source that is erased by itself, in a crate `mine` beside a crate `sctp_other`, over the library byteorder.

use sidorghu_eraser::{Counts, Laws, Place, Refusal, erase};
use std::collections::BTreeSet;

/// The erased text, or the refusal.
pub fn tried(text: &str) -> Result<(String, Counts), Refusal> {
    let set = |names: &[&str]| names.iter().map(|name| name.to_string()).collect::<BTreeSet<String>>();
    let mut laws = Laws::default();
    laws.note("a.rt", text)?;
    let (crates, libraries) = (set(&["mine", "sctp_other"]), set(&["byteorder"]));
    let place = Place { crate_name: "mine", crates: &crates, libraries: &libraries, laws: &laws };
    erase("a.rt", text, &place)
}

/// The erased text of a source that has rows alone.
#[allow(dead_code)]
pub fn erased(text: &str) -> (String, Counts) {
    tried(text).unwrap_or_else(|refusal| panic!("{refusal}"))
}
