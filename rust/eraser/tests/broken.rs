//! Sources of the checkout with a piece left out, doubled or moved: each is erased or refused by its line, and none ends the program.

use sidorghu_eraser::{Laws, Place, erase};
use std::collections::BTreeSet;
use std::fs;
use std::path::{Path, PathBuf};

fn sources(folder: &Path, found: &mut Vec<PathBuf>) {
    for entry in fs::read_dir(folder).unwrap() {
        let path = entry.unwrap().path();
        if path.is_dir() {
            sources(&path, found);
        } else if path.extension().is_some_and(|end| end == "rt") {
            found.push(path);
        }
    }
}

/// Numbers that look random, from a seed.
struct Numbers(u64);

impl Numbers {
    fn below(&mut self, limit: usize) -> usize {
        self.0 = self.0.wrapping_mul(6_364_136_223_846_793_005).wrapping_add(1_442_695_040_888_963_407);
        (self.0 >> 33) as usize % limit
    }

    /// A place between two characters.
    fn place(&mut self, text: &str) -> usize {
        let at = self.below(text.len() + 1);
        (at..=text.len()).find(|at| text.is_char_boundary(*at)).unwrap()
    }
}

/// The text with one fault.
fn broken(text: &str, numbers: &mut Numbers) -> String {
    let one = numbers.place(text);
    let other = (one + numbers.below(30)).min(text.len());
    let end = (other..=text.len()).find(|at| text.is_char_boundary(*at)).unwrap();
    let (before, piece, behind) = (&text[..one], &text[one..end], &text[end..]);
    match numbers.below(4) {
        0 => format!("{before}{behind}"),
        1 => format!("{before}{piece}{piece}{behind}"),
        2 => before.to_string(),
        _ => {
            let sign = ["{", "}", "(", "[", "\"", "'", "<", "ghost ", "requires ", "#[", "::", "Drop", " fn ", "use ", "impl "][numbers.below(15)];
            format!("{before}{sign}{piece}{behind}")
        }
    }
}

#[test]
fn no_source_ends_the_program() {
    let mut found = Vec::new();
    sources(Path::new(concat!(env!("CARGO_MANIFEST_DIR"), "/../../crates")), &mut found);
    found.sort();
    assert!(!found.is_empty());
    let (mut numbers, mut refused, mut erased) = (Numbers(1), 0, 0);
    let none = BTreeSet::new();
    for path in found.iter().filter(|path| path.to_string_lossy().contains("/src/")) {
        let text = fs::read_to_string(path).unwrap();
        for _ in 0..4 {
            let text = broken(&text, &mut numbers);
            let mut laws = Laws::default();
            let noted = laws.note("a.rt", &text);
            let place = Place { crate_name: "mine", crates: &none, libraries: &none, laws: &laws };
            let refusals = [noted.err(), erase("a.rt", &text, &place).err()];
            for refusal in refusals.iter().flatten() {
                assert!(refusal.file == "a.rt" && (1..=text.lines().count() + 1).contains(&refusal.line), "{refusal}");
            }
            if refusals[1].is_some() { refused += 1 } else { erased += 1 }
        }
    }
    assert!(refused > 300 && erased > 300, "{refused} refused, {erased} erased");
}

/// The same of texts that begin with a bound, or with a part of one.
#[test]
fn a_bound_at_the_beginning_is_refused() {
    let (none, laws) = (BTreeSet::new(), Laws::default());
    let place = Place { crate_name: "mine", crates: &none, libraries: &none, laws: &laws };
    for text in ["Drop", "+ Drop", ": Drop", "T: Drop", "where T: Drop {", "a + Drop", "::T: Drop", "where ::T: Drop {", "a::T: Drop", "<a::T: Drop"]
    {
        assert!(erase("a.rt", text, &place).is_err(), "{text}");
    }
}
