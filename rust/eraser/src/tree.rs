//! Crates: which there are, which stand on which, and their sources.

use crate::erase::{Place, erase};
use crate::laws::Laws;
use crate::refusal::Refusal;
use crate::rows::Counts;
use std::collections::{BTreeMap, BTreeSet};
use std::fs;
use std::path::{Path, PathBuf};

/// The libraries that aren't of the shim, since nothing of them is code here.
const NOT_CODE: [&str; 4] = ["thiserror", "std_alloc", "std_heap", "core"];

/// The crates of a checkout: of each, what it stands on.
#[derive(Clone, Debug, Default)]
pub struct Tree {
    checkout: PathBuf,
    below: BTreeMap<String, Vec<String>>,
}

/// An erased source: its path under the crate's folder, and its text.
#[derive(Clone, Debug)]
pub struct Erased {
    pub crate_name: String,
    pub path: PathBuf,
    pub text: String,
}

fn refusal(path: &Path, what: impl ToString) -> Refusal {
    Refusal { file: path.display().to_string(), line: 1, what: what.to_string() }
}

fn read(path: &Path) -> Result<String, Refusal> {
    fs::read_to_string(path).map_err(|error| refusal(path, error))
}

impl Tree {
    /// The crates that `crates.txt` of a checkout names.
    ///
    /// # Errors
    /// The list can't be read, or a line of it isn't `NAME: LIBRARIES`.
    pub fn of(checkout: &Path) -> Result<Tree, Refusal> {
        let path = checkout.join("crates.txt");
        let mut below = BTreeMap::new();
        for (at, line) in read(&path)?.lines().enumerate() {
            let line = line.split('#').next().unwrap_or_default().trim();
            if line.is_empty() {
                continue;
            }
            let Some((name, libraries)) = line.split_once(':') else {
                return Err(Refusal { line: at + 1, ..refusal(&path, "a line without a colon") });
            };
            let name = name.split_whitespace().next().unwrap_or_default().to_string();
            below.insert(name, libraries.split_whitespace().map(str::to_string).collect());
        }
        Ok(Tree { checkout: checkout.to_path_buf(), below })
    }

    /// All crates' names.
    pub fn crates(&self) -> BTreeSet<String> {
        self.below.keys().cloned().collect()
    }

    /// The named crates, and all that they stand on.
    ///
    /// # Errors
    /// A name that the list hasn't.
    pub fn closure(&self, names: &[&str]) -> Result<BTreeSet<String>, Refusal> {
        let mut found = BTreeSet::new();
        let mut waiting: Vec<String> = names.iter().map(|name| name.to_string()).collect();
        while let Some(name) = waiting.pop() {
            let Some(libraries) = self.below.get(&name) else {
                return Err(refusal(&self.checkout.join("crates.txt"), format!("there is no crate {name}")));
            };
            if found.insert(name) {
                waiting.extend(libraries.iter().filter(|name| self.below.contains_key(*name)).cloned());
            }
        }
        Ok(found)
    }

    /// A crate's folder of sources.
    pub fn folder(&self, name: &str) -> PathBuf {
        self.checkout.join("crates").join(name).join("src")
    }

    /// The list of crates.
    pub fn list(&self) -> PathBuf {
        self.checkout.join("crates.txt")
    }

    fn libraries(&self, name: &str) -> BTreeSet<String> {
        let is_library = |it: &&String| !self.below.contains_key(*it) && !NOT_CODE.contains(&it.as_str());
        self.below[name].iter().filter(is_library).cloned().collect()
    }

    /// Erases these crates.
    ///
    /// # Errors
    /// The first form that has no row, or a source that can't be read.
    pub fn erase(&self, crates: &BTreeSet<String>) -> Result<(Vec<Erased>, Counts), Refusal> {
        let laws = self.laws()?;
        let (mut made, mut counts) = (Vec::new(), Counts::default());
        for name in crates {
            let libraries = self.libraries(name);
            let place = Place { crate_name: name, crates: &self.crates(), libraries: &libraries, laws: &laws };
            for path in sources(&self.folder(name))? {
                let (text, used) = erase(&self.shown(&path), &read(&path)?, &place)?;
                counts.join(&used);
                made.push(Erased { crate_name: name.clone(), path: goal(&self.folder(name), &path)?, text });
            }
        }
        Ok((made, counts))
    }

    /// The laws of all crates.
    fn laws(&self) -> Result<Laws, Refusal> {
        let mut laws = Laws::default();
        for name in self.below.keys() {
            for path in sources(&self.folder(name))? {
                laws.note(&self.shown(&path), &read(&path)?)?;
            }
        }
        match laws.doubtful() {
            Some(name) => Err(refusal(&self.list(), format!("`{name}` is a law and another function of the same head: a call couldn't tell"))),
            None => Ok(laws),
        }
    }

    /// A path as a refusal names it: from the checkout on.
    fn shown(&self, path: &Path) -> String {
        path.strip_prefix(&self.checkout).unwrap_or(path).display().to_string()
    }
}

/// All sources under a folder, in order.
fn sources(folder: &Path) -> Result<Vec<PathBuf>, Refusal> {
    let mut found = Vec::new();
    let mut waiting = vec![folder.to_path_buf()];
    while let Some(folder) = waiting.pop() {
        for entry in fs::read_dir(&folder).map_err(|error| refusal(&folder, error))? {
            let path = entry.map_err(|error| refusal(&folder, error))?.path();
            if path.is_dir() {
                waiting.push(path);
            } else if path.extension().is_some_and(|end| end == "rt") {
                found.push(path);
            } else {
                return Err(refusal(&path, "a file that isn't a source has no row"));
            }
        }
    }
    found.sort();
    Ok(found)
}

/// Where a source's text goes, under its crate's folder.
fn goal(folder: &Path, path: &Path) -> Result<PathBuf, Refusal> {
    let inside = path.strip_prefix(folder).map_err(|error| refusal(path, error))?;
    let is_root = inside == Path::new("lib.rt") || inside == Path::new("main.rt");
    Ok(if is_root { PathBuf::from("mod.rs") } else { inside.with_extension("rs") })
}
