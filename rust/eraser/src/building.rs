//! What a build script calls.

use crate::refusal::Refusal;
use crate::tree::{Erased, Tree};
use std::collections::BTreeSet;
use std::path::{Path, PathBuf};
use std::{env, fs, process};

/// What rustc finds in erased text that is right as it is: names that only the proof or another crate's program uses.
const ALLOWED: &str =
    "#[allow(dead_code, unused_imports, unused_labels, unused_variables, unused_must_use, improper_ctypes_definitions, clippy::all)]";

/// Erases the named crates and all that they stand on into `$OUT_DIR/erased`, and writes `$OUT_DIR/erased.rs`, which has a module for each: a crate
/// includes it by `include!(concat!(env!("OUT_DIR"), "/erased.rs"));`. A form without a row ends the build with its file and line.
pub fn build(names: &[&str]) {
    if let Err(refusal) = try_build(names) {
        eprintln!("{refusal}");
        process::exit(1);
    }
}

fn try_build(names: &[&str]) -> Result<(), Refusal> {
    let out = PathBuf::from(env::var_os("OUT_DIR").unwrap_or_default());
    let tree = Tree::of(&checkout()?)?;
    let crates = tree.closure(names)?;
    println!("cargo::rerun-if-changed={}", tree.list().display());
    for name in tree.crates() {
        println!("cargo::rerun-if-changed={}", tree.folder(&name).display());
    }
    let (mut made, _) = tree.erase(&crates)?;
    if env::var_os("CARGO_FEATURE_FAST_CHECKSUM").is_some() {
        choose_checksum(&mut made)?;
    }
    let folder = out.join("erased");
    write(&made, &folder)?;
    let lines: String = crates.iter().map(|name| module(&folder, name)).collect();
    put(&out.join("erased.rs"), &lines)
}

/// The head of the function that takes all bytes of a checksum.
const CHECKSUM: &str = "fn after_all(register: u32, bytes: &[u8]) -> u32 {\n";

/// What asks for the processor's checksum, behind that head. Without the feature it is nothing.
const CHOICE: &str = "    #[cfg(feature = \"fast-checksum\")]\n    if let Some(after) = crate::fast_checksum::after(register, bytes) {\n        return after;\n    }\n";

/// Asks for the processor's checksum before the proved body. This is no row of the table: the including crate's feature `fast-checksum` asks for it, and
/// its module `fast_checksum` has it.
///
/// # Errors
/// The function isn't there as it was.
pub fn choose_checksum(made: &mut [Erased]) -> Result<(), Refusal> {
    let is_it = |it: &&mut Erased| it.crate_name == "sctp_packet" && it.path == Path::new("checksum.rs");
    match made.iter_mut().find(is_it) {
        Some(it) if it.text.matches(CHECKSUM).count() == 1 => {
            it.text = it.text.replace(CHECKSUM, &format!("{CHECKSUM}{CHOICE}"));
            Ok(())
        }
        _ => Err(Refusal { file: "sctp_packet/checksum.rs".to_string(), line: 1, what: "the function `after_all` isn't there once".to_string() }),
    }
}

/// The line of one crate's module.
fn module(folder: &Path, name: &str) -> String {
    format!("{ALLOWED}\n#[path = {:?}]\npub(crate) mod {name};\n", folder.join(name).join("mod.rs"))
}

/// The nearest folder above the package that has the list of crates.
fn checkout() -> Result<PathBuf, Refusal> {
    let package = PathBuf::from(env::var_os("CARGO_MANIFEST_DIR").unwrap_or_default());
    let has_list = |folder: &&Path| folder.join("crates.txt").is_file();
    match package.ancestors().find(has_list) {
        Some(folder) => Ok(folder.to_path_buf()),
        None => Err(Refusal { file: package.display().to_string(), line: 1, what: "no folder above has crates.txt".to_string() }),
    }
}

fn put(path: &Path, text: &str) -> Result<(), Refusal> {
    fs::write(path, text).map_err(|error| Refusal { file: path.display().to_string(), line: 1, what: error.to_string() })
}

/// Writes erased sources into a folder for each crate; what was there before goes.
///
/// # Errors
/// A file or a folder can't be written.
pub fn write(made: &[Erased], folder: &Path) -> Result<(), Refusal> {
    let failed = |path: &Path, error: std::io::Error| Refusal { file: path.display().to_string(), line: 1, what: error.to_string() };
    let crates: BTreeSet<&String> = made.iter().map(|it| &it.crate_name).collect();
    for name in crates {
        let path = folder.join(name);
        if path.exists() {
            fs::remove_dir_all(&path).map_err(|error| failed(&path, error))?;
        }
    }
    for it in made {
        let path = folder.join(&it.crate_name).join(&it.path);
        let above = path.parent().unwrap_or(folder);
        fs::create_dir_all(above).map_err(|error| failed(above, error))?;
        put(&path, &it.text)?;
    }
    Ok(())
}
