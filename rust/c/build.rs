//! Erases the sources of the library for C, and puts beside the library what a C program needs to link it:
//!
//! - `libsctp_endpoint_malloc.a`, the library's memory by malloc (`heap/heap.rs`),
//! - `sctp_endpoint.pc` for pkg-config, whose variable `build` says how the library was built,
//! - on Unix the shared library's other name, which ends with the ABI version.

use std::env;
use std::error::Error;
use std::fs;
use std::path::{Path, PathBuf};
use std::process::Command;

fn main() -> Result<(), Box<dyn Error>> {
    sidorghu_eraser::build(&["sctp_c"]);
    println!("cargo:rerun-if-changed=heap/heap.rs");
    println!("cargo:rerun-if-changed=../../include/sctp_endpoint.h");
    let beside = beside(&variable("OUT_DIR")?)?;
    let heap = make_heap(&beside)?;
    let header = Header::read(Path::new("../../include"))?;
    fs::write(beside.join("sctp_endpoint.pc"), package(&header, &compiler()?)?)?;
    link_shared(&heap, &header.abi)?;
    if env::var_os("CARGO_CFG_UNIX").is_some() {
        name_shared(&beside, &header.abi)?;
    }
    Ok(())
}

/// A variable that cargo sets.
fn variable(name: &str) -> Result<String, Box<dyn Error>> {
    env::var(name).map_err(|fault| format!("{name}: {fault}").into())
}

/// The folder that cargo puts the library into: three above that of this program's own files.
fn beside(own: &str) -> Result<PathBuf, Box<dyn Error>> {
    let folder = Path::new(own).ancestors().nth(3);
    Ok(folder.ok_or("OUT_DIR is no folder of cargo's")?.to_path_buf())
}

/// Compiles the memory by malloc into the folder, as a static library.
fn make_heap(folder: &Path) -> Result<PathBuf, Box<dyn Error>> {
    let heap = folder.join("libsctp_endpoint_malloc.a");
    let made = Command::new(variable("RUSTC")?)
        .args(["--crate-name", "sctp_endpoint_malloc", "--crate-type", "rlib", "--edition", "2024"])
        .args(["-C", "panic=abort", "-C", "opt-level=3", "-C", "embed-bitcode=no", "-C", "codegen-units=1"])
        .args(["--target", &variable("TARGET")?, "heap/heap.rs", "-o"])
        .arg(&heap)
        .status()?;
    if made.success() { Ok(heap) } else { Err("heap/heap.rs can't be compiled".into()) }
}

/// What the header says of the library.
struct Header {
    /// The folder that the header is in.
    folder: PathBuf,
    /// The library's version, as `0.1.0`.
    version: String,
    /// The version of structs, calls and numbers.
    abi: String,
}

impl Header {
    /// Reads `sctp_endpoint.h` of a folder.
    fn read(folder: &Path) -> Result<Header, Box<dyn Error>> {
        let text = fs::read_to_string(folder.join("sctp_endpoint.h"))?;
        let value = |name: &str| {
            let found = text.lines().find_map(|line| line.strip_prefix("#define ")?.strip_prefix(name)?.strip_prefix(' '));
            found.map(|it| it.trim_matches('"').trim_end_matches('u').to_string()).ok_or(format!("sctp_endpoint.h has no {name}"))
        };
        Ok(Header { folder: folder.canonicalize()?, version: value("SCTP_EP_VERSION")?, abi: value("SCTP_EP_ABI")? })
    }
}

/// The compiler's name and version.
fn compiler() -> Result<String, Box<dyn Error>> {
    let told = Command::new(variable("RUSTC")?).arg("--version").output()?;
    Ok(String::from_utf8(told.stdout)?.trim().to_string())
}

/// The file for pkg-config.
fn package(header: &Header, compiler: &str) -> Result<String, Box<dyn Error>> {
    let checksum = if env::var_os("CARGO_FEATURE_FAST_CHECKSUM").is_some() { ", with the processor's checksum" } else { "" };
    Ok(format!(
        "libdir=${{pcfiledir}}\nincludedir={}\nbuild=erased{checksum}, compiled by {compiler} for {}\n\nName: sctp_endpoint\n\
         Description: One endpoint of an SCTP association: no sockets, no clock, no random numbers\nVersion: {}\n\
         Cflags: -I${{includedir}}\nLibs: -L${{libdir}} -lsctp_endpoint\nLibs.private: -lsctp_endpoint_malloc\n",
        header.folder.display(),
        variable("TARGET")?,
        header.version
    ))
}

/// The shared library has the memory by malloc in it, and, as ELF has it, its name with the ABI version.
fn link_shared(heap: &Path, abi: &str) -> Result<(), Box<dyn Error>> {
    println!("cargo:rustc-cdylib-link-arg={}", heap.display());
    let is_elf = env::var_os("CARGO_CFG_UNIX").is_some() && variable("CARGO_CFG_TARGET_VENDOR")? != "apple";
    if is_elf {
        println!("cargo:rustc-cdylib-link-arg=-Wl,-soname,libsctp_endpoint.so.{abi}");
        println!("cargo:rustc-cdylib-link-arg=-lc");
    }
    Ok(())
}

/// The name that a program looks for when it starts, beside the one that it is linked by.
#[cfg(unix)]
fn name_shared(folder: &Path, abi: &str) -> Result<(), Box<dyn Error>> {
    let name = folder.join(format!("libsctp_endpoint.so.{abi}"));
    if name.symlink_metadata().is_err() {
        std::os::unix::fs::symlink("libsctp_endpoint.so", name)?;
    }
    Ok(())
}

#[cfg(not(unix))]
fn name_shared(_: &Path, _: &str) -> Result<(), Box<dyn Error>> {
    Ok(())
}
