#!/usr/bin/env python3
"""Proves and builds a program that is run by hand and no crate of the gate's: `tests/build.py NAME FILE` makes FILE of tests/NAME/*.rattle;
`tests/build.py --cargo NAME FILE` has it erased and compiled by cargo, in CARGO_TARGET_DIR, if that is set.

Its libraries are those that tests/NAME/libraries names, one line of words as in crates.txt. They are proved and built where they stand, in their own
order, unless they are; then the program is built in a folder of its own, over copies of them, so that nothing of it stays in this repository. It prints
nothing where all is well, else the last lines of what was said, and ends with 1.
"""
import os
import shutil
import subprocess
import sys
import tempfile

ROOT = os.path.dirname(os.path.dirname(os.path.realpath(__file__)))


def lines_of_crates():
    """The libraries that each crate of the repository stands on, by its name."""
    found = {}
    with open(f"{ROOT}/crates.txt", encoding="utf-8") as file:
        for line in file:
            name, colon, below = line.partition("#")[0].partition(":")
            if colon:
                found[name.strip()] = below.split()
    return found


def in_order(names, below):
    """These crates of the repository and all that they stand on, lowest first."""
    ordered = []
    for name in names:
        if name in below:
            ordered += [it for it in in_order(below[name], below) + [name] if it not in ordered]
    return ordered


def run(words, folder):
    """Runs a command, and answers its status, and what it said of errors and last."""
    ran = subprocess.run(words, cwd=folder, stdin=subprocess.DEVNULL, stdout=subprocess.PIPE, stderr=subprocess.STDOUT, text=True, errors="replace")
    lines = ran.stdout.splitlines()
    found = [at for at, line in enumerate(lines) if "error" in line or "not proved" in line]
    shown = {near for at in found[:9] for near in range(at, at + 3)} | set(range(len(lines) - 9, len(lines)))
    return ran.returncode, "\n".join(line for at, line in enumerate(lines) if at in shown)


def put_sources(name, source):
    """The files of the program, as sources of a crate."""
    os.makedirs(source)
    for file in sorted(os.listdir(f"{ROOT}/tests/{name}")):
        if file.endswith(".rattle"):
            shutil.copyfile(f"{ROOT}/tests/{name}/{file}", f"{source}/{file[:-len('.rattle')]}.rt")


# A package beside those of rust/: the program, and the stand-ins for what it uses.
PACKAGE = """[package]
name = "NAME"
edition = "2024"

[features]
default = ["std"]
std = []

[build-dependencies]
sidorghu-eraser = { path = "ROOT/rust/eraser" }

[workspace]

[profile.release]
panic = "abort"
"""
BUILD = """fn main() {
    sidorghu_eraser::build(&["NAME"]);
}
"""
MAIN = """#![no_std]
extern crate alloc;
extern crate std;

SHIMS
include!(concat!(env!("OUT_DIR"), "/erased.rs"));

fn main() -> impl std::process::Termination {
    NAME::main(rattle_std::runtime::HostRuntime)
}
"""
SHIMS = ["anyhow", "arrayvec", "byteorder", "clap", "hex", "itoa", "sha2"]


def by_cargo(name, made):
    """Has the eraser and cargo build the program, in a folder with links to the sources that it stands on."""
    with open(f"{ROOT}/tests/{name}/libraries", encoding="utf-8") as file:
        wanted = file.read().split()
    with tempfile.TemporaryDirectory(prefix=f"{name}-") as room:
        os.makedirs(f"{room}/crates")
        for crate in os.listdir(f"{ROOT}/crates"):
            os.symlink(f"{ROOT}/crates/{crate}", f"{room}/crates/{crate}")
        put_sources(name, f"{room}/crates/{name}/src")
        shutil.copyfile(f"{ROOT}/crates.txt", f"{room}/crates.txt")
        with open(f"{room}/crates.txt", "a", encoding="utf-8") as file:
            file.write(f"{name}: {' '.join(wanted)}\n")
        package = f"{room}/rust/{name}"
        os.makedirs(f"{package}/src")
        shims = [f'#[path = "{ROOT}/rust/shim/{it}.rs"]\n#[allow(dead_code)]\nmod {it};' for it in SHIMS]
        shims.append(f'#[path = "{ROOT}/rust/shim/mod.rs"]\n#[allow(dead_code, unused_imports, unused_macros)]\nmod rattle_std;')
        for file, text in (("Cargo.toml", PACKAGE), ("build.rs", BUILD), ("src/main.rs", MAIN)):
            with open(f"{package}/{file}", "w", encoding="utf-8") as written:
                written.write(text.replace("SHIMS", "\n".join(shims)).replace("NAME", name).replace("ROOT", ROOT))
        target = os.environ.get("CARGO_TARGET_DIR", f"{room}/target")
        status, said = run(["cargo", "build", "--offline", "--release", "--target-dir", target], package)
        if status:
            sys.exit(said)
        shutil.copy(f"{target}/release/{name}", made)


def main(name, made):
    with open(f"{ROOT}/tests/{name}/libraries", encoding="utf-8") as file:
        wanted = file.read().split()
    below = lines_of_crates()
    crates = in_order(wanted, below)
    for crate in crates:
        status, said = run(["rt", "lib"], f"{ROOT}/crates/{crate}")
        if status:
            sys.exit(f"{crate} is not built:\n{said}")
    with tempfile.TemporaryDirectory(prefix=f"{name}-") as room:
        for crate in crates:
            shutil.copytree(f"{ROOT}/crates/{crate}", f"{room}/crates/{crate}", ignore=shutil.ignore_patterns("incremental"))
        put_sources(name, f"{room}/crates/{name}/src")
        shutil.copyfile(f"{ROOT}/HANDLES", f"{room}/HANDLES")
        with open(f"{room}/crates.txt", "w", encoding="utf-8") as file:
            file.writelines(f"{it}: {' '.join(below[it])}\n" for it in crates)
            file.write(f"{name}: {' '.join(wanted)}\n")
        # (with no word it does nothing)
        _, said = run(["rt", "run"], f"{room}/crates/{name}")
        if not os.path.isfile(f"{room}/crates/{name}/out/{name}"):
            sys.exit(said)
        shutil.copy(f"{room}/crates/{name}/out/{name}", made)


if __name__ == "__main__":
    builds = by_cargo if sys.argv[1:2] == ["--cargo"] else main
    words = [word for word in sys.argv[1:] if word != "--cargo"]
    if len(words) != 2:
        sys.exit("build.py [--cargo] NAME FILE")
    builds(words[0], os.path.abspath(words[1]))
