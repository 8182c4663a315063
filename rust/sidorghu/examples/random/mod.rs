//! Random values from the system, for the examples that talk to a peer: on Windows take them from the crate `getrandom`.

use sidorghu::Draw;
use std::fs::File;
use std::io::{self, Read};

/// Random bytes.
pub fn bytes<const N: usize>() -> io::Result<[u8; N]> {
    let mut bytes = [0; N];
    File::open("/dev/urandom")?.read_exact(&mut bytes)?;
    Ok(bytes)
}

/// The values of an association that may begin.
pub fn draw() -> io::Result<Draw> {
    bytes().map(Draw::from_random)
}
