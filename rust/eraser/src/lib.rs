//! Erases the proof from Sidorghu's sources and leaves plain Rust.
//!
//! The sources are written in Rattle, which is Rust with contracts. This library deletes what is proof, makes the few replacements that its table
//! ([`ROWS`]) lists, each with the reason why meaning stays, and refuses every form that the table doesn't know, with file and line. What no row
//! names stands word for word in the output.
//!
//! A build script calls [`build`] with the names of crates, and includes the file that it writes.

mod apply;
mod attributes;
mod building;
mod comments;
mod erase;
mod errors;
mod functions;
mod ghosts;
mod laws;
mod paths;
mod refusal;
mod rows;
mod source;
mod tokens;
mod tree;

pub use building::{build, choose_checksum, write};
pub use erase::{Place, erase};
pub use laws::Laws;
pub use refusal::Refusal;
pub use rows::{Counts, Entry, ROWS, Row, rows_table};
pub use tree::{Erased, Tree};
