//! Sidorghu: one endpoint of an SCTP association (RFC 9260) and WebRTC's data channels over it (RFC 8831, RFC 8832), without I/O.
//!
//! You pass in received packets, the current time and random values; you get packets to send and the messages that were received. The crate opens no
//! socket, reads no clock and starts no thread: it fits any event loop, and a run can be repeated byte for byte. It is `no_std` with `alloc`, has no
//! dependencies, and no call panics or ends the process if memory is refused: each says so, as `NoMemory`.
//!
//! # First program
//!
//! Two endpoints in one process; each packet is passed from one to the other:
//!
//! ```
//! use sidorghu::{Config, Draw, Endpoint, Key, SendOptions, Verdict};
//! use std::error::Error;
//! use std::time::Duration;
//!
//! /// Passes the next packet of `from` to `to`, and its answer back. False if there was none.
//! fn carry(from: &mut Endpoint, to: &mut Endpoint, now: Duration) -> Result<bool, Box<dyn Error>> {
//!     let Some(sent) = from.poll_transmit(now)? else { return Ok(false) };
//!     if let Verdict::Answer(answer) = to.handle_packet(now, &sent.packet, draw(9))? {
//!         let _ = from.handle_packet(now, &answer, draw(9))?;
//!     }
//!     from.recycle(sent);
//!     Ok(true)
//! }
//!
//! /// In a real program: eight random bytes of a secure source.
//! fn draw(byte: u8) -> Draw {
//!     Draw::from_random([byte; 8])
//! }
//!
//! fn main() -> Result<(), Box<dyn Error>> {
//!     let mut caller = Endpoint::caller(Config::builder(5_000, 5_001).build()?);
//!     let mut listener = Endpoint::listener(Config::builder(5_001, 5_000).build()?, Key::new([7; 32]));
//!     let mut now = Duration::ZERO; // in a real program: Instant::elapsed of its start
//!     caller.connect(now, draw(7))?;
//!     while carry(&mut caller, &mut listener, now)? | carry(&mut listener, &mut caller, now)? {}
//!
//!     now += Duration::from_millis(10);
//!     let ticket = caller.send(0, b"hello", SendOptions::new())?;
//!     while carry(&mut caller, &mut listener, now)? | carry(&mut listener, &mut caller, now)? {}
//!     let message = listener.take(0).ok_or("nothing was received")?;
//!     println!("{:?}, acknowledged: {}", String::from_utf8(message.to_vec()?)?, caller.acknowledged(ticket));
//!     Ok(())
//! }
//! ```
//!
//! Over a socket: `examples/udp.rs`. Data channels: [`channels`], `examples/channels.rs`, and with a page in a browser `examples/webrtc.rs`.
//!
//! # What is proved, and what isn't
//!
//! The code below this crate's front is proved: it is written in Rattle, which is Rust with contracts, and the build of this crate erases the proof
//! and leaves the code. Each call does what the specification says, for any input, also if memory is refused; over any two endpoints and any network,
//! what is delivered was sent, once and in order (the repository's README). **None of the 100 public functions below this front requires anything
//! of its caller, so no safe program can leave what is proved.**
//!
//! The erased code isn't proved again: that it is the proved code rests on the eraser's table, rustc, a hand-written stand-in for Rattle's standard
//! library (the only `unsafe` code, but for the feature `fast-checksum`), and this front, of which each call passes one or two proved calls on. The
//! repository's `docs/RUST.md` has all that, and which call of this crate is which proved one.
//!
//! # Features
//!
//! - `channels` (on by default): data channels.
//! - `fast-checksum`: the checksum by the processor's own instruction, where there is one (SSE 4.2 of x86-64; `crc` of aarch64 if the target has it).
//!   This body is written by hand and isn't the proved one; tests compare the two.
//!
//! Targets have pointers of 64 bits: the proofs take `usize` to have them, and others are refused at compile time.

#![no_std]
#![deny(unsafe_code)] // but in the stand-in for Rattle's standard library, and in the feature `fast-checksum`: each place says why
#![warn(missing_docs, missing_debug_implementations)]

extern crate alloc;
#[cfg(any(test, feature = "std"))]
extern crate std;

#[allow(dead_code)]
#[path = "../../shim/arrayvec.rs"]
mod arrayvec;
#[allow(dead_code)]
#[path = "../../shim/byteorder.rs"]
mod byteorder;
#[cfg(feature = "fast-checksum")]
#[allow(unsafe_code)]
#[path = "../../shim/fast_checksum.rs"]
mod fast_checksum;
#[allow(dead_code, unused_imports, unused_macros, unsafe_code)]
#[path = "../../shim/mod.rs"]
mod rattle_std;
#[path = "../../shim/sha2.rs"]
mod sha2;

include!(concat!(env!("OUT_DIR"), "/erased.rs"));

mod config;
mod endpoint;
mod error;
mod memory;
mod message;
mod mirror;
mod packet;
mod readers;
mod send;
mod time;
mod values;

#[cfg(feature = "channels")]
pub mod channels;

#[cfg(feature = "channels")]
pub use channels::Channels;
pub use config::{Config, ConfigBuilder};
pub use endpoint::Endpoint;
pub use error::{AbortError, BufferTooSmall, ConfigError, ConnectError, ResetError, SendError, ShutdownError};
pub use message::{Message, WaitingMessage};
pub use packet::{Sent, Verdict, abort_cause, peek_packet};
pub use send::SendOptions;
pub use values::{AbortCause, Agreed, Counts, Draw, Dropped, End, Fate, Key, NoMemory, PacketHeader, Path, Reason, Reset, State, Ticket};

/// The longest message that is sent, in bytes. A peer's may be as long as the receive buffer.
pub const LONGEST_MESSAGE: usize = sctp_values::LONGEST_MESSAGE;

/// The longest packet that any endpoint builds, in bytes.
pub const LONGEST_PACKET: usize = sctp_values::GREATEST_PACKET as usize;

/// The most messages that wait in the send queue of an endpoint: accepted, and no fragment was sent yet.
pub const QUEUE_LIMIT: usize = sctp_values::QUEUE_LIMIT;

/// An endpoint may go to another thread, and be read from several.
const _: () = {
    const fn goes_to_threads<T: Send + Sync>() {}
    goes_to_threads::<Endpoint>();
    goes_to_threads::<Message>();
    #[cfg(feature = "channels")]
    goes_to_threads::<Channels>();
    #[cfg(feature = "channels")]
    goes_to_threads::<channels::Event>();
};
