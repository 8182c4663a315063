//! Keys of listeners and random values, from the system's source.

use crate::error::{checked, Error};
use crate::{raw, Draw};
use std::io;
use std::num::NonZeroU32;

extern "C" {
    // POSIX 2024; in glibc from 2.25 on, in musl, on the BSDs and macOS.
    fn getentropy(buffer: *mut u8, length: usize) -> i32;
}

/// Random bytes, at most 256, from the system's secure source.
fn random<const N: usize>() -> io::Result<[u8; N]> {
    let mut bytes = [0; N];
    match unsafe { getentropy(bytes.as_mut_ptr(), N) } {
        0 => Ok(bytes),
        _ => Err(io::Error::last_os_error()),
    }
}

/// A secret random key for `Endpoint::listener`, from the system.
pub fn random_key() -> io::Result<[u8; 32]> {
    random()
}

/// Derives a key from a secret master key and bytes that say what it is for, as the address that a packet was received from: HMAC-SHA-256 of the bytes
/// under the master key (RFC 2104). Equal bytes give equal keys. `Error::ZeroKey` if the master key's bytes are all 0.
pub fn key_derived(master: &[u8; 32], bytes: &[u8]) -> Result<[u8; 32], Error> {
    let master = raw::Key { bytes: *master, reserved: [0; 4] };
    let mut key = raw::Key { bytes: [0; 32], reserved: [0; 4] };
    checked(unsafe { raw::sctp_endpoint_key_derived(&master, bytes.as_ptr(), bytes.len(), &mut key) })?;
    Ok(key.bytes)
}

impl Draw {
    /// New random values from the system.
    pub fn random() -> io::Result<Draw> {
        loop {
            let [a, b, c, d, e, f, g, h] = random()?;
            if let Some(tag) = NonZeroU32::new(u32::from_ne_bytes([a, b, c, d])) {
                return Ok(Draw { tag, tsn: u32::from_ne_bytes([e, f, g, h]) });
            }
        }
    }
}
