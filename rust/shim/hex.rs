//! What the programs use of the crate `hex`: bytes as hexadecimal digits. Digits are written in lower case, and read in either.

use crate::rattle_std::alloc::{AllocError, Global};
use crate::rattle_std::string::String;
use crate::rattle_std::vec::Vec;

/// Why a text isn't bytes.
#[derive(Clone, Copy, Debug, PartialEq, Eq)]
pub enum FromHexError {
    /// A character that is no digit, and its place.
    InvalidHexCharacter { c: char, index: usize },
    /// The number of characters is odd.
    OddLength,
    /// The room has another length than the bytes.
    InvalidStringLength,
    /// An allocation failed.
    OutOfMemory,
}

impl core::fmt::Display for FromHexError {
    fn fmt(&self, f: &mut core::fmt::Formatter<'_>) -> core::fmt::Result {
        write!(f, "{self:?}")
    }
}

impl core::error::Error for FromHexError {}

/// The value of the digit at a place.
fn digit(text: &[u8], index: usize) -> Result<u8, FromHexError> {
    let c = char::from(text[index]);
    let value = c.to_digit(16).and_then(|value| u8::try_from(value).ok());
    value.ok_or(FromHexError::InvalidHexCharacter { c, index })
}

/// Reads a text into a room of half its length. A room may be written in part if a digit is wrong.
pub fn decode_to_slice<T: AsRef<[u8]>>(text: T, room: &mut [u8]) -> Result<(), FromHexError> {
    let text = text.as_ref();
    if text.len() % 2 != 0 {
        return Err(FromHexError::OddLength);
    }
    if text.len() / 2 != room.len() {
        return Err(FromHexError::InvalidStringLength);
    }
    for (at, byte) in room.iter_mut().enumerate() {
        *byte = digit(text, 2 * at)? << 4 | digit(text, 2 * at + 1)?;
    }
    Ok(())
}

/// Reads a text.
pub fn decode<T: AsRef<[u8]>>(alloc: Global, text: T) -> Result<Vec<u8>, FromHexError> {
    let text = text.as_ref();
    if text.len() % 2 != 0 {
        return Err(FromHexError::OddLength);
    }
    let mut made = Vec::of_value(alloc, 0, text.len() / 2).map_err(|_| FromHexError::OutOfMemory)?;
    decode_to_slice(text, &mut made)?;
    Ok(made)
}

/// The two digits of a byte.
fn digits(byte: u8) -> [u8; 2] {
    const DIGITS: &[u8; 16] = b"0123456789abcdef";
    [DIGITS[usize::from(byte >> 4)], DIGITS[usize::from(byte & 15)]]
}

/// Writes bytes as a text.
pub fn encode<T: AsRef<[u8]>>(alloc: Global, bytes: T) -> Result<String, AllocError> {
    let mut made = String::new(alloc);
    for byte in bytes.as_ref() {
        for c in digits(*byte) {
            made.push(char::from(c))?;
        }
    }
    Ok(made)
}

/// Writes bytes into a room of twice their length.
pub fn encode_to_slice<T: AsRef<[u8]>>(bytes: T, room: &mut [u8]) -> Result<(), FromHexError> {
    let bytes = bytes.as_ref();
    if bytes.len() * 2 != room.len() {
        return Err(FromHexError::InvalidStringLength);
    }
    for (byte, two) in bytes.iter().zip(room.chunks_exact_mut(2)) {
        two.copy_from_slice(&digits(*byte));
    }
    Ok(())
}
