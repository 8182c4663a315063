//! `std::simd` of Rattle: sixteen bytes at once. Rust's own isn't stable; here they are one number of 128 bits, which a compiler keeps in a register.

use super::ops::BitXor;

/// Sixteen bytes.
#[derive(Clone, Copy, Debug, PartialEq, Eq)]
#[allow(non_camel_case_types)]
pub struct u8x16(u128);

impl u8x16 {
    /// Sixteen times this byte.
    #[inline(always)]
    pub fn splat(value: u8) -> u8x16 {
        u8x16(u128::from_ne_bytes([value; 16]))
    }

    /// The first sixteen bytes of a slice, which has as many.
    #[inline(always)]
    pub fn from_slice(bytes: &[u8]) -> u8x16 {
        u8x16(u128::from_ne_bytes(*bytes.first_chunk().expect("sixteen bytes")))
    }

    /// Writes the bytes over the first sixteen of a slice, which has as many.
    #[inline(always)]
    pub fn copy_to_slice(self, bytes: &mut [u8]) {
        bytes[..16].copy_from_slice(&self.0.to_ne_bytes());
    }
}

impl BitXor for u8x16 {
    type Output = u8x16;

    #[inline(always)]
    fn bitxor(self, other: u8x16) -> u8x16 {
        u8x16(self.0 ^ other.0)
    }
}
