//! CRC32c by the processor's own instruction, behind the feature `fast-checksum`. It is written by hand, and isn't the proved body: that one is taken
//! where the processor has no such instruction, and the two are compared over all lengths to some thousands.
//!
//! On x86-64 the processor is asked once. On aarch64 it is the target that says so (`-C target-feature=+crc`; Apple's have it).

/// The register after the bytes; None where the processor has no instruction for it.
#[inline]
pub fn after(register: u32, bytes: &[u8]) -> Option<u32> {
    if bytes.len() < SHORT || is_off() || !processor::has_it() {
        return None;
    }
    // SAFETY: the processor has the instruction.
    Some(unsafe { processor::after(register, bytes) })
}

/// Below so many bytes the proved body is as fast.
const SHORT: usize = 16;

/// Whether a test wants the proved body.
#[cfg(not(test))]
const fn is_off() -> bool {
    false
}

#[cfg(test)]
use tests::is_off;

#[cfg(target_arch = "x86_64")]
mod processor {
    use core::arch::x86_64::{__cpuid, _mm_crc32_u8, _mm_crc32_u64};
    use core::sync::atomic::{AtomicU8, Ordering};

    /// What the processor said: 0 before it was asked, 1 no, 2 yes.
    static SAID: AtomicU8 = AtomicU8::new(0);

    /// Whether it has SSE 4.2.
    #[inline]
    pub fn has_it() -> bool {
        match SAID.load(Ordering::Relaxed) {
            0 => ask(),
            said => said == 2,
        }
    }

    /// Asks the processor: bit 20 of ECX of leaf 1.
    #[cold]
    fn ask() -> bool {
        // SAFETY: each processor of this architecture has CPUID. For newer compilers the call is safe.
        #[allow(unused_unsafe)]
        let leaf = unsafe { __cpuid(1) };
        let has = leaf.ecx & (1 << 20) != 0;
        SAID.store(if has { 2 } else { 1 }, Ordering::Relaxed);
        has
    }

    /// The register after the bytes.
    ///
    /// # Safety
    /// The processor has SSE 4.2.
    #[target_feature(enable = "sse4.2")]
    pub unsafe fn after(register: u32, bytes: &[u8]) -> u32 {
        let words = bytes.chunks_exact(8);
        let rest = words.remainder();
        let mut wide = u64::from(register);
        for word in words {
            // SAFETY: the processor has SSE 4.2. For newer compilers the call is safe.
            #[allow(unused_unsafe)]
            let after = unsafe { _mm_crc32_u64(wide, super::number(word)) };
            wide = after;
        }
        let mut register = wide as u32;
        for byte in rest {
            // SAFETY: the same.
            #[allow(unused_unsafe)]
            let after = unsafe { _mm_crc32_u8(register, *byte) };
            register = after;
        }
        register
    }
}

#[cfg(all(target_arch = "aarch64", target_feature = "crc"))]
mod processor {
    use core::arch::aarch64::{__crc32cb, __crc32cd};

    /// The target says so.
    #[inline]
    pub const fn has_it() -> bool {
        true
    }

    /// The register after the bytes.
    ///
    /// # Safety
    /// The processor has the instructions `crc`.
    #[target_feature(enable = "crc")]
    pub unsafe fn after(register: u32, bytes: &[u8]) -> u32 {
        let words = bytes.chunks_exact(8);
        let rest = words.remainder();
        let mut register = register;
        for word in words {
            // SAFETY: the processor has the instruction. For newer compilers the call is safe.
            #[allow(unused_unsafe)]
            let after = unsafe { __crc32cd(register, super::number(word)) };
            register = after;
        }
        for byte in rest {
            // SAFETY: the same.
            #[allow(unused_unsafe)]
            let after = unsafe { __crc32cb(register, *byte) };
            register = after;
        }
        register
    }
}

#[cfg(not(any(target_arch = "x86_64", all(target_arch = "aarch64", target_feature = "crc"))))]
mod processor {
    /// None of those that are known.
    #[inline]
    pub const fn has_it() -> bool {
        false
    }

    /// Isn't called.
    ///
    /// # Safety
    /// Always safe.
    pub unsafe fn after(register: u32, _: &[u8]) -> u32 {
        register
    }
}

/// Eight bytes as a number, the lowest byte first.
#[allow(dead_code)]
#[inline(always)]
fn number(word: &[u8]) -> u64 {
    word.first_chunk().map_or(0, |bytes| u64::from_le_bytes(*bytes))
}

#[cfg(test)]
mod tests {
    use crate::sctp_packet::crc32c;
    use core::cell::Cell;
    use std::vec::Vec;

    std::thread_local! {
        static OFF: Cell<bool> = const { Cell::new(false) };
    }

    /// Whether this test wants the proved body.
    pub(super) fn is_off() -> bool {
        OFF.with(Cell::get)
    }

    /// The checksum by the proved body.
    fn erased(bytes: &[u8]) -> u32 {
        OFF.with(|off| off.set(true));
        let sum = crc32c(bytes);
        OFF.with(|off| off.set(false));
        sum
    }

    #[test]
    fn the_processors_checksum_is_the_proved_bodys() {
        let mut state = 1u64;
        let bytes: Vec<u8> = core::iter::repeat_with(|| {
            state = state.wrapping_mul(6_364_136_223_846_793_005).wrapping_add(1_442_695_040_888_963_407);
            (state >> 56) as u8
        })
        .take(3_008)
        .collect();
        for length in 0..=3_000 {
            for offset in [0, 1, 7, 8] {
                let part = &bytes[offset..offset + length];
                assert_eq!(crc32c(part), erased(part), "{length} bytes from {offset}");
            }
        }
        assert_eq!(crc32c(b"123456789"), 0xe306_9283);
        assert_eq!(erased(b"123456789"), 0xe306_9283);
    }

    #[test]
    fn it_is_the_processors_where_it_can_be() {
        assert_eq!(super::after(0, &[0; 15]), None);
        assert_eq!(super::after(0, &[0; 16]).is_some(), super::processor::has_it());
    }
}
