//! `libsctp_endpoint_malloc.a`: the three functions by which the library gets its memory (sctp_endpoint.h), by the C library's malloc. `build.rs`
//! compiles this file by itself, since a program that has functions of its own doesn't link it.
#![no_std]

use core::ffi::c_void;

/// The header's `struct sctp_endpoint_block`.
#[repr(C)]
pub struct Block {
    /// Whether there is a block.
    ok: bool,
    /// The block; if there is none a pointer that isn't null and points to nothing.
    at: *mut c_void,
}

unsafe extern "C" {
    fn malloc(size: usize) -> *mut c_void;
    fn realloc(at: *mut c_void, size: usize) -> *mut c_void;
    fn free(at: *mut c_void);
}

/// What malloc and realloc returned, in the header's form.
fn block(at: *mut c_void) -> Block {
    if at.is_null() {
        Block { ok: false, at: core::ptr::dangling_mut() }
    } else {
        Block { ok: true, at }
    }
}

/// How much is asked of malloc, which may return null for 0 bytes.
fn asked(size: usize, alignment: usize) -> usize {
    if size == 0 { alignment } else { size }
}

/// Allocates `size` bytes. What malloc returns is aligned to 16.
#[unsafe(no_mangle)]
pub extern "C" fn rattle_alloc(size: usize, alignment: usize) -> Block {
    // SAFETY: any size may be asked for.
    block(unsafe { malloc(asked(size, alignment)) })
}

/// Makes a block larger or smaller; if that is refused the block stays.
///
/// # Safety
///
/// `at` is a block of `rattle_alloc` or `rattle_realloc` that isn't freed.
#[unsafe(no_mangle)]
pub unsafe extern "C" fn rattle_realloc(at: *mut c_void, _: usize, size: usize, alignment: usize) -> Block {
    // SAFETY: the caller's block is malloc's.
    block(unsafe { realloc(at, asked(size, alignment)) })
}

/// Frees a block.
///
/// # Safety
///
/// As of `rattle_realloc`.
#[unsafe(no_mangle)]
pub unsafe extern "C" fn rattle_dealloc(at: *mut c_void) {
    // SAFETY: the caller's block is malloc's.
    unsafe { free(at) }
}
