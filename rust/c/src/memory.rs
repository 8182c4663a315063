//! The memory of the library: the three functions by which a C program gives it (sctp_endpoint.h).

use core::alloc::{GlobalAlloc, Layout};
use core::ffi::c_void;

/// What an allocation returns: the header's `struct sctp_endpoint_block`.
#[repr(C)]
struct Block {
    /// Whether there is a block.
    ok: bool,
    /// The block; if there is none any pointer.
    at: *mut c_void,
}

impl Block {
    /// The address of the block, null if there is none.
    fn address(self) -> *mut u8 {
        if self.ok { self.at.cast() } else { core::ptr::null_mut() }
    }
}

unsafe extern "C" {
    fn rattle_alloc(size: usize, alignment: usize) -> Block;
    fn rattle_realloc(at: *mut c_void, old_size: usize, size: usize, alignment: usize) -> Block;
    fn rattle_dealloc(at: *mut c_void);
}

/// The allocator that those three functions are.
struct OfTheProgram;

// SAFETY: the header asks of the three functions what Rust asks of an allocator: blocks as large and as aligned as asked for, apart from each
// other, whose bytes stay. No layout of the library has a larger alignment than 16.
unsafe impl GlobalAlloc for OfTheProgram {
    unsafe fn alloc(&self, layout: Layout) -> *mut u8 {
        // SAFETY: any size and alignment may be asked for.
        unsafe { rattle_alloc(layout.size(), layout.align()) }.address()
    }

    unsafe fn dealloc(&self, at: *mut u8, _: Layout) {
        // SAFETY: the caller's block is one of `rattle_alloc` or `rattle_realloc`, and isn't freed yet.
        unsafe { rattle_dealloc(at.cast()) }
    }

    unsafe fn realloc(&self, at: *mut u8, layout: Layout, size: usize) -> *mut u8 {
        // SAFETY: as of `dealloc`; all bytes of the old block count as in use.
        unsafe { rattle_realloc(at.cast(), layout.size(), size, layout.align()) }.address()
    }
}

#[global_allocator]
static PROGRAM: OfTheProgram = OfTheProgram;
