//! An allocator that refuses on demand: the test's thread says how many allocations go well before one is refused.

use core::cell::Cell;
use std::alloc::{GlobalAlloc, Layout, System};
use std::thread_local;

struct Refusing;

thread_local! {
    /// How many allocations go well before all are refused; none is refused where it is absent.
    static LEFT: Cell<Option<usize>> = const { Cell::new(None) };
    /// Blocks that this thread allocated and has not freed.
    static BLOCKS: Cell<isize> = const { Cell::new(0) };
}

fn is_refused() -> bool {
    LEFT.with(|left| match left.get() {
        Some(0) => true,
        Some(more) => {
            left.set(Some(more - 1));
            false
        }
        None => false,
    })
}

fn counted(at: *mut u8) -> *mut u8 {
    if !at.is_null() {
        BLOCKS.with(|blocks| blocks.set(blocks.get() + 1));
    }
    at
}

// SAFETY: each call is the system's, or answers null.
unsafe impl GlobalAlloc for Refusing {
    unsafe fn alloc(&self, layout: Layout) -> *mut u8 {
        // SAFETY: what the caller promises.
        if is_refused() { core::ptr::null_mut() } else { counted(unsafe { System.alloc(layout) }) }
    }

    unsafe fn dealloc(&self, at: *mut u8, layout: Layout) {
        BLOCKS.with(|blocks| blocks.set(blocks.get() - 1));
        // SAFETY: what the caller promises.
        unsafe { System.dealloc(at, layout) }
    }

    unsafe fn realloc(&self, at: *mut u8, layout: Layout, size: usize) -> *mut u8 {
        // SAFETY: what the caller promises.
        if is_refused() { core::ptr::null_mut() } else { unsafe { System.realloc(at, layout, size) } }
    }
}

#[global_allocator]
static ALLOCATOR: Refusing = Refusing;

/// What a call answers if all allocations after the first `many` are refused.
pub fn after<R>(many: usize, call: impl FnOnce() -> R) -> R {
    LEFT.with(|left| left.set(Some(many)));
    let answer = call();
    LEFT.with(|left| left.set(None));
    answer
}

/// How many blocks this thread has more after a call.
pub fn blocks_more<R>(call: impl FnOnce() -> R) -> isize {
    let before = BLOCKS.with(Cell::get);
    drop(call());
    BLOCKS.with(Cell::get) - before
}

/// Numbers that look random, from a seed.
pub struct Numbers(pub u64);

impl Numbers {
    /// A number below `limit`.
    pub fn below(&mut self, limit: usize) -> usize {
        self.0 = self.0.wrapping_mul(6_364_136_223_846_793_005).wrapping_add(1_442_695_040_888_963_407);
        (self.0 >> 33) as usize % limit
    }
}
