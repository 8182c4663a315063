//! Numbers that look random, and memory of which a part is refused by them.

use std::alloc::{GlobalAlloc, Layout, System};
use std::cell::Cell;

/// Numbers that look random, from a seed.
#[derive(Clone, Copy)]
pub struct Numbers(pub u64);

impl Numbers {
    /// A number below `limit`.
    pub fn below(&mut self, limit: usize) -> usize {
        self.0 = self.0.wrapping_mul(6_364_136_223_846_793_005).wrapping_add(1_442_695_040_888_963_407);
        (self.0 >> 33) as usize % limit
    }
}

/// Memory of the system's, of which one allocation in twenty is refused while `REFUSING` has numbers.
struct Refusing;

thread_local! {
    static REFUSING: Cell<Option<Numbers>> = const { Cell::new(None) };
}

fn refuses() -> bool {
    let Some(mut numbers) = REFUSING.get() else { return false };
    let refused = numbers.below(20) == 0;
    REFUSING.set(Some(numbers));
    refused
}

// SAFETY: it is the system's allocator, but that some allocations fail.
unsafe impl GlobalAlloc for Refusing {
    unsafe fn alloc(&self, layout: Layout) -> *mut u8 {
        if refuses() { std::ptr::null_mut() } else { unsafe { System.alloc(layout) } }
    }
    unsafe fn dealloc(&self, at: *mut u8, layout: Layout) {
        unsafe { System.dealloc(at, layout) }
    }
    unsafe fn realloc(&self, at: *mut u8, layout: Layout, size: usize) -> *mut u8 {
        if refuses() { std::ptr::null_mut() } else { unsafe { System.realloc(at, layout, size) } }
    }
}

#[global_allocator]
static MEMORY: Refusing = Refusing;

/// What a call answers with allocations refused, if this is rough.
pub fn roughly<T>(is_rough: bool, numbers: &mut Numbers, call: impl FnOnce() -> T) -> T {
    REFUSING.set(is_rough.then_some(*numbers));
    let answer = call();
    *numbers = REFUSING.take().unwrap_or(*numbers);
    answer
}
