//! `std::boxed` of Rattle: a `Box` whose making can fail, and which knows its allocator. Rust's `Box::try_new` isn't stable.

use super::alloc::{AllocFailed, Global};
use super::fmt;
use super::ops::{Deref, DerefMut};
use core::alloc::Layout;

/// A value in a block of its own, and the allocator of the block.
pub struct Box<T, A = Global> {
    inner: ::alloc::boxed::Box<T>,
    alloc: A,
}

impl<T, A> Box<T, A> {
    /// The value in a new block; if the allocation fails, the value comes back.
    pub fn new(alloc: A, value: T) -> Result<Box<T, A>, AllocFailed<T>> {
        let layout = Layout::new::<T>();
        if layout.size() == 0 {
            let inner = ::alloc::boxed::Box::new(value);
            return Ok(Box { inner, alloc });
        }
        // SAFETY: the layout has a size.
        let at = unsafe { ::alloc::alloc::alloc(layout) }.cast::<T>();
        if at.is_null() {
            return Err(AllocFailed { value });
        }
        // SAFETY: the block has this layout and is nobody else's; it is written before it is a box, whose allocator is the same.
        let inner = unsafe {
            at.write(value);
            ::alloc::boxed::Box::from_raw(at)
        };
        Ok(Box { inner, alloc })
    }

    /// The value; its block is freed.
    pub fn into_inner(it: Box<T, A>) -> T {
        *it.inner
    }

    /// The address of the value, and what frees it. The block is freed only by `from_raw`.
    pub fn into_raw_with_allocator(it: Box<T, A>) -> (*mut T, A) {
        (::alloc::boxed::Box::into_raw(it.inner), it.alloc)
    }

    /// The box of a block.
    ///
    /// # Safety
    /// `at` is an address that `into_raw_with_allocator` returned, and is given once.
    pub unsafe fn from_raw(alloc: A, at: *mut T) -> Box<T, A> {
        // SAFETY: what the caller promises.
        let inner = unsafe { ::alloc::boxed::Box::from_raw(at) };
        Box { inner, alloc }
    }
}

impl<T, A> Deref for Box<T, A> {
    type Target = T;

    fn deref(&self) -> &T {
        &self.inner
    }
}

impl<T, A> DerefMut for Box<T, A> {
    fn deref_mut(&mut self) -> &mut T {
        &mut self.inner
    }
}

impl<T: fmt::Debug, A> fmt::Debug for Box<T, A> {
    fn fmt(&self, f: &mut fmt::Formatter<'_>) -> fmt::Result {
        self.inner.fmt(f)
    }
}
