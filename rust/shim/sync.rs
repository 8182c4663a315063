//! `std::sync` of Rattle: an `Arc` whose making can fail, without weak references. Rust's `Arc::try_new` isn't stable, and its `Arc::new` ends the
//! process where the allocation fails.

use super::alloc::{AllocError, AllocFailed, Global};
use super::fmt;
use super::marker::PhantomData;
use super::ops::Deref;
use core::alloc::Layout;
use core::ptr::NonNull;
use core::sync::atomic::{AtomicUsize, Ordering, fence};

/// The block that all owners share.
struct Shared<T> {
    owners: AtomicUsize,
    value: T,
}

/// One of the owners of a value.
pub struct Arc<T> {
    at: NonNull<Shared<T>>,
    owns: PhantomData<Shared<T>>,
}

// SAFETY: the value is read by owners on several threads, and dropped on any of them.
unsafe impl<T: Send + Sync> Send for Arc<T> {}
// SAFETY: a reference to an owner gives references to the value, and owners more.
unsafe impl<T: Send + Sync> Sync for Arc<T> {}

impl<T> Arc<T> {
    /// The value with one owner; if the allocation fails, the value comes back.
    #[inline]
    pub fn new(_: Global, value: T) -> Result<Arc<T>, AllocFailed<T>> {
        // SAFETY: the layout has a size, that of the count.
        let at = unsafe { ::alloc::alloc::alloc(Layout::new::<Shared<T>>()) };
        let Some(at) = NonNull::new(at.cast::<Shared<T>>()) else {
            return Err(AllocFailed { value });
        };
        let owners = AtomicUsize::new(1);
        // SAFETY: the block has this layout and is nobody else's.
        unsafe { at.write(Shared { owners, value }) };
        Ok(Arc { at, owns: PhantomData })
    }

    fn shared(&self) -> &Shared<T> {
        // SAFETY: this owner is counted, so the block isn't freed as long as it is borrowed.
        unsafe { self.at.as_ref() }
    }

    /// One owner more. An error only at half of the largest count.
    #[inline]
    pub fn try_clone(it: &Arc<T>) -> Result<Arc<T>, AllocError> {
        let owners = &it.shared().owners;
        if owners.fetch_add(1, Ordering::Relaxed) > usize::MAX / 2 {
            owners.fetch_sub(1, Ordering::Relaxed);
            return Err(AllocError);
        }
        Ok(Arc { at: it.at, owns: PhantomData })
    }

    /// The value, if this is the only owner.
    #[inline]
    pub fn get_mut(it: &mut Arc<T>) -> Option<&mut T> {
        if it.shared().owners.load(Ordering::Acquire) != 1 {
            return None;
        }
        // SAFETY: the only owner is borrowed mutably, so that none can be made of it; what other owners did is seen, since they left by a release.
        Some(unsafe { &mut it.at.as_mut().value })
    }
}

impl<T> Drop for Arc<T> {
    #[inline]
    fn drop(&mut self) {
        if self.shared().owners.fetch_sub(1, Ordering::Release) != 1 {
            return;
        }
        fence(Ordering::Acquire);
        // SAFETY: it was the last owner, and what the others did is seen; the block was allocated with this layout.
        unsafe {
            self.at.drop_in_place();
            ::alloc::alloc::dealloc(self.at.as_ptr().cast(), Layout::new::<Shared<T>>());
        }
    }
}

impl<T> Deref for Arc<T> {
    type Target = T;

    #[inline]
    fn deref(&self) -> &T {
        &self.shared().value
    }
}

impl<T: fmt::Debug> fmt::Debug for Arc<T> {
    fn fmt(&self, f: &mut fmt::Formatter<'_>) -> fmt::Result {
        (**self).fmt(f)
    }
}
