//! `std::vec` of Rattle: a `Vec` whose growth can fail. Its capacities are those of Rust's, which are Rattle's. What indexes panics past the end, as
//! Rust's does; in the proved sources none does so.

use super::alloc::{AllocError, AllocFailed, Global};
use super::fmt;
use super::marker::PhantomData;
use super::ops::{Deref, DerefMut};

/// A list that can grow. If growth fails, the items are as they were.
pub struct Vec<T, A = Global> {
    items: ::alloc::vec::Vec<T>,
    alloc: PhantomData<A>,
}

impl<T> Vec<T> {
    /// No items, in no block.
    #[inline]
    pub const fn new(_: Global) -> Vec<T> {
        Vec { items: ::alloc::vec::Vec::new(), alloc: PhantomData }
    }

    /// No items, in a block for just so many.
    pub fn with_capacity(alloc: Global, many: usize) -> Result<Vec<T>, AllocError> {
        let mut made = Vec::new(alloc);
        made.reserve_exact(many)?;
        Ok(made)
    }

    /// A copy of a slice, in a block of just its size.
    pub fn from_slice(alloc: Global, items: &[T]) -> Result<Vec<T>, AllocError>
    where
        T: Clone,
    {
        let mut made = Vec::with_capacity(alloc, items.len())?;
        made.items.extend_from_slice(items);
        Ok(made)
    }

    /// What `vec![in alloc; value; many]` makes.
    pub fn of_value(alloc: Global, value: T, many: usize) -> Result<Vec<T>, AllocError>
    where
        T: Clone,
    {
        let mut made = Vec::with_capacity(alloc, many)?;
        made.items.resize(many, value);
        Ok(made)
    }

    /// A copy of all items, in a block of just their size.
    #[allow(clippy::should_implement_trait)]
    pub fn clone(&self) -> Result<Vec<T>, AllocError>
    where
        T: Clone,
    {
        Vec::from_slice(Global, &self.items)
    }

    /// The allocator.
    #[inline]
    pub fn allocator(&self) -> &Global {
        &Global
    }

    /// How many items the block is for.
    #[inline]
    pub fn capacity(&self) -> usize {
        self.items.capacity()
    }

    /// Space for so many items more, at least; if it fails, the block is as it was.
    #[inline]
    pub fn reserve(&mut self, more: usize) -> Result<(), AllocError> {
        if more <= self.items.capacity() - self.items.len() {
            return Ok(());
        }
        self.grow(more)
    }

    /// `reserve` for lists that have no space: a call of its own, so that one that has it costs a comparison.
    #[cold]
    #[inline(never)]
    fn grow(&mut self, more: usize) -> Result<(), AllocError> {
        self.items.try_reserve(more).map_err(|_| AllocError)
    }

    /// Space for so many items more, and no further.
    pub fn reserve_exact(&mut self, more: usize) -> Result<(), AllocError> {
        self.items.try_reserve_exact(more).map_err(|_| AllocError)
    }

    /// Appends an item; if it fails, the item comes back.
    #[inline]
    pub fn push(&mut self, value: T) -> Result<(), AllocFailed<T>> {
        if self.items.len() == self.items.capacity() {
            return self.push_grown(value);
        }
        self.items.push(value);
        Ok(())
    }

    /// `push` for a list that has no space.
    #[cold]
    #[inline(never)]
    fn push_grown(&mut self, value: T) -> Result<(), AllocFailed<T>> {
        if self.items.try_reserve(1).is_err() {
            return Err(AllocFailed { value });
        }
        self.items.push(value);
        Ok(())
    }

    /// Appends an item for which there is space.
    #[inline]
    pub fn push_reserved(&mut self, value: T) {
        self.items.push(value);
    }

    /// Inserts an item at a place, at most the length; if it fails, the item comes back.
    pub fn insert(&mut self, at: usize, value: T) -> Result<(), AllocFailed<T>> {
        if self.items.try_reserve(1).is_err() {
            return Err(AllocFailed { value });
        }
        self.items.insert(at, value);
        Ok(())
    }

    /// Appends a copy of a slice.
    #[inline]
    pub fn extend_from_slice(&mut self, items: &[T]) -> Result<(), AllocError>
    where
        T: Clone,
    {
        self.reserve(items.len())?;
        self.items.extend_from_slice(items);
        Ok(())
    }

    /// Appends items one after another; if it fails, those before stay.
    pub fn extend<I: IntoIterator<Item = T>>(&mut self, items: I) -> Result<(), AllocError> {
        for item in items {
            self.push(item)?;
        }
        Ok(())
    }

    /// Cuts the list to a length, or fills it up with copies of a value.
    pub fn resize(&mut self, many: usize, value: T) -> Result<(), AllocError>
    where
        T: Clone,
    {
        self.reserve(many.saturating_sub(self.items.len()))?;
        self.items.resize(many, value);
        Ok(())
    }

    /// Takes the last item.
    #[inline]
    pub fn pop(&mut self) -> Option<T> {
        self.items.pop()
    }

    /// Takes the item at a place, below the length.
    #[inline]
    pub fn remove(&mut self, at: usize) -> T {
        self.items.remove(at)
    }

    /// No item is left; the block stays.
    #[inline]
    pub fn clear(&mut self) {
        self.items.clear();
    }

    /// Drops the items from a place on; the block stays.
    #[inline]
    pub fn truncate(&mut self, many: usize) {
        self.items.truncate(many);
    }

    /// Drops the items that a test is false for; the block stays.
    pub fn retain<F: FnMut(&T) -> bool>(&mut self, keeps: F) {
        self.items.retain(keeps);
    }

    /// Moves the items into a smaller block, for at least so many. All stays as it was if the smaller block can't be allocated, where Rust's own
    /// would end the process; for a moment both blocks are there.
    pub fn shrink_to(&mut self, many: usize) {
        let wanted = many.max(self.items.len());
        if self.items.capacity() <= wanted {
            return;
        }
        let mut smaller = ::alloc::vec::Vec::new();
        if smaller.try_reserve_exact(wanted).is_ok() {
            smaller.append(&mut self.items);
            self.items = smaller;
        }
    }

    /// The same for the items that there are.
    pub fn shrink_to_fit(&mut self) {
        self.shrink_to(0);
    }

    /// All items.
    #[inline]
    pub fn as_slice(&self) -> &[T] {
        &self.items
    }

    /// All items, to be written.
    #[inline]
    pub fn as_mut_slice(&mut self) -> &mut [T] {
        &mut self.items
    }
}

impl<T> Deref for Vec<T> {
    type Target = [T];

    #[inline]
    fn deref(&self) -> &[T] {
        &self.items
    }
}

impl<T> DerefMut for Vec<T> {
    #[inline]
    fn deref_mut(&mut self) -> &mut [T] {
        &mut self.items
    }
}

impl<T> From<::alloc::vec::Vec<T>> for Vec<T> {
    /// The same block.
    fn from(items: ::alloc::vec::Vec<T>) -> Vec<T> {
        Vec { items, alloc: PhantomData }
    }
}

impl<T> From<Vec<T>> for ::alloc::vec::Vec<T> {
    /// The same block.
    fn from(list: Vec<T>) -> ::alloc::vec::Vec<T> {
        list.items
    }
}
