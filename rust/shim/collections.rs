//! `std::collections` of Rattle: a `VecDeque` whose growth can fail. Its capacities are those of Rust's, which are Rattle's.

pub use super::maps::BTreeMap;

use super::alloc::{AllocError, AllocFailed, Global};
use super::marker::PhantomData;
use super::ops::{Index, IndexMut};
use super::vec::Vec;
use ::alloc::collections as rust;

/// A list that can grow at both ends. If growth fails, the items are as they were.
pub struct VecDeque<T, A = Global> {
    items: rust::VecDeque<T>,
    alloc: PhantomData<A>,
}

impl<T> VecDeque<T> {
    /// No items, in no block.
    #[inline]
    pub const fn new(_: Global) -> VecDeque<T> {
        VecDeque { items: rust::VecDeque::new(), alloc: PhantomData }
    }

    /// No items, in a block for just so many.
    pub fn with_capacity(alloc: Global, many: usize) -> Result<VecDeque<T>, AllocError> {
        let mut made = VecDeque::new(alloc);
        made.reserve_exact(many)?;
        Ok(made)
    }

    /// The allocator.
    #[inline]
    pub fn allocator(&self) -> &Global {
        &Global
    }

    /// Space for so many items more, at least; if it fails, the block is as it was.
    #[inline]
    pub fn reserve(&mut self, more: usize) -> Result<(), AllocError> {
        if more <= self.items.capacity() - self.items.len() {
            return Ok(());
        }
        self.grow(more)
    }

    /// `reserve` for lists that have no space: a call of its own, so that one that has it costs a comparison.
    #[cold]
    #[inline(never)]
    fn grow(&mut self, more: usize) -> Result<(), AllocError> {
        self.items.try_reserve(more).map_err(|_| AllocError)
    }

    /// Space for so many items more, and no further.
    pub fn reserve_exact(&mut self, more: usize) -> Result<(), AllocError> {
        self.items.try_reserve_exact(more).map_err(|_| AllocError)
    }

    /// Appends an item; if it fails, the item comes back.
    #[inline]
    pub fn push_back(&mut self, value: T) -> Result<(), AllocFailed<T>> {
        if self.items.len() == self.items.capacity() {
            return self.push_back_grown(value);
        }
        self.items.push_back(value);
        Ok(())
    }

    /// `push_back` for a list that has no space.
    #[cold]
    #[inline(never)]
    fn push_back_grown(&mut self, value: T) -> Result<(), AllocFailed<T>> {
        if self.items.try_reserve(1).is_err() {
            return Err(AllocFailed { value });
        }
        self.items.push_back(value);
        Ok(())
    }

    /// Puts an item before all others; if it fails, the item comes back.
    #[inline]
    pub fn push_front(&mut self, value: T) -> Result<(), AllocFailed<T>> {
        if self.reserve(1).is_err() {
            return Err(AllocFailed { value });
        }
        self.items.push_front(value);
        Ok(())
    }

    /// Appends an item for which there is space.
    #[inline]
    pub fn push_back_reserved(&mut self, value: T) {
        if self.items.len() == self.items.capacity() {
            return self.push_back_unreserved(value);
        }
        self.items.push_back(value);
    }

    /// `push_back_reserved` for a list without space, which no caller has: with it apart, the call is short enough to be inlined.
    #[cold]
    #[inline(never)]
    fn push_back_unreserved(&mut self, value: T) {
        self.items.push_back(value);
    }

    /// Puts an item, for which there is space, before all others.
    #[inline]
    pub fn push_front_reserved(&mut self, value: T) {
        self.items.push_front(value);
    }

    /// Inserts an item at a place, at most the length; if it fails, the item comes back.
    pub fn insert(&mut self, at: usize, value: T) -> Result<(), AllocFailed<T>> {
        if self.items.try_reserve(1).is_err() {
            return Err(AllocFailed { value });
        }
        self.items.insert(at, value);
        Ok(())
    }

    /// Appends all items of another list, whose block stays; if it fails, both are as they were.
    pub fn append(&mut self, other: &mut VecDeque<T>) -> Result<(), AllocError> {
        self.reserve(other.len())?;
        self.items.append(&mut other.items);
        Ok(())
    }

    /// Cuts the list to a length, or fills it up with copies of a value.
    pub fn resize(&mut self, many: usize, value: T) -> Result<(), AllocError>
    where
        T: Clone,
    {
        self.reserve(many.saturating_sub(self.len()))?;
        self.items.resize(many, value);
        Ok(())
    }

    /// Moves the items into a smaller block, for at least so many. All stays as it was if the smaller block can't be allocated, where Rust's own
    /// would end the process; for a moment both blocks are there.
    pub fn shrink_to(&mut self, many: usize) {
        let wanted = many.max(self.items.len());
        if self.items.capacity() <= wanted {
            return;
        }
        let mut smaller = rust::VecDeque::new();
        if smaller.try_reserve_exact(wanted).is_ok() {
            smaller.append(&mut self.items);
            self.items = smaller;
        }
    }

    /// The same for the items that there are.
    pub fn shrink_to_fit(&mut self) {
        self.shrink_to(0);
    }

    /// All items in a `Vec`, in the same block.
    pub fn into_vec(self) -> Vec<T> {
        Vec::from(::alloc::vec::Vec::from(self.items))
    }

    pub(super) fn into_items(self) -> rust::VecDeque<T> {
        self.items
    }
}

/// What means the same in Rust, and allocates nothing there either.
macro_rules! as_in_rust {
    ($($(#[$said:meta])* fn $name:ident(&$($this:ident)+ $(, $word:ident: $type:ty)*) $(-> $answer:ty)?;)*) => {
        impl<T> VecDeque<T> {
            $($(#[$said])* #[inline] pub fn $name(&$($this)+ $(, $word: $type)*) $(-> $answer)? {
                as_in_rust!(last $($this)+).items.$name($($word),*)
            })*
        }
    };
    (last mut $this:ident) => { $this };
    (last $this:ident) => { $this };
}

as_in_rust! {
    /// How many items the block is for.
    fn capacity(&self) -> usize;
    /// The number of items.
    fn len(&self) -> usize;
    /// Whether there is none.
    fn is_empty(&self) -> bool;
    /// The item at a place.
    fn get(&self, at: usize) -> Option<&T>;
    /// The item at a place, to be written.
    fn get_mut(&mut self, at: usize) -> Option<&mut T>;
    /// The first item.
    fn front(&self) -> Option<&T>;
    /// The last item.
    fn back(&self) -> Option<&T>;
    /// Takes the first item.
    fn pop_front(&mut self) -> Option<T>;
    /// Takes the last item.
    fn pop_back(&mut self) -> Option<T>;
    /// Takes the item at a place; None past the end.
    fn remove(&mut self, at: usize) -> Option<T>;
    /// Exchanges two items.
    fn swap(&mut self, a: usize, b: usize);
    /// All items in order.
    fn iter(&self) -> rust::vec_deque::Iter<'_, T>;
    /// All items in order, to be written.
    fn iter_mut(&mut self) -> rust::vec_deque::IterMut<'_, T>;
    /// All items as two slices; the first is empty only if there is no item.
    fn as_slices(&self) -> (&[T], &[T]);
    /// All items as one slice.
    fn make_contiguous(&mut self) -> &mut [T];
    /// No item is left; the block stays.
    fn clear(&mut self);
    /// Drops the items from a place on; the block stays.
    fn truncate(&mut self, many: usize);
    /// Moves so many first items behind the others.
    fn rotate_left(&mut self, many: usize);
}

impl<T> VecDeque<T> {
    /// Drops the items that a test is false for; the block stays.
    pub fn retain<F: FnMut(&T) -> bool>(&mut self, keeps: F) {
        self.items.retain(keeps);
    }

    /// The place of the first item that a test is false for, in a list that has those that it is true for before all others.
    pub fn partition_point<F: FnMut(&T) -> bool>(&self, is: F) -> usize {
        self.items.partition_point(is)
    }
}

impl<T> Index<usize> for VecDeque<T> {
    type Output = T;

    #[inline]
    fn index(&self, at: usize) -> &T {
        &self.items[at]
    }
}

impl<T> IndexMut<usize> for VecDeque<T> {
    #[inline]
    fn index_mut(&mut self, at: usize) -> &mut T {
        &mut self.items[at]
    }
}
