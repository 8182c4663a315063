//! `Box`, `Arc`, and slices of C.

use crate::rattle_std::alloc::{AllocFailed, Global};
use crate::rattle_std::boxed::Box;
use crate::rattle_std::ffi::{slice, slice_mut};
use crate::rattle_std::sync::Arc;
use crate::refusing::{after, blocks_more};
use core::sync::atomic::{AtomicUsize, Ordering};
use std::thread;

/// Counts how often values are dropped.
struct Dropped<'a>(&'a AtomicUsize);

impl Drop for Dropped<'_> {
    fn drop(&mut self) {
        self.0.fetch_add(1, Ordering::Relaxed);
    }
}

#[test]
fn a_box_gives_its_value_back() {
    let more = blocks_more(|| {
        let mut one = Box::new(Global, [1u64; 9]).unwrap();
        one[3] = 4;
        assert_eq!(Box::into_inner(one)[3], 4);
        let AllocFailed { value } = after(0, || Box::new(Global, [5u8; 3])).err().unwrap();
        assert_eq!(value, [5; 3]);
        assert!(after(0, || Box::new(Global, ())).is_ok());
    });
    assert_eq!(more, 0);
}

#[test]
fn a_box_taken_apart_is_put_together() {
    let dropped = AtomicUsize::new(0);
    let more = blocks_more(|| {
        let (at, alloc) = Box::into_raw_with_allocator(Box::new(Global, Dropped(&dropped)).ok().unwrap());
        assert_eq!(dropped.load(Ordering::Relaxed), 0);
        // SAFETY: the address is that of the box, given once.
        unsafe { Box::from_raw(alloc, at) }
    });
    assert_eq!((dropped.load(Ordering::Relaxed), more), (1, 0));
}

#[test]
fn the_last_owner_drops_the_value() {
    let dropped = AtomicUsize::new(0);
    let more = blocks_more(|| {
        let mut one = Arc::new(Global, Dropped(&dropped)).ok().unwrap();
        assert!(Arc::get_mut(&mut one).is_some());
        let other = after(0, || Arc::try_clone(&one)).unwrap();
        assert!(Arc::get_mut(&mut one).is_none());
        assert!(core::ptr::eq(&*one, &*other));
        drop(other);
        assert_eq!(dropped.load(Ordering::Relaxed), 0);
        assert!(Arc::get_mut(&mut one).is_some());
    });
    assert_eq!((dropped.load(Ordering::Relaxed), more), (1, 0));
}

#[test]
fn a_refused_block_gives_the_value_back() {
    let dropped = AtomicUsize::new(0);
    let failed = after(0, || Arc::new(Global, Dropped(&dropped))).err().unwrap();
    assert_eq!(dropped.load(Ordering::Relaxed), 0);
    drop(failed);
    assert_eq!(dropped.load(Ordering::Relaxed), 1);
}

#[test]
fn owners_on_many_threads_drop_once() {
    static DROPPED: AtomicUsize = AtomicUsize::new(0);
    for turn in 1..=200 {
        let one = Arc::new(Global, Dropped(&DROPPED)).ok().unwrap();
        let threads: std::vec::Vec<_> = (0..4)
            .map(|_| {
                let mut mine = Arc::try_clone(&one).unwrap();
                thread::spawn(move || {
                    for _ in 0..20 {
                        let more = Arc::try_clone(&mine).unwrap();
                        let _ = Arc::get_mut(&mut mine);
                        drop(more);
                    }
                })
            })
            .collect();
        drop(one);
        for it in threads {
            it.join().unwrap();
        }
        assert_eq!(DROPPED.load(Ordering::Relaxed), turn);
    }
}

#[test]
fn slices_of_c_may_be_null_if_empty() {
    let mut bytes = [1u8, 2, 3];
    let at = bytes.as_mut_ptr();
    // SAFETY: three bytes lie there, and none at null.
    unsafe {
        assert_eq!(slice(at.cast_const(), 3), [1, 2, 3]);
        slice_mut(at, 2)[1] = 9;
        assert!(slice::<u8>(core::ptr::null(), 0).is_empty());
        assert!(slice_mut::<u8>(core::ptr::null_mut(), 0).is_empty());
    }
    assert_eq!(bytes, [1, 9, 3]);
}
