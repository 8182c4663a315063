//! How Rattle passes a slice to and from C: a pointer and a length. The pointer of an empty one may be null.

/// The slice of a pointer and a number of items.
///
/// # Safety
/// With a number above 0: so many items lie at `at`, aligned, and are written by nobody as long as the slice is used.
pub unsafe fn slice<'a, T>(at: *const T, many: usize) -> &'a [T] {
    if many == 0 {
        return &[];
    }
    // SAFETY: what the caller promises.
    unsafe { core::slice::from_raw_parts(at, many) }
}

/// The slice of a pointer and a number of items, to be written.
///
/// # Safety
/// With a number above 0: so many items lie at `at`, aligned, and are read and written by nobody else as long as the slice is used.
pub unsafe fn slice_mut<'a, T>(at: *mut T, many: usize) -> &'a mut [T] {
    if many == 0 {
        return &mut [];
    }
    // SAFETY: what the caller promises.
    unsafe { core::slice::from_raw_parts_mut(at, many) }
}
