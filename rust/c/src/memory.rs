//! Slices of what C passes as a pointer and a length, and boxes for which memory can be refused.
#![allow(
    unsafe_code,
    reason = "a pointer and a length of C's are all that there is, and stable Rust's boxes end the program without memory"
)]

use crate::rattle::alloc::AllocError;
use core::slice;
use std::alloc::{Layout, alloc};

/// So many items at a pointer, or none where there are none: the pointer may be null then.
///
/// # Safety
///
/// The items have to be there, and nothing may write to them while the slice lives, as the headers ask of a caller.
pub unsafe fn items<'a, T>(at: *const T, len: usize) -> &'a [T] {
    if len == 0 {
        return &[];
    }
    // SAFETY: the caller's, as above; the items of a length above 0 aren't at null.
    unsafe { slice::from_raw_parts(at, len) }
}

/// So many items at a pointer, to be written.
///
/// # Safety
///
/// The items have to be there, and nothing else may read or write them while the slice lives.
pub unsafe fn items_mut<'a, T>(at: *mut T, len: usize) -> &'a mut [T] {
    if len == 0 {
        return &mut [];
    }
    // SAFETY: the caller's, as above.
    unsafe { slice::from_raw_parts_mut(at, len) }
}

/// A value on the heap, if there is memory for it.
pub fn boxed<T>(value: T) -> Result<Box<T>, AllocError> {
    const { assert!(size_of::<T>() > 0) };
    // SAFETY: the layout has a size above 0, as is asserted.
    let at = unsafe { alloc(Layout::new::<T>()) }.cast::<T>();
    if at.is_null() {
        return Err(AllocError);
    }
    // SAFETY: this is memory for a value, which nothing else has, from the allocator that a box gives it back to.
    unsafe {
        at.write(value);
        Ok(Box::from_raw(at))
    }
}
