//! The part of Rattle's standard library that Rust's lacks: lists whose memory can be refused, shared slices, lanes of vectors.

#[cfg(feature = "std")]
pub mod arrayvec;
mod list;
/// Lanes of a vector, in registers of SSE2.
#[cfg(all(feature = "sse2", target_feature = "sse2"))]
#[path = "rattle/simd_x86.rs"]
pub mod simd;
/// Lanes of a vector, as arrays of them.
#[cfg(any(test, not(all(feature = "sse2", target_feature = "sse2"))))]
pub mod simd_arrays;

#[cfg(not(all(feature = "sse2", target_feature = "sse2")))]
pub use simd_arrays as simd;

#[cfg(test)]
pub(crate) use crate::tests::texts::*;
use alloc::AllocError;
pub use list::Vec;

pub mod alloc {
    //! Allocators and what they refuse.
    use core::fmt::Display;

    /// Memory was refused.
    #[derive(Clone, Copy, Debug, PartialEq, Eq)]
    pub struct AllocError;

    shown! {
        Display for AllocError: |_it| "out of memory";
    }

    impl core::error::Error for AllocError {}

    /// Memory was refused for a value, which is given back.
    #[derive(Clone, Copy, Debug, PartialEq, Eq)]
    pub struct AllocFailed<T> {
        /// The value.
        pub value: T,
    }

    #[cfg(feature = "std")]
    impl From<AllocError> for std::io::Error {
        fn from(_: AllocError) -> Self {
            std::io::ErrorKind::OutOfMemory.into()
        }
    }

    impl<T> From<AllocFailed<T>> for AllocError {
        fn from(_: AllocFailed<T>) -> Self {
            AllocError
        }
    }
}

pub mod rc {
    //! Shared slices.

    use super::alloc::AllocError;
    use ::alloc::sync::Arc;

    /// A shared slice.
    #[derive(Debug)]
    pub struct RcSlice<T>(Arc<[T]>);

    impl<T> RcSlice<T> {
        /// The slice of a list. Rust has no fallible form of it: a refusal of memory aborts.
        pub fn from_vec(list: super::Vec<T>) -> Result<Self, AllocError> {
            Ok(RcSlice(Arc::from(::alloc::vec::Vec::from(list))))
        }

        /// The slice.
        #[inline]
        pub fn as_slice(&self) -> &[T] {
            &self.0
        }
    }

    impl<T> super::TryClone for RcSlice<T> {
        #[inline]
        fn try_clone(&self) -> Result<Self, AllocError> {
            Ok(RcSlice(Arc::clone(&self.0)))
        }
    }
}

/// A copy for which memory can be refused.
pub trait TryClone: Sized {
    /// The copy.
    fn try_clone(&self) -> Result<Self, AllocError>;
}

impl<T: Clone> TryClone for T {
    #[inline]
    fn try_clone(&self) -> Result<Self, AllocError> {
        Ok(self.clone())
    }
}

/// Copies of slices for which memory can be refused.
pub trait SliceExt<T> {
    /// A list of the same items.
    fn try_to_vec(&self) -> Result<Vec<T>, AllocError>;
}

impl<T: Copy> SliceExt<T> for [T] {
    #[inline(always)]
    fn try_to_vec(&self) -> Result<Vec<T>, AllocError> {
        Vec::from_slice(self)
    }
}

/// Arrays whose items are made of those of others.
#[cfg(feature = "std")]
pub trait ArrayExt<T, const N: usize> {
    /// What `f` gives for each item, or the first error.
    fn try_map_all<U: Copy, E>(self, f: impl FnMut(T) -> Result<U, E>) -> Result<[U; N], E>;
}

#[cfg(feature = "std")]
impl<T: Copy, const N: usize> ArrayExt<T, N> for [T; N] {
    fn try_map_all<U: Copy, E>(self, mut f: impl FnMut(T) -> Result<U, E>) -> Result<[U; N], E> {
        let mut items = [None; N];
        for i in 0..N {
            items[i] = Some(f(self[i])?);
        }
        Ok(items.map(|item| item.expect("each was set")))
    }
}

/// The parts of a line between spaces, as `split(' ')` gives them. They are short, so each byte is looked at by itself.
#[cfg(feature = "std")]
#[inline]
pub fn between_spaces(line: &str) -> impl Iterator<Item = &str> {
    let mut rest = Some(line);
    core::iter::from_fn(move || {
        let text = rest?;
        let end = text.bytes().position(|byte| byte == b' ');
        rest = end.map(|end| &text[end + 1..]);
        Some(&text[..end.unwrap_or(text.len())])
    })
}

/// The first items of a slice, up to an end. It panics if the slice is shorter, without numbers: none is kept for it.
#[must_use]
#[inline(always)]
pub fn front<T>(items: &[T], end: usize) -> &[T] {
    match items.get(..end) {
        Some(front) => front,
        None => ends_before(),
    }
}

/// As `front`, of items which may be overwritten.
#[inline(always)]
pub fn front_mut<T>(items: &mut [T], end: usize) -> &mut [T] {
    match items.get_mut(..end) {
        Some(front) => front,
        None => ends_before(),
    }
}

#[cold]
#[inline(never)]
fn ends_before() -> ! {
    panic!("a range ends past its items")
}
