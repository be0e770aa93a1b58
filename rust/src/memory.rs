//! Linear memories without an allocator or a lifetime.

use crate::limiter::with;
use crate::proved::store::Memory as Proved;
use crate::{Fuel, MemoryError, MemoryType, ResourceLimiterRef};
use core::panic::UnwindSafe;

/// A linear memory: whole pages of bytes, which grow up to the maximum of their [`MemoryType`].
///
/// Growth is charged to a [`Fuel`] meter, if one is passed, and is permitted by a limiter, if the
/// [`ResourceLimiterRef`] has one. Its methods are those of [`machine::Memory`](crate::machine::Memory)
/// behind a `dyn` limiter, and have their contracts.
///
#[doc = examples!(root Memory)]
///
/// # Differences
///
/// `wasmi_core` panics at a growth if the maximum has 2^48 pages of 64 KiB, which is cut at 2^64 - 1 bytes here. There a
/// growth past a static buffer takes its fuel before it is refused.
#[doc = docs!(store LinearMemory.contract)]
pub struct Memory(Proved<'static>);

// As upstream's, of which nothing is seen after a panic but its bytes.
impl UnwindSafe for Memory {}

impl Memory {
    methods!(store LinearMemory: ..);

    /// A pointer to the first byte, to be read through until the memory grows or is changed.
    ///
    /// No contract speaks of it.
    ///
    /// # Differences
    ///
    /// `wasmi_core` returns a `*mut u8`. Here the pointer comes of a shared borrow, so a write through
    /// it would be undefined behaviour, and doesn't compile. [`Memory::data_mut`] is there to write:
    ///
    /// ```compile_fail,E0594
    /// use wasmi_core_proved::Memory;
    ///
    /// fn set_first(memory: &Memory) {
    ///     unsafe { *memory.data_ptr() = 1 }
    /// }
    /// ```
    ///
    /// ```compile_fail,E0308
    /// use wasmi_core_proved::Memory;
    ///
    /// fn cached(memory: &Memory) -> *mut u8 {
    ///     memory.data_ptr()
    /// }
    /// ```
    ///
    /// ```
    /// use wasmi_core_proved::Memory;
    ///
    /// fn first(memory: &Memory) -> Option<u8> {
    ///     (memory.data_size() > 0).then(|| unsafe { *memory.data_ptr() })
    /// }
    /// ```
    #[must_use]
    #[inline]
    pub fn data_ptr(&self) -> *const u8 {
        self.0.data().as_ptr()
    }
}
