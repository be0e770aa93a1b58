//! Lists whose memory can be refused.

use super::alloc::{AllocError, AllocFailed};

/// A list whose memory can be refused. It is a `std::vec::Vec`, from which and into which it converts for nothing.
#[derive(PartialEq, Eq)]
pub struct Vec<T>(::alloc::vec::Vec<T>);

impl<T: core::fmt::Debug> core::fmt::Debug for Vec<T> {
    fn fmt(&self, f: &mut core::fmt::Formatter<'_>) -> core::fmt::Result {
        self.0.fmt(f)
    }
}

// Functions that take memory.
macro_rules! fallible {
    ($($(#[$mark:meta])* $vis:vis fn $name:ident $given:tt -> $result:ty $body:block)*) => { $(
        $(#[$mark])*
        ///
        /// # Errors
        ///
        /// [`AllocError`] if memory is refused.
        $vis fn $name $given -> Result<$result, AllocError> $body
    )* };
}

impl<T: Copy> Vec<T> {
    fallible! {
        /// A list of `count` copies of an item.
        #[inline]
        pub fn filled(item: T, count: usize) -> Self {
            if count == 0 {
                return Ok(Vec::new());
            }
            Self::filled_with_some(item, count)
        }

        #[inline(never)]
        fn filled_with_some(item: T, count: usize) -> Self {
            let mut list = Vec::with_capacity(count)?;
            list.0.resize(count, item);
            Ok(list)
        }

        /// A list of the items of a slice.
        #[inline(always)]
        pub fn from_slice(items: &[T]) -> Self {
            let mut list = Vec::new();
            list.append_slice(items)?;
            Ok(list)
        }

        /// Appends the items of a slice, with room for no more. In a long `match` LLVM doesn't inline what
        /// `extend_from_slice` calls, so that both requests stand in one call.
        #[inline]
        fn append_slice(&mut self, items: &[T]) -> () {
            self.0.try_reserve_exact(items.len()).map_err(|_| AllocError)?;
            self.0.extend_from_slice(items);
            Ok(())
        }

        /// Appends all items of a slice, or none.
        #[inline]
        pub fn extend_from_slice(&mut self, items: &[T]) -> () {
            self.try_reserve(items.len())?;
            self.0.extend_from_slice(items);
            Ok(())
        }

        /// Appends copies of an item, all or none, or drops items, up to a count.
        #[inline]
        pub fn resize(&mut self, count: usize, item: T) -> () {
            if let Some(more) = count.checked_sub(self.0.len()) {
                self.try_reserve(more)?;
            }
            self.0.resize(count, item);
            Ok(())
        }
    }
}

impl<T> Vec<T> {
    fallible! {
        /// An empty list with room for so many items.
        #[inline(always)]
        pub fn with_capacity(count: usize) -> Self {
            let mut list = ::alloc::vec::Vec::new();
            list.try_reserve_exact(count).map_err(|_| AllocError)?;
            Ok(Vec(list))
        }

        /// Makes room for so many more items.
        #[inline]
        pub fn try_reserve(&mut self, more: usize) -> () {
            self.0.try_reserve(more).map_err(|_| AllocError)
        }

        /// Makes room for exactly so many more items, unless there is more.
        #[inline]
        pub fn try_reserve_exact(&mut self, more: usize) -> () {
            self.0.try_reserve_exact(more).map_err(|_| AllocError)
        }

        /// Appends the items of another list, which keeps none; or neither list changes.
        pub fn append(&mut self, other: &mut Self) -> () {
            self.try_reserve(other.0.len())?;
            self.0.append(&mut other.0);
            Ok(())
        }
    }

    /// An empty list. It takes no memory.
    #[must_use]
    #[inline]
    pub const fn new() -> Self {
        Vec(::alloc::vec::Vec::new())
    }

    /// A list of the items of an array.
    ///
    /// # Errors
    ///
    /// [`AllocError`] if memory is refused.
    pub fn of<const N: usize>(items: [T; N]) -> Result<Self, AllocError> {
        let mut list = Vec::with_capacity(N)?;
        list.0.extend(items);
        Ok(list)
    }

    /// Appends the items of an iterator up to its first `None`, but at most so many.
    ///
    /// Where the iterator says how many there are, they come at once. Room for more than it said is made by `extend`, which
    /// ends the program if it is refused.
    ///
    /// # Errors
    ///
    /// [`AllocError`] if memory is refused for what it said, or for an item.
    #[inline]
    pub fn read<I>(&mut self, items: I, most: usize) -> Result<(), AllocError>
    where
        I: Iterator<Item = T>,
    {
        let (at_least, at_most) = items.size_hint();
        let expected = at_least.min(most);
        self.try_reserve(expected)?;
        let mut items = items.take(most);
        if at_most == Some(expected) {
            self.0.extend(items);
            return Ok(());
        }
        items.try_for_each(|item| self.push(item).map_err(AllocError::from))
    }

    /// Appends the items of an iterator up to its first `None`: at most so many, or as many as it says that there are.
    ///
    /// # Errors
    ///
    /// As of [`read`](Self::read).
    #[inline]
    pub fn read_all<I>(&mut self, items: I, most: usize) -> Result<(), AllocError>
    where
        I: Iterator<Item = T>,
    {
        let (at_least, at_most) = items.size_hint();
        if at_most != Some(at_least) || at_least > most {
            return self.read(items, most);
        }
        // Behind `take` the items of a list come one by one.
        self.try_reserve(at_least)?;
        self.0.extend(items);
        Ok(())
    }

    /// Appends an item.
    ///
    /// # Errors
    ///
    /// [`AllocFailed`] with the item, if memory is refused.
    #[inline]
    pub fn push(&mut self, item: T) -> Result<(), AllocFailed<T>> {
        if self.0.try_reserve(1).is_err() {
            return Err(AllocFailed { value: item });
        }
        self.0.push(item);
        Ok(())
    }

    /// Appends an item.
    ///
    /// # Panics
    ///
    /// Panics if there is no room for it.
    #[inline]
    pub fn push_reserved(&mut self, item: T) {
        assert!(self.0.len() < self.0.capacity(), "room");
        self.0.push(item);
    }

    /// Takes the item at an index out. The later ones move down.
    pub(crate) fn remove(&mut self, index: usize) -> T {
        self.0.remove(index)
    }

    /// How many items it has room for.
    #[must_use]
    #[inline]
    pub fn capacity(&self) -> usize {
        self.0.capacity()
    }

    /// Drops all items.
    #[inline]
    pub fn clear(&mut self) {
        self.0.clear();
    }

    /// The items.
    #[must_use]
    #[inline]
    pub fn as_slice(&self) -> &[T] {
        &self.0
    }

    /// The items, which may be overwritten.
    #[inline]
    pub fn as_mut_slice(&mut self) -> &mut [T] {
        &mut self.0
    }

    /// A range of the items, which may be overwritten.
    ///
    /// # Panics
    ///
    /// Panics if the range ends past them.
    #[inline]
    pub fn slice_mut(&mut self, range: core::ops::RangeTo<usize>) -> &mut [T] {
        super::front_mut(&mut self.0, range.end)
    }
}

impl<T> Default for Vec<T> {
    fn default() -> Self {
        Self::new()
    }
}

impl<T> From<::alloc::vec::Vec<T>> for Vec<T> {
    fn from(list: ::alloc::vec::Vec<T>) -> Self {
        Vec(list)
    }
}

impl<T> From<Vec<T>> for ::alloc::vec::Vec<T> {
    fn from(list: Vec<T>) -> Self {
        list.0
    }
}

impl<T> core::ops::Deref for Vec<T> {
    type Target = [T];

    #[inline]
    fn deref(&self) -> &[T] {
        &self.0
    }
}

impl<T> core::ops::DerefMut for Vec<T> {
    #[inline]
    fn deref_mut(&mut self) -> &mut [T] {
        &mut self.0
    }
}

impl<T> IntoIterator for Vec<T> {
    type Item = T;
    type IntoIter = ::alloc::vec::IntoIter<T>;

    fn into_iter(self) -> Self::IntoIter {
        self.0.into_iter()
    }
}

impl<'a, T> IntoIterator for &'a Vec<T> {
    type Item = &'a T;
    type IntoIter = core::slice::Iter<'a, T>;

    fn into_iter(self) -> Self::IntoIter {
        self.0.iter()
    }
}
