//! Tables and element segments without an allocator.

use crate::limiter::with;
use crate::proved::store::{ElementSegment as ProvedSegment, Table as Proved};
use crate::rattle::Vec;
use crate::{
    ElementSegmentRef, Fuel, RawRef, RefType, ResourceLimiterRef, TableError, TableType,
    TypedRawRef,
};
use ::alloc::boxed::Box;

/// A table: references of one type, whose number grows up to the maximum of its [`TableType`].
///
/// Growth is charged to a [`Fuel`] meter, if one is passed, and is permitted by a limiter, if the
/// [`ResourceLimiterRef`] has one. Its methods are those of [`machine::Table`](crate::machine::Table)
/// behind a `dyn` limiter, and have their contracts.
///
#[doc = examples!(root Table)]
#[doc = docs!(store Table.contract)]
pub struct Table(Proved);

impl Table {
    methods!(store Table: new ty dynamic_ty size get set set_raw init copy grow grow_raw copy_within fill fill_raw);
}

/// An element segment: references of one type, from which tables are initialized.
///
/// Its methods are those of [`machine::ElementSegment`](crate::machine::ElementSegment), and have
/// their contracts.
#[doc = docs!(store ElementSegment.contract)]
pub struct ElementSegment(ProvedSegment);

#[allow(clippy::should_implement_trait)]
impl ElementSegment {
    /// An element segment of this type with the items of an iterator, which is read up to its first
    /// `None`.
    ///
    /// The contract is that of [`machine::ElementSegment::new`](crate::machine::ElementSegment::new),
    /// which returns an error where this panics or aborts.
    ///
    /// # Panics
    ///
    /// If there are more than 2^32 - 1 items, or if the iterator says so.
    ///
    /// # Aborts
    ///
    /// If the system refuses memory for the items, as [`Vec`](::alloc::vec::Vec) does.
    #[inline]
    pub fn new<I>(ty: RefType, items: I) -> Self
    where
        I: IntoIterator<Item = RawRef>,
    {
        let most = usize::try_from(u32::MAX).unwrap_or(usize::MAX);
        let test = |count| assert!(count <= most, "element segment has too many items");
        let items = items.into_iter();
        let (at_least, at_most) = items.size_hint();
        test(at_least);
        // The proved function reads one item after another. Behind `take`, `collect` takes more time.
        let list: Box<[RawRef]> = match at_most {
            Some(at_most) if at_most <= most => items.collect(),
            _ => items.take(most.saturating_add(1)).collect(),
        };
        test(list.len());
        let items = Vec::from(list.into_vec());
        Self(ProvedSegment { ty, items })
    }

    methods!(store ElementSegment: as_ref ty items size drop_items);
}

impl<'a> From<&'a ElementSegment> for ElementSegmentRef<'a> {
    fn from(segment: &'a ElementSegment) -> Self {
        segment.as_ref()
    }
}
