//! Limiters behind `dyn`.

use crate::proved::meter::ResourceLimiter as Limits;
use crate::{LimiterError, MemoryError, TableError};
use core::fmt::Debug;

// A limiter's questions, notices and numbers: as members of the trait, and passed on by `Dyn`.
macro_rules! limits {
    ($(#[$docs:meta])* [$($asked:ident $asks:expr;)*] [$($told:ident $error:ident $tells:expr;)*] [$($number:ident $of:literal;)*]) => {
        $(#[$docs])*
        pub trait ResourceLimiter {
            $(
                #[doc = $asks]
                fn $asked(&mut self, current: usize, desired: usize, maximum: Option<usize>) -> Result<bool, LimiterError>;
            )*
            $(
                #[doc = $tells]
                #[allow(unused_variables)]
                fn $told(&mut self, error: &$error) -> Result<(), LimiterError> {
                    Ok(())
                }
            )*
            $(
                #[doc = concat!("The greatest number of ", $of, " of a store. Nothing in this library calls it.")]
                fn $number(&self) -> usize;
            )*
        }

        impl Limits for Dyn<'_> {
            $(fn $asked(&mut self, current: usize, desired: usize, maximum: Option<usize>) -> Result<bool, LimiterError> {
                self.0.$asked(current, desired, maximum)
            })*
            $(fn $told(&mut self, error: &$error) -> Result<(), LimiterError> {
                self.0.$told(error)
            })*
            $(fn $number(&self) -> usize {
                self.0.$number()
            })*
        }
    };
}

limits! {
    /// Decides which memories and tables may be made and may grow. A creation asks with a current size of
    /// 0.
    ///
    /// # What the answers mean
    ///
    /// To a question `Ok(true)` permits, and nothing else does. After `Ok(false)` a creation returns
    /// `ResourceLimiterDeniedAllocation`, and a growth returns [`MemoryError::OutOfBoundsGrowth`] or
    /// [`TableError::GrowOutOfBounds`]. After `Err` both return `ResourceLimiterDeniedAllocation`. In
    /// these cases nothing has changed and no notice follows.
    ///
    /// A notice follows a permission if the creation or growth then fails. After `Ok(())` the call
    /// returns the error that the notice named. After `Err` it returns
    /// `ResourceLimiterDeniedAllocation` instead. Unless an implementation has another body, a notice
    /// returns `Ok(())`.
    ///
    /// # In contracts
    ///
    /// A clause speaks of a limiter by its [`rules`](crate::machine::ResourceLimiter#contract): which
    /// answers it may give in each of its states, and which state it has afterwards. Nothing was proved
    /// of a limiter that is written in Rust, so read them as "whatever it does". What a call does with
    /// the answers holds of each limiter that returns; after a panic of one, nothing is promised.
    ///
    #[doc = examples!(root ResourceLimiter)]
    [
        memory_growing docs!(meter ResourceLimiter.memory_growing);
        table_growing docs!(meter ResourceLimiter.table_growing);
    ]
    [
        memory_grow_failed MemoryError docs!(meter ResourceLimiter.memory_grow_failed);
        table_grow_failed TableError docs!(meter ResourceLimiter.table_grow_failed);
    ]
    [instances "instances"; tables "tables"; memories "linear memories";]
}

/// A borrowed limiter, or none, which permits all that the types allow.
///
/// Each function that makes or grows a memory or table takes one. [`Default`] has no limiter.
#[derive(Default)]
pub struct ResourceLimiterRef<'a>(Option<&'a mut dyn ResourceLimiter>);

shown! {
    Debug for ResourceLimiterRef<'_>: |_it| format_args!("ResourceLimiterRef(...)");
}

impl<'a> From<&'a mut dyn ResourceLimiter> for ResourceLimiterRef<'a> {
    fn from(limiter: &'a mut dyn ResourceLimiter) -> Self {
        Self(Some(limiter))
    }
}

impl ResourceLimiterRef<'_> {
    /// The limiter, borrowed on, if there is one.
    pub fn as_resource_limiter(&mut self) -> Option<&mut dyn ResourceLimiter> {
        match &mut self.0 {
            Some(limiter) => Some(&mut **limiter),
            None => None,
        }
    }
}

/// A limiter behind a pointer, which the proved functions take as one of a known size.
pub(crate) struct Dyn<'a>(pub(crate) &'a mut dyn ResourceLimiter);

/// A call of a proved function with the limiter that is lent, or with none.
macro_rules! with {
    ($limiter:ident => $call:expr) => {{
        use crate::proved::meter::{NoLimits, ResourceLimiterRef as Lent};
        match $limiter.as_resource_limiter() {
            Some(limiter) => {
                let mut limiter = crate::limiter::Dyn(limiter);
                let $limiter = &mut Lent::from(&mut limiter);
                $call
            }
            None => {
                let $limiter = &mut Lent::<NoLimits>::default();
                $call
            }
        }
    }};
}
pub(crate) use with;
