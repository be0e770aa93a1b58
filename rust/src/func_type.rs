//! Function types whose clones aren't refused memory.

use crate::ValType;
use crate::proved::types::{FuncType as Proved, FuncTypeError as Refusal};
use crate::rattle::TryClone;
use core::error::Error;
use core::fmt::{Debug, Display};

/// How many parameters, or results, a function has at most.
const MOST: usize = 1_000;

/// Why there is no such function type.
///
/// The proved function's third reason, that memory was refused, is a panic of [`FuncType::new`].
#[derive(Debug, Copy, Clone)]
pub enum FuncTypeError {
    /// There are more than 1,000 parameters.
    TooManyFunctionParams,
    /// There are more than 1,000 results.
    TooManyFunctionResults,
}

shown! {
    Display for FuncTypeError: |it| match it {
        Self::TooManyFunctionParams => Refusal::TooManyFunctionParams,
        Self::TooManyFunctionResults => Refusal::TooManyFunctionResults,
    };
    Debug for FuncType: |it| it.0;
}

impl Error for FuncTypeError {}

/// The type of a function: the types of its parameters and of its results, of each at most 1,000.
///
/// Up to 21 types stand in the value itself; more are shared by its clones, so a clone takes no
/// memory.
///
#[doc = examples!(root FuncType)]
#[doc = docs!(types FuncType.contract)]
#[derive(PartialOrd, Ord, Eq, Hash)]
#[allow(clippy::derived_hash_with_manual_eq)]
pub struct FuncType(Proved);

impl FuncType {
    /// The type of a function with these parameters and results.
    ///
    /// Of each iterator at most 1,001 items are read, up to its first `None`. Nothing is read if one
    /// says that it has more than 1,000.
    ///
    /// # Errors
    ///
    /// [`TooManyFunctionParams`](FuncTypeError::TooManyFunctionParams) above 1,000 parameters, of
    /// which no result is read then; [`TooManyFunctionResults`](FuncTypeError::TooManyFunctionResults)
    /// above 1,000 results.
    ///
    /// # Panics
    ///
    /// If there are more than 21 types and the system refuses memory for them. The clauses below are
    /// of the function that this one calls, which returns an error in place of this panic.
    ///
    #[doc = docs!(types FuncType.new.contract)]
    #[inline]
    pub fn new<P, R>(params: P, results: R) -> Result<Self, FuncTypeError>
    where
        P: IntoIterator,
        R: IntoIterator,
        <P as IntoIterator>::IntoIter: Iterator<Item = ValType> + ExactSizeIterator,
        <R as IntoIterator>::IntoIter: Iterator<Item = ValType> + ExactSizeIterator,
    {
        let (params, results) = (params.into_iter(), results.into_iter());
        if is_too_long(&params) {
            return Err(FuncTypeError::TooManyFunctionParams);
        }
        if is_too_long(&results) {
            return Err(FuncTypeError::TooManyFunctionResults);
        }
        match Proved::new(params, results) {
            Ok(ty) => Ok(Self(ty)),
            Err(Refusal::TooManyFunctionParams) => Err(FuncTypeError::TooManyFunctionParams),
            Err(Refusal::TooManyFunctionResults) => Err(FuncTypeError::TooManyFunctionResults),
            Err(Refusal::OutOfMemory) => panic!("out of memory for a function type"),
        }
    }

    methods!(types FuncType: params results len_params len_results params_results);
}

/// Whether an iterator says that it has more types than a function takes.
#[inline]
fn is_too_long(types: &impl Iterator) -> bool {
    types.size_hint().0 > MOST
}

impl PartialEq for FuncType {
    #[inline]
    fn eq(&self, other: &Self) -> bool {
        // Most types that differ have other lengths.
        self.len_params() == other.len_params()
            && self.len_results() == other.len_results()
            && self.0 == other.0
    }
}

impl Clone for FuncType {
    #[inline]
    fn clone(&self) -> Self {
        Self(self.0.try_clone().expect("a list is shared, not copied"))
    }
}
