//! Values without the proved traits' bounds: read and written, converted, printed by upstream's names of fields, and amounts of shifts.

use crate::proved::raw::{ReadAs as Read, WriteAs as Write};
use crate::proved::typed::IntoShiftAmount as Into;
use crate::{
    FuelCostsProvider, FuelError, Global, RawRef, RawVal, ShiftAmount, TableError, TypedRawRef,
    TypedRawVal, V128,
};
use core::fmt::{Debug, Formatter, Result};
use core::num::NonZero;
use core::ptr::NonNull;

/// What can be read as a `T`.
///
/// Of a raw value, an integer is the low word cut to the width of the integer, and a `bool` is
/// whether the low word is not 0. A vector is both words. A float is read by its bits.
pub trait ReadAs<T> {
    /// Reads `self` as a `T`.
    ///
    /// Of integers, `bool`, references and vectors it keeps the contract of the proved trait,
    /// [`machine::ReadAs`](crate::machine::ReadAs).
    fn read_as(&self) -> T;
}

/// What a `T` can be written to.
///
/// An integer or a `bool` sets the low word of a raw value and keeps the high word. The low word is
/// then the integer's unsigned image at its own width, so `-1i32` gives 4294967295. A `NonZero` is
/// written as its integer, and a float by its bits. A vector or a raw value sets both words.
pub trait WriteAs<T> {
    /// Writes `value` to `self`.
    ///
    /// Of integers, `bool`, references and vectors it keeps the contract of the proved trait,
    /// [`machine::WriteAs`](crate::machine::WriteAs).
    fn write_as(&mut self, value: T);
}

macro_rules! write {
    ($($ty:ty),*) => { $(impl WriteAs<$ty> for RawVal {
        #[inline]
        fn write_as(&mut self, value: $ty) {
            Write::write_as(self, value);
        }
    })* };
}
macro_rules! read_and_write {
    ($($ty:ty),*) => {
        $(impl ReadAs<$ty> for RawVal {
            #[inline]
            fn read_as(&self) -> $ty {
                Read::read_as(self)
            }
        })*
        write!($($ty),*);
    };
}
read_and_write! { i8, i16, i32, i64, u8, u16, u32, u64, bool, RawVal, RawRef }
#[cfg(feature = "simd")]
read_and_write! { V128 }
write! { NonZero<i8>, NonZero<i16>, NonZero<i32>, NonZero<i64>, NonZero<u8>, NonZero<u16>, NonZero<u32>, NonZero<u64> }

/// A number whose bits are shifted, or a vector the bits of whose lanes are, by a [`ShiftAmount`].
pub trait IntoShiftAmount {
    /// The type in which the amount is given.
    type ShiftSource: Copy;

    /// The remainder of `source` by the number of bits of the number, or of a lane of the vector.
    ///
    /// It is never `None`, as in the Rust crate. The proved function returns `None` if the remainder
    /// is 0, and else the same amount:
    ///
    #[doc = docs!(typed IntoShiftAmount.into_shift_amount.contract)]
    fn into_shift_amount(source: Self::ShiftSource) -> Option<ShiftAmount>;
}

macro_rules! amounts {
    ($($ty:ty),*) => { $(
        impl IntoShiftAmount for $ty {
            type ShiftSource = <$ty as Into>::ShiftSource;

            #[inline]
            fn into_shift_amount(source: Self::ShiftSource) -> Option<ShiftAmount> {
                // The proved function has `None` for 0.
                Some(<$ty as Into>::into_shift_amount(source).unwrap_or(ShiftAmount::from(0)))
            }
        }
    )* };
}
amounts! { i8, u8, i16, u16, i32, u32, i64, u64, i128, u128, [u8; 16], [u16; 8], [u32; 4], [u64; 2] }

impl From<FuelError> for TableError {
    /// [`TableError::OutOfFuel`] with the same amount.
    ///
    /// # Panics
    ///
    /// If the error is [`FuelError::FuelMeteringDisabled`], of which there is none for tables.
    fn from(error: FuelError) -> Self {
        match Self::of_fuel(error) {
            Ok(error) => error,
            Err(_) => panic!("fuel metering is disabled"),
        }
    }
}

impl From<TypedRawVal> for TypedRawRef {
    /// The reference of a value.
    ///
    /// # Panics
    ///
    /// If the type of the value isn't one of references.
    fn from(value: TypedRawVal) -> Self {
        match Self::of_value(value) {
            Ok(reference) => reference,
            Err(_) => unreachable!("expected reference type but found: {:?}", value.ty()),
        }
    }
}

impl Global {
    /// A pointer to the value, to be used while nothing else borrows the global. A constant must not
    /// be written through it.
    ///
    /// No contract speaks of it: see [`Global::set`] for what is proved.
    ///
    /// # Panics
    ///
    /// With debug assertions, if the global is a constant.
    pub fn get_raw_ptr(&mut self) -> NonNull<RawVal> {
        debug_assert!(self.ty().mutability().is_mut());
        NonNull::from(&mut self.value)
    }
}

macro_rules! printed {
    ($($ty:ident |$it:ident| $form:ident $(($($field:tt)*))*;)*) => { $(impl Debug for $ty {
        fn fmt(&self, f: &mut Formatter<'_>) -> Result {
            let $it = self;
            f.$form(stringify!($ty))$(.field($($field)*))*.finish()
        }
    })* };
}
printed! {
    RawVal |it| debug_struct ("lo64", &it.lo) ("hi64", &it.hi);
    TypedRawVal |it| debug_struct ("ty", &it.ty) ("value", &it.raw);
    FuelCostsProvider |it| debug_struct ("bytes_copied_per_fuel", &it.costs().bytes_copied_per_fuel)
        ("fuel_per_bytes_translated", &it.costs().fuel_per_bytes_translated)
        ("fuel_per_bytes_validated", &it.costs().fuel_per_bytes_validated);
    V128 |it| debug_tuple (&it.as_u128().to_le_bytes());
    ShiftAmount |it| debug_tuple (&u8::from(*it));
}
