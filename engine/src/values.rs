//! Values of the host's types, as parameters and results of functions.

use crate::error::Error;
use crate::library::{RawVal, TypedRawVal, V128, ValType};

/// A value with its type: `Val::from(7_i32)`, and `i32::from(value)`.
pub type Val = TypedRawVal;

/// A raw value that is zero above the width of its type, as code takes addresses, indices and lengths to be.
pub(crate) fn canonical(value: Val) -> RawVal {
    match value.ty() {
        ValType::V128 => value.raw(),
        ValType::I64 | ValType::F64 => u64::from(value.raw()).into(),
        _ => u32::from(value.raw()).into(),
    }
}

/// A type of the host that stands for one of WebAssembly's: `i32` and `u32` for `i32`, `i64` and `u64` for `i64`, `f32`,
/// `f64`, and [`V128`] for `v128`.
pub trait WasmTy: Sized {
    /// Which one.
    const TYPE: ValType;

    /// The value as WebAssembly has it, zero above the width of its type.
    fn into_raw(self) -> RawVal;

    /// The value as the host has it.
    fn from_raw(raw: RawVal) -> Self;
}

macro_rules! types {
    ($($host:ty = $ty:ident, $self:ident => $into:expr, $raw:ident => $from:expr;)*) => {
        $(impl WasmTy for $host {
            const TYPE: ValType = ValType::$ty;

            #[inline]
            fn into_raw($self) -> RawVal {
                $into.into()
            }

            #[inline]
            fn from_raw($raw: RawVal) -> Self {
                $from
            }
        })*
    };
}

types! {
    i32 = I32, self => self.cast_unsigned(), raw => raw.into();
    u32 = I32, self => self, raw => raw.into();
    i64 = I64, self => self, raw => raw.into();
    u64 = I64, self => self, raw => raw.into();
    f32 = F32, self => self.to_bits(), raw => f32::from_bits(raw.into());
    f64 = F64, self => self.to_bits(), raw => f64::from_bits(raw.into());
    V128 = V128, self => self, raw => raw.into();
}

/// Parameters or results: `()` for none, a value of a type that is a [`WasmTy`], or a tuple of up to twelve such values.
///
/// A function with a parameter or a result that is a reference, or with more of them, is called by
/// [`Func::call`](crate::Func::call).
pub trait WasmValues: Sized {
    /// Their types.
    const TYPES: &'static [ValType];

    /// Writes them to the first ones of these.
    fn write(self, values: &mut [RawVal]);

    /// Reads them from the first ones of these.
    fn read(values: &[RawVal]) -> Self;
}

impl<V: WasmTy> WasmValues for V {
    const TYPES: &'static [ValType] = &[V::TYPE];

    #[inline]
    fn write(self, values: &mut [RawVal]) {
        values[0] = self.into_raw();
    }

    #[inline]
    fn read(values: &[RawVal]) -> Self {
        V::from_raw(values[0])
    }
}

/// Hands each number of values to a macro, with names for their types.
macro_rules! tuples {
    ($then:ident) => {
        $then!();
        $then!(A);
        $then!(A B);
        $then!(A B C);
        $then!(A B C D);
        $then!(A B C D E);
        $then!(A B C D E F);
        $then!(A B C D E F G);
        $then!(A B C D E F G H);
        $then!(A B C D E F G H I);
        $then!(A B C D E F G H I J);
        $then!(A B C D E F G H I J K);
        $then!(A B C D E F G H I J K L);
    };
}
pub(crate) use tuples;

macro_rules! values {
    ($($ty:ident)*) => {
        #[allow(non_snake_case, clippy::unused_unit)]
        impl<$($ty: WasmTy),*> WasmValues for ($($ty,)*) {
            const TYPES: &'static [ValType] = &[$($ty::TYPE),*];

            #[inline]
            fn write(self, values: &mut [RawVal]) {
                let ($($ty,)*) = self;
                let raw: &[RawVal] = &[$($ty.into_raw()),*];
                values[..raw.len()].copy_from_slice(raw);
            }

            #[inline]
            fn read(values: &[RawVal]) -> Self {
                let mut values = values.iter();
                let mut _next = || values.next().copied().unwrap_or_default();
                ($($ty::from_raw(_next()),)*)
            }
        }
    };
}
tuples!(values);

/// What a function of the host returns: results, or results unless the guest has to stop.
pub trait HostResults {
    /// The results.
    type Values: WasmValues;

    /// The results, or why the guest stops.
    fn into_result(self) -> Result<Self::Values, Error>;
}

impl<V: WasmValues> HostResults for V {
    type Values = V;

    #[inline]
    fn into_result(self) -> Result<V, Error> {
        Ok(self)
    }
}

impl<V: WasmValues> HostResults for Result<V, Error> {
    type Values = V;

    #[inline]
    fn into_result(self) -> Result<V, Error> {
        self
    }
}
