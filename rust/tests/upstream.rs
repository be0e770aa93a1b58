//! What the tests of the Rust crate try, in words of our own, and each of its impls by its name; also those that are an
//! impl for each type of a trait here.
use std::error::Error;
use std::fmt::{Debug, Display};
use std::hash::Hash;
use std::num::NonZero;
use wasmi_core_proved::*;

fn nobody() -> ResourceLimiterRef<'static> {
    ResourceLimiterRef::default()
}

/// A memory of pages of one byte, so that its size may be any number of bytes, with addresses of 64 bits if there are any.
fn bytes(minimum: u64) -> MemoryType {
    let mut builder = MemoryType::builder();
    builder
        .min(minimum)
        .page_size_log2(0)
        .memory64(cfg!(feature = "memory64"));
    builder.build().unwrap()
}

fn memory(minimum: u64) -> Memory {
    Memory::new(bytes(minimum), &mut nobody()).unwrap()
}

/// Bytes that aren't zeros, for the rest of the program.
fn sevens(len: usize) -> &'static mut [u8] {
    vec![7; len].leak()
}

#[test]
fn each_trap_has_its_number() {
    let mut found = 0;
    for number in 0..=u8::MAX {
        if let Ok(trap) = TrapCode::try_from(number) {
            assert_eq!(u8::from(trap), number);
            found += 1;
        }
    }
    assert_eq!(found, 12);
    assert!(TrapCode::try_from(0).is_err());
    assert!(TrapCode::try_from(u8::MAX).is_err());
}

#[test]
fn a_memory_is_made_and_dropped() {
    assert_eq!(memory(10).data_size(), 10);
}

#[test]
fn bytes_are_zeros_and_can_be_written() {
    let mut memory = memory(10);
    assert_eq!(memory.data(), [0; 10]);
    memory.data_mut()[4] = 4;
    assert_eq!(memory.data(), [0, 0, 0, 0, 4, 0, 0, 0, 0, 0]);
}

#[test]
fn a_lent_region_has_the_bytes() {
    let mut region = [7; 10];
    let mut limiter = machine::ResourceLimiterRef::<machine::NoLimits>::default();
    let mut memory = machine::Memory::new_static(bytes(5), &mut limiter, &mut region).unwrap();
    assert_eq!(memory.data(), [0; 5]);
    memory.data_mut()[0] = 1;
    drop(memory);
    assert_eq!(region, [1, 0, 0, 0, 0, 7, 7, 7, 7, 7]);
}

#[test]
fn a_memory_grows_by_zeros() {
    let mut memory = memory(5);
    assert_eq!(memory.grow(5, None, &mut nobody()), Ok(5));
    assert_eq!(memory.data(), [0; 10]);
}

#[test]
fn a_lent_region_is_grown_into() {
    let mut memory = Memory::new_static(bytes(5), &mut nobody(), sevens(10)).unwrap();
    for (more, size) in [(0, 5), (3, 8), (2, 10)] {
        memory.grow(more, None, &mut nobody()).unwrap();
        assert_eq!(memory.data(), vec![0; size]);
    }
}

#[test]
fn a_lent_region_has_an_end() {
    let mut memory = Memory::new_static(bytes(5), &mut nobody(), sevens(5)).unwrap();
    assert_eq!(
        memory.grow(5, None, &mut nobody()),
        Err(MemoryError::InvalidStaticBufferSize)
    );
    assert_eq!(memory.size(), 5);
    let long = Memory::new_static(bytes(6), &mut nobody(), sevens(5));
    assert_eq!(long.map(|_| ()), Err(MemoryError::InvalidStaticBufferSize));
}

#[cfg(feature = "memory64")]
#[test]
fn the_system_may_have_no_memory() {
    let mut memory = memory(0);
    let refused = Err(MemoryError::OutOfSystemMemory);
    let all = usize::MAX as u64;
    assert_eq!(memory.grow(all, None, &mut nobody()), refused);
    assert!(memory.data().is_empty());
    assert_eq!(memory.grow(1, None, &mut nobody()), Ok(0));
    assert_eq!(memory.grow(all - 1, None, &mut nobody()), refused);
    assert_eq!(memory.data(), [0]);
}

/// A minimum and a maximum.
type Limits = (u32, Option<u32>);

/// Limits, those of another type, and whether a type of the first may stand where one of the second is expected.
const SUBTYPES: [(Limits, Limits, bool); 8] = [
    ((0, Some(1)), (0, Some(1)), true),
    ((0, Some(1)), (0, Some(2)), true),
    ((0, Some(2)), (0, Some(1)), false),
    ((2, None), (1, None), true),
    ((1, None), (2, None), false),
    ((0, None), (0, None), true),
    ((0, Some(1)), (0, None), true),
    ((0, None), (0, Some(1)), false),
];

#[test]
fn subtypes_of_memories() {
    let ty = |(minimum, maximum): Limits| {
        let mut builder = MemoryType::builder();
        builder.min(minimum.into()).max(maximum.map(u64::from));
        builder.build().unwrap()
    };
    for (first, second, is_subtype) in SUBTYPES {
        assert_eq!(
            ty(first).is_subtype_of(&ty(second)),
            is_subtype,
            "{first:?} of {second:?}"
        );
    }
}

#[test]
fn subtypes_of_tables() {
    let ty = |(minimum, maximum), element| TableType::new(element, minimum, maximum);
    for (first, second, is_subtype) in SUBTYPES {
        let functions = ty(first, RefType::Func);
        assert_eq!(
            functions.is_subtype_of(&ty(second, RefType::Func)),
            is_subtype,
            "{first:?} of {second:?}"
        );
        assert!(!functions.is_subtype_of(&ty(second, RefType::Extern)));
    }
}

#[derive(Debug)]
struct MyError;
impl Display for MyError {
    fn fmt(&self, f: &mut std::fmt::Formatter<'_>) -> std::fmt::Result {
        f.write_str("mine")
    }
}
impl HostError for MyError {}

macro_rules! impls {
    ($($ty:ty: $($bound:ident $(<$arg:ty>)?),*;)*) => { $({ $({ fn is<T: $bound $(<$arg>)?>() {} is::<$ty>(); })* })* };
}

#[cfg(feature = "simd")]
mod vectors {
    use std::fmt::Debug;
    use wasmi_core_proved::simd::{self, IntoLaneIdx};
    use wasmi_core_proved::{RawVal, ReadAs, V128, WriteAs};

    #[test]
    fn dot_product_of_equal_lanes() {
        let product = simd::i32x4_dot_i16x8_s(simd::i16x8_splat(16_383), simd::i16x8_splat(16_384));
        assert_eq!(product, simd::i32x4_splat(2 * 16_383 * 16_384));
    }

    #[test]
    fn or_with_zeros() {
        let ones = simd::i16x8_splat(-1);
        assert_eq!(simd::v128_or(simd::i16x8_splat(0), ones), ones);
        assert_eq!(ones, V128::from(u128::MAX));
    }

    #[test]
    fn narrowing_stops_at_the_greatest_lane() {
        let wide = simd::i16x8_splat(128);
        assert_eq!(
            simd::i8x16_narrow_i16x8_s(wide, wide),
            simd::i8x16_splat(127)
        );
    }

    #[test]
    fn impls() {
        impls! {
            RawVal: ReadAs<V128>, WriteAs<V128>;
            f32: IntoLaneIdx;
            f64: IntoLaneIdx;
            i16: IntoLaneIdx;
            i32: IntoLaneIdx;
            i64: IntoLaneIdx;
            i8: IntoLaneIdx;
            simd::ImmLaneIdx<16>: Clone, Copy, Debug, Eq, PartialEq, TryFrom<u8>;
            u16: IntoLaneIdx;
            u32: IntoLaneIdx;
            u64: IntoLaneIdx;
            u8: From<simd::ImmLaneIdx<16>>, IntoLaneIdx;
        }
    }
}

#[test]
fn impls() {
    impls! {
        CustomFuelCosts: Clone, Copy, Debug, FuelCosts;
        ElementSegment: Debug;
        ElementSegmentRef<'static>: Clone, Copy, Debug, From<&'static ElementSegment>;
        F32: Clone, Copy, Debug, Display, From<F32>, From<RawVal>, From<f32>, PartialEq, PartialOrd, Typed;
        F64: Clone, Copy, Debug, Display, From<F64>, From<RawVal>, From<f64>, PartialEq, PartialOrd, Typed;
        Fuel: Debug;
        FuelCostsProvider: Clone, Debug, Default;
        FuelError: Clone, Debug, Display, Error, From<FuelError>;
        FuncType: Clone, Debug, Eq, Hash, Ord, PartialEq, PartialOrd;
        FuncTypeError: Clone, Copy, Debug, Display, Error;
        Global: Debug;
        GlobalError: Debug, Display, Error;
        GlobalType: Clone, Copy, Debug, Eq, PartialEq;
        IndexType: Clone, Copy, Debug, Eq, PartialEq;
        LimiterError: Clone, Copy, Debug, Display, Error, From<LimiterError>;
        Memory: Debug;
        MemoryError: Clone, Copy, Debug, Display, Error, From<LimiterError>;
        MemoryType: Clone, Copy, Debug, Eq, PartialEq;
        MemoryTypeBuilder: Default;
        Mutability: Clone, Copy, Debug, Eq, PartialEq;
        NonZero<i32>: Typed;
        NonZero<i64>: Typed;
        NonZero<u32>: Typed;
        NonZero<u64>: Typed;
        RawRef: Clone, Copy, Debug, Eq, From<RawRef>, From<RawVal>, From<u32>, Hash, Ord, PartialEq, PartialOrd;
        RawVal: Clone, Copy, Debug, Default, Eq, From<F32>, From<F64>, From<NonZero<i16>>, From<NonZero<i32>>, From<NonZero<i64>>, From<NonZero<i8>>, From<NonZero<u16>>, From<NonZero<u32>>, From<NonZero<u64>>, From<NonZero<u8>>, From<RawRef>, From<RawVal>, From<TypedRawVal>, From<V128>, From<bool>, From<f32>, From<f64>, From<i16>, From<i32>, From<i64>, From<i8>, From<u16>, From<u32>, From<u64>, From<u8>, Ord, PartialEq, PartialOrd, ReadAs<RawRef>, ReadAs<RawVal>, ReadAs<bool>, ReadAs<f32>, ReadAs<f64>, ReadAs<i16>, ReadAs<i32>, ReadAs<i64>, ReadAs<i8>, ReadAs<u16>, ReadAs<u32>, ReadAs<u64>, ReadAs<u8>, WriteAs<NonZero<i16>>, WriteAs<NonZero<i32>>, WriteAs<NonZero<i64>>, WriteAs<NonZero<i8>>, WriteAs<NonZero<u16>>, WriteAs<NonZero<u32>>, WriteAs<NonZero<u64>>, WriteAs<NonZero<u8>>, WriteAs<RawRef>, WriteAs<RawVal>, WriteAs<bool>, WriteAs<f32>, WriteAs<f64>, WriteAs<i16>, WriteAs<i32>, WriteAs<i64>, WriteAs<i8>, WriteAs<u16>, WriteAs<u32>, WriteAs<u64>, WriteAs<u8>;
        RefType: Clone, Copy, Debug, Eq, From<RefType>, Hash, Ord, PartialEq, PartialOrd;
        ResourceLimiterRef<'static>: Debug, Default, From<&'static mut dyn ResourceLimiter>;
        ShiftAmount: Clone, Copy, Debug, Eq, From<ShiftAmount>, From<u8>, PartialEq, Typed;
        Table: Debug;
        TableError: Clone, Copy, Debug, Display, Error, From<FuelError>, From<LimiterError>;
        TableType: Clone, Copy, Debug, Eq, PartialEq;
        Trap: Debug, Display, From<MyError>, From<TrapCode>;
        TrapCode: Clone, Copy, Debug, Display, Eq, From<TrapCode>, PartialEq, TryFrom<u8>;
        TypedRawRef: Clone, Copy, Debug, From<TypedRawRef>, From<TypedRawVal>;
        TypedRawVal: Clone, Copy, Debug, Eq, From<TypedRawRef>, From<TypedRawVal>, From<i64>, PartialEq;
        V128: Clone, Copy, Debug, Eq, From<RawVal>, From<TypedRawVal>, From<V128>, From<u128>, PartialEq, Typed;
        ValType: Clone, Copy, Debug, Eq, From<RefType>, Hash, Ord, PartialEq, PartialOrd;
        [u16; 8]: IntoShiftAmount;
        [u32; 4]: IntoShiftAmount;
        [u64; 2]: IntoShiftAmount;
        [u8; 16]: IntoShiftAmount;
        bool: From<RawVal>, From<TypedRawVal>, Typed;
        f32: From<F32>, From<RawVal>, From<TypedRawVal>, Typed;
        f64: From<F64>, From<RawVal>, From<TypedRawVal>, Typed;
        i128: IntoShiftAmount;
        i16: From<RawVal>, From<TypedRawVal>, IntoShiftAmount, Typed;
        i32: From<RawVal>, From<TypedRawVal>, IntoShiftAmount, Typed;
        i64: From<RawVal>, From<TypedRawVal>, IntoShiftAmount, Typed;
        i8: From<RawVal>, From<TypedRawVal>, IntoShiftAmount, Typed;
        u128: IntoShiftAmount;
        u16: From<RawVal>, From<TypedRawVal>, IntoShiftAmount, Typed;
        u32: From<RawRef>, From<RawVal>, From<TypedRawVal>, IntoShiftAmount, Typed;
        u64: From<RawVal>, From<TypedRawVal>, IntoShiftAmount, Typed;
        u8: From<RawVal>, From<ShiftAmount>, From<TrapCode>, From<TypedRawVal>, IntoShiftAmount, Typed;
    }
    #[cfg(feature = "std")]
    impls! { Trap: Error; }
}
