//! Tests of what the crate has and doesn't export: here loads, stores and arithmetic through the bounds of their traits.

/// Compares the answers of some calls with what they have to be.
macro_rules! answers {
    ($($call:expr => $expected:expr),* $(,)?) => {
        $(assert_eq!($call, $expected, stringify!($call));)*
    };
}

mod interpreter;
mod lanes;
mod list;
mod registers;
#[cfg(feature = "std")]
mod shim;
#[cfg_attr(not(feature = "std"), allow(dead_code))]
pub(crate) mod texts;

use crate::TrapCode;
use crate::proved::accesses::access::{
    ExtendInto, LittleEndianConvert, WrapInto, load, load_at, load_extend, store, store_at,
    store_wrap,
};
use crate::proved::accesses::laws::*;
use crate::proved::raw::Number;
use crate::proved::scalar::value::{Integer, SignExtendFrom};
use core::fmt::Debug;

const REFUSED: TrapCode = TrapCode::MemoryOutOfBounds;

const ONES: [u8; 16] = [255; 16];

/// A value stored and loaded through the bound, plainly and at an address.
fn stored_and_loaded<T>(value: T, bytes: [u8; 16])
where
    T: LittleEndianConvert + PartialEq + Debug + Copy,
{
    let mut memory = [0u8; 16];
    assert_eq!(store(&mut memory, 0, 0, value), Ok(()), "store");
    assert_eq!(memory, bytes, "the bytes");
    assert_eq!(load::<T>(&memory, 0, 0), Ok(value), "load");
    memory = [0; 16];
    assert_eq!(store_at(&mut memory, 0, value), Ok(()), "store_at");
    assert_eq!(load_at::<T>(&memory, 0), Ok(value), "load_at");
    assert_eq!(
        load::<T>(&memory, u64::MAX, 16),
        Err(REFUSED),
        "load past the end"
    );
}

#[test]
fn little_endian_types() {
    let bytes = [254, 255, 255, 255, 0, 0, 0, 0, 0, 0, 0, 0, 0, 0, 0, 0];
    stored_and_loaded(-2i32, bytes);
    stored_and_loaded(0xffff_fffeu32, bytes);
    stored_and_loaded(-1i128, ONES);
    stored_and_loaded(u128::MAX, ONES);
    let low = [2, 1, 0, 0, 0, 0, 0, 0, 0, 0, 0, 0, 0, 0, 0, 0];
    stored_and_loaded(0x102u16, low);
    stored_and_loaded(0x102i16, low);
    stored_and_loaded(0x102u64, low);
    stored_and_loaded(0x102i64, low);
    let byte = [3, 0, 0, 0, 0, 0, 0, 0, 0, 0, 0, 0, 0, 0, 0, 0];
    stored_and_loaded(3u8, byte);
    stored_and_loaded(3i8, byte);
}

/// A value wrapped by the store and extended by the load, through the bounds.
fn wrapped_and_read<T, U>(value: T, read: T)
where
    T: WrapInto<U> + PartialEq + Debug + Copy,
    U: LittleEndianConvert + ExtendInto<T>,
{
    let mut memory = [0u8; 8];
    let stored = store_wrap::<T, U>(&mut memory, 1, 0, value);
    let loaded = load_extend::<T, U>(&memory, 0, 1);
    assert_eq!(
        (stored, loaded),
        (Ok(()), Ok(read)),
        "store_wrap, load_extend"
    );
}

#[test]
fn wrapped_and_extended() {
    wrapped_and_read::<i32, i8>(0x1280, -128);
    wrapped_and_read::<i32, i16>(0x1_8000, -32768);
    wrapped_and_read::<i64, i8>(0x127f, 127);
    wrapped_and_read::<i64, i16>(-1, -1);
    wrapped_and_read::<i64, i32>(0x1_8000_0000, -2147483648);
}

#[test]
fn laws() {
    stored_number_is_loaded();
    assert_eq!(bytes_of_their_value::<i16>([1, 255]), [1, 255], "bytes");
    assert_eq!(value_of_its_bytes(-2i128), -2, "value");
}

/// The trait's functions through its bound.
fn through_the_bound<T>(six: T, two: T, three: T)
where
    T: Integer + PartialEq + Debug + Copy,
{
    assert_eq!(T::div_s(six, two), Ok(three), "div_s");
    assert_eq!(T::shl(three, T::count_ones(two)), six, "shl");
    assert!(!six.is_zero());
}

fn extended_through_the_bound<T, U>(value: T) -> T
where
    T: SignExtendFrom<U>,
    U: Number,
{
    value.sign_extend_from()
}

#[test]
fn integers() {
    through_the_bound(6i32, 2, 3);
    through_the_bound(6i64, 2, 3);
    let short = extended_through_the_bound::<i32, i8>(0x1ff);
    let long = extended_through_the_bound::<i64, i32>(0x1_7fff_ffff);
    assert_eq!((short, long), (-1, 0x7fff_ffff), "extended");
}
