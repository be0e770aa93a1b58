//! Scalar instructions, loads and stores of numbers, vector instructions, words as lanes, and the
//! indices of lanes.

use crate::proved::accesses::wasm::*;
use crate::proved::lanes::words::{word_add, word_differ, word_sub};
use crate::proved::lanes::{ImmLaneIdx16, OutOfBoundsLaneIdx};
use crate::proved::lanewise::simd::*;
use crate::proved::raw::V128;
use crate::proved::scalar::wasm::*;
use crate::proved::types::TrapCode;
use crate::proved::widening::simd::*;
use std::fmt::Debug;

/// Compares an answer with what it has to be. It is proved here once, and not at each row.
fn same<T: PartialEq + Debug>(what: &str, answer: T, expected: T) {
    assert!(
        answer == expected,
        "{what}: {answer:?} in place of {expected:?}"
    );
}

/// Compares the answers of some calls, which have one type, with what they have to be.
macro_rules! answers {
    ($($call:expr => $expected:expr),* $(,)?) => {
        same_rows(&[$(stringify!($call)),*], &[$($call),*], &[$($expected),*]);
    };
}

/// Compares the answers of some calls with what they have to be.
fn same_rows<T>(calls: &[&str], answers: &[T], expected: &[T])
where
    T: PartialEq + Debug,
{
    for (row, call) in calls.iter().enumerate() {
        same(call, answers.get(row), expected.get(row));
    }
}

#[test]
fn divisions_trap() {
    answers!(i32_div_s(-2147483648, -1) => Err(TrapCode::IntegerOverflow),
        i32_rem_s(-2147483648, -1) => Ok(0),
    );
    answers!(i32_div_u(1, 0) => Err(TrapCode::IntegerDivisionByZero),
    );
}

#[test]
fn wide_arithmetic() {
    answers!(i64_mul_wide_u(-1, -1) => (1, -2),
        i64_add128(-1, 0, 1, 0) => (0, 1),
    );
}

#[test]
fn one_page() {
    const REFUSED: TrapCode = TrapCode::MemoryOutOfBounds;
    let mut page = [0u8; 65536];
    answers!(load_u64(&page, 65528, 0) => Ok(0),
        load_u64(&page, 65529, 0) => Err(REFUSED),
        load_u64(&page, u64::MAX, 1) => Err(REFUSED),
    );
    answers!(i32_store8(&mut page, 0, 0, 300) => Ok(()),
        store32(&mut page, 4, 0, 305419896) => Ok(()),
    );
    same("load", i32_load8_u(&page, 0, 0), Ok(44));
    let bytes = [0x78, 0x56, 0x34, 0x12];
    same("bytes", page.get(4..8), Some(bytes.as_slice()));
}

#[test]
fn vector_instructions_work() {
    answers!(v128_or(i16x8_splat(0), i16x8_splat(-1)) => i16x8_splat(-1),
        i32x4_dot_i16x8_s(i16x8_splat(16383), i16x8_splat(16384)) => i32x4_splat(536838144),
        i8x16_narrow_i16x8_s(i16x8_splat(128), i16x8_splat(128)) => i8x16_splat(127),
    );
}

#[test]
fn lanes_do_not_touch_each_other() {
    let zero = V128::from(0);
    answers!(i8x16_add(i16x8_splat(255), i16x8_splat(1)) => zero,
        i8x16_sub(i16x8_splat(256), i16x8_splat(1)) => i16x8_splat(511),
        i8x16_mul(i16x8_splat(511), i8x16_splat(3)) => i16x8_splat(1021),
        i8x16_eq(i16x8_splat(256), i16x8_splat(0)) => i16x8_splat(255),
        i8x16_abs(i8x16_splat(-128)) => i8x16_splat(-128),
        i16x8_avgr_u(i16x8_splat(-1), i16x8_splat(0)) => i16x8_splat(-32768),
        i8x16_swizzle(i8x16_splat(5), i8x16_splat(16)) => zero,
        i8x16_lt_u(i8x16_splat(127), i8x16_splat(-128)) => i8x16_splat(-1),
        i8x16_lt_s(i8x16_splat(127), i8x16_splat(-128)) => zero,
        i16x8_q15mulr_sat_s(i16x8_splat(-32768), i16x8_splat(-32768)) => i16x8_splat(32767),
    );
}

#[test]
fn carries_and_borrows_stay_in_their_lane() {
    let zero = V128::from(0);
    answers!(i8x16_neg(i16x8_splat(1)) => i16x8_splat(255),
        i64x2_add(i64x2_splat(-1), i64x2_splat(1)) => zero,
        i16x8_eq(i32x4_splat(65536), i16x8_splat(0)) => i32x4_splat(65535),
        i16x8_ne(i32x4_splat(65536), i16x8_splat(0)) => i32x4_splat(-65536),
        i8x16_avgr_u(i16x8_splat(256), i16x8_splat(255)) => i16x8_splat(384),
        i8x16_popcnt(i16x8_splat(511)) => i16x8_splat(264),
        i8x16_max_u(i8x16_splat(-1), i8x16_splat(1)) => i8x16_splat(-1),
        i8x16_max_s(i8x16_splat(-1), i8x16_splat(1)) => i8x16_splat(1),
    );
}

#[test]
fn bits_stay_in_their_lane() {
    answers!(i16x8_relaxed_dot_i8x16_i7x16_s(i8x16_splat(-128), i8x16_splat(-128))
            => i16x8_splat(-32768),
        i8x16_narrow_i16x8_u(i16x8_splat(-1), i16x8_splat(300))
            => V128::from(0xffffffff_ffffffff << 64),
        i16x8_shl(i16x8_splat(-32767), 17) => i16x8_splat(2),
        i8x16_shl(i16x8_splat(255), 4) => i16x8_splat(240),
        i8x16_shr_u(i16x8_splat(256), 1) => V128::from(0),
    );
    answers!(i16x8_bitmask(i32x4_splat(-2147483648)) => 170,
        i8x16_bitmask(i8x16_splat(-1)) => 65535,
        i32x4_bitmask(i64x2_splat(-9223372036854775808)) => 10,
    );
    answers!(i16x8_all_true(i32x4_splat(65536)) => false,
        i32x4_all_true(i32x4_splat(65536)) => true,
    );
}

#[test]
fn words_with_unequal_lanes() {
    // lanes of 16 and of 48 bits
    let tops = 9223372036854808576;
    answers!(word_add(4294967295, 65537, tops) => 4294967296,
        word_sub(4294967296, 65537, tops) => 4294967295,
        word_differ(65536, 0, tops) => 9223372036854775808,
        word_differ(1, 0, tops) => 32768,
    );
}

#[test]
fn lane_indices_are_below_their_number() {
    let last = ImmLaneIdx16::try_from(15).expect("a lane");
    let none = ImmLaneIdx16::try_from(16).err();
    let answer = (u8::from(last), none);
    same("15 and 16", answer, (15, Some(OutOfBoundsLaneIdx)));
}
