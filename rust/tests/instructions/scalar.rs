//! Scalar instructions, on numbers at the bounds of their types too, and loads and stores of numbers, up to the last byte
//! and past it.
use crate::{SEVENS, answers, check_loads, check_stores};
use wasmi_core_proved::TrapCode;
use wasmi_core_proved::wasm::*;

const BY_ZERO: TrapCode = TrapCode::IntegerDivisionByZero;

const OVERFLOW: TrapCode = TrapCode::IntegerOverflow;

#[test]
fn i32_arithmetic() {
    answers!(
        i32_add(-1, -1) => -2,
        i32_add(i32::MIN, 1) => -2147483647,
        i32_sub(-1, -1) => 0,
        i32_sub(i32::MIN, 1) => i32::MAX,
        i32_mul(-1, -1) => 1,
        i32_mul(i32::MIN, 1) => i32::MIN,
        i32_bitand(-1, -1) => -1,
        i32_bitand(i32::MIN, 1) => 0,
        i32_bitor(-1, -1) => -1,
        i32_bitor(i32::MIN, 1) => -2147483647,
        i32_bitxor(-1, -1) => 0,
        i32_bitxor(i32::MIN, 1) => -2147483647,
    );
}

#[test]
fn i32_shifts_and_rotations() {
    answers!(
        i32_shl(i32::MIN, 33) => 0,
        i32_shl(6048, 549100848) => 396361728,
        i32_shr_s(i32::MIN, 33) => -1073741824,
        i32_shr_s(-35587376, 219698918) => -556053,
        i32_rotl(i32::MIN, 33) => 1,
        i32_rotl(1061563653, 6297355) => 828910074,
        i32_rotr(i32::MIN, 33) => 1073741824,
        i32_rotr(2971, 1855346) => 48676864,
    );
    answers!(
        i32_shr_u(u32::MAX, 33) => 2147483647,
        i32_shr_u(52870, 369097) => 103,
    );
}

#[test]
fn i32_divisions() {
    answers!(
        i32_div_s(i32::MIN, -1) => Err(OVERFLOW),
        i32_div_s(1, 0) => Err(BY_ZERO),
        i32_rem_s(i32::MIN, -1) => Ok(0),
        i32_rem_s(1, 0) => Err(BY_ZERO),
    );
    answers!(
        i32_div_u(1, 0) => Err(BY_ZERO),
        i32_div_u(u32::MAX, 7) => Ok(613566756),
        i32_rem_u(1, 0) => Err(BY_ZERO),
        i32_rem_u(u32::MAX, 7) => Ok(3),
    );
}

#[test]
fn i32_counts() {
    answers!(
        i32_clz(0) => 32,
        i32_clz(-1) => 0,
        i32_ctz(0) => 32,
        i32_ctz(-1) => 0,
        i32_popcnt(0) => 0,
        i32_popcnt(-1) => 32,
    );
    answers!(
        i32_eqz(0) => true,
        i32_eqz(-1) => false,
    );
}

#[test]
fn i32_comparisons() {
    answers!(
        i32_eq(-1, -1) => true,
        i32_eq(i32::MIN, 1) => false,
        i32_ne(-1, -1) => false,
        i32_ne(i32::MIN, 1) => true,
        i32_lt_s(-1, -1) => false,
        i32_lt_s(i32::MIN, 1) => true,
        i32_le_s(-1, -1) => true,
        i32_le_s(i32::MIN, 1) => true,
        i32_gt_s(-1, -1) => false,
        i32_gt_s(i32::MIN, 1) => false,
        i32_ge_s(-1, -1) => true,
        i32_ge_s(i32::MIN, 1) => false,
    );
}

#[test]
fn i32_unsigned_comparisons() {
    answers!(
        i32_lt_u(0, u32::MAX) => true,
        i32_lt_u(7, 7) => false,
        i32_le_u(0, u32::MAX) => true,
        i32_le_u(7, 7) => true,
        i32_gt_u(0, u32::MAX) => false,
        i32_gt_u(7, 7) => false,
        i32_ge_u(0, u32::MAX) => false,
        i32_ge_u(7, 7) => true,
    );
}

#[test]
fn i64_arithmetic() {
    answers!(
        i64_add(-1, -1) => -2,
        i64_add(i64::MIN, 1) => -9223372036854775807,
        i64_sub(-1, -1) => 0,
        i64_sub(i64::MIN, 1) => i64::MAX,
        i64_mul(-1, -1) => 1,
        i64_mul(i64::MIN, 1) => i64::MIN,
        i64_bitand(-1, -1) => -1,
        i64_bitand(i64::MIN, 1) => 0,
        i64_bitor(-1, -1) => -1,
        i64_bitor(i64::MIN, 1) => -9223372036854775807,
        i64_bitxor(-1, -1) => 0,
        i64_bitxor(i64::MIN, 1) => -9223372036854775807,
    );
}

#[test]
fn i64_shifts_and_rotations() {
    answers!(
        i64_shl(i64::MIN, 65) => 0,
        i64_shl(88997411905861, 1631) => -6228565547651432448,
        i64_shr_s(i64::MIN, 65) => -4611686018427387904,
        i64_shr_s(174747, 262042876010) => 0,
        i64_rotl(i64::MIN, 65) => 1,
        i64_rotl(56013733, 118222950858626407) => -6099612773098979327,
        i64_rotr(i64::MIN, 65) => 4611686018427387904,
        i64_rotr(599390628466267, 6035993) => -4690730459086155200,
    );
    answers!(
        i64_shr_u(u64::MAX, 65) => 9223372036854775807,
        i64_shr_u(1373066, 63500323) => 0,
    );
}

#[test]
fn i64_divisions() {
    answers!(
        i64_div_s(i64::MIN, -1) => Err(OVERFLOW),
        i64_div_s(1, 0) => Err(BY_ZERO),
        i64_rem_s(i64::MIN, -1) => Ok(0),
        i64_rem_s(1, 0) => Err(BY_ZERO),
    );
    answers!(
        i64_div_u(1, 0) => Err(BY_ZERO),
        i64_div_u(u64::MAX, 7) => Ok(2635249153387078802),
        i64_rem_u(1, 0) => Err(BY_ZERO),
        i64_rem_u(u64::MAX, 7) => Ok(1),
    );
}

#[test]
fn i64_counts() {
    answers!(
        i64_clz(0) => 64,
        i64_clz(-1) => 0,
        i64_ctz(0) => 64,
        i64_ctz(-1) => 0,
        i64_popcnt(0) => 0,
        i64_popcnt(-1) => 64,
    );
    answers!(
        i64_eqz(0) => true,
        i64_eqz(-1) => false,
    );
}

#[test]
fn i64_comparisons() {
    answers!(
        i64_eq(-1, -1) => true,
        i64_eq(i64::MIN, 1) => false,
        i64_ne(-1, -1) => false,
        i64_ne(i64::MIN, 1) => true,
        i64_lt_s(-1, -1) => false,
        i64_lt_s(i64::MIN, 1) => true,
        i64_le_s(-1, -1) => true,
        i64_le_s(i64::MIN, 1) => true,
        i64_gt_s(-1, -1) => false,
        i64_gt_s(i64::MIN, 1) => false,
        i64_ge_s(-1, -1) => true,
        i64_ge_s(i64::MIN, 1) => false,
    );
}

#[test]
fn i64_unsigned_comparisons() {
    answers!(
        i64_lt_u(0, u64::MAX) => true,
        i64_lt_u(7, 7) => false,
        i64_le_u(0, u64::MAX) => true,
        i64_le_u(7, 7) => true,
        i64_gt_u(0, u64::MAX) => false,
        i64_gt_u(7, 7) => false,
        i64_ge_u(0, u64::MAX) => false,
        i64_ge_u(7, 7) => true,
    );
}

#[test]
fn conversions() {
    answers!(
        i32_wrap_i64(0) => 0,
        i32_wrap_i64(-1) => -1,
        i32_extend8_s(0) => 0,
        i32_extend8_s(-1) => -1,
        i32_extend16_s(0) => 0,
        i32_extend16_s(-1) => -1,
    );
    answers!(
        i64_extend_i32_s(0) => 0,
        i64_extend_i32_s(-1) => -1,
        i64_extend8_s(0) => 0,
        i64_extend8_s(-1) => -1,
        i64_extend16_s(0) => 0,
        i64_extend16_s(-1) => -1,
        i64_extend32_s(0) => 0,
        i64_extend32_s(-1) => -1,
    );
    answers!(
        i64_extend_i32_u(0) => 0,
        i64_extend_i32_u(876118897) => 876118897,
    );
}

#[test]
fn wide_arithmetic() {
    answers!(
        i64_add128(-1, 0, 1, 0) => (0, 1),
        i64_add128(0, 0, 1, 0) => (1, 0),
        i64_sub128(-1, 0, 1, 0) => (-2, 0),
        i64_sub128(0, 0, 1, 0) => (-1, -1),
        i64_mul_wide_s(-1, -1) => (1, 0),
        i64_mul_wide_s(i64::MIN, 1) => (i64::MIN, -1),
        i64_mul_wide_u(-1, -1) => (1, -2),
        i64_mul_wide_u(i64::MIN, 1) => (i64::MIN, 0),
    );
}

const ONES: [u8; 16] = [255; 16];

/// A load of 16 bytes 255, plainly and at an address, gives `$value` at `$last`, the last address
/// that fits. It is refused one past it, and at sums of 2 to the power 64 or more.
macro_rules! loads {
    ($ones:expr; $plain:ident, $at:ident, $last:expr, $value:expr) => {
        let answers = [
            $plain($ones, $last, 0),
            $at($ones, $last),
            $plain($ones, $last, 1),
            $plain($ones, u64::MAX, 1),
            $plain($ones, u64::MAX, u64::MAX),
            $at($ones, $last + 1),
            $at($ones, usize::MAX),
        ];
        check_loads(stringify!($plain), answers, $value);
    };
}

#[test]
fn i32_loads_reach_the_last_byte_and_no_further() {
    let ones = ONES.as_slice();
    loads!(ones; i32_load8_s, i32_load8_s_at, 15, -1);
    loads!(ones; i32_load8_u, i32_load8_u_at, 15, 255);
    loads!(ones; i32_load16_s, i32_load16_s_at, 14, -1);
    loads!(ones; i32_load16_u, i32_load16_u_at, 14, 65535);
    loads!(ones; load_u32, load_u32_at, 12, u32::MAX);
}

#[test]
fn short_i64_loads_reach_the_last_byte_and_no_further() {
    let ones = ONES.as_slice();
    loads!(ones; i64_load8_s, i64_load8_s_at, 15, -1);
    loads!(ones; i64_load8_u, i64_load8_u_at, 15, 255);
    loads!(ones; i64_load16_s, i64_load16_s_at, 14, -1);
    loads!(ones; i64_load16_u, i64_load16_u_at, 14, 65535);
}

#[test]
fn long_i64_loads_reach_the_last_byte_and_no_further() {
    let ones = ONES.as_slice();
    loads!(ones; i64_load32_s, i64_load32_s_at, 12, -1);
    loads!(ones; i64_load32_u, i64_load32_u_at, 12, 4294967295);
    loads!(ones; load_u64, load_u64_at, 8, u64::MAX);
}

const STORED_8: [u8; 16] = [7, 7, 7, 7, 7, 7, 7, 7, 7, 7, 7, 7, 7, 7, 7, 1];

const STORED_16: [u8; 16] = [7, 7, 7, 7, 7, 7, 7, 7, 7, 7, 7, 7, 7, 7, 1, 2];

const STORED_32: [u8; 16] = [7, 7, 7, 7, 7, 7, 7, 7, 7, 7, 7, 7, 1, 2, 3, 4];

const STORED_64: [u8; 16] = [7, 7, 7, 7, 7, 7, 7, 7, 1, 2, 3, 4, 5, 6, 7, 8];

/// A store to 16 bytes 7, plainly and at an address, leaves `$stored` at `$last`, the last address
/// that fits. It is refused one past it, and at sums of 2 to the power 64 or more, and then writes
/// nothing.
macro_rules! stores {
    ($plain:ident, $at:ident, $last:expr, $value:expr, $stored:expr) => {{
        let mut untouched = SEVENS;
        let mut stored = untouched;
        let mut stored_at = untouched;
        let answers = [
            $plain(&mut untouched, $last, 1, $value),
            $plain(&mut untouched, u64::MAX, 1, $value),
            $plain(&mut untouched, u64::MAX, u64::MAX, $value),
            $at(&mut untouched, $last + 1, $value),
            $at(&mut untouched, usize::MAX, $value),
            $plain(&mut stored, $last, 0, $value),
            $at(&mut stored_at, $last, $value),
        ];
        let left = [untouched, stored, stored_at];
        check_stores(stringify!($plain), answers, left, $stored);
    }};
}

#[test]
fn i32_store8_reaches_the_last_byte_and_no_further() {
    stores!(i32_store8, i32_store8_at, 15, 0x0403_0201, STORED_8);
}

#[test]
fn i32_store16_reaches_the_last_byte_and_no_further() {
    stores!(i32_store16, i32_store16_at, 14, 0x0403_0201, STORED_16);
}

#[test]
fn store32_reaches_the_last_byte_and_no_further() {
    stores!(store32, store32_at, 12, 0x0403_0201, STORED_32);
}

#[test]
fn i64_store8_reaches_the_last_byte_and_no_further() {
    stores!(
        i64_store8,
        i64_store8_at,
        15,
        0x0807_0605_0403_0201,
        STORED_8
    );
}

#[test]
fn i64_store16_reaches_the_last_byte_and_no_further() {
    stores!(
        i64_store16,
        i64_store16_at,
        14,
        0x0807_0605_0403_0201,
        STORED_16
    );
}

#[test]
fn i64_store32_reaches_the_last_byte_and_no_further() {
    stores!(
        i64_store32,
        i64_store32_at,
        12,
        0x0807_0605_0403_0201,
        STORED_32
    );
}

#[test]
fn store64_reaches_the_last_byte_and_no_further() {
    stores!(store64, store64_at, 8, 0x0807_0605_0403_0201, STORED_64);
}

// A store to 16 bytes 7, then each load of the same width at the same address.

#[test]
fn i32_stores_then_loads() {
    let sevens = SEVENS;
    let mut memory = sevens;
    let store_8 = i32_store8(&mut memory, 3, 1, 384);
    let loads_8 = [i32_load8_s(&memory, 4, 0), i32_load8_u(&memory, 4, 0)];
    memory = sevens;
    let store_16 = i32_store16(&mut memory, 3, 1, -1);
    let loads_16 = [i32_load16_s(&memory, 4, 0), i32_load16_u(&memory, 4, 0)];
    memory = sevens;
    let store_32 = store32(&mut memory, 3, 1, u32::MAX - 5);
    let load_32 = load_u32(&memory, 4, 0);
    assert_eq!([store_8, store_16, store_32], [Ok(()); 3], "stores");
    assert_eq!(loads_8, [Ok(-128), Ok(128)], "loads of 8 bits");
    assert_eq!(loads_16, [Ok(-1), Ok(65535)], "loads of 16 bits");
    assert_eq!(load_32, Ok(u32::MAX - 5), "load_u32");
}

#[test]
fn short_i64_stores_then_loads() {
    let sevens = SEVENS;
    let mut memory = sevens;
    let store_8 = i64_store8(&mut memory, 3, 1, 255);
    let loads_8 = [i64_load8_s(&memory, 4, 0), i64_load8_u(&memory, 4, 0)];
    memory = sevens;
    let store_16 = i64_store16(&mut memory, 3, 1, 65536);
    let loads_16 = [i64_load16_s(&memory, 4, 0), i64_load16_u(&memory, 4, 0)];
    assert_eq!([store_8, store_16], [Ok(()); 2], "stores");
    assert_eq!(loads_8, [Ok(-1), Ok(255)], "loads of 8 bits");
    assert_eq!(loads_16, [Ok(0), Ok(0)], "loads of 16 bits");
}

#[test]
fn long_i64_stores_then_loads() {
    let sevens = SEVENS;
    let mut memory = sevens;
    let store_32 = i64_store32(&mut memory, 3, 1, -2);
    let loads_32 = [i64_load32_s(&memory, 4, 0), i64_load32_u(&memory, 4, 0)];
    memory = sevens;
    let store_64 = store64(&mut memory, 3, 1, u64::MAX - 5);
    let load_64 = load_u64(&memory, 4, 0);
    assert_eq!([store_32, store_64], [Ok(()); 2], "stores");
    assert_eq!(loads_32, [Ok(-2), Ok(4294967294)], "loads of 32 bits");
    assert_eq!(load_64, Ok(u64::MAX - 5), "load_u64");
}
