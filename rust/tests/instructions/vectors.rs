//! The vector instructions that widen, narrow, shift or test lanes, the relaxed ones, and the loads and stores of vectors.
use crate::{REFUSED, SEVENS, answers, check_loads, check_stores};
use wasmi_core_proved::simd::*;
use wasmi_core_proved::{TrapCode, V128};

/// Vectors whose lanes of each width have both signs and differ.
const A: u128 = 0xf0e1d2c3_b4a59687_78695a4b_3c2d1e0f;

const B: u128 = 0x80017fff_ff01fe80_0180ff7f_00ff8000;

const C: u128 = 0x00112233_44556677_8899aabb_ccddeeff;

/// Its lanes of 16 bits lie at the limits of 8 bits.
const D: u128 = 0x007f0080_ff80ff7f_0000ffff_00ff0100;

/// Their lanes of 32 bits lie at the limits of 16 bits.
const E: u128 = 0x00007fff_00008000_ffff8000_ffff7fff;

const F: u128 = 0x0000ffff_00010000_ffffffff_80000000;

/// Indices of bytes, some of them above 15.
const I: u128 = 0x0f0e0dff_801f1110_00010203_04050607;

const BYTES: [u8; 20] = [
    17, 54, 91, 128, 165, 202, 239, 20, 57, 94, 131, 168, 205, 242, 23, 60, 97, 134, 171, 208,
];

/// The index of a lane, and the number that an access to it gives.
type LaneAccess = (u8, u128);

/// Compares the vectors that some calls returned with their numbers.
macro_rules! vectors {
    ($($call:expr => $number:expr),* $(,)?) => {
        same_vectors(&[$(stringify!($call)),*], &[$($call),*], &[$($number),*]);
    };
}

/// Compares the vectors that some calls returned with what their numbers have to be.
fn same_vectors(calls: &[&str], answers: &[V128], numbers: &[u128]) {
    for (row, call) in calls.iter().enumerate() {
        let expected = numbers.get(row).copied().map(V128::from);
        assert_eq!(answers.get(row).copied(), expected, "{}", call);
    }
}

/// A load from `$bytes`, plainly and at an address, gives `$number` at `$last`, the last address
/// that fits. It is refused one past it, and at sums of 2 to the power 64 or more.
macro_rules! loads {
    ($bytes:expr; $plain:ident, $at:ident, $last:expr => $number:expr) => {
        let answers = [
            $plain($bytes, $last, 0),
            $at($bytes, $last),
            $plain($bytes, $last, 1),
            $plain($bytes, u64::MAX, 1),
            $plain($bytes, u64::MAX, u64::MAX),
            $at($bytes, $last + 1),
            $at($bytes, usize::MAX),
        ];
        check_loads(stringify!($plain), answers, V128::from($number));
    };
}

/// A load into each lane of `A`, plainly and at an address, gives the numbers of a table at
/// `$last`, the last address that fits. It is refused one past it, and at sums of 2 to the power 64
/// or more.
macro_rules! lane_loads {
    ($plain:ident, $at:ident, $last:expr, $table:expr) => {{
        let a = V128::from(A);
        let bytes = BYTES.as_slice();
        let one = lane(1);
        let past_the_end = [
            $plain(bytes, $last, 1, a, one),
            $plain(bytes, u64::MAX, 1, a, one),
            $plain(bytes, u64::MAX, u64::MAX, a, one),
            $at(bytes, $last + 1, a, one),
            $at(bytes, usize::MAX, a, one),
        ];
        assert_eq!(past_the_end, [Err(REFUSED); 5], "{}", stringify!($plain));
        for &(index, number) in &$table {
            let at_index = lane(index);
            let answers = [
                $plain(bytes, $last, 0, a, at_index),
                $at(bytes, $last, a, at_index),
            ];
            assert_eq!(answers, [Ok(V128::from(number)); 2], "loads");
        }
    }};
}

/// A store of `$a` to 16 bytes 7, plainly and at an address, leaves the bytes of `$number` at
/// `$last`, the last address that fits. It is refused one past it, and at sums of 2 to the power 64
/// or more, and then writes nothing.
macro_rules! stores {
    ($a:expr; $plain:ident, $at:ident, $last:expr $(, $index:expr)? => $number:expr) => {{
        let mut untouched = SEVENS;
        let mut stored = untouched;
        let mut stored_at = untouched;
        let answers = [
            $plain(&mut untouched, $last, 1, $a $(, $index)?),
            $plain(&mut untouched, u64::MAX, 1, $a $(, $index)?),
            $plain(&mut untouched, u64::MAX, u64::MAX, $a $(, $index)?),
            $at(&mut untouched, $last + 1, $a $(, $index)?),
            $at(&mut untouched, usize::MAX, $a $(, $index)?),
            $plain(&mut stored, $last, 0, $a $(, $index)?),
            $at(&mut stored_at, $last, $a $(, $index)?),
        ];
        let left = [untouched, stored, stored_at];
        let bytes = u128::to_le_bytes($number);
        check_stores(stringify!($plain), answers, left, bytes);
    }};
}

/// A store of each lane of `A` to 16 bytes 7, plainly and at an address, leaves the bytes of the
/// numbers of a table at `$last`.
macro_rules! lane_stores {
    ($plain:ident, $at:ident, $last:expr, $table:expr) => {{
        let a = V128::from(A);
        let sevens = SEVENS;
        for &(index, number) in &$table {
            let mut stored = sevens;
            let mut stored_at = sevens;
            let at_index = lane(index);
            let answers = [
                $plain(&mut stored, $last, 0, a, at_index),
                $at(&mut stored_at, $last, a, at_index),
            ];
            check_lane(answers, [stored, stored_at], number);
        }
    }};
}

/// Compares what two stores of a lane answered and left with what it has to be.
fn check_lane(answers: [Result<(), TrapCode>; 2], left: [[u8; 16]; 2], number: u128) {
    assert_eq!(answers, [Ok(()); 2], "the answers");
    assert_eq!(left, [number.to_le_bytes(); 2], "the bytes");
}

/// The index of a lane.
fn lane<I>(index: u8) -> I
where
    I: TryFrom<u8, Error = OutOfBoundsLaneIdx>,
{
    I::try_from(index).expect("the index is below the number of lanes")
}

#[test]
fn limits_of_sums_products_and_shifts() {
    answers!(
        i16x8_relaxed_q15mulr_s(i16x8_splat(-32768), i16x8_splat(-32768)) => i16x8_splat(32767),
        i16x8_relaxed_dot_i8x16_i7x16_s(i8x16_splat(-128), i8x16_splat(-128))
            => i16x8_splat(-32768),
        i32x4_dot_i16x8_s(i16x8_splat(-32768), i16x8_splat(-32768)) => i32x4_splat(-2147483648),
        i8x16_narrow_i16x8_u(i16x8_splat(-1), i16x8_splat(300))
            => V128::from(0xffffffff_ffffffff << 64),
        i16x8_shl(i16x8_splat(-32767), 17) => i16x8_splat(2),
    );
    answers!(
        i16x8_bitmask(i32x4_splat(-2147483648)) => 170,
        i8x16_bitmask(i8x16_splat(-1)) => 65535,
    );
}

#[test]
fn lanes_are_extended() {
    let a = V128::from(A);
    vectors!(
        i16x8_extend_low_i8x16_s(a) => 0x00780069_005a004b_003c002d_001e000f,
        i16x8_extend_low_i8x16_u(a) => 0x00780069_005a004b_003c002d_001e000f,
        i16x8_extend_high_i8x16_s(a) => 0xfff0ffe1_ffd2ffc3_ffb4ffa5_ff96ff87,
        i16x8_extend_high_i8x16_u(a) => 0x00f000e1_00d200c3_00b400a5_00960087,
        i32x4_extend_low_i16x8_s(a) => 0x00007869_00005a4b_00003c2d_00001e0f,
        i32x4_extend_low_i16x8_u(a) => 0x00007869_00005a4b_00003c2d_00001e0f,
        i32x4_extend_high_i16x8_s(a) => 0xfffff0e1_ffffd2c3_ffffb4a5_ffff9687,
        i32x4_extend_high_i16x8_u(a) => 0x0000f0e1_0000d2c3_0000b4a5_00009687,
        i64x2_extend_low_i32x4_s(a) => 0x00000000_78695a4b_00000000_3c2d1e0f,
        i64x2_extend_low_i32x4_u(a) => 0x00000000_78695a4b_00000000_3c2d1e0f,
        i64x2_extend_high_i32x4_s(a) => 0xffffffff_f0e1d2c3_ffffffff_b4a59687,
        i64x2_extend_high_i32x4_u(a) => 0x00000000_f0e1d2c3_00000000_b4a59687,
    );
}

#[test]
fn products_are_extended() {
    let a = V128::from(A);
    let b = V128::from(B);
    vectors!(
        i16x8_extmul_low_i8x16_s(a, b) => 0x0078cb80_ffa62535_0000ffd3_f1000000,
        i16x8_extmul_low_i8x16_u(a, b) => 0x00783480_59a62535_00002cd3_0f000000,
        i16x8_extmul_high_i8x16_s(a, b) => 0x0800ffe1_e92e003d_004cffa5_00d43c80,
        i16x8_extmul_high_i8x16_u(a, b) => 0x780000e1_682ec23d_b34c00a5_94d44380,
        i32x4_extmul_low_i16x8_s(a, b) => 0x00b49d80_ffd28035_003bf0d3_f0f88000,
        i32x4_extmul_low_i16x8_u(a, b) => 0x00b49d80_5a1d8035_003bf0d3_0f078000,
        i32x4_extmul_high_i16x8_s(a, b) => 0x078f70e1_e961ad3d_004b0fa5_009e3580,
        i32x4_extmul_high_i16x8_u(a, b) => 0x787170e1_6960ad3d_b3f10fa5_95a53580,
        i64x2_extmul_low_i32x4_s(a, b) => 0x00b51634_1db48035_003c0f07_7ff88000,
        i64x2_extmul_low_i32x4_u(a, b) => 0x00b51634_1db48035_003c0f07_7ff88000,
        i64x2_extmul_high_i32x4_s(a, b) => 0x078efff1_4b42ad3d_004ac425_adac3580,
        i64x2_extmul_high_i32x4_u(a, b) => 0x787252b3_4b42ad3d_b3f2592c_adac3580,
    );
}

#[test]
fn neighbouring_lanes_are_added() {
    let a = V128::from(A);
    let b = V128::from(B);
    vectors!(
        i16x8_extadd_pairwise_i8x16_s(a) => 0xffd1ff95_ff59ff1d_00e100a5_0069002d,
        i16x8_extadd_pairwise_i8x16_s(b) => 0xff81007e_0000ff7e_ff81007e_ffffff80,
        i16x8_extadd_pairwise_i8x16_u(a) => 0x01d10195_0159011d_00e100a5_0069002d,
        i16x8_extadd_pairwise_i8x16_u(b) => 0x0081017e_0100017e_0081017e_00ff0080,
        i32x4_extadd_pairwise_i16x8_s(a) => 0xffffc3a4_ffff4b2c_0000d2b4_00005a3c,
        i32x4_extadd_pairwise_i16x8_s(b) => 0x00000000_fffffd81_000000ff_ffff80ff,
        i32x4_extadd_pairwise_i16x8_u(a) => 0x0001c3a4_00014b2c_0000d2b4_00005a3c,
        i32x4_extadd_pairwise_i16x8_u(b) => 0x00010000_0001fd81_000100ff_000080ff,
    );
}

#[test]
fn products_of_neighbouring_lanes_are_added() {
    let a = V128::from(A);
    let b = V128::from(B);
    let c = V128::from(C);
    vectors!(
        i32x4_dot_i16x8_s(a, b) => 0xf0f11e1e_00e94525_00871db5_f13470d3,
        i16x8_relaxed_dot_i8x16_i7x16_s(a, b) => 0x07e1e96b_fff13d54_cbf824db_ffd3f100,
        i32x4_relaxed_dot_i8x16_i7x16_add_s(a, b, c) => 0x0011137f_4455a3bc_88999b8e_ccdddfd2,
    );
}

#[test]
fn lanes_are_narrowed() {
    let b = V128::from(B);
    let d = V128::from(D);
    let e = V128::from(E);
    let f = V128::from(F);
    vectors!(
        i8x16_narrow_i16x8_s(b, d) => 0x7f7f8080_00ff7f7f_807f8080_7f807f80,
        i8x16_narrow_i16x8_s(d, b) => 0x807f8080_7f807f80_7f7f8080_00ff7f7f,
        i8x16_narrow_i16x8_u(b, d) => 0x7f800000_0000ffff_00ff0000_ff00ff00,
        i8x16_narrow_i16x8_u(d, b) => 0x00ff0000_ff00ff00_7f800000_0000ffff,
        i16x8_narrow_i32x4_s(e, f) => 0x7fff7fff_ffff8000_7fff7fff_80008000,
        i16x8_narrow_i32x4_s(f, e) => 0x7fff7fff_80008000_7fff7fff_ffff8000,
        i16x8_narrow_i32x4_u(e, f) => 0xffffffff_00000000_7fff8000_00000000,
        i16x8_narrow_i32x4_u(f, e) => 0x7fff8000_00000000_ffffffff_00000000,
    );
}

#[test]
fn numbers_are_widened() {
    vectors!(
        v128_widen8x8_s(0x80017fff_ff01fe80) => 0xff800001_007fffff_ffff0001_fffeff80,
        v128_widen8x8_u(0x80017fff_ff01fe80) => 0x00800001_007f00ff_00ff0001_00fe0080,
        v128_widen16x4_s(0x80017fff_ff01fe80) => 0xffff8001_00007fff_ffffff01_fffffe80,
        v128_widen16x4_u(0x80017fff_ff01fe80) => 0x00008001_00007fff_0000ff01_0000fe80,
        v128_widen32x2_s(0x80017fff_ff01fe80) => 0xffffffff_80017fff_ffffffff_ff01fe80,
        v128_widen32x2_u(0x80017fff_ff01fe80) => 0x00000000_80017fff_00000000_ff01fe80,
        v128_low32_zero(0xff01fe80) => 0x00000000_00000000_00000000_ff01fe80,
        v128_low64_zero(0x80017fff_ff01fe80) => 0x00000000_00000000_80017fff_ff01fe80,
    );
}

#[test]
fn lanes_of_8_bits_are_shifted_modulo_8() {
    let a = V128::from(A);
    vectors!(
        i8x16_shl(a, 7) => 0x00800080_00800080_00800080_00800080,
        i8x16_shl(a, 11) => 0x80089018_a028b038_c048d058_e068f078,
        i8x16_shl(a, 4294967295) => 0x00800080_00800080_00800080_00800080,
        i8x16_shr_s(a, 7) => 0xffffffff_ffffffff_00000000_00000000,
        i8x16_shr_s(a, 11) => 0xfefcfaf8_f6f4f2f0_0f0d0b09_07050301,
        i8x16_shr_s(a, 4294967295) => 0xffffffff_ffffffff_00000000_00000000,
        i8x16_shr_u(a, 7) => 0x01010101_01010101_00000000_00000000,
        i8x16_shr_u(a, 11) => 0x1e1c1a18_16141210_0f0d0b09_07050301,
        i8x16_shr_u(a, 4294967295) => 0x01010101_01010101_00000000_00000000,
    );
}

#[test]
fn lanes_of_16_bits_are_shifted_modulo_16() {
    let a = V128::from(A);
    vectors!(
        i16x8_shl(a, 15) => 0x80008000_80008000_80008000_80008000,
        i16x8_shl(a, 19) => 0x87089618_a528b438_c348d258_e168f078,
        i16x8_shl(a, 4294967295) => 0x80008000_80008000_80008000_80008000,
        i16x8_shr_s(a, 15) => 0xffffffff_ffffffff_00000000_00000000,
        i16x8_shr_s(a, 19) => 0xfe1cfa58_f694f2d0_0f0d0b49_078503c1,
        i16x8_shr_s(a, 4294967295) => 0xffffffff_ffffffff_00000000_00000000,
        i16x8_shr_u(a, 15) => 0x00010001_00010001_00000000_00000000,
        i16x8_shr_u(a, 19) => 0x1e1c1a58_169412d0_0f0d0b49_078503c1,
        i16x8_shr_u(a, 4294967295) => 0x00010001_00010001_00000000_00000000,
    );
}

#[test]
fn lanes_of_32_bits_are_shifted_modulo_32() {
    let a = V128::from(A);
    vectors!(
        i32x4_shl(a, 31) => 0x80000000_80000000_80000000_80000000,
        i32x4_shl(a, 35) => 0x870e9618_a52cb438_c34ad258_e168f078,
        i32x4_shl(a, 4294967295) => 0x80000000_80000000_80000000_80000000,
        i32x4_shr_s(a, 31) => 0xffffffff_ffffffff_00000000_00000000,
        i32x4_shr_s(a, 35) => 0xfe1c3a58_f694b2d0_0f0d2b49_0785a3c1,
        i32x4_shr_s(a, 4294967295) => 0xffffffff_ffffffff_00000000_00000000,
        i32x4_shr_u(a, 31) => 0x00000001_00000001_00000000_00000000,
        i32x4_shr_u(a, 35) => 0x1e1c3a58_1694b2d0_0f0d2b49_0785a3c1,
        i32x4_shr_u(a, 4294967295) => 0x00000001_00000001_00000000_00000000,
    );
}

#[test]
fn lanes_of_64_bits_are_shifted_modulo_64() {
    let a = V128::from(A);
    vectors!(
        i64x2_shl(a, 63) => 0x80000000_00000000_80000000_00000000,
        i64x2_shl(a, 67) => 0x870e961d_a52cb438_c34ad259_e168f078,
        i64x2_shl(a, 4294967295) => 0x80000000_00000000_80000000_00000000,
        i64x2_shr_s(a, 63) => 0xffffffff_ffffffff_00000000_00000000,
        i64x2_shr_s(a, 67) => 0xfe1c3a58_7694b2d0_0f0d2b49_6785a3c1,
        i64x2_shr_s(a, 4294967295) => 0xffffffff_ffffffff_00000000_00000000,
        i64x2_shr_u(a, 63) => 0x00000000_00000001_00000000_00000000,
        i64x2_shr_u(a, 67) => 0x1e1c3a58_7694b2d0_0f0d2b49_6785a3c1,
        i64x2_shr_u(a, 4294967295) => 0x00000000_00000001_00000000_00000000,
    );
}

#[test]
fn no_lane_is_zero() {
    let a = V128::from(A);
    let b = V128::from(0x01010101_01010101_01010001_01010101);
    let c = V128::from(0x01010101_01010000_01010101_01010101);
    let d = V128::from(0x01010101_01010101_00000000_01010101);
    let e = V128::from(0x00000000_00000000_01010101_01010101);
    answers!(
        i8x16_all_true(a) => true,
        i8x16_all_true(b) => false,
        i8x16_all_true(c) => false,
        i8x16_all_true(d) => false,
        i8x16_all_true(e) => false,
        i16x8_all_true(a) => true,
        i16x8_all_true(b) => true,
        i16x8_all_true(c) => false,
        i16x8_all_true(d) => false,
        i16x8_all_true(e) => false,
        i32x4_all_true(a) => true,
        i32x4_all_true(b) => true,
        i32x4_all_true(c) => true,
        i32x4_all_true(d) => false,
        i32x4_all_true(e) => false,
        i64x2_all_true(a) => true,
        i64x2_all_true(b) => true,
        i64x2_all_true(c) => true,
        i64x2_all_true(d) => true,
        i64x2_all_true(e) => false,
        v128_any_true(V128::from(0)) => false,
        v128_any_true(V128::from(1)) => true,
        v128_any_true(V128::from(1 << 127)) => true,
    );
}

#[test]
fn the_highest_bits_of_the_lanes() {
    let a = V128::from(A);
    let b = V128::from(B);
    answers!(
        i8x16_bitmask(a) => 0b1111111100000000,
        i8x16_bitmask(b) => 0b1001101101100110,
        i16x8_bitmask(a) => 0b11110000,
        i16x8_bitmask(b) => 0b10110101,
        i32x4_bitmask(a) => 0b1100,
        i32x4_bitmask(b) => 0b1100,
        i64x2_bitmask(a) => 0b10,
        i64x2_bitmask(b) => 0b10,
    );
}

#[test]
fn relaxed_instructions_make_one_choice() {
    let a = V128::from(A);
    let b = V128::from(B);
    let c = V128::from(C);
    let i = V128::from(I);
    vectors!(
        i8x16_relaxed_swizzle(a, i) => 0xf0e1d200_00000000_0f1e2d3c_4b5a6978,
        i16x8_relaxed_q15mulr_s(a, b) => 0x0f1fd2c3_0096013c_0169ffa5_0078e1f1,
        i8x16_relaxed_laneselect(a, b, c) => 0x80015fcf_bf059e87_09095f4f_0c2f0e0f,
        i16x8_relaxed_laneselect(a, b, c) => 0x80015fcf_bf059e87_09095f4f_0c2f0e0f,
        i32x4_relaxed_laneselect(a, b, c) => 0x80015fcf_bf059e87_09095f4f_0c2f0e0f,
        i64x2_relaxed_laneselect(a, b, c) => 0x80015fcf_bf059e87_09095f4f_0c2f0e0f,
    );
}

#[test]
fn loads_of_splats_reach_the_last_byte_and_no_further() {
    let bytes = BYTES.as_slice();
    loads!(bytes; v128_load8_splat, v128_load8_splat_at, 19
        => 0xd0d0d0d0_d0d0d0d0_d0d0d0d0_d0d0d0d0);
    loads!(bytes; v128_load16_splat, v128_load16_splat_at, 18
        => 0xd0abd0ab_d0abd0ab_d0abd0ab_d0abd0ab);
    loads!(bytes; v128_load32_splat, v128_load32_splat_at, 16
        => 0xd0ab8661_d0ab8661_d0ab8661_d0ab8661);
    loads!(bytes; v128_load64_splat, v128_load64_splat_at, 12
        => 0xd0ab8661_3c17f2cd_d0ab8661_3c17f2cd);
}

#[test]
fn loads_without_a_lane_reach_the_last_byte_and_no_further() {
    let bytes = BYTES.as_slice();
    loads!(bytes; v128_load32_zero, v128_load32_zero_at, 16
        => 0x00000000_00000000_00000000_d0ab8661);
    loads!(bytes; v128_load64_zero, v128_load64_zero_at, 12
        => 0x00000000_00000000_d0ab8661_3c17f2cd);
    loads!(bytes; v128_load, v128_load_at, 4
        => 0xd0ab8661_3c17f2cd_a8835e39_14efcaa5);
}

#[test]
fn signed_extending_loads_reach_the_last_byte_and_no_further() {
    let bytes = BYTES.as_slice();
    loads!(bytes; v128_load8x8_s, v128_load8x8_s_at, 12
        => 0xffd0ffab_ff860061_003c0017_fff2ffcd);
    loads!(bytes; v128_load16x4_s, v128_load16x4_s_at, 12
        => 0xffffd0ab_ffff8661_00003c17_fffff2cd);
    loads!(bytes; v128_load32x2_s, v128_load32x2_s_at, 12
        => 0xffffffff_d0ab8661_00000000_3c17f2cd);
}

#[test]
fn unsigned_extending_loads_reach_the_last_byte_and_no_further() {
    let bytes = BYTES.as_slice();
    loads!(bytes; v128_load8x8_u, v128_load8x8_u_at, 12
        => 0x00d000ab_00860061_003c0017_00f200cd);
    loads!(bytes; v128_load16x4_u, v128_load16x4_u_at, 12
        => 0x0000d0ab_00008661_00003c17_0000f2cd);
    loads!(bytes; v128_load32x2_u, v128_load32x2_u_at, 12
        => 0x00000000_d0ab8661_00000000_3c17f2cd);
}

#[test]
fn a_lane_is_stored_whole_or_not_at_all() {
    let a = V128::from(A);
    let index = lane(1);
    stores!(a; v128_store8_lane, v128_store8_lane_at, 15, index
        => 0x1e070707_07070707_07070707_07070707);
    let index = lane(1);
    stores!(a; v128_store16_lane, v128_store16_lane_at, 14, index
        => 0x3c2d0707_07070707_07070707_07070707);
    let index = lane(1);
    stores!(a; v128_store32_lane, v128_store32_lane_at, 12, index
        => 0x78695a4b_07070707_07070707_07070707);
    let index = lane(1);
    stores!(a; v128_store64_lane, v128_store64_lane_at, 8, index
        => 0xf0e1d2c3_b4a59687_07070707_07070707);
}

#[test]
fn a_vector_is_stored_whole_or_not_at_all() {
    let a = V128::from(A);
    stores!(a; v128_store, v128_store_at, 0 => 0xf0e1d2c3_b4a59687_78695a4b_3c2d1e0f);
}

/// `A` with the last 8 bits of `BYTES` in each lane.
static LOADED_8: [LaneAccess; 16] = [
    (0, 0xf0e1d2c3_b4a59687_78695a4b_3c2d1ed0),
    (1, 0xf0e1d2c3_b4a59687_78695a4b_3c2dd00f),
    (2, 0xf0e1d2c3_b4a59687_78695a4b_3cd01e0f),
    (3, 0xf0e1d2c3_b4a59687_78695a4b_d02d1e0f),
    (4, 0xf0e1d2c3_b4a59687_78695ad0_3c2d1e0f),
    (5, 0xf0e1d2c3_b4a59687_7869d04b_3c2d1e0f),
    (6, 0xf0e1d2c3_b4a59687_78d05a4b_3c2d1e0f),
    (7, 0xf0e1d2c3_b4a59687_d0695a4b_3c2d1e0f),
    (8, 0xf0e1d2c3_b4a596d0_78695a4b_3c2d1e0f),
    (9, 0xf0e1d2c3_b4a5d087_78695a4b_3c2d1e0f),
    (10, 0xf0e1d2c3_b4d09687_78695a4b_3c2d1e0f),
    (11, 0xf0e1d2c3_d0a59687_78695a4b_3c2d1e0f),
    (12, 0xf0e1d2d0_b4a59687_78695a4b_3c2d1e0f),
    (13, 0xf0e1d0c3_b4a59687_78695a4b_3c2d1e0f),
    (14, 0xf0d0d2c3_b4a59687_78695a4b_3c2d1e0f),
    (15, 0xd0e1d2c3_b4a59687_78695a4b_3c2d1e0f),
];

#[test]
fn numbers_of_8_bits_are_loaded_into_each_lane() {
    lane_loads!(v128_load8_lane, v128_load8_lane_at, 19, LOADED_8);
}

/// `A` with the last 16 bits of `BYTES` in each lane.
static LOADED_16: [LaneAccess; 8] = [
    (0, 0xf0e1d2c3_b4a59687_78695a4b_3c2dd0ab),
    (1, 0xf0e1d2c3_b4a59687_78695a4b_d0ab1e0f),
    (2, 0xf0e1d2c3_b4a59687_7869d0ab_3c2d1e0f),
    (3, 0xf0e1d2c3_b4a59687_d0ab5a4b_3c2d1e0f),
    (4, 0xf0e1d2c3_b4a5d0ab_78695a4b_3c2d1e0f),
    (5, 0xf0e1d2c3_d0ab9687_78695a4b_3c2d1e0f),
    (6, 0xf0e1d0ab_b4a59687_78695a4b_3c2d1e0f),
    (7, 0xd0abd2c3_b4a59687_78695a4b_3c2d1e0f),
];

#[test]
fn numbers_of_16_bits_are_loaded_into_each_lane() {
    lane_loads!(v128_load16_lane, v128_load16_lane_at, 18, LOADED_16);
}

/// `A` with the last 32 bits of `BYTES` in each lane.
static LOADED_32: [LaneAccess; 4] = [
    (0, 0xf0e1d2c3_b4a59687_78695a4b_d0ab8661),
    (1, 0xf0e1d2c3_b4a59687_d0ab8661_3c2d1e0f),
    (2, 0xf0e1d2c3_d0ab8661_78695a4b_3c2d1e0f),
    (3, 0xd0ab8661_b4a59687_78695a4b_3c2d1e0f),
];

#[test]
fn numbers_of_32_bits_are_loaded_into_each_lane() {
    lane_loads!(v128_load32_lane, v128_load32_lane_at, 16, LOADED_32);
}

/// `A` with the last 64 bits of `BYTES` in each lane.
static LOADED_64: [LaneAccess; 2] = [
    (0, 0xf0e1d2c3_b4a59687_d0ab8661_3c17f2cd),
    (1, 0xd0ab8661_3c17f2cd_78695a4b_3c2d1e0f),
];

#[test]
fn numbers_of_64_bits_are_loaded_into_each_lane() {
    lane_loads!(v128_load64_lane, v128_load64_lane_at, 12, LOADED_64);
}

/// The bytes 7 with each lane of 8 bits of `A` at their end.
static STORED_8: [LaneAccess; 16] = [
    (0, 0x0f070707_07070707_07070707_07070707),
    (1, 0x1e070707_07070707_07070707_07070707),
    (2, 0x2d070707_07070707_07070707_07070707),
    (3, 0x3c070707_07070707_07070707_07070707),
    (4, 0x4b070707_07070707_07070707_07070707),
    (5, 0x5a070707_07070707_07070707_07070707),
    (6, 0x69070707_07070707_07070707_07070707),
    (7, 0x78070707_07070707_07070707_07070707),
    (8, 0x87070707_07070707_07070707_07070707),
    (9, 0x96070707_07070707_07070707_07070707),
    (10, 0xa5070707_07070707_07070707_07070707),
    (11, 0xb4070707_07070707_07070707_07070707),
    (12, 0xc3070707_07070707_07070707_07070707),
    (13, 0xd2070707_07070707_07070707_07070707),
    (14, 0xe1070707_07070707_07070707_07070707),
    (15, 0xf0070707_07070707_07070707_07070707),
];

#[test]
fn each_lane_of_8_bits_is_stored_alone() {
    lane_stores!(v128_store8_lane, v128_store8_lane_at, 15, STORED_8);
}

/// The bytes 7 with each lane of 16 bits of `A` at their end.
static STORED_16: [LaneAccess; 8] = [
    (0, 0x1e0f0707_07070707_07070707_07070707),
    (1, 0x3c2d0707_07070707_07070707_07070707),
    (2, 0x5a4b0707_07070707_07070707_07070707),
    (3, 0x78690707_07070707_07070707_07070707),
    (4, 0x96870707_07070707_07070707_07070707),
    (5, 0xb4a50707_07070707_07070707_07070707),
    (6, 0xd2c30707_07070707_07070707_07070707),
    (7, 0xf0e10707_07070707_07070707_07070707),
];

#[test]
fn each_lane_of_16_bits_is_stored_alone() {
    lane_stores!(v128_store16_lane, v128_store16_lane_at, 14, STORED_16);
}

/// The bytes 7 with each lane of 32 bits of `A` at their end.
static STORED_32: [LaneAccess; 4] = [
    (0, 0x3c2d1e0f_07070707_07070707_07070707),
    (1, 0x78695a4b_07070707_07070707_07070707),
    (2, 0xb4a59687_07070707_07070707_07070707),
    (3, 0xf0e1d2c3_07070707_07070707_07070707),
];

#[test]
fn each_lane_of_32_bits_is_stored_alone() {
    lane_stores!(v128_store32_lane, v128_store32_lane_at, 12, STORED_32);
}

/// The bytes 7 with each lane of 64 bits of `A` at their end.
static STORED_64: [LaneAccess; 2] = [
    (0, 0x78695a4b_3c2d1e0f_07070707_07070707),
    (1, 0xf0e1d2c3_b4a59687_07070707_07070707),
];

#[test]
fn each_lane_of_64_bits_is_stored_alone() {
    lane_stores!(v128_store64_lane, v128_store64_lane_at, 8, STORED_64);
}
