//! Lanes: their indices, reading and writing one, and operations on each.

#[cfg(all(feature = "sse2", target_feature = "sse2"))]
mod registers;

use crate::proved::lanes::laws::{
    differences_of_lanes, lanes_there_and_back, sums_of_lanes, tops_of_different_lanes,
};
use crate::proved::lanes::{
    FromNarrow, FromWide, I8x16, I16x8, I32x4, I64x2, ImmLaneIdx2, ImmLaneIdx4, ImmLaneIdx8,
    ImmLaneIdx16, ImmLaneIdx32, IntoLaneIdx, IntoLanes, Lanes, OutOfBoundsLaneIdx, U8x16, U16x8,
    U64x2,
};
use crate::proved::raw::V128;

/// Its lanes of each width differ, and the upper half of them is negative where they are signed.
const VECTOR: u128 = 0xf0e1d2c3_b4a59687_78695a4b_3c2d1e0f;

/// The lanes of the vector of a number, lane 0 the lowest.
fn lanes<L: Lanes>(vector: u128) -> L {
    L::from_v128(V128::from(vector))
}

/// The number of the vector of some lanes.
fn number<L: Lanes>(lanes: L) -> u128 {
    lanes.into_v128().as_u128()
}

#[test]
fn lane_indices_are_below_their_number() {
    answers!(
        ImmLaneIdx2::try_from(1).map(u8::from) => Ok(1),
        ImmLaneIdx2::try_from(2).map(u8::from) => Err(OutOfBoundsLaneIdx),
        ImmLaneIdx4::try_from(3).map(u8::from) => Ok(3),
        ImmLaneIdx4::try_from(4).map(u8::from) => Err(OutOfBoundsLaneIdx),
        ImmLaneIdx8::try_from(7).map(u8::from) => Ok(7),
        ImmLaneIdx8::try_from(8).map(u8::from) => Err(OutOfBoundsLaneIdx),
        ImmLaneIdx16::try_from(15).map(u8::from) => Ok(15),
        ImmLaneIdx16::try_from(16).map(u8::from) => Err(OutOfBoundsLaneIdx),
        ImmLaneIdx32::try_from(31).map(u8::from) => Ok(31),
        ImmLaneIdx32::try_from(32).map(u8::from) => Err(OutOfBoundsLaneIdx),
    );
}

/// The index of a lane of `T`, through the bound.
fn lane_index<T: IntoLaneIdx>(index: u8) -> Result<u8, OutOfBoundsLaneIdx> {
    Ok(T::LaneIdx::try_from(index)?.into())
}

#[test]
fn integers_have_the_indices_of_their_lanes() {
    answers!(
        lane_index::<i8>(15) => Ok(15),
        lane_index::<i8>(16) => Err(OutOfBoundsLaneIdx),
        lane_index::<u8>(15) => Ok(15),
        lane_index::<u8>(16) => Err(OutOfBoundsLaneIdx),
        lane_index::<i16>(7) => Ok(7),
        lane_index::<i16>(8) => Err(OutOfBoundsLaneIdx),
        lane_index::<u16>(7) => Ok(7),
        lane_index::<u16>(8) => Err(OutOfBoundsLaneIdx),
        lane_index::<i32>(3) => Ok(3),
        lane_index::<i32>(4) => Err(OutOfBoundsLaneIdx),
        lane_index::<u32>(3) => Ok(3),
        lane_index::<u32>(4) => Err(OutOfBoundsLaneIdx),
        lane_index::<i64>(1) => Ok(1),
        lane_index::<i64>(2) => Err(OutOfBoundsLaneIdx),
        lane_index::<u64>(1) => Ok(1),
        lane_index::<u64>(2) => Err(OutOfBoundsLaneIdx),
    );
}

/// The vector with an integer in each of its lanes, through the bound.
fn in_each_lane<T: IntoLanes>(item: T) -> u128 {
    number(T::Lanes::splat(item))
}

#[test]
fn integers_have_lanes() {
    answers!(
        in_each_lane(-2i8) => 0xfefefefe_fefefefe_fefefefe_fefefefe,
        in_each_lane(0x12u8) => 0x12121212_12121212_12121212_12121212,
        in_each_lane(-2i16) => 0xfffefffe_fffefffe_fffefffe_fffefffe,
        in_each_lane(0x1234u16) => 0x12341234_12341234_12341234_12341234,
        in_each_lane(-2i32) => 0xfffffffe_fffffffe_fffffffe_fffffffe,
        in_each_lane(0x12345678u32) => 0x12345678_12345678_12345678_12345678,
        in_each_lane(-2i64) => 0xffffffff_fffffffe_ffffffff_fffffffe,
        in_each_lane(0x12345678_9abcdef0u64) => 0x12345678_9abcdef0_12345678_9abcdef0,
    );
}

/// The lane of `VECTOR` at an index.
fn read<L>(index: u8) -> Result<i128, OutOfBoundsLaneIdx>
where
    L: Lanes,
    L::Item: Into<i128>,
    L::LaneIdx: TryFrom<u8, Error = OutOfBoundsLaneIdx>,
{
    let lane = L::LaneIdx::try_from(index)?;
    Ok(lanes::<L>(VECTOR).extract_lane(lane).into())
}

#[test]
fn lanes_are_read_at_their_index() {
    answers!(
        read::<I8x16>(0) => Ok(15),
        read::<I8x16>(1) => Ok(30),
        read::<I8x16>(2) => Ok(45),
        read::<I8x16>(3) => Ok(60),
        read::<I8x16>(4) => Ok(75),
        read::<I8x16>(5) => Ok(90),
        read::<I8x16>(6) => Ok(105),
        read::<I8x16>(7) => Ok(120),
        read::<I8x16>(8) => Ok(-121),
        read::<I8x16>(9) => Ok(-106),
        read::<I8x16>(10) => Ok(-91),
        read::<I8x16>(11) => Ok(-76),
        read::<I8x16>(12) => Ok(-61),
        read::<I8x16>(13) => Ok(-46),
        read::<I8x16>(14) => Ok(-31),
        read::<I8x16>(15) => Ok(-16),
        read::<I8x16>(16) => Err(OutOfBoundsLaneIdx),
        read::<U16x8>(0) => Ok(0x1e0f),
        read::<U16x8>(1) => Ok(0x3c2d),
        read::<U16x8>(2) => Ok(0x5a4b),
        read::<U16x8>(3) => Ok(0x7869),
        read::<U16x8>(4) => Ok(0x9687),
        read::<U16x8>(5) => Ok(0xb4a5),
        read::<U16x8>(6) => Ok(0xd2c3),
        read::<U16x8>(7) => Ok(0xf0e1),
        read::<I32x4>(0) => Ok(1009589775),
        read::<I32x4>(1) => Ok(2020170315),
        read::<I32x4>(2) => Ok(-1264216441),
        read::<I32x4>(3) => Ok(-253635901),
        read::<U64x2>(0) => Ok(0x78695a4b_3c2d1e0f),
        read::<U64x2>(1) => Ok(0xf0e1d2c3_b4a59687),
    );
}

/// `VECTOR` with another item in its lane at an index.
fn written<L>(index: u8, item: L::Item) -> Result<u128, OutOfBoundsLaneIdx>
where
    L: Lanes,
    L::LaneIdx: TryFrom<u8, Error = OutOfBoundsLaneIdx>,
{
    let lane = L::LaneIdx::try_from(index)?;
    Ok(number(lanes::<L>(VECTOR).replace_lane(lane, item)))
}

#[test]
fn lanes_are_written_at_their_index() {
    answers!(
        written::<I8x16>(0, -2) => Ok(0xf0e1d2c3_b4a59687_78695a4b_3c2d1efe),
        written::<I8x16>(6, -2) => Ok(0xf0e1d2c3_b4a59687_78fe5a4b_3c2d1e0f),
        written::<I8x16>(15, -2) => Ok(0xfee1d2c3_b4a59687_78695a4b_3c2d1e0f),
        written::<U16x8>(0, 0x1234) => Ok(0xf0e1d2c3_b4a59687_78695a4b_3c2d1234),
        written::<U16x8>(4, 0x1234) => Ok(0xf0e1d2c3_b4a51234_78695a4b_3c2d1e0f),
        written::<U16x8>(7, 0x1234) => Ok(0x1234d2c3_b4a59687_78695a4b_3c2d1e0f),
        written::<I32x4>(0, -2) => Ok(0xf0e1d2c3_b4a59687_78695a4b_fffffffe),
        written::<I32x4>(1, -2) => Ok(0xf0e1d2c3_b4a59687_fffffffe_3c2d1e0f),
        written::<I32x4>(3, -2) => Ok(0xfffffffe_b4a59687_78695a4b_3c2d1e0f),
        written::<U64x2>(0, 0x12345678) => Ok(0xf0e1d2c3_b4a59687_00000000_12345678),
        written::<U64x2>(1, 0x12345678) => Ok(0x00000000_12345678_78695a4b_3c2d1e0f),
    );
}

/// `VECTOR` as lanes, and their vector as lanes again.
fn there_and_back<L: Lanes>() -> u128 {
    number(lanes_there_and_back(lanes::<L>(VECTOR)))
}

#[test]
fn lanes_are_the_same_there_and_back() {
    answers!(
        there_and_back::<I8x16>() => VECTOR,
        there_and_back::<U16x8>() => VECTOR,
        there_and_back::<I32x4>() => VECTOR,
        there_and_back::<U64x2>() => VECTOR,
    );
}

fn is_less(a: i16, b: i16) -> bool {
    a < b
}

#[test]
fn lanes_are_worked_on_one_by_one() {
    let a = lanes::<I16x8>(0x0007_0006_0005_0004_0003_0002_0001_8000);
    let b = lanes::<I16x8>(0x0000_0006_8000_0008_0001_0003_0001_0001);
    answers!(
        number(a.lanewise_unary(i16::wrapping_neg)) => 0xfff9_fffa_fffb_fffc_fffd_fffe_ffff_8000,
        number(a.lanewise_binary(b, i16::wrapping_sub))
            => 0x0007_0000_8005_fffc_0002_ffff_0000_7fff,
        number(a.lanewise_comparison(b, is_less)) => 0x0000_0000_0000_ffff_0000_ffff_0000_ffff,
    );
}

fn third_if_equal<T: PartialEq + Copy>(a: T, b: T, c: T) -> T {
    if a == b { c } else { a }
}

/// The lanes of `VECTOR`, or, where those of `second` are equal to them, those of a third vector.
fn where_unequal<L>(second: u128) -> u128
where
    L: Lanes,
    L::Item: PartialEq,
{
    let third = lanes(0x00112233_44556677_8899aabb_ccddeeff);
    number(lanes::<L>(VECTOR).lanewise_ternary(lanes(second), third, third_if_equal))
}

#[test]
fn lanes_are_worked_on_three_by_three() {
    answers!(
        where_unequal::<I8x16>(0xf0000000_00000000_00000000_002d000f)
            => 0x00e1d2c3_b4a59687_78695a4b_3cdd1eff,
        where_unequal::<U16x8>(0x0000d2c3_00000000_00000000_3c2d0000)
            => 0xf0e12233_b4a59687_78695a4b_ccdd1e0f,
        where_unequal::<I32x4>(0x00000000_b4a59687_00000000_00000000)
            => 0xf0e1d2c3_44556677_78695a4b_3c2d1e0f,
        where_unequal::<U64x2>(0xf0e1d2c3_b4a59687_00000000_00000000)
            => 0x00112233_44556677_78695a4b_3c2d1e0f,
    );
}

/// Two more hexadecimal digits, the index and the item of a lane.
fn two_digits<T: Into<i128>>(index: u8, item: T, digits: i128) -> i128 {
    let place = i128::from(index) * 16;
    digits
        .wrapping_mul(256)
        .wrapping_add(place)
        .wrapping_add(item.into())
}

#[test]
fn lanes_are_reduced_from_lane_0_upwards() {
    answers!(
        lanes::<I8x16>(0x00010203_04050607_08090a0b_0c0d0e0f).lanewise_reduce(0, two_digits)
            => 0x0f1e2d3c_4b5a6978_8796a5b4_c3d2e1f0,
        lanes::<U16x8>(0x00080009_000a000b_000c000d_000e000f).lanewise_reduce(7, two_digits)
            => 0x7_0f1e2d3c_4b5a6978,
        lanes::<I32x4>(0x0000000c_0000000d_0000000e_0000000f).lanewise_reduce(7, two_digits)
            => 0x7_0f1e2d3c,
        lanes::<U64x2>(0x00000000_0000000e_00000000_0000000f).lanewise_reduce(7, two_digits)
            => 0x7_0f1e,
    );
}

fn joined(high: u8, low: u8) -> u16 {
    u16::from_be_bytes([high, low])
}

/// Four hexadecimal digits.
fn four_digits(a: [u8; 2], b: [u8; 2]) -> u16 {
    joined(a[0].wrapping_mul(16) | a[1], b[0].wrapping_mul(16) | b[1])
}

#[test]
fn unsigned_lanes_are_made_of_narrower_ones() {
    let a = lanes::<U8x16>(0x0f0e0d0c_0b0a0908_07060504_03020100);
    let b = lanes::<U8x16>(0x00010203_04050607_08090a0b_0c0d0e0f);
    answers!(
        number(U16x8::pairwise_unary(a, joined)) => 0x0e0f_0c0d_0a0b_0809_0607_0405_0203_0001,
        number(U16x8::pairwise_binary(a, b, four_digits))
            => 0xef10_cd32_ab54_8976_6798_45ba_23dc_01fe,
        number(U16x8::low_unary(a, u16::from)) => 0x0007_0006_0005_0004_0003_0002_0001_0000,
        number(U16x8::high_unary(a, u16::from)) => 0x000f_000e_000d_000c_000b_000a_0009_0008,
        number(U16x8::low_binary(a, b, joined)) => 0x0708_0609_050a_040b_030c_020d_010e_000f,
        number(U16x8::high_binary(a, b, joined)) => 0x0f00_0e01_0d02_0c03_0b04_0a05_0906_0807,
    );
}

fn difference(a: i32, b: i32) -> i64 {
    i64::from(a) - i64::from(b)
}

/// Sixteen times one difference, and another.
fn differences(a: [i32; 2], b: [i32; 2]) -> i64 {
    difference(a[0], a[1])
        .wrapping_mul(16)
        .wrapping_add(difference(b[0], b[1]))
}

#[test]
fn signed_lanes_are_made_of_narrower_ones() {
    let a = lanes::<I32x4>(0xfffffff0_00000007_00000002_80000000);
    let b = lanes::<I32x4>(0x00000003_00000001_fffffffe_7fffffff);
    answers!(
        number(I64x2::pairwise_unary(a, difference)) => 0x00000000_00000017_ffffffff_7ffffffe,
        number(I64x2::pairwise_binary(a, b, differences))
            => 0x00000000_0000016e_fffffff8_7fffffe1,
        number(I64x2::low_unary(a, i64::from)) => 0x00000000_00000002_ffffffff_80000000,
        number(I64x2::high_unary(a, i64::from)) => 0xffffffff_fffffff0_00000000_00000007,
        number(I64x2::low_binary(a, b, difference)) => 0x00000000_00000004_ffffffff_00000001,
        number(I64x2::high_binary(a, b, difference)) => 0xffffffff_ffffffed_00000000_00000006,
    );
}

fn high_byte(item: u16) -> u8 {
    item.to_be_bytes()[0]
}

fn saturated(item: i64) -> i32 {
    i32::try_from(item).unwrap_or(i32::MAX)
}

#[test]
fn lanes_are_made_of_wider_ones() {
    let low = lanes(0x07ff_06ff_05ff_04ff_03ff_02ff_01ff_00ff);
    let high = lanes(0x0f00_0e00_0d00_0c00_0b00_0a00_0900_0800);
    let low_longs = lanes(0xffffffff_fffffffe_00000000_00000001);
    let high_longs = lanes(0x00000001_00000000_ffffffff_fffffffc);
    answers!(
        number(U8x16::from_low_high(low, high, high_byte)) => 0x0f0e0d0c_0b0a0908_07060504_03020100,
        number(I32x4::from_low_high(low_longs, high_longs, saturated))
            => 0x7fffffff_fffffffc_fffffffe_00000001,
    );
}

#[test]
fn laws_of_words_with_unequal_lanes() {
    // lanes of 16 and of 48 bits
    let tops = 9223372036854808576;
    answers!(
        sums_of_lanes(4294967295, 65537, tops) => 4294967296,
        differences_of_lanes(4294967296, 65537, tops) => 4294967295,
        tops_of_different_lanes(65536, 0, tops) => 9223372036854775808,
    );
}
