//! Vectors in memory and lanes of vectors, some of floats, and vector instructions as values.
use wasmi_core_proved::ops::{BinaryOp, ExtractKind, ReplaceKind, TernaryOp, UnaryOp};
use wasmi_core_proved::{RawVal, ReadAs, TrapCode, V128, simd};

fn vector(lanes: [u8; 16]) -> V128 {
    V128::from(u128::from_le_bytes(lanes))
}

fn counted() -> V128 {
    vector(std::array::from_fn(|lane| lane as u8))
}

#[test]
fn vectors_in_memory() {
    let mut memory = [0; 24];
    assert_eq!(simd::v128_store(&mut memory, 8, 0, counted()), Ok(()));
    assert_eq!(simd::v128_load(&memory, 0, 8), Ok(counted()));
    assert_eq!(
        simd::v128_load(&memory, 9, 0),
        Err(TrapCode::MemoryOutOfBounds)
    );
    let lane = simd::ImmLaneIdx4::try_from(3).unwrap();
    let loaded = simd::v128_load32_lane(&memory, 9, 0, V128::from(0), lane).unwrap();
    assert_eq!(loaded, V128::from(0x0403_0201 << 96));
    assert_eq!(
        simd::v128_store32_lane_at(&mut memory, 0, loaded, lane),
        Ok(())
    );
    assert_eq!(memory[..5], [1, 2, 3, 4, 0]);
    assert_eq!(
        simd::v128_load8x8_s_at(&[0x80; 8], 0),
        Ok(simd::i16x8_splat(-128))
    );
    assert_eq!(
        simd::v128_load32_zero(&[0xff; 4], 0, 0),
        Ok(V128::from(0xffff_ffff))
    );
}

#[test]
fn lanes() {
    assert!(simd::ImmLaneIdx2::try_from(2).is_err());
    let lane = simd::ImmLaneIdx16::try_from(15).unwrap();
    let negative = simd::i8x16_replace_lane(counted(), lane, -1);
    assert_eq!(simd::i8x16_extract_lane_s(negative, lane), -1);
    assert_eq!(simd::i8x16_extract_lane_u(negative, lane), 255);
    assert_eq!(
        simd::i64x2_extract_lane(
            simd::i64x2_splat(-5),
            simd::ImmLaneIdx2::try_from(1).unwrap()
        ),
        -5
    );
    assert_eq!(
        simd::i16x8_shl(simd::i16x8_splat(1), 17),
        simd::i16x8_splat(2)
    );
    assert_eq!(
        (
            simd::i8x16_bitmask(negative),
            simd::i8x16_all_true(negative)
        ),
        (0x8000, false)
    );
    assert_eq!(
        simd::v128_bitselect(negative, counted(), V128::from(0)),
        counted()
    );
}

#[test]
fn shuffles() {
    let (a, b) = (counted(), simd::i8x16_add(counted(), simd::i8x16_splat(16)));
    for indices in [
        std::array::from_fn(|lane| lane as u8),
        std::array::from_fn(|lane| 31 - lane as u8),
        std::array::from_fn(|lane| (lane as u8 * 11 + 15) % 32),
        [0; 16],
        [16; 16],
    ] {
        let lanes = indices.map(|index| simd::ImmLaneIdx32::try_from(index).unwrap());
        assert_eq!(simd::i8x16_shuffle(a, b, lanes), vector(indices));
    }
    assert!(simd::ImmLaneIdx32::try_from(32).is_err());
}

#[test]
fn swizzles() {
    let table = vector(std::array::from_fn(|lane| lane as u8 * 9 + 100));
    for start in 0..=255_u8 {
        let indices: [u8; 16] = std::array::from_fn(|lane| start.wrapping_add(lane as u8 * 5));
        let chosen = indices.map(|index| if index < 16 { index * 9 + 100 } else { 0 });
        assert_eq!(simd::i8x16_swizzle(table, vector(indices)), vector(chosen));
        let relaxed = simd::i8x16_relaxed_swizzle(table, vector(indices));
        assert_eq!(relaxed, vector(chosen));
    }
}

#[test]
fn values_on_lanes() {
    let extract = ExtractKind::I8x16ExtractLaneU;
    assert_eq!(
        extract.on(5).map(|op| op.apply(counted())),
        Some(RawVal::from(5))
    );
    assert!(extract.on(16).is_none() && ReplaceKind::I16x8ReplaceLane.on(8).is_none());
    let replaced = ReplaceKind::I64x2ReplaceLane
        .on(1)
        .map(|op| op.apply(V128::from(7), RawVal::from(2)));
    assert_eq!(replaced.map(|vector| vector.as_u128()), Some((2 << 64) | 7));
    assert_eq!(
        <RawVal as ReadAs<V128>>::read_as(&RawVal::from(counted())),
        counted()
    );
}

#[test]
fn values_as_functions() {
    let (a, b) = (counted(), simd::i8x16_splat(3));
    assert_eq!(BinaryOp::I8x16Mul.apply(a, b), simd::i8x16_mul(a, b));
    assert_eq!(UnaryOp::I8x16Neg.apply(a), simd::i8x16_neg(a));
    assert_eq!(TernaryOp::V128Bitselect.apply(a, b, V128::from(0)), b);
}

/// Lanes of floats, beside Rust's own floats.
macro_rules! bits {
    ($name:ident, $float:ty, $numbers:ident; $splat:ident $extract:ident $replace:ident $lanes_abs:ident $lanes_neg:ident $lane:ty) => {
        #[test]
        fn $name() {
            for bits in crate::floats::$numbers {
                let float = <$float>::from_bits(bits);
                let vector = simd::$splat(float);
                for index in 0..16 / size_of::<$float>() as u8 {
                    let lane = || <$lane>::try_from(index).ok().expect("a lane");
                    assert_eq!(simd::$extract(vector, lane()).to_bits(), bits);
                    let other = simd::$replace(V128::from(0), lane(), float);
                    let place = 8 * size_of::<$float>() * usize::from(index);
                    assert_eq!(other.as_u128(), u128::from(bits) << place);
                    let (abs, neg) = (simd::$lanes_abs(other), simd::$lanes_neg(other));
                    assert_eq!(simd::$extract(abs, lane()).to_bits(), float.abs().to_bits());
                    assert_eq!(simd::$extract(neg, lane()).to_bits(), (-float).to_bits());
                }
            }
        }
    };
}

bits! { singles, f32, SINGLES; f32x4_splat f32x4_extract_lane f32x4_replace_lane f32x4_abs f32x4_neg simd::ImmLaneIdx4 }
bits! { doubles, f64, DOUBLES; f64x2_splat f64x2_extract_lane f64x2_replace_lane f64x2_abs f64x2_neg simd::ImmLaneIdx2 }

/// Comparisons beside Rust's own of the lanes: each pair of some lanes, at each place of a vector.
macro_rules! compared {
    ($name:ident $lane:ty; $($op:ident $as:ty, $holds:tt;)*) => {
        #[test]
        fn $name() {
            const HALF: $lane = <$lane>::MAX / 2;
            const EDGES: [$lane; 8] =
                [0, 1, HALF - 1, HALF, HALF + 1, HALF + 2, <$lane>::MAX - 1, <$lane>::MAX];
            const COUNT: usize = 16 / size_of::<$lane>();
            let edges = |first: usize| (0..COUNT).map(move |lane| EDGES[(first + lane) % 8]);
            let of = |lanes: Vec<$lane>| {
                let bytes: Vec<u8> = lanes.iter().flat_map(|lane| lane.to_le_bytes()).collect();
                vector(bytes.try_into().expect("16 bytes"))
            };
            for (i, j) in (0..8).flat_map(|i| (0..8).map(move |j| (i, j))) {
                let (a, b) = (of(edges(i).collect()), of(edges(j).collect()));
                $(
                    let read = |lane: $lane| <$as>::from_ne_bytes(lane.to_ne_bytes());
                    let holds = |(a, b)| if read(a) $holds read(b) { <$lane>::MAX } else { 0 };
                    let expected = of(edges(i).zip(edges(j)).map(holds).collect());
                    assert_eq!(simd::$op(a, b), expected, "{} {a:?} {b:?}", stringify!($op));
                )*
            }
        }
    };
}

compared! { comparisons_of_8_bits u8;
i8x16_eq u8, ==; i8x16_ne u8, !=; i8x16_lt_u u8, <; i8x16_le_u u8, <=; i8x16_gt_u u8, >; i8x16_ge_u u8, >=;
i8x16_lt_s i8, <; i8x16_le_s i8, <=; i8x16_gt_s i8, >; i8x16_ge_s i8, >=; }
compared! { comparisons_of_16_bits u16;
i16x8_eq u16, ==; i16x8_ne u16, !=; i16x8_lt_u u16, <; i16x8_le_u u16, <=; i16x8_gt_u u16, >; i16x8_ge_u u16, >=;
i16x8_lt_s i16, <; i16x8_le_s i16, <=; i16x8_gt_s i16, >; i16x8_ge_s i16, >=; }
compared! { comparisons_of_32_bits u32;
i32x4_eq u32, ==; i32x4_ne u32, !=; i32x4_lt_u u32, <; i32x4_le_u u32, <=; i32x4_gt_u u32, >; i32x4_ge_u u32, >=;
i32x4_lt_s i32, <; i32x4_le_s i32, <=; i32x4_gt_s i32, >; i32x4_ge_s i32, >=; }
compared! { comparisons_of_64_bits u64;
i64x2_eq u64, ==; i64x2_ne u64, !=;
i64x2_lt_s i64, <; i64x2_le_s i64, <=; i64x2_gt_s i64, >; i64x2_ge_s i64, >=; }
