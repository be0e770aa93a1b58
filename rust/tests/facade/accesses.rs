//! Each load and each store, at each address of short memories, at their ends and past them.
use std::fmt::Debug;
use wasmi_core_proved::{TrapCode, wasm};

const TRAP: TrapCode = TrapCode::MemoryOutOfBounds;

/// Addresses up to past the end of so many bytes, as sums, and whether the sum fits.
fn sums(len: usize) -> impl Iterator<Item = (u64, u64, Option<usize>)> {
    (0..=len as u64 + 2).flat_map(|address| {
        let there = Some(address as usize);
        let far = address + (1 << 32);
        [
            (address, 0, there),
            (0, address, there),
            (address / 2, address - address / 2, there),
            (far, 0, usize::try_from(far).ok()),
            (address, 1 << 32, usize::try_from(far).ok()),
            (u64::MAX, address + 1, None),
            (address + 1, u64::MAX, None),
        ]
    })
}

/// The `count` bytes at an address of a memory, if they lie within it.
fn bytes_at(memory: &[u8], address: usize, count: usize) -> Result<&[u8], TrapCode> {
    address
        .checked_add(count)
        .and_then(|end| memory.get(address..end))
        .ok_or(TRAP)
}

/// Compares a load of `count` bytes with what `value` gives for them.
pub fn loads<T: Debug + PartialEq>(
    name: &str,
    count: usize,
    load: impl Fn(&[u8], u64, u64) -> Result<T, TrapCode>,
    load_at: impl Fn(&[u8], usize) -> Result<T, TrapCode>,
    value: impl Fn(&[u8]) -> T,
) {
    for len in [0, 1, count - 1, count, count + 1, count + 5] {
        let memory: Vec<u8> = (0..len)
            .map(|it| 0x79_u8.wrapping_add((it as u8).wrapping_mul(0x35)))
            .collect();
        for (ptr, offset, address) in sums(len) {
            let expected = address
                .ok_or(TRAP)
                .and_then(|address| bytes_at(&memory, address, count))
                .map(&value);
            assert_eq!(
                load(&memory, ptr, offset),
                expected,
                "{name} of {len} at {ptr} + {offset}"
            );
            if let Some(address) = address {
                assert_eq!(
                    load_at(&memory, address),
                    expected,
                    "{name}_at of {len} at {address}"
                );
            }
        }
        assert_eq!(load_at(&memory, usize::MAX), Err(TRAP), "{name}_at");
    }
}

/// Compares a store with the bytes that it has to write.
pub fn stores(
    name: &str,
    bytes: &[u8],
    store: impl Fn(&mut [u8], u64, u64) -> Result<(), TrapCode>,
    store_at: impl Fn(&mut [u8], usize) -> Result<(), TrapCode>,
) {
    let count = bytes.len();
    for len in [0, 1, count - 1, count, count + 1, count + 5] {
        for (ptr, offset, address) in sums(len) {
            let mut expected = vec![7; len];
            let is_within = address
                .ok_or(TRAP)
                .and_then(|address| bytes_at(&expected, address, count).map(|_| address));
            if let Ok(address) = is_within {
                expected[address..address + count].copy_from_slice(bytes);
            }
            let mut memory = vec![7; len];
            let stored = store(&mut memory, ptr, offset);
            assert_eq!(
                (stored, &memory),
                (is_within.map(|_| ()), &expected),
                "{name} of {len} at {ptr} + {offset}"
            );
            if let Some(address) = address {
                let mut memory = vec![7; len];
                let stored = store_at(&mut memory, address);
                assert_eq!(
                    (stored, &memory),
                    (is_within.map(|_| ()), &expected),
                    "{name}_at of {len} at {address}"
                );
            }
        }
        assert_eq!(
            store_at(&mut vec![7; len], usize::MAX),
            Err(TRAP),
            "{name}_at"
        );
    }
}

macro_rules! scalars {
    ($($load:ident $load_at:ident $bytes:ident;)*) => { $(
        loads(stringify!($load), size_of::<$bytes>(), wasm::$load, wasm::$load_at,
            |bytes| <$bytes>::from_le_bytes(bytes.try_into().expect("so many bytes")).into());
    )* };
}

#[test]
fn numbers_are_loaded() {
    scalars! {
        i32_load8_s i32_load8_s_at i8;
        i32_load8_u i32_load8_u_at u8;
        i32_load16_s i32_load16_s_at i16;
        i32_load16_u i32_load16_u_at u16;
        i64_load8_s i64_load8_s_at i8;
        i64_load8_u i64_load8_u_at u8;
        i64_load16_s i64_load16_s_at i16;
        i64_load16_u i64_load16_u_at u16;
        i64_load32_s i64_load32_s_at i32;
        i64_load32_u i64_load32_u_at u32;
        load_u32 load_u32_at u32;
        load_u64 load_u64_at u64;
    }
    let bits = |memory: &[u8], ptr, offset| wasm::load_f32(memory, ptr, offset).map(f32::to_bits);
    let bits_at = |memory: &[u8], at| wasm::load_f32_at(memory, at).map(f32::to_bits);
    loads("load_f32", 4, bits, bits_at, |it| {
        u32::from_le_bytes(it.try_into().expect("4 bytes"))
    });
    let bits = |memory: &[u8], ptr, offset| wasm::load_f64(memory, ptr, offset).map(f64::to_bits);
    let bits_at = |memory: &[u8], at| wasm::load_f64_at(memory, at).map(f64::to_bits);
    loads("load_f64", 8, bits, bits_at, |it| {
        u64::from_le_bytes(it.try_into().expect("8 bytes"))
    });
}

macro_rules! stored {
    ($($store:ident $store_at:ident $count:literal $value:expr;)*) => { $(
        stores(stringify!($store), &0xF1E2_D3C4_B5A6_9788_u64.to_le_bytes()[..$count],
            |memory, ptr, offset| wasm::$store(memory, ptr, offset, $value),
            |memory, address| wasm::$store_at(memory, address, $value));
    )* };
}

#[test]
fn numbers_are_stored() {
    const WIDE: u64 = 0xF1E2_D3C4_B5A6_9788;
    const NARROW: u32 = WIDE as u32;
    stored! {
        i32_store8 i32_store8_at 1 NARROW.cast_signed();
        i32_store16 i32_store16_at 2 NARROW.cast_signed();
        i64_store8 i64_store8_at 1 WIDE.cast_signed();
        i64_store16 i64_store16_at 2 WIDE.cast_signed();
        i64_store32 i64_store32_at 4 WIDE.cast_signed();
        store32 store32_at 4 NARROW;
        store64 store64_at 8 WIDE;
        store_f32 store_f32_at 4 f32::from_bits(NARROW);
        store_f64 store_f64_at 8 f64::from_bits(WIDE);
    }
}

#[cfg(feature = "simd")]
mod vectors {
    use super::{loads, stores};
    use wasmi_core_proved::{V128, simd};

    /// 16 bytes as lanes of numbers, each of which becomes one of another type.
    macro_rules! extended {
        ($bytes:ident, $from:ident, $to:ident) => {{
            let lanes = $bytes
                .chunks(size_of::<$from>())
                .map(|it| <$from>::from_le_bytes(it.try_into().expect("a lane")));
            vector(
                &lanes
                    .flat_map(|it| <$to>::from(it).to_le_bytes())
                    .collect::<Vec<u8>>(),
            )
        }};
    }

    /// The vector of some bytes, again and again.
    fn vector(bytes: &[u8]) -> u128 {
        u128::from_le_bytes(std::array::from_fn(|at| bytes[at % bytes.len()]))
    }

    /// The vector of some bytes and zeros.
    fn low(bytes: &[u8]) -> u128 {
        u128::from_le_bytes(std::array::from_fn(|at| {
            bytes.get(at).copied().unwrap_or(0)
        }))
    }

    macro_rules! loaded {
        ($($load:ident $load_at:ident $count:literal $value:expr;)*) => { $(
            loads(stringify!($load), $count,
                |memory, ptr, offset| simd::$load(memory, ptr, offset).map(|it| it.as_u128()),
                |memory, address| simd::$load_at(memory, address).map(|it| it.as_u128()), $value);
        )* };
    }

    #[test]
    fn vectors_are_loaded() {
        loaded! {
            v128_load v128_load_at 16 low;
            v128_load8_splat v128_load8_splat_at 1 vector;
            v128_load16_splat v128_load16_splat_at 2 vector;
            v128_load32_splat v128_load32_splat_at 4 vector;
            v128_load64_splat v128_load64_splat_at 8 vector;
            v128_load32_zero v128_load32_zero_at 4 low;
            v128_load64_zero v128_load64_zero_at 8 low;
            v128_load8x8_s v128_load8x8_s_at 8 |bytes| extended!(bytes, i8, i16);
            v128_load8x8_u v128_load8x8_u_at 8 |bytes| extended!(bytes, u8, u16);
            v128_load16x4_s v128_load16x4_s_at 8 |bytes| extended!(bytes, i16, i32);
            v128_load16x4_u v128_load16x4_u_at 8 |bytes| extended!(bytes, u16, u32);
            v128_load32x2_s v128_load32x2_s_at 8 |bytes| extended!(bytes, i32, i64);
            v128_load32x2_u v128_load32x2_u_at 8 |bytes| extended!(bytes, u32, u64);
        }
    }

    const BYTES: u128 = 0xF0E1_D2C3_B4A5_9687_7869_5A4B_3C2D_1E0F;

    macro_rules! lanes {
        ($($load:ident $load_at:ident $store:ident $store_at:ident $index:ident $count:literal;)*) => { $(
            for lane in 0..16 / $count {
                let (at, index) = (usize::from(lane) * $count, simd::$index::try_from(lane).expect("a lane"));
                let value = |bytes: &[u8]| {
                    let mut all = BYTES.to_le_bytes();
                    all[at..at + $count].copy_from_slice(bytes);
                    u128::from_le_bytes(all)
                };
                loads(stringify!($load), $count,
                    |memory, ptr, offset| simd::$load(memory, ptr, offset, V128::from(BYTES), index).map(|it| it.as_u128()),
                    |memory, address| simd::$load_at(memory, address, V128::from(BYTES), index).map(|it| it.as_u128()), value);
                stores(stringify!($store), &BYTES.to_le_bytes()[at..at + $count],
                    |memory, ptr, offset| simd::$store(memory, ptr, offset, V128::from(BYTES), index),
                    |memory, address| simd::$store_at(memory, address, V128::from(BYTES), index));
            }
        )* };
    }

    #[test]
    fn vectors_and_lanes_are_stored() {
        stores(
            "v128_store",
            &BYTES.to_le_bytes(),
            |memory, ptr, offset| simd::v128_store(memory, ptr, offset, V128::from(BYTES)),
            |memory, address| simd::v128_store_at(memory, address, V128::from(BYTES)),
        );
        lanes! {
            v128_load8_lane v128_load8_lane_at v128_store8_lane v128_store8_lane_at ImmLaneIdx16 1;
            v128_load16_lane v128_load16_lane_at v128_store16_lane v128_store16_lane_at ImmLaneIdx8 2;
            v128_load32_lane v128_load32_lane_at v128_store32_lane v128_store32_lane_at ImmLaneIdx4 4;
            v128_load64_lane v128_load64_lane_at v128_store64_lane v128_store64_lane_at ImmLaneIdx2 8;
        }
    }
}
