//! Instructions by name and as values, and what the tests of loads and stores share.
#[cfg(feature = "simd")]
mod lanes;
mod scalar;
#[cfg(feature = "simd")]
mod vectors;

use std::fmt::Debug;
use wasmi_core_proved::ops::{
    BINARIES, BinaryOp, LOADS, LoadOp, ScalarBinaryOp, ScalarUnaryOp, StoreOp,
};
use wasmi_core_proved::{RawVal, TrapCode, wasm};

#[test]
fn integers() {
    assert_eq!(wasm::i32_add(i32::MAX, 1), i32::MIN);
    assert_eq!(wasm::i64_sub(i64::MIN, 1), i64::MAX);
    assert_eq!(wasm::i32_shr_u(0x8000_0000, 33), 0x4000_0000);
    assert_eq!(wasm::i32_shr_s(i32::MIN, 33), -0x4000_0000);
    assert_eq!(wasm::i64_rotl(i64::MIN, 1), 1);
    assert!(wasm::i32_lt_s(-1, 0) && !wasm::i32_lt_u(u32::MAX, 0));
    assert_eq!(
        (wasm::i32_clz(1), wasm::i64_ctz(0), wasm::i32_popcnt(-1)),
        (31, 64, 32)
    );
    assert!(wasm::i32_eqz(0) && !wasm::i64_eqz(1 << 40));
    assert_eq!(
        (wasm::i32_wrap_i64(-1 << 31), wasm::i64_extend_i32_s(-1)),
        (i32::MIN, -1)
    );
    assert_eq!(
        (wasm::i64_extend_i32_u(u32::MAX), wasm::i32_extend8_s(0x80)),
        (0xffff_ffff, -128)
    );
    assert_eq!(wasm::i64_add128(-1, 0, 1, 0), (0, 1));
    assert_eq!(wasm::i64_sub128(0, 0, 1, 0), (-1, -1));
    assert_eq!(
        (wasm::i64_mul_wide_s(-1, 2), wasm::i64_mul_wide_u(-1, 2)),
        ((-2, -1), (-2, 1))
    );
}

#[test]
fn divisions_trap() {
    assert_eq!(wasm::i32_div_s(7, -2), Ok(-3));
    assert_eq!(wasm::i32_div_s(7, 0), Err(TrapCode::IntegerDivisionByZero));
    assert_eq!(
        wasm::i32_div_s(i32::MIN, -1),
        Err(TrapCode::IntegerOverflow)
    );
    assert_eq!(wasm::i64_rem_s(i64::MIN, -1), Ok(0));
    assert_eq!(wasm::i64_div_u(u64::MAX, 2), Ok(u64::MAX / 2));
    assert_eq!(wasm::i64_rem_u(1, 0), Err(TrapCode::IntegerDivisionByZero));
}

#[test]
fn loads_and_stores() {
    let mut memory = [0; 20];
    assert_eq!(wasm::i64_store32(&mut memory, 1, 2, -2), Ok(()));
    assert_eq!(memory[2..8], [0, 0xfe, 0xff, 0xff, 0xff, 0]);
    assert_eq!(wasm::i32_load16_s(&memory, 3, 0), Ok(-2));
    assert_eq!(wasm::i32_load16_u_at(&memory, 3), Ok(0xfffe));
    assert_eq!(wasm::load_u64(&memory, 0, 0), Ok(0x00ff_ffff_fe00_0000));
    assert_eq!(
        wasm::load_u64(&memory, 13, 0),
        Err(TrapCode::MemoryOutOfBounds)
    );
    assert_eq!(
        wasm::load_u32(&memory, u64::MAX, 2),
        Err(TrapCode::MemoryOutOfBounds)
    );
    assert_eq!(
        wasm::store64(&mut memory, 13, 0, 1),
        Err(TrapCode::MemoryOutOfBounds)
    );
    assert_eq!(wasm::store32_at(&mut memory, 16, 0x0403_0201), Ok(()));
    assert_eq!(memory[12..], [0, 0, 0, 0, 1, 2, 3, 4]);
    assert_eq!(
        wasm::i32_load8_u(&[], 0, 0),
        Err(TrapCode::MemoryOutOfBounds)
    );
}

#[test]
fn each_list_has_a_name_once() {
    let mut names: Vec<_> = BINARIES.iter().map(|(name, _)| *name).collect();
    names.sort_unstable();
    names.dedup();
    assert_eq!(names.len(), BINARIES.len());
    let found = BINARIES
        .iter()
        .find(|(name, _)| *name == "i8x16_add")
        .map(|(_, op)| *op);
    assert!(found == Some(BinaryOp::I8x16Add));
    assert!(LOADS.iter().all(|(name, _)| name.contains("load")));
}

#[test]
fn values_as_functions() {
    assert_eq!(
        LoadOp::LoadU32.load(&[1, 0, 0, 0], 0, 0),
        Ok(RawVal::from(1_u32))
    );
    assert_eq!(
        LoadOp::I32Load16U.load(&[1, 2, 3, 4, 5], 4, 0),
        Err(TrapCode::MemoryOutOfBounds)
    );
    let mut memory = [0; 2];
    assert_eq!(
        StoreOp::I32Store16.store(&mut memory, 0, 0, RawVal::from(0x0201)),
        Ok(())
    );
    assert_eq!(memory, [1, 2]);
}

#[test]
fn values_of_numbers() {
    let divide = |lhs: i32, rhs: i32| ScalarBinaryOp::I32DivS.apply(lhs.into(), rhs.into());
    assert_eq!(divide(7, 2), Ok(RawVal::from(3)));
    assert_eq!(divide(0, 0), Err(TrapCode::IntegerDivisionByZero));
    assert_eq!(divide(i32::MIN, -1), Err(TrapCode::IntegerOverflow));
    assert_eq!(
        ScalarUnaryOp::I32Popcnt.apply(RawVal::from(-1)),
        RawVal::from(32)
    );
}

/// What an access past the end of a memory returns.
pub const REFUSED: TrapCode = TrapCode::MemoryOutOfBounds;

/// What the memories of stores hold before them.
pub const SEVENS: [u8; 16] = [7; 16];

/// Compares what loads returned, two that fit and five past the end.
pub fn check_loads<T>(what: &str, answers: [Result<T, TrapCode>; 7], value: T)
where
    T: PartialEq + Debug + Copy,
{
    let (fits, past) = (Ok(value), Err(REFUSED));
    assert_eq!(
        answers,
        [fits, fits, past, past, past, past, past],
        "{what}"
    );
}

/// What a store left of the bytes that were refused, of those stored, and of those stored at an
/// address.
type Left = [[u8; 16]; 3];

/// Compares what stores to 16 bytes 7 returned, five past the end and two that fit, and what they
/// left.
pub fn check_stores(what: &str, answers: [Result<(), TrapCode>; 7], left: Left, stored: [u8; 16]) {
    let (past, fits) = (Err(REFUSED), Ok(()));
    assert_eq!(
        answers,
        [past, past, past, past, past, fits, fits],
        "{what}"
    );
    assert_eq!(left, [SEVENS, stored, stored], "{what}");
}

/// Compares the answers of some calls with what they have to be.
macro_rules! answers {
    ($($call:expr => $expected:expr),* $(,)?) => {
        $(assert_eq!($call, $expected, stringify!($call));)*
    };
}
pub(crate) use answers;

/// Those that move the bits of floats, beside Rust's own floats.
mod floats {
    use wasmi_core_proved::wasm::*;
    use wasmi_core_proved::{F32, F64, RawVal, ReadAs, WriteAs};

    pub const SINGLES: [u32; 10] = [
        0,
        0x8000_0000,
        1,
        0x3f80_0000,
        0xbf80_0001,
        0x7f80_0000,
        0xff80_0000,
        0x7fc0_0000,
        0x7fa0_0001,
        0xffff_ffff,
    ];
    pub const DOUBLES: [u64; 10] = [
        0,
        1 << 63,
        1,
        0x3ff0_0000_0000_0000,
        0xbff0_0000_0000_0001,
        0x7ff0_0000_0000_0000,
        0xfff0_0000_0000_0000,
        0x7ff8_0000_0000_0000,
        0x7ff4_0000_0000_0001,
        u64::MAX,
    ];

    macro_rules! bits {
        ($name:ident, $float:ty, $own:ty, $numbers:ident; $abs:ident $neg:ident $copysign:ident $to:ident $from:ident;
            $load:ident $store:ident) => {
            #[test]
            fn $name() {
                for bits in $numbers {
                    let float = <$float>::from_bits(bits);
                    assert_eq!($abs(float).to_bits(), float.abs().to_bits());
                    assert_eq!($neg(float).to_bits(), (-float).to_bits());
                    assert_eq!($to(float).cast_unsigned(), bits);
                    assert_eq!($from(bits.cast_signed()).to_bits(), bits);
                    for other in $numbers.map(<$float>::from_bits) {
                        assert_eq!(
                            $copysign(float, other).to_bits(),
                            float.copysign(other).to_bits()
                        );
                        let (own, second) = (<$own>::from(float), <$own>::from(other));
                        assert_eq!(own == second, float == other);
                        assert_eq!(own.partial_cmp(&second), float.partial_cmp(&other));
                    }
                    let mut memory = [0xaa; 11];
                    assert!($store(&mut memory, 1, 1, float).is_ok());
                    assert_eq!(memory[2..][..size_of::<$float>()], bits.to_le_bytes());
                    assert_eq!($load(&memory, 2, 0).map(<$float>::to_bits), Ok(bits));
                    assert!($load(&memory, 9, 0).is_err());
                    let mut raw = RawVal::from(float);
                    assert_eq!(raw, RawVal::from(bits));
                    raw.write_as(float);
                    assert_eq!(ReadAs::<$float>::read_as(&raw).to_bits(), bits);
                }
            }
        };
    }

    bits! { singles, f32, F32, SINGLES; f32_abs f32_neg f32_copysign i32_reinterpret_f32 f32_reinterpret_i32;
    load_f32 store_f32 }
    bits! { doubles, f64, F64, DOUBLES; f64_abs f64_neg f64_copysign i64_reinterpret_f64 f64_reinterpret_i64;
    load_f64 store_f64 }
}
