//! Raw values, floats, amounts of shifts and globals.
use std::cmp::Ordering;
use std::fmt::Debug;
use std::num::NonZero;
use std::panic::catch_unwind;
use wasmi_core_proved::*;

/// A value written over all ones, the low word of which has to be this one; read back, and typed.
fn written<T, R>(value: T, low: u64, read: R)
where
    T: Copy,
    R: Debug + PartialEq,
    RawVal: WriteAs<T> + ReadAs<R>,
{
    for before in [0, u64::MAX] {
        let mut raw = RawVal::from_bits64(before);
        raw.write_as(value);
        assert_eq!(raw, RawVal::from_bits64(low));
        assert_eq!(<RawVal as ReadAs<R>>::read_as(&raw), read);
    }
}

macro_rules! integers {
    ($($ty:ident)*) => { $({
        for value in [<$ty>::MIN, <$ty>::MAX, 1, 0x5A, !0x5A] {
            let low = u64::from_le_bytes(std::array::from_fn(|at| value.to_le_bytes().get(at).copied().unwrap_or(0)));
            written(value, low, value);
            assert_eq!((<$ty>::from(RawVal::from_bits64(low)), RawVal::from(value)), (value, RawVal::from_bits64(low)));
            if let Some(value) = NonZero::new(value) {
                written(value, low, value.get());
            }
        }
    })* };
}

#[test]
fn values_are_written_and_read() {
    integers!(i8 i16 i32 i64 u8 u16 u32 u64);
    for value in [false, true] {
        written(value, value.into(), value);
    }
    assert!(ReadAs::<bool>::read_as(&RawVal::from_bits64(256)));
    written(RawRef::from(7), 7, RawRef::from(7));
    written(1.5_f32, 0x3FC0_0000, 1.5_f32);
    written(-2.25_f64, 0xC002_0000_0000_0000, -2.25_f64);
    let raw = RawVal::from_bits64(9);
    written(raw, 9, raw);
}

#[test]
#[cfg(feature = "simd")]
fn vectors_are_written_and_read() {
    let vector = V128::from(0x0F0E_0D0C_0B0A_0908_0706_0504_0302_0100);
    let mut raw = RawVal::default();
    raw.write_as(vector);
    assert_eq!(ReadAs::<V128>::read_as(&raw), vector);
    assert_eq!((V128::from(raw), RawVal::from(vector)), (vector, raw));
    assert_eq!(
        format!("{vector:?}"),
        "V128([0, 1, 2, 3, 4, 5, 6, 7, 8, 9, 10, 11, 12, 13, 14, 15])"
    );
    assert_eq!(
        format!("{raw:?}"),
        "RawVal { lo64: 506097522914230528, hi64: 1084818905618843912 }"
    );
    // The high word stays where the low one is written.
    raw.write_as(1_u8);
    assert_eq!(
        V128::from(raw).as_u128(),
        0x0F0E_0D0C_0B0A_0908_0000_0000_0000_0001
    );
}

macro_rules! floats {
    ($name:ident, $float:ident, $signaling:literal, $quiet:literal, $texts:expr) => {{
        for bits in [
            0,
            1,
            $signaling,
            $quiet,
            <$float>::INFINITY.to_bits(),
            (-1.5 as $float).to_bits(),
        ] {
            let (own, float) = ($name::from_bits(bits), <$float>::from_bits(bits));
            let there = [
                $name::from_float(float),
                $name::from(float),
                $name::from(RawVal::from(float)),
            ];
            assert_eq!(there.map(|it| it.to_bits()), [bits; 3]);
            let raw = RawVal::from(own);
            let back = [
                own.to_float(),
                own.into(),
                <$float>::from(raw),
                <$float>::from(TypedRawVal::from(float)),
            ];
            assert_eq!(back.map(<$float>::to_bits), [bits; 4]);
            let typed = TypedRawVal::from(float);
            assert_eq!(
                (typed.ty(), typed.raw(), TypedRawVal::from(own)),
                (ValType::$name, raw, typed)
            );
            for other in [0.0, -0.0, 1.0, <$float>::NAN] {
                let pair = (own == other.into(), own.partial_cmp(&other.into()));
                assert_eq!(
                    pair,
                    (float == other, float.partial_cmp(&other)),
                    "{bits:x} {other}"
                );
            }
        }
        let texts: [(_, &str, &str); 5] = $texts;
        for (bits, display, debug) in texts {
            let float = $name::from_bits(bits);
            assert_eq!(
                (float.to_string(), format!("{float:?}")),
                (display.into(), debug.into())
            );
        }
        let less: Option<Ordering> = $name::from_float(1.0).partial_cmp(&2.0.into());
        assert_eq!(less, Some(Ordering::Less));
    }};
}

#[test]
fn floats() {
    floats!(
        F32,
        f32,
        0x7FA0_0001,
        0xFFC0_0000,
        [
            (0, "0", "0.0"),
            (0xBFC0_0000, "-1.5", "-1.5"),
            (0x7F80_0000, "inf", "inf"),
            (0x7FC0_ABCD, "nan:0x7FC0ABCD", "nan:0x7FC0ABCD"),
            (0xFFA0_000F, "nan:0xFFA0000F", "nan:0xFFA0000F"),
        ]
    );
    floats!(
        F64,
        f64,
        0x7FF4_0000_0000_0001,
        0xFFF8_0000_0000_0000,
        [
            (0x8000_0000_0000_0000, "-0", "-0.0"),
            (0x3FF0_0000_0000_0000, "1", "1.0"),
            (0xFFF0_0000_0000_0000, "-inf", "-inf"),
            (
                0x7FF8_0000_0000_ABCD,
                "nan:0x7FF800000000ABCD",
                "nan:0x7FF800000000ABCD"
            ),
            (
                0xFFF4_0000_0000_000F,
                "nan:0xFFF400000000000F",
                "nan:0xFFF400000000000F"
            ),
        ]
    );
}

/// The bits of floats, those without sign, with the other one, and with the sign of a negative and of a positive number.
#[test]
fn signs_of_floats() {
    for (bits, positive, negative) in [
        (0x7FA0_0001, 0x7FA0_0001, 0xFFA0_0001_u32),
        (0xFFC0_0002, 0x7FC0_0002, 0xFFC0_0002),
        (1 << 31, 0, 1 << 31),
    ] {
        let [float, plus, minus] = [f32::from_bits(bits), 1.0, -1.0];
        let other = if bits == positive { negative } else { positive };
        let signed = [
            wasm::f32_abs(float),
            wasm::f32_neg(float),
            wasm::f32_copysign(float, minus),
            wasm::f32_copysign(float, plus),
        ];
        assert_eq!(
            signed.map(f32::to_bits),
            [positive, other, negative, positive]
        );
        assert_eq!(wasm::i32_reinterpret_f32(float), bits.cast_signed());
        assert_eq!(
            wasm::f32_reinterpret_i32(bits.cast_signed()).to_bits(),
            bits
        );
        let wide = |bits: u32| u64::from(bits) << 32 | 5;
        let [float, plus, minus] = [f64::from_bits(wide(bits)), 1.0, -1.0];
        let signed = [
            wasm::f64_abs(float),
            wasm::f64_neg(float),
            wasm::f64_copysign(float, minus),
            wasm::f64_copysign(float, plus),
        ];
        assert_eq!(
            signed.map(f64::to_bits),
            [positive, other, negative, positive].map(wide)
        );
        assert_eq!(wasm::i64_reinterpret_f64(float), wide(bits).cast_signed());
        assert_eq!(
            wasm::f64_reinterpret_i64(wide(bits).cast_signed()).to_bits(),
            wide(bits)
        );
    }
}

macro_rules! amounts {
    ($($ty:ty, $count:literal;)*) => { $(
        for source in [0, 1, $count - 1, $count, $count + 1, 127] {
            let amount = <$ty>::into_shift_amount(source as <$ty as IntoShiftAmount>::ShiftSource);
            assert_eq!(amount.map(u8::from), Some(source as u8 % $count), "{source} for {}", stringify!($ty));
        }
    )* };
}

#[test]
fn amounts_of_shifts() {
    amounts! { i8, 8; u8, 8; i16, 16; u16, 16; i32, 32; u32, 32; i64, 64; u64, 64; i128, 128; u128, 128;
    [u8; 16], 8; [u16; 8], 16; [u32; 4], 32; [u64; 2], 64; }
    assert_eq!(format!("{:?}", ShiftAmount::from(3)), "ShiftAmount(3)");
}

#[test]
fn globals() {
    let constant = GlobalType::new(ValType::I64, Mutability::Const);
    let variable = GlobalType::new(ValType::I64, Mutability::Var);
    for (ty, value, expected) in [
        (
            constant,
            TypedRawVal::from(6_i64),
            Err("tried to write to immutable global variable"),
        ),
        (
            constant,
            TypedRawVal::from(6_i32),
            Err("tried to write to immutable global variable"),
        ),
        (
            variable,
            TypedRawVal::from(6_i32),
            Err("tried to write value of non-matching type to global variable"),
        ),
        (variable, TypedRawVal::from(6_i64), Ok(())),
    ] {
        let mut global = Global::new(RawVal::from(5_i64), ty);
        let set = global.set(value).map_err(|error| error.to_string());
        assert_eq!(set, expected.map_err(String::from));
        let now = if set.is_ok() { 6_i64 } else { 5 };
        assert_eq!(
            (global.get(), *global.get_raw(), global.ty()),
            (TypedRawVal::from(now), RawVal::from(now), ty)
        );
        if ty.mutability().is_mut() {
            let place = global.get_raw_ptr();
            assert!(std::ptr::eq(place.as_ptr(), global.get_raw()));
        }
    }
}

#[test]
fn conversions() {
    let unpaid = TableError::from(FuelError::OutOfFuel { required_fuel: 9 });
    assert_eq!(unpaid, TableError::OutOfFuel { required_fuel: 9 });
    assert!(catch_unwind(|| TableError::from(FuelError::FuelMeteringDisabled)).is_err());
    for (ty, reference) in [
        (ValType::FuncRef, Some(RefType::Func)),
        (ValType::ExternRef, Some(RefType::Extern)),
        (ValType::I32, None),
    ] {
        let value = TypedRawVal::new(ty, RawVal::from(3_u32));
        let converted = catch_unwind(|| TypedRawRef::from(value)).ok();
        assert_eq!(
            converted,
            reference.map(|reference| TypedRawRef::new(RawRef::from(3), reference))
        );
    }
}

#[test]
fn debug_texts() {
    let typed = TypedRawVal::new(ValType::I64, RawVal::from_bits64(3));
    assert_eq!(
        format!("{typed:?}"),
        "TypedRawVal { ty: I64, value: RawVal { lo64: 3, hi64: 0 } }"
    );
    let custom = CustomFuelCosts {
        bytes_copied_per_fuel: 1,
        fuel_per_bytes_translated: 2,
        fuel_per_bytes_validated: 3,
    };
    let text = "FuelCostsProvider { bytes_copied_per_fuel: 1, fuel_per_bytes_translated: 2, fuel_per_bytes_validated: 3 }";
    assert_eq!(format!("{:?}", FuelCostsProvider::custom(custom)), text);
}

#[cfg(feature = "simd")]
mod lanes {
    use wasmi_core_proved::V128;
    use wasmi_core_proved::simd::*;

    /// As many indices as lanes, each of which is itself, and no others.
    macro_rules! indices {
        ($($ty:ident $count:literal),*) => { $(
            for index in 0..=u8::MAX {
                let lane = <$ty as IntoLaneIdx>::LaneIdx::try_from(index).ok().map(u8::from);
                assert_eq!(lane, (index < $count).then_some(index), "{index} for {}", stringify!($ty));
            }
        )* };
    }

    #[test]
    fn indices_of_lanes() {
        indices! { i8 16, u8 16, i16 8, u16 8, i32 4, u32 4, f32 4, i64 2, u64 2, f64 2 }
        assert!(ImmLaneIdx32::try_from(31).is_ok() && ImmLaneIdx32::try_from(32).is_err());
        let lane = ImmLaneIdx4::try_from(3).ok();
        assert_eq!(
            (format!("{lane:?}"), lane == ImmLaneIdx4::try_from(2).ok()),
            ("Some(ImmLaneIdx(3))".into(), false)
        );
    }

    const BYTES: [u8; 16] = [
        0x81, 2, 3, 4, 5, 6, 7, 0x88, 9, 10, 11, 0x8C, 13, 14, 15, 0x90,
    ];

    fn vector() -> V128 {
        V128::from(u128::from_le_bytes(BYTES))
    }

    /// The vector with other bytes from one on.
    fn replaced<const N: usize>(at: u8, bytes: [u8; N]) -> V128 {
        let mut all = BYTES;
        all[usize::from(at) * N..][..N].copy_from_slice(&bytes);
        V128::from(u128::from_le_bytes(all))
    }

    macro_rules! lanes {
        ($($item:ident $bits:ident $count:literal $value:expr, $index:ident: $replace:ident, $($extract:ident as $wide:ident),*;)*) => { $(
            for at in 0..$count {
                let lane = $index::try_from(at).expect("a lane");
                let bytes = BYTES[usize::from(at) * size_of::<$item>()..][..size_of::<$item>()].try_into().expect("a lane");
                $( assert_eq!($extract(vector(), lane).to_le_bytes(), $wide::from(<$bits>::from_le_bytes(bytes)).to_le_bytes()); )*
                assert_eq!($replace(vector(), lane, $value), replaced(at, $value.to_le_bytes()));
            }
        )* };
    }

    #[test]
    fn lanes_are_read_and_written() {
        lanes! {
            i8 i8 16 -2_i8, ImmLaneIdx16: i8x16_replace_lane, i8x16_extract_lane_s as i32;
            u8 u8 16 -3_i8, ImmLaneIdx16: i8x16_replace_lane, i8x16_extract_lane_u as u32;
            i16 i16 8 -2_i16, ImmLaneIdx8: i16x8_replace_lane, i16x8_extract_lane_s as i32;
            u16 u16 8 -3_i16, ImmLaneIdx8: i16x8_replace_lane, i16x8_extract_lane_u as u32;
            i32 i32 4 -2_i32, ImmLaneIdx4: i32x4_replace_lane, i32x4_extract_lane as i32;
            i64 i64 2 -2_i64, ImmLaneIdx2: i64x2_replace_lane, i64x2_extract_lane as i64;
            f32 f32 4 -2.5_f32, ImmLaneIdx4: f32x4_replace_lane, f32x4_extract_lane as f32;
            f64 f64 2 -2.5_f64, ImmLaneIdx2: f64x2_replace_lane, f64x2_extract_lane as f64;
        }
    }

    #[test]
    fn lanes_of_floats() {
        let wide = |bits: u64| V128::from(u128::from(bits) << 64 | u128::from(bits));
        let narrow = |bits: u32| wide(u64::from(bits) << 32 | u64::from(bits));
        let signs =
            |mask: u128, with: fn(u128, u128) -> u128| V128::from(with(vector().as_u128(), mask));
        let (mask32, mask64) = (narrow(1 << 31).as_u128(), wide(1 << 63).as_u128());
        assert_eq!(
            [f32x4_splat(-1.5), f64x2_splat(-1.5)],
            [narrow((-1.5_f32).to_bits()), wide((-1.5_f64).to_bits())]
        );
        assert_eq!(
            [f32x4_abs(vector()), f64x2_abs(vector())],
            [mask32, mask64].map(|mask| signs(mask, |it, mask| it & !mask))
        );
        assert_eq!(
            [f32x4_neg(vector()), f64x2_neg(vector())],
            [mask32, mask64].map(|mask| signs(mask, |it, mask| it ^ mask))
        );
    }

    #[test]
    fn shuffles() {
        let second = V128::from(u128::from_le_bytes(std::array::from_fn(|at| {
            at as u8 + 100
        })));
        for first in 0..32 {
            let picks: [u8; 16] = std::array::from_fn(|at| (first + 5 * at as u8) % 32);
            let both: Vec<u8> = BYTES.into_iter().chain(100..116).collect();
            let expected = picks.map(|pick| both[usize::from(pick)]);
            let lanes = picks.map(|pick| ImmLaneIdx32::try_from(pick).expect("a lane"));
            assert_eq!(
                i8x16_shuffle(vector(), second, lanes)
                    .as_u128()
                    .to_le_bytes(),
                expected
            );
        }
    }
}
