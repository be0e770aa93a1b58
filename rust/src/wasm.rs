//! The scalar instructions of WebAssembly, and its loads and stores. Of floats only what moves bits.
//!
//! A function has the name of its instruction, with `_` for a dot, or upstream's (`load_u32` is
//! `i32.load`, `i32_bitand` `i32.and`), and its operands in the order of the specification. Loads
//! and stores access the address `ptr + offset` of a memory's bytes, the forms with `_at` the given
//! one; they return [`TrapCode::MemoryOutOfBounds`] if the access ends past the bytes, and write
//! nothing then.
//!
//! # Examples
//!
//! ```
//! use wasmi_core_proved::{TrapCode, wasm};
//!
//! assert_eq!(wasm::i32_add(i32::MAX, 1), i32::MIN);
//! assert_eq!(wasm::i64_div_s(7, 0), Err(TrapCode::IntegerDivisionByZero));
//!
//! let mut memory = [0; 8];
//! wasm::i64_store32(&mut memory, 2, 1, -2)?;
//! assert_eq!(wasm::i64_load32_s(&memory, 3, 0)?, -2);
//! assert_eq!(wasm::load_u32(&memory, 5, 0), Err(TrapCode::MemoryOutOfBounds));
//! # Ok::<(), TrapCode>(())
//! ```

use crate::TrapCode;

instructions!(accesses wasm);
instructions!(scalar wasm);

// What the specification does to the bits of floats alone.
macro_rules! floats {
    ($($float:ty, $signed:ty: $abs:ident $neg:ident $copysign:ident $to:ident $from:ident by $and:ident $or:ident $xor:ident,
        called $abs_name:literal $neg_name:literal $copysign_name:literal $to_name:literal $from_name:literal;)*) => { $(
        /// The float without its sign, by its bits; no contract speaks of floats.
        #[doc(alias = $abs_name)]
        #[must_use]
        #[inline]
        pub fn $abs(value: $float) -> $float {
            $from($and($to(value), <$signed>::MAX))
        }

        /// The float with the other sign, by its bits; no contract speaks of floats.
        #[doc(alias = $neg_name)]
        #[must_use]
        #[inline]
        pub fn $neg(value: $float) -> $float {
            $from($xor($to(value), <$signed>::MIN))
        }

        /// The first float with the sign of the second, by their bits; no contract speaks of floats.
        #[doc(alias = $copysign_name)]
        #[must_use]
        #[inline]
        pub fn $copysign(lhs: $float, rhs: $float) -> $float {
            $from($or($and($to(lhs), <$signed>::MAX), $and($to(rhs), <$signed>::MIN)))
        }

        /// The bits of a float, as a signed number.
        #[doc(alias = $to_name)]
        #[must_use]
        #[inline]
        pub fn $to(value: $float) -> $signed {
            value.to_bits().cast_signed()
        }

        /// The float of bits that are given as a signed number.
        #[doc(alias = $from_name)]
        #[must_use]
        #[inline]
        pub fn $from(value: $signed) -> $float {
            <$float>::from_bits(value.cast_unsigned())
        }
    )* };
}
floats! {
    f32, i32: f32_abs f32_neg f32_copysign i32_reinterpret_f32 f32_reinterpret_i32 by i32_bitand i32_bitor i32_bitxor,
        called "f32.abs" "f32.neg" "f32.copysign" "i32.reinterpret_f32" "f32.reinterpret_i32";
    f64, i64: f64_abs f64_neg f64_copysign i64_reinterpret_f64 f64_reinterpret_i64 by i64_bitand i64_bitor i64_bitxor,
        called "f64.abs" "f64.neg" "f64.copysign" "i64.reinterpret_f64" "f64.reinterpret_i64";
}
