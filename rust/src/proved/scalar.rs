//! The scalar integer instructions of WebAssembly.
pub mod value {
    //! The traits of the integer types, with their implementations: the operations, the unsigned type
    //! of the same width, and the extension by the sign. Upstream: the module `value`, private there.
    //! Core specification: integer operations, under numerics.

    use crate::proved::accesses::access::WrapInto;
    use crate::proved::raw::Number;
    use crate::proved::types::TrapCode;

    /// A conversion to the same type that keeps the low bits, as many as `T` has, and reads them
    /// signed. Upstream: `SignExtendFrom`, private there.
    pub trait SignExtendFrom<T: Number>: Number {
        /// The low bits of `self`, extended by their sign.
        ///
        /// # Contract
        ///
        /// ```text
        /// ensures: result ≡ Self.of_number (int_wrap T.width (Self.number self))
        /// ```
        ///
        /// `T` is a type with the trait `Number`.
        fn sign_extend_from(self) -> Self;
    }

    /// An integer type with an unsigned type of the same width. Upstream: `Unsigned`, private there.
    pub trait Unsigned {
        /// The unsigned type.
        type Uint: Number;
    }

    impl Unsigned for i32 {
        type Uint = u32;
    }

    impl Unsigned for i64 {
        type Uint = u64;
    }

    /// An integer type of WebAssembly. An amount is read unsigned: a shift by -1 is one by the width
    /// less 1. Upstream: `Integer`, private there.
    ///
    /// # Contract
    ///
    /// ```text
    /// -- The unsigned type has the width.
    /// is_as_wide: Self.Uint.width ≡ Self.width
    /// -- Its numbers are unsigned.
    /// is_of_unsigned: Self.Uint.is_signed ≡ false
    /// ```
    pub trait Integer: Sized + Unsigned + Number {
        /// Whether the number is 0.
        ///
        /// # Contract
        ///
        /// ```text
        /// ensures: result ≡ ieqz (Self.number self)
        /// ```
        ///
        /// Definitions: [`ieqz`](crate::specs::scalar::NumericsSpecs#ieqz).
        fn is_zero(self) -> bool;

        /// The zeros above the highest bit that is set, the width for 0.
        ///
        /// # Contract
        ///
        /// ```text
        /// ensures: Self.number result ≡ iclz Self.width (Self.number self)
        /// ```
        ///
        /// Definitions: [`iclz`](crate::specs::scalar::NumericsSpecs#iclz).
        fn leading_zeros(self) -> Self;

        /// The zeros below the lowest bit that is set, the width for 0.
        ///
        /// # Contract
        ///
        /// ```text
        /// ensures: Self.number result ≡ ictz Self.width (Self.number self)
        /// ```
        ///
        /// Definitions: [`ictz`](crate::specs::scalar::NumericsSpecs#ictz).
        fn trailing_zeros(self) -> Self;

        /// The bits that are set.
        ///
        /// # Contract
        ///
        /// ```text
        /// ensures: Self.number result ≡ ipopcnt Self.width (Self.number self)
        /// ```
        ///
        /// Definitions: [`ipopcnt`](crate::specs::scalar::NumericsSpecs#ipopcnt).
        fn count_ones(self) -> Self;

        /// Shifts to the left by `rhs` modulo the width, filling with zeros.
        ///
        /// # Contract
        ///
        /// ```text
        /// ensures: Self.number result ≡ ishl Self.width (Self.number lhs) (Self.number rhs)
        /// ```
        ///
        /// Definitions: [`ishl`](crate::specs::scalar::NumericsSpecs#ishl).
        fn shl(lhs: Self, rhs: Self) -> Self;

        /// Shifts to the right by `rhs` modulo the width, filling with the highest bit.
        ///
        /// # Contract
        ///
        /// ```text
        /// ensures: Self.number result ≡ ishr_s Self.width (Self.number lhs) (Self.number rhs)
        /// ```
        ///
        /// Definitions: [`ishr_s`](crate::specs::scalar::NumericsSpecs#ishr_s).
        fn shr_s(lhs: Self, rhs: Self) -> Self;

        /// Shifts to the right by `rhs` modulo the width, filling with zeros.
        ///
        /// # Contract
        ///
        /// ```text
        /// ensures: unsigned_abs (Self.Uint.number result) ≡ ishr_u Self.width
        ///     (unsigned_abs (Self.Uint.number lhs)) (unsigned_abs (Self.Uint.number rhs))
        /// ```
        ///
        /// Definitions: [`ishr_u`](crate::specs::scalar::NumericsSpecs#ishr_u).
        fn shr_u(lhs: Self::Uint, rhs: Self::Uint) -> Self::Uint;

        /// Rotates left by `rhs` modulo the width: bits that leave at the top come in at the bottom.
        ///
        /// # Contract
        ///
        /// ```text
        /// ensures: Self.number result ≡ irotl Self.width (Self.number lhs) (Self.number rhs)
        /// ```
        ///
        /// Definitions: [`irotl`](crate::specs::scalar::NumericsSpecs#irotl).
        fn rotl(lhs: Self, rhs: Self) -> Self;

        /// Rotates right by `rhs` modulo the width: bits that leave at the bottom come in at the top.
        ///
        /// # Contract
        ///
        /// ```text
        /// ensures: Self.number result ≡ irotr Self.width (Self.number lhs) (Self.number rhs)
        /// ```
        ///
        /// Definitions: [`irotr`](crate::specs::scalar::NumericsSpecs#irotr).
        fn rotr(lhs: Self, rhs: Self) -> Self;

        /// The quotient towards zero; `IntegerDivisionByZero` for a divisor of 0, then
        /// `IntegerOverflow` for the least number by -1.
        ///
        /// # Contract
        ///
        /// ```text
        /// ensures: GivesNumber Self.number result
        ///     (idiv_s Self.width (Self.number lhs) (Self.number rhs))
        /// ```
        ///
        /// Definitions: [`GivesNumber`](crate::specs::accesses::LoadStoreSpecs#GivesNumber), [`idiv_s`](crate::specs::scalar::NumericsSpecs#idiv_s).
        fn div_s(lhs: Self, rhs: Self) -> Result<Self, TrapCode>;

        /// The quotient, or `IntegerDivisionByZero` for a divisor of 0.
        ///
        /// # Contract
        ///
        /// ```text
        /// ensures: GivesNumber (λ n. unsigned_abs (Self.Uint.number n)) result
        ///     (idiv_u (unsigned_abs (Self.Uint.number lhs)) (unsigned_abs (Self.Uint.number rhs)))
        /// ```
        ///
        /// Definitions: [`GivesNumber`](crate::specs::accesses::LoadStoreSpecs#GivesNumber), [`idiv_u`](crate::specs::scalar::NumericsSpecs#idiv_u).
        fn div_u(lhs: Self::Uint, rhs: Self::Uint) -> Result<Self::Uint, TrapCode>;

        /// The remainder, with the sign of the dividend: 0 for the least number by -1; or
        /// `IntegerDivisionByZero` for a divisor of 0.
        ///
        /// # Contract
        ///
        /// ```text
        /// ensures: GivesNumber Self.number result (irem_s (Self.number lhs) (Self.number rhs))
        /// ```
        ///
        /// Definitions: [`GivesNumber`](crate::specs::accesses::LoadStoreSpecs#GivesNumber), [`irem_s`](crate::specs::scalar::NumericsSpecs#irem_s).
        fn rem_s(lhs: Self, rhs: Self) -> Result<Self, TrapCode>;

        /// The remainder, or `IntegerDivisionByZero` for a divisor of 0.
        ///
        /// # Contract
        ///
        /// ```text
        /// ensures: GivesNumber (λ n. unsigned_abs (Self.Uint.number n)) result
        ///     (irem_u (unsigned_abs (Self.Uint.number lhs)) (unsigned_abs (Self.Uint.number rhs)))
        /// ```
        ///
        /// Definitions: [`GivesNumber`](crate::specs::accesses::LoadStoreSpecs#GivesNumber), [`irem_u`](crate::specs::scalar::NumericsSpecs#irem_u).
        fn rem_u(lhs: Self::Uint, rhs: Self::Uint) -> Result<Self::Uint, TrapCode>;
    }

    impl Integer for i32 {
        #[inline]
        fn is_zero(self) -> bool {
            self == 0
        }

        #[inline]
        fn leading_zeros(self) -> i32 {
            self.leading_zeros() as i32
        }

        #[inline]
        fn trailing_zeros(self) -> i32 {
            self.trailing_zeros() as i32
        }

        #[inline]
        fn count_ones(self) -> i32 {
            self.count_ones() as i32
        }

        #[inline]
        fn shl(lhs: i32, rhs: i32) -> i32 {
            lhs.wrapping_shl(rhs.cast_unsigned())
        }

        #[inline]
        fn shr_s(lhs: i32, rhs: i32) -> i32 {
            lhs.wrapping_shr(rhs.cast_unsigned())
        }

        #[inline]
        fn shr_u(lhs: u32, rhs: u32) -> u32 {
            lhs.wrapping_shr(rhs)
        }

        #[inline]
        fn rotl(lhs: i32, rhs: i32) -> i32 {
            lhs.rotate_left(rhs.cast_unsigned())
        }

        #[inline]
        fn rotr(lhs: i32, rhs: i32) -> i32 {
            lhs.rotate_right(rhs.cast_unsigned())
        }

        #[inline]
        fn div_s(lhs: i32, rhs: i32) -> Result<i32, TrapCode> {
            if rhs == 0 {
                return Err(TrapCode::IntegerDivisionByZero);
            }
            lhs.checked_div(rhs).ok_or(TrapCode::IntegerOverflow)
        }

        #[inline]
        fn div_u(lhs: u32, rhs: u32) -> Result<u32, TrapCode> {
            lhs.checked_div(rhs).ok_or(TrapCode::IntegerDivisionByZero)
        }

        #[inline]
        fn rem_s(lhs: i32, rhs: i32) -> Result<i32, TrapCode> {
            if rhs == 0 {
                return Err(TrapCode::IntegerDivisionByZero);
            }
            Ok(lhs.wrapping_rem(rhs))
        }

        #[inline]
        fn rem_u(lhs: u32, rhs: u32) -> Result<u32, TrapCode> {
            lhs.checked_rem(rhs).ok_or(TrapCode::IntegerDivisionByZero)
        }
    }

    impl Integer for i64 {
        #[inline]
        fn is_zero(self) -> bool {
            self == 0
        }

        #[inline]
        fn leading_zeros(self) -> i64 {
            self.leading_zeros() as i64
        }

        #[inline]
        fn trailing_zeros(self) -> i64 {
            self.trailing_zeros() as i64
        }

        #[inline]
        fn count_ones(self) -> i64 {
            self.count_ones() as i64
        }

        #[inline]
        fn shl(lhs: i64, rhs: i64) -> i64 {
            lhs.wrapping_shl(amount(rhs))
        }

        #[inline]
        fn shr_s(lhs: i64, rhs: i64) -> i64 {
            lhs.wrapping_shr(amount(rhs))
        }

        #[inline]
        fn shr_u(lhs: u64, rhs: u64) -> u64 {
            lhs.wrapping_shr((rhs % 64) as u32)
        }

        #[inline]
        fn rotl(lhs: i64, rhs: i64) -> i64 {
            lhs.rotate_left(amount(rhs))
        }

        #[inline]
        fn rotr(lhs: i64, rhs: i64) -> i64 {
            lhs.rotate_right(amount(rhs))
        }

        #[inline]
        fn div_s(lhs: i64, rhs: i64) -> Result<i64, TrapCode> {
            if rhs == 0 {
                return Err(TrapCode::IntegerDivisionByZero);
            }
            lhs.checked_div(rhs).ok_or(TrapCode::IntegerOverflow)
        }

        #[inline]
        fn div_u(lhs: u64, rhs: u64) -> Result<u64, TrapCode> {
            lhs.checked_div(rhs).ok_or(TrapCode::IntegerDivisionByZero)
        }

        #[inline]
        fn rem_s(lhs: i64, rhs: i64) -> Result<i64, TrapCode> {
            if rhs == 0 {
                return Err(TrapCode::IntegerDivisionByZero);
            }
            Ok(lhs.wrapping_rem(rhs))
        }

        #[inline]
        fn rem_u(lhs: u64, rhs: u64) -> Result<u64, TrapCode> {
            lhs.checked_rem(rhs).ok_or(TrapCode::IntegerDivisionByZero)
        }
    }

    // The amount of a shift or a rotation, modulo the width.
    /// # Contract
    ///
    /// ```text
    /// ensures: result ≡ amount_modulo w64 rhs
    /// ```
    ///
    /// Definitions: [`amount_modulo`](crate::specs::scalar::NumericsSpecs#amount_modulo).
    #[inline(always)]
    fn amount(rhs: i64) -> u32 {
        (rhs.cast_unsigned() % 64) as u32
    }

    impl SignExtendFrom<i8> for i32 {
        #[inline]
        fn sign_extend_from(self) -> i32 {
            <i32 as WrapInto<i8>>::wrap_into(self) as i32
        }
    }

    impl SignExtendFrom<i16> for i32 {
        #[inline]
        fn sign_extend_from(self) -> i32 {
            <i32 as WrapInto<i16>>::wrap_into(self) as i32
        }
    }

    impl SignExtendFrom<i8> for i64 {
        #[inline]
        fn sign_extend_from(self) -> i64 {
            <i64 as WrapInto<i8>>::wrap_into(self) as i64
        }
    }

    impl SignExtendFrom<i16> for i64 {
        #[inline]
        fn sign_extend_from(self) -> i64 {
            <i64 as WrapInto<i16>>::wrap_into(self) as i64
        }
    }

    impl SignExtendFrom<i32> for i64 {
        #[inline]
        fn sign_extend_from(self) -> i64 {
            <i64 as WrapInto<i32>>::wrap_into(self) as i64
        }
    }
}
pub mod wasm {
    //! The scalar integer instructions.
    //!
    //! Each function is the instruction of its name: `i32_add` is `i32.add`, and `bitand`, `bitor` and
    //! `bitxor` are `and`, `or` and `xor`. Core specification: numeric instructions; of `i64_add128`,
    //! `i64_sub128` and `i64_mul_wide_*`: the wide-arithmetic proposal. Upstream: `wasmi_core::wasm`.
    //!
    //! Divisions and remainders alone have errors: `IntegerDivisionByZero` if the divisor is 0, and those
    //! of `div_s` then `IntegerOverflow` for the least number by -1.

    use crate::proved::accesses::access::{ExtendInto, WrapInto};
    use crate::proved::scalar::value::{Integer, SignExtendFrom};
    use crate::proved::types::TrapCode;

    /// The sum modulo 2 to the power 32.
    ///
    /// # Contract
    ///
    /// ```text
    /// ensures: result ≡ iadd w32 lhs rhs
    /// ```
    ///
    /// Definitions: [`iadd`](crate::specs::scalar::NumericsSpecs#iadd).
    #[must_use]
    #[inline]
    pub fn i32_add(lhs: i32, rhs: i32) -> i32 {
        lhs.wrapping_add(rhs)
    }

    /// The difference modulo 2 to the power 32.
    ///
    /// # Contract
    ///
    /// ```text
    /// ensures: result ≡ isub w32 lhs rhs
    /// ```
    ///
    /// Definitions: [`isub`](crate::specs::scalar::NumericsSpecs#isub).
    #[must_use]
    #[inline]
    pub fn i32_sub(lhs: i32, rhs: i32) -> i32 {
        lhs.wrapping_sub(rhs)
    }

    /// The product modulo 2 to the power 32.
    ///
    /// # Contract
    ///
    /// ```text
    /// ensures: result ≡ imul w32 lhs rhs
    /// ```
    ///
    /// Definitions: [`imul`](crate::specs::scalar::NumericsSpecs#imul).
    #[must_use]
    #[inline]
    pub fn i32_mul(lhs: i32, rhs: i32) -> i32 {
        lhs.wrapping_mul(rhs)
    }

    /// Bitwise and.
    ///
    /// # Contract
    ///
    /// ```text
    /// ensures: result ≡ iand w32 lhs rhs
    /// ```
    ///
    /// Definitions: [`iand`](crate::specs::scalar::NumericsSpecs#iand).
    #[must_use]
    #[inline]
    pub fn i32_bitand(lhs: i32, rhs: i32) -> i32 {
        lhs & rhs
    }

    /// Bitwise or.
    ///
    /// # Contract
    ///
    /// ```text
    /// ensures: result ≡ ior w32 lhs rhs
    /// ```
    ///
    /// Definitions: [`ior`](crate::specs::scalar::NumericsSpecs#ior).
    #[must_use]
    #[inline]
    pub fn i32_bitor(lhs: i32, rhs: i32) -> i32 {
        lhs | rhs
    }

    /// Bitwise exclusive or.
    ///
    /// # Contract
    ///
    /// ```text
    /// ensures: result ≡ ixor w32 lhs rhs
    /// ```
    ///
    /// Definitions: [`ixor`](crate::specs::scalar::NumericsSpecs#ixor).
    #[must_use]
    #[inline]
    pub fn i32_bitxor(lhs: i32, rhs: i32) -> i32 {
        lhs ^ rhs
    }

    /// Shifts to the left; the amount is taken modulo 32.
    ///
    /// # Contract
    ///
    /// ```text
    /// ensures: result ≡ ishl w32 lhs rhs
    /// ```
    ///
    /// Definitions: [`ishl`](crate::specs::scalar::NumericsSpecs#ishl).
    #[must_use]
    #[inline]
    pub fn i32_shl(lhs: i32, rhs: i32) -> i32 {
        Integer::shl(lhs, rhs)
    }

    /// Shifts to the right and fills with the highest bit; the amount is taken modulo 32.
    ///
    /// # Contract
    ///
    /// ```text
    /// ensures: result ≡ ishr_s w32 lhs rhs
    /// ```
    ///
    /// Definitions: [`ishr_s`](crate::specs::scalar::NumericsSpecs#ishr_s).
    #[must_use]
    #[inline]
    pub fn i32_shr_s(lhs: i32, rhs: i32) -> i32 {
        Integer::shr_s(lhs, rhs)
    }

    /// Shifts to the right and fills with zeros; the amount is taken modulo 32.
    ///
    /// # Contract
    ///
    /// ```text
    /// ensures: result ≡ ishr_u w32 lhs rhs
    /// ```
    ///
    /// Definitions: [`ishr_u`](crate::specs::scalar::NumericsSpecs#ishr_u).
    #[must_use]
    #[inline]
    pub fn i32_shr_u(lhs: u32, rhs: u32) -> u32 {
        <i32 as Integer>::shr_u(lhs, rhs)
    }

    /// Rotates to the left; the amount is taken modulo 32.
    ///
    /// # Contract
    ///
    /// ```text
    /// ensures: result ≡ irotl w32 lhs rhs
    /// ```
    ///
    /// Definitions: [`irotl`](crate::specs::scalar::NumericsSpecs#irotl).
    #[must_use]
    #[inline]
    pub fn i32_rotl(lhs: i32, rhs: i32) -> i32 {
        Integer::rotl(lhs, rhs)
    }

    /// Rotates to the right; the amount is taken modulo 32.
    ///
    /// # Contract
    ///
    /// ```text
    /// ensures: result ≡ irotr w32 lhs rhs
    /// ```
    ///
    /// Definitions: [`irotr`](crate::specs::scalar::NumericsSpecs#irotr).
    #[must_use]
    #[inline]
    pub fn i32_rotr(lhs: i32, rhs: i32) -> i32 {
        Integer::rotr(lhs, rhs)
    }

    /// The quotient towards zero.
    ///
    /// # Errors
    ///
    /// In the order of the tests: [`IntegerDivisionByZero`](crate::TrapCode::IntegerDivisionByZero) if the divisor is 0; [`IntegerOverflow`](crate::TrapCode::IntegerOverflow) for the least number by -1.
    ///
    /// # Contract
    ///
    /// ```text
    /// ensures: result ≡ idiv_s w32 lhs rhs
    /// ```
    ///
    /// Definitions: [`idiv_s`](crate::specs::scalar::NumericsSpecs#idiv_s).
    #[inline]
    pub fn i32_div_s(lhs: i32, rhs: i32) -> Result<i32, TrapCode> {
        Integer::div_s(lhs, rhs)
    }

    /// The quotient.
    ///
    /// # Errors
    ///
    /// [`IntegerDivisionByZero`](crate::TrapCode::IntegerDivisionByZero) if the divisor is 0.
    ///
    /// # Contract
    ///
    /// ```text
    /// ensures: result ≡ idiv_u lhs rhs
    /// ```
    ///
    /// Definitions: [`idiv_u`](crate::specs::scalar::NumericsSpecs#idiv_u).
    #[inline]
    pub fn i32_div_u(lhs: u32, rhs: u32) -> Result<u32, TrapCode> {
        <i32 as Integer>::div_u(lhs, rhs)
    }

    /// The remainder, with the sign of `lhs`: 0 for the least number by -1.
    ///
    /// # Errors
    ///
    /// [`IntegerDivisionByZero`](crate::TrapCode::IntegerDivisionByZero) if the divisor is 0.
    ///
    /// # Contract
    ///
    /// ```text
    /// ensures: result ≡ irem_s lhs rhs
    /// ```
    ///
    /// Definitions: [`irem_s`](crate::specs::scalar::NumericsSpecs#irem_s).
    #[inline]
    pub fn i32_rem_s(lhs: i32, rhs: i32) -> Result<i32, TrapCode> {
        Integer::rem_s(lhs, rhs)
    }

    /// The remainder.
    ///
    /// # Errors
    ///
    /// [`IntegerDivisionByZero`](crate::TrapCode::IntegerDivisionByZero) if the divisor is 0.
    ///
    /// # Contract
    ///
    /// ```text
    /// ensures: result ≡ irem_u lhs rhs
    /// ```
    ///
    /// Definitions: [`irem_u`](crate::specs::scalar::NumericsSpecs#irem_u).
    #[inline]
    pub fn i32_rem_u(lhs: u32, rhs: u32) -> Result<u32, TrapCode> {
        <i32 as Integer>::rem_u(lhs, rhs)
    }

    /// The zeros above the highest bit that is set, 32 for 0.
    ///
    /// # Contract
    ///
    /// ```text
    /// ensures: result ≡ iclz w32 value
    /// ```
    ///
    /// Definitions: [`iclz`](crate::specs::scalar::NumericsSpecs#iclz).
    #[must_use]
    #[inline]
    pub fn i32_clz(value: i32) -> i32 {
        Integer::leading_zeros(value)
    }

    /// The zeros below the lowest bit that is set, 32 for 0.
    ///
    /// # Contract
    ///
    /// ```text
    /// ensures: result ≡ ictz w32 value
    /// ```
    ///
    /// Definitions: [`ictz`](crate::specs::scalar::NumericsSpecs#ictz).
    #[must_use]
    #[inline]
    pub fn i32_ctz(value: i32) -> i32 {
        Integer::trailing_zeros(value)
    }

    /// The bits that are set.
    ///
    /// # Contract
    ///
    /// ```text
    /// ensures: result ≡ ipopcnt w32 value
    /// ```
    ///
    /// Definitions: [`ipopcnt`](crate::specs::scalar::NumericsSpecs#ipopcnt).
    #[must_use]
    #[inline]
    pub fn i32_popcnt(value: i32) -> i32 {
        Integer::count_ones(value)
    }

    /// Whether the number is 0.
    ///
    /// # Contract
    ///
    /// ```text
    /// ensures: result ≡ ieqz value
    /// ```
    ///
    /// Definitions: [`ieqz`](crate::specs::scalar::NumericsSpecs#ieqz).
    #[must_use]
    #[inline]
    pub fn i32_eqz(value: i32) -> bool {
        Integer::is_zero(value)
    }

    /// Whether `lhs` is `rhs`.
    ///
    /// # Contract
    ///
    /// ```text
    /// ensures: result ≡ ieq lhs rhs
    /// ```
    ///
    /// Definitions: [`ieq`](crate::specs::scalar::NumericsSpecs#ieq).
    #[must_use]
    #[inline]
    pub fn i32_eq(lhs: i32, rhs: i32) -> bool {
        lhs == rhs
    }

    /// Whether `lhs` isn't `rhs`.
    ///
    /// # Contract
    ///
    /// ```text
    /// ensures: result ≡ ine lhs rhs
    /// ```
    ///
    /// Definitions: [`ine`](crate::specs::scalar::NumericsSpecs#ine).
    #[must_use]
    #[inline]
    pub fn i32_ne(lhs: i32, rhs: i32) -> bool {
        lhs != rhs
    }

    /// Whether `lhs` is below `rhs`, read signed.
    ///
    /// # Contract
    ///
    /// ```text
    /// ensures: result ≡ ilt_s lhs rhs
    /// ```
    ///
    /// Definitions: [`ilt_s`](crate::specs::scalar::NumericsSpecs#ilt_s).
    #[must_use]
    #[inline]
    pub fn i32_lt_s(lhs: i32, rhs: i32) -> bool {
        lhs < rhs
    }

    /// Whether `lhs` is below `rhs`, read unsigned.
    ///
    /// # Contract
    ///
    /// ```text
    /// ensures: result ≡ ilt_u lhs rhs
    /// ```
    ///
    /// Definitions: [`ilt_u`](crate::specs::scalar::NumericsSpecs#ilt_u).
    #[must_use]
    #[inline]
    pub fn i32_lt_u(lhs: u32, rhs: u32) -> bool {
        lhs < rhs
    }

    /// Whether `lhs` is at most `rhs`, read signed.
    ///
    /// # Contract
    ///
    /// ```text
    /// ensures: result ≡ ile_s lhs rhs
    /// ```
    ///
    /// Definitions: [`ile_s`](crate::specs::scalar::NumericsSpecs#ile_s).
    #[must_use]
    #[inline]
    pub fn i32_le_s(lhs: i32, rhs: i32) -> bool {
        lhs <= rhs
    }

    /// Whether `lhs` is at most `rhs`, read unsigned.
    ///
    /// # Contract
    ///
    /// ```text
    /// ensures: result ≡ ile_u lhs rhs
    /// ```
    ///
    /// Definitions: [`ile_u`](crate::specs::scalar::NumericsSpecs#ile_u).
    #[must_use]
    #[inline]
    pub fn i32_le_u(lhs: u32, rhs: u32) -> bool {
        lhs <= rhs
    }

    /// Whether `lhs` is above `rhs`, read signed.
    ///
    /// # Contract
    ///
    /// ```text
    /// ensures: result ≡ igt_s lhs rhs
    /// ```
    ///
    /// Definitions: [`igt_s`](crate::specs::scalar::NumericsSpecs#igt_s).
    #[must_use]
    #[inline]
    pub fn i32_gt_s(lhs: i32, rhs: i32) -> bool {
        lhs > rhs
    }

    /// Whether `lhs` is above `rhs`, read unsigned.
    ///
    /// # Contract
    ///
    /// ```text
    /// ensures: result ≡ igt_u lhs rhs
    /// ```
    ///
    /// Definitions: [`igt_u`](crate::specs::scalar::NumericsSpecs#igt_u).
    #[must_use]
    #[inline]
    pub fn i32_gt_u(lhs: u32, rhs: u32) -> bool {
        lhs > rhs
    }

    /// Whether `lhs` is at least `rhs`, read signed.
    ///
    /// # Contract
    ///
    /// ```text
    /// ensures: result ≡ ige_s lhs rhs
    /// ```
    ///
    /// Definitions: [`ige_s`](crate::specs::scalar::NumericsSpecs#ige_s).
    #[must_use]
    #[inline]
    pub fn i32_ge_s(lhs: i32, rhs: i32) -> bool {
        lhs >= rhs
    }

    /// Whether `lhs` is at least `rhs`, read unsigned.
    ///
    /// # Contract
    ///
    /// ```text
    /// ensures: result ≡ ige_u lhs rhs
    /// ```
    ///
    /// Definitions: [`ige_u`](crate::specs::scalar::NumericsSpecs#ige_u).
    #[must_use]
    #[inline]
    pub fn i32_ge_u(lhs: u32, rhs: u32) -> bool {
        lhs >= rhs
    }

    /// The sum modulo 2 to the power 64.
    ///
    /// # Contract
    ///
    /// ```text
    /// ensures: result ≡ iadd w64 lhs rhs
    /// ```
    ///
    /// Definitions: [`iadd`](crate::specs::scalar::NumericsSpecs#iadd).
    #[must_use]
    #[inline]
    pub fn i64_add(lhs: i64, rhs: i64) -> i64 {
        lhs.wrapping_add(rhs)
    }

    /// The difference modulo 2 to the power 64.
    ///
    /// # Contract
    ///
    /// ```text
    /// ensures: result ≡ isub w64 lhs rhs
    /// ```
    ///
    /// Definitions: [`isub`](crate::specs::scalar::NumericsSpecs#isub).
    #[must_use]
    #[inline]
    pub fn i64_sub(lhs: i64, rhs: i64) -> i64 {
        lhs.wrapping_sub(rhs)
    }

    /// The product modulo 2 to the power 64.
    ///
    /// # Contract
    ///
    /// ```text
    /// ensures: result ≡ imul w64 lhs rhs
    /// ```
    ///
    /// Definitions: [`imul`](crate::specs::scalar::NumericsSpecs#imul).
    #[must_use]
    #[inline]
    pub fn i64_mul(lhs: i64, rhs: i64) -> i64 {
        lhs.wrapping_mul(rhs)
    }

    /// Bitwise and.
    ///
    /// # Contract
    ///
    /// ```text
    /// ensures: result ≡ iand w64 lhs rhs
    /// ```
    ///
    /// Definitions: [`iand`](crate::specs::scalar::NumericsSpecs#iand).
    #[must_use]
    #[inline]
    pub fn i64_bitand(lhs: i64, rhs: i64) -> i64 {
        lhs & rhs
    }

    /// Bitwise or.
    ///
    /// # Contract
    ///
    /// ```text
    /// ensures: result ≡ ior w64 lhs rhs
    /// ```
    ///
    /// Definitions: [`ior`](crate::specs::scalar::NumericsSpecs#ior).
    #[must_use]
    #[inline]
    pub fn i64_bitor(lhs: i64, rhs: i64) -> i64 {
        lhs | rhs
    }

    /// Bitwise exclusive or.
    ///
    /// # Contract
    ///
    /// ```text
    /// ensures: result ≡ ixor w64 lhs rhs
    /// ```
    ///
    /// Definitions: [`ixor`](crate::specs::scalar::NumericsSpecs#ixor).
    #[must_use]
    #[inline]
    pub fn i64_bitxor(lhs: i64, rhs: i64) -> i64 {
        lhs ^ rhs
    }

    /// Shifts to the left; the amount is taken modulo 64.
    ///
    /// # Contract
    ///
    /// ```text
    /// ensures: result ≡ ishl w64 lhs rhs
    /// ```
    ///
    /// Definitions: [`ishl`](crate::specs::scalar::NumericsSpecs#ishl).
    #[must_use]
    #[inline]
    pub fn i64_shl(lhs: i64, rhs: i64) -> i64 {
        Integer::shl(lhs, rhs)
    }

    /// Shifts to the right and fills with the highest bit; the amount is taken modulo 64.
    ///
    /// # Contract
    ///
    /// ```text
    /// ensures: result ≡ ishr_s w64 lhs rhs
    /// ```
    ///
    /// Definitions: [`ishr_s`](crate::specs::scalar::NumericsSpecs#ishr_s).
    #[must_use]
    #[inline]
    pub fn i64_shr_s(lhs: i64, rhs: i64) -> i64 {
        Integer::shr_s(lhs, rhs)
    }

    /// Shifts to the right and fills with zeros; the amount is taken modulo 64.
    ///
    /// # Contract
    ///
    /// ```text
    /// ensures: result ≡ ishr_u w64 lhs rhs
    /// ```
    ///
    /// Definitions: [`ishr_u`](crate::specs::scalar::NumericsSpecs#ishr_u).
    #[must_use]
    #[inline]
    pub fn i64_shr_u(lhs: u64, rhs: u64) -> u64 {
        <i64 as Integer>::shr_u(lhs, rhs)
    }

    /// Rotates to the left; the amount is taken modulo 64.
    ///
    /// # Contract
    ///
    /// ```text
    /// ensures: result ≡ irotl w64 lhs rhs
    /// ```
    ///
    /// Definitions: [`irotl`](crate::specs::scalar::NumericsSpecs#irotl).
    #[must_use]
    #[inline]
    pub fn i64_rotl(lhs: i64, rhs: i64) -> i64 {
        Integer::rotl(lhs, rhs)
    }

    /// Rotates to the right; the amount is taken modulo 64.
    ///
    /// # Contract
    ///
    /// ```text
    /// ensures: result ≡ irotr w64 lhs rhs
    /// ```
    ///
    /// Definitions: [`irotr`](crate::specs::scalar::NumericsSpecs#irotr).
    #[must_use]
    #[inline]
    pub fn i64_rotr(lhs: i64, rhs: i64) -> i64 {
        Integer::rotr(lhs, rhs)
    }

    /// The quotient towards zero.
    ///
    /// # Errors
    ///
    /// In the order of the tests: [`IntegerDivisionByZero`](crate::TrapCode::IntegerDivisionByZero) if the divisor is 0; [`IntegerOverflow`](crate::TrapCode::IntegerOverflow) for the least number by -1.
    ///
    /// # Contract
    ///
    /// ```text
    /// ensures: result ≡ idiv_s w64 lhs rhs
    /// ```
    ///
    /// Definitions: [`idiv_s`](crate::specs::scalar::NumericsSpecs#idiv_s).
    #[inline]
    pub fn i64_div_s(lhs: i64, rhs: i64) -> Result<i64, TrapCode> {
        Integer::div_s(lhs, rhs)
    }

    /// The quotient.
    ///
    /// # Errors
    ///
    /// [`IntegerDivisionByZero`](crate::TrapCode::IntegerDivisionByZero) if the divisor is 0.
    ///
    /// # Contract
    ///
    /// ```text
    /// ensures: result ≡ idiv_u lhs rhs
    /// ```
    ///
    /// Definitions: [`idiv_u`](crate::specs::scalar::NumericsSpecs#idiv_u).
    #[inline]
    pub fn i64_div_u(lhs: u64, rhs: u64) -> Result<u64, TrapCode> {
        <i64 as Integer>::div_u(lhs, rhs)
    }

    /// The remainder, with the sign of `lhs`: 0 for the least number by -1.
    ///
    /// # Errors
    ///
    /// [`IntegerDivisionByZero`](crate::TrapCode::IntegerDivisionByZero) if the divisor is 0.
    ///
    /// # Contract
    ///
    /// ```text
    /// ensures: result ≡ irem_s lhs rhs
    /// ```
    ///
    /// Definitions: [`irem_s`](crate::specs::scalar::NumericsSpecs#irem_s).
    #[inline]
    pub fn i64_rem_s(lhs: i64, rhs: i64) -> Result<i64, TrapCode> {
        Integer::rem_s(lhs, rhs)
    }

    /// The remainder.
    ///
    /// # Errors
    ///
    /// [`IntegerDivisionByZero`](crate::TrapCode::IntegerDivisionByZero) if the divisor is 0.
    ///
    /// # Contract
    ///
    /// ```text
    /// ensures: result ≡ irem_u lhs rhs
    /// ```
    ///
    /// Definitions: [`irem_u`](crate::specs::scalar::NumericsSpecs#irem_u).
    #[inline]
    pub fn i64_rem_u(lhs: u64, rhs: u64) -> Result<u64, TrapCode> {
        <i64 as Integer>::rem_u(lhs, rhs)
    }

    /// The zeros above the highest bit that is set, 64 for 0.
    ///
    /// # Contract
    ///
    /// ```text
    /// ensures: result ≡ iclz w64 value
    /// ```
    ///
    /// Definitions: [`iclz`](crate::specs::scalar::NumericsSpecs#iclz).
    #[must_use]
    #[inline]
    pub fn i64_clz(value: i64) -> i64 {
        Integer::leading_zeros(value)
    }

    /// The zeros below the lowest bit that is set, 64 for 0.
    ///
    /// # Contract
    ///
    /// ```text
    /// ensures: result ≡ ictz w64 value
    /// ```
    ///
    /// Definitions: [`ictz`](crate::specs::scalar::NumericsSpecs#ictz).
    #[must_use]
    #[inline]
    pub fn i64_ctz(value: i64) -> i64 {
        Integer::trailing_zeros(value)
    }

    /// The bits that are set.
    ///
    /// # Contract
    ///
    /// ```text
    /// ensures: result ≡ ipopcnt w64 value
    /// ```
    ///
    /// Definitions: [`ipopcnt`](crate::specs::scalar::NumericsSpecs#ipopcnt).
    #[must_use]
    #[inline]
    pub fn i64_popcnt(value: i64) -> i64 {
        Integer::count_ones(value)
    }

    /// Whether the number is 0.
    ///
    /// # Contract
    ///
    /// ```text
    /// ensures: result ≡ ieqz value
    /// ```
    ///
    /// Definitions: [`ieqz`](crate::specs::scalar::NumericsSpecs#ieqz).
    #[must_use]
    #[inline]
    pub fn i64_eqz(value: i64) -> bool {
        Integer::is_zero(value)
    }

    /// Whether `lhs` is `rhs`.
    ///
    /// # Contract
    ///
    /// ```text
    /// ensures: result ≡ ieq lhs rhs
    /// ```
    ///
    /// Definitions: [`ieq`](crate::specs::scalar::NumericsSpecs#ieq).
    #[must_use]
    #[inline]
    pub fn i64_eq(lhs: i64, rhs: i64) -> bool {
        lhs == rhs
    }

    /// Whether `lhs` isn't `rhs`.
    ///
    /// # Contract
    ///
    /// ```text
    /// ensures: result ≡ ine lhs rhs
    /// ```
    ///
    /// Definitions: [`ine`](crate::specs::scalar::NumericsSpecs#ine).
    #[must_use]
    #[inline]
    pub fn i64_ne(lhs: i64, rhs: i64) -> bool {
        lhs != rhs
    }

    /// Whether `lhs` is below `rhs`, read signed.
    ///
    /// # Contract
    ///
    /// ```text
    /// ensures: result ≡ ilt_s lhs rhs
    /// ```
    ///
    /// Definitions: [`ilt_s`](crate::specs::scalar::NumericsSpecs#ilt_s).
    #[must_use]
    #[inline]
    pub fn i64_lt_s(lhs: i64, rhs: i64) -> bool {
        lhs < rhs
    }

    /// Whether `lhs` is below `rhs`, read unsigned.
    ///
    /// # Contract
    ///
    /// ```text
    /// ensures: result ≡ ilt_u lhs rhs
    /// ```
    ///
    /// Definitions: [`ilt_u`](crate::specs::scalar::NumericsSpecs#ilt_u).
    #[must_use]
    #[inline]
    pub fn i64_lt_u(lhs: u64, rhs: u64) -> bool {
        lhs < rhs
    }

    /// Whether `lhs` is at most `rhs`, read signed.
    ///
    /// # Contract
    ///
    /// ```text
    /// ensures: result ≡ ile_s lhs rhs
    /// ```
    ///
    /// Definitions: [`ile_s`](crate::specs::scalar::NumericsSpecs#ile_s).
    #[must_use]
    #[inline]
    pub fn i64_le_s(lhs: i64, rhs: i64) -> bool {
        lhs <= rhs
    }

    /// Whether `lhs` is at most `rhs`, read unsigned.
    ///
    /// # Contract
    ///
    /// ```text
    /// ensures: result ≡ ile_u lhs rhs
    /// ```
    ///
    /// Definitions: [`ile_u`](crate::specs::scalar::NumericsSpecs#ile_u).
    #[must_use]
    #[inline]
    pub fn i64_le_u(lhs: u64, rhs: u64) -> bool {
        lhs <= rhs
    }

    /// Whether `lhs` is above `rhs`, read signed.
    ///
    /// # Contract
    ///
    /// ```text
    /// ensures: result ≡ igt_s lhs rhs
    /// ```
    ///
    /// Definitions: [`igt_s`](crate::specs::scalar::NumericsSpecs#igt_s).
    #[must_use]
    #[inline]
    pub fn i64_gt_s(lhs: i64, rhs: i64) -> bool {
        lhs > rhs
    }

    /// Whether `lhs` is above `rhs`, read unsigned.
    ///
    /// # Contract
    ///
    /// ```text
    /// ensures: result ≡ igt_u lhs rhs
    /// ```
    ///
    /// Definitions: [`igt_u`](crate::specs::scalar::NumericsSpecs#igt_u).
    #[must_use]
    #[inline]
    pub fn i64_gt_u(lhs: u64, rhs: u64) -> bool {
        lhs > rhs
    }

    /// Whether `lhs` is at least `rhs`, read signed.
    ///
    /// # Contract
    ///
    /// ```text
    /// ensures: result ≡ ige_s lhs rhs
    /// ```
    ///
    /// Definitions: [`ige_s`](crate::specs::scalar::NumericsSpecs#ige_s).
    #[must_use]
    #[inline]
    pub fn i64_ge_s(lhs: i64, rhs: i64) -> bool {
        lhs >= rhs
    }

    /// Whether `lhs` is at least `rhs`, read unsigned.
    ///
    /// # Contract
    ///
    /// ```text
    /// ensures: result ≡ ige_u lhs rhs
    /// ```
    ///
    /// Definitions: [`ige_u`](crate::specs::scalar::NumericsSpecs#ige_u).
    #[must_use]
    #[inline]
    pub fn i64_ge_u(lhs: u64, rhs: u64) -> bool {
        lhs >= rhs
    }

    /// The low 32 bits.
    ///
    /// # Contract
    ///
    /// ```text
    /// ensures: result ≡ int_wrap w32 value
    /// ```
    #[must_use]
    #[inline]
    pub fn i32_wrap_i64(value: i64) -> i32 {
        value.wrap_into()
    }

    /// The same number.
    ///
    /// # Contract
    ///
    /// ```text
    /// ensures: result ≡ value
    /// ```
    #[must_use]
    #[inline]
    pub fn i64_extend_i32_s(value: i32) -> i64 {
        value.extend_into()
    }

    /// The same number.
    ///
    /// # Contract
    ///
    /// ```text
    /// ensures: result ≡ value
    /// ```
    #[must_use]
    #[inline]
    pub fn i64_extend_i32_u(value: u32) -> u64 {
        value.extend_into()
    }

    /// The low 8 bits, extended by their sign.
    ///
    /// # Contract
    ///
    /// ```text
    /// ensures: result ≡ int_wrap w8 value
    /// ```
    #[must_use]
    #[inline]
    pub fn i32_extend8_s(value: i32) -> i32 {
        <i32 as SignExtendFrom<i8>>::sign_extend_from(value)
    }

    /// The low 16 bits, extended by their sign.
    ///
    /// # Contract
    ///
    /// ```text
    /// ensures: result ≡ int_wrap w16 value
    /// ```
    #[must_use]
    #[inline]
    pub fn i32_extend16_s(value: i32) -> i32 {
        <i32 as SignExtendFrom<i16>>::sign_extend_from(value)
    }

    /// The low 8 bits, extended by their sign.
    ///
    /// # Contract
    ///
    /// ```text
    /// ensures: result ≡ int_wrap w8 value
    /// ```
    #[must_use]
    #[inline]
    pub fn i64_extend8_s(value: i64) -> i64 {
        <i64 as SignExtendFrom<i8>>::sign_extend_from(value)
    }

    /// The low 16 bits, extended by their sign.
    ///
    /// # Contract
    ///
    /// ```text
    /// ensures: result ≡ int_wrap w16 value
    /// ```
    #[must_use]
    #[inline]
    pub fn i64_extend16_s(value: i64) -> i64 {
        <i64 as SignExtendFrom<i16>>::sign_extend_from(value)
    }

    /// The low 32 bits, extended by their sign.
    ///
    /// # Contract
    ///
    /// ```text
    /// ensures: result ≡ int_wrap w32 value
    /// ```
    #[must_use]
    #[inline]
    pub fn i64_extend32_s(value: i64) -> i64 {
        <i64 as SignExtendFrom<i32>>::sign_extend_from(value)
    }

    // The number of 128 bits in two words.
    /// # Contract
    ///
    /// ```text
    /// ensures: result ≡ unsigned_of lo hi
    /// ```
    ///
    /// Definitions: [`unsigned_of`](crate::specs::scalar::NumericsSpecs#unsigned_of).
    #[inline]
    fn combine128(lo: i64, hi: i64) -> u128 {
        hi.cast_unsigned() as u128 * 0x1_0000_0000_0000_0000 + lo.cast_unsigned() as u128
    }

    // The two words of a number of 128 bits.
    /// # Contract
    ///
    /// ```text
    /// ensures: unsigned_of result.0 result.1 ≡ value
    /// ```
    ///
    /// Definitions: [`unsigned_of`](crate::specs::scalar::NumericsSpecs#unsigned_of).
    #[inline]
    fn split128(value: u128) -> (i64, i64) {
        let lo = (value % 0x1_0000_0000_0000_0000) as u64;
        let hi = (value / 0x1_0000_0000_0000_0000) as u64;
        (lo.cast_signed(), hi.cast_signed())
    }

    /// The sum of two numbers modulo 2 to the power 128, as the words `(lo, hi)`.
    ///
    /// # Contract
    ///
    /// ```text
    /// ensures: unsigned_of result.0 result.1
    ///     ≡ add128 (unsigned_of lhs_lo lhs_hi) (unsigned_of rhs_lo rhs_hi)
    /// ```
    ///
    /// Definitions: [`unsigned_of`](crate::specs::scalar::NumericsSpecs#unsigned_of), [`add128`](crate::specs::scalar::NumericsSpecs#add128).
    #[must_use]
    #[inline]
    pub fn i64_add128(lhs_lo: i64, lhs_hi: i64, rhs_lo: i64, rhs_hi: i64) -> (i64, i64) {
        split128(combine128(lhs_lo, lhs_hi).wrapping_add(combine128(rhs_lo, rhs_hi)))
    }

    /// The difference of two numbers modulo 2 to the power 128, as the words `(lo, hi)`.
    ///
    /// # Contract
    ///
    /// ```text
    /// ensures: unsigned_of result.0 result.1
    ///     ≡ sub128 (unsigned_of lhs_lo lhs_hi) (unsigned_of rhs_lo rhs_hi)
    /// ```
    ///
    /// Definitions: [`unsigned_of`](crate::specs::scalar::NumericsSpecs#unsigned_of), [`sub128`](crate::specs::scalar::NumericsSpecs#sub128).
    #[must_use]
    #[inline]
    pub fn i64_sub128(lhs_lo: i64, lhs_hi: i64, rhs_lo: i64, rhs_hi: i64) -> (i64, i64) {
        split128(combine128(lhs_lo, lhs_hi).wrapping_sub(combine128(rhs_lo, rhs_hi)))
    }

    /// The whole product of two numbers read signed, as the words `(lo, hi)` of a signed number.
    ///
    /// # Contract
    ///
    /// ```text
    /// ensures: signed_of result.0 result.1 ≡ lhs *ℤ rhs
    /// ```
    ///
    /// Definitions: [`signed_of`](crate::specs::scalar::NumericsSpecs#signed_of).
    #[must_use]
    #[inline]
    pub fn i64_mul_wide_s(lhs: i64, rhs: i64) -> (i64, i64) {
        split128((lhs as i128 * rhs as i128).cast_unsigned())
    }

    /// The whole product of two numbers read unsigned, as the words `(lo, hi)` of an unsigned number.
    ///
    /// # Contract
    ///
    /// ```text
    /// ensures: unsigned_of result.0 result.1 ≡ cast_unsigned w64 lhs * cast_unsigned w64 rhs
    /// ```
    ///
    /// Definitions: [`unsigned_of`](crate::specs::scalar::NumericsSpecs#unsigned_of).
    #[must_use]
    #[inline]
    pub fn i64_mul_wide_u(lhs: i64, rhs: i64) -> (i64, i64) {
        split128(lhs.cast_unsigned() as u128 * rhs.cast_unsigned() as u128)
    }
}
