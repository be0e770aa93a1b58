//! The scalar instructions as values: a variant for each function of a shape, result and name.
//!
//! A type's variants stand in the order of its list, which has their names. Own: upstream has none.
mod rows {
    //! Macros over the rows of instructions, which stand as in `wasmi_ops`: lists of names, and matches
    //! that call the functions. A row is a variant and the function of its name; the rows are in groups
    //! with the module of their functions and what follows a call.

    /// The list of names of a type: each row's name with its variant.
    macro_rules! names {
    ([$op:ident] $($module:ident $then:tt { $($variant:ident $function:ident,)* })*) => {
        [$($((stringify!($function), $op::$variant),)*)*]
    };
}

    /// What the function of an instruction's row gives for operands.
    macro_rules! calls {
    (
        [$self:ident $operands:tt]
        $($module:ident $then:tt { $($variant:ident $function:ident,)* })*
    ) => {
        match $self {
            $($(Self::$variant => $crate::proved::scalar_ops::rows::call!($module $function $operands $then),)*)*
        }
    };
}

    /// A call of a function, and what follows it.
    macro_rules! call {
    ($module:ident $function:ident $operands:tt [$($then:tt)*]) => {
        $module::$function $operands $($then)*
    };
}

    pub(crate) use call;
    pub(crate) use calls;
    pub(crate) use names;
}
mod scalar {
    //! The scalar instructions of one and of two operands as values, on raw values.

    use crate::proved::raw::{RawVal, ReadAs};
    use crate::proved::scalar::wasm;
    use crate::proved::scalar_ops::rows::{calls, names};
    use crate::proved::scalar_ops::wide;
    use crate::proved::types::TrapCode;

    /// A scalar instruction of one operand.
    #[derive(Clone, Copy, Debug, PartialEq, Eq)]
    #[non_exhaustive]
    pub enum ScalarUnaryOp {
        /// [`i32_clz`](crate::wasm::i32_clz)
        I32Clz,
        /// [`i32_ctz`](crate::wasm::i32_ctz)
        I32Ctz,
        /// [`i32_popcnt`](crate::wasm::i32_popcnt)
        I32Popcnt,
        /// [`i32_eqz`](crate::wasm::i32_eqz)
        I32Eqz,
        /// [`i64_clz`](crate::wasm::i64_clz)
        I64Clz,
        /// [`i64_ctz`](crate::wasm::i64_ctz)
        I64Ctz,
        /// [`i64_popcnt`](crate::wasm::i64_popcnt)
        I64Popcnt,
        /// [`i64_eqz`](crate::wasm::i64_eqz)
        I64Eqz,
        /// [`i32_wrap_i64`](crate::wasm::i32_wrap_i64)
        I32WrapI64,
        /// [`i64_extend_i32_s`](crate::wasm::i64_extend_i32_s)
        I64ExtendI32S,
        /// [`i64_extend_i32_u`](crate::wasm::i64_extend_i32_u)
        I64ExtendI32U,
        /// [`i32_extend8_s`](crate::wasm::i32_extend8_s)
        I32Extend8S,
        /// [`i32_extend16_s`](crate::wasm::i32_extend16_s)
        I32Extend16S,
        /// [`i64_extend8_s`](crate::wasm::i64_extend8_s)
        I64Extend8S,
        /// [`i64_extend16_s`](crate::wasm::i64_extend16_s)
        I64Extend16S,
        /// [`i64_extend32_s`](crate::wasm::i64_extend32_s)
        I64Extend32S,
    }

    macro_rules! scalar_unaries {
    ($make:ident! $($with:tt)*) => { $make! { [$($with)*] wasm [.into()] {
        I32Clz i32_clz, I32Ctz i32_ctz, I32Popcnt i32_popcnt, I32Eqz i32_eqz,
        I64Clz i64_clz, I64Ctz i64_ctz, I64Popcnt i64_popcnt, I64Eqz i64_eqz,
        I32WrapI64 i32_wrap_i64, I64ExtendI32S i64_extend_i32_s, I64ExtendI32U i64_extend_i32_u,
        I32Extend8S i32_extend8_s, I32Extend16S i32_extend16_s,
        I64Extend8S i64_extend8_s, I64Extend16S i64_extend16_s, I64Extend32S i64_extend32_s,
    } } };
}

    /// The scalar instructions of one operand by name, in the order of the C library's numbers.
    pub const SCALAR_UNARIES: [(&str, ScalarUnaryOp); 16] = scalar_unaries!(names! ScalarUnaryOp);

    impl ScalarUnaryOp {
        /// The result for an operand in a raw value. A Boolean is 0 or 1.
        ///
        /// # Contract
        ///
        /// ```text
        /// ensures: result ≡ unary_raw self raw
        /// ```
        ///
        /// Definitions: [`unary_raw`](crate::specs::scalar_ops::ScalarOpsSpecs#unary_raw).
        #[must_use]
        #[inline]
        pub fn apply(self, raw: RawVal) -> RawVal {
            scalar_unaries!(calls! self(raw.read_as()))
        }
    }

    /// A scalar instruction of two operands.
    #[derive(Clone, Copy, Debug, PartialEq, Eq)]
    #[non_exhaustive]
    pub enum ScalarBinaryOp {
        /// [`i32_add`](crate::wasm::i32_add)
        I32Add,
        /// [`i32_sub`](crate::wasm::i32_sub)
        I32Sub,
        /// [`i32_mul`](crate::wasm::i32_mul)
        I32Mul,
        /// [`i32_bitand`](crate::wasm::i32_bitand)
        I32Bitand,
        /// [`i32_bitor`](crate::wasm::i32_bitor)
        I32Bitor,
        /// [`i32_bitxor`](crate::wasm::i32_bitxor)
        I32Bitxor,
        /// [`i32_shl`](crate::wasm::i32_shl)
        I32Shl,
        /// [`i32_shr_s`](crate::wasm::i32_shr_s)
        I32ShrS,
        /// [`i32_shr_u`](crate::wasm::i32_shr_u)
        I32ShrU,
        /// [`i32_rotl`](crate::wasm::i32_rotl)
        I32Rotl,
        /// [`i32_rotr`](crate::wasm::i32_rotr)
        I32Rotr,
        /// [`i32_div_s`](crate::wasm::i32_div_s)
        I32DivS,
        /// [`i32_div_u`](crate::wasm::i32_div_u)
        I32DivU,
        /// [`i32_rem_s`](crate::wasm::i32_rem_s)
        I32RemS,
        /// [`i32_rem_u`](crate::wasm::i32_rem_u)
        I32RemU,
        /// [`i32_eq`](crate::wasm::i32_eq)
        I32Eq,
        /// [`i32_ne`](crate::wasm::i32_ne)
        I32Ne,
        /// [`i32_lt_s`](crate::wasm::i32_lt_s)
        I32LtS,
        /// [`i32_lt_u`](crate::wasm::i32_lt_u)
        I32LtU,
        /// [`i32_le_s`](crate::wasm::i32_le_s)
        I32LeS,
        /// [`i32_le_u`](crate::wasm::i32_le_u)
        I32LeU,
        /// [`i32_gt_s`](crate::wasm::i32_gt_s)
        I32GtS,
        /// [`i32_gt_u`](crate::wasm::i32_gt_u)
        I32GtU,
        /// [`i32_ge_s`](crate::wasm::i32_ge_s)
        I32GeS,
        /// [`i32_ge_u`](crate::wasm::i32_ge_u)
        I32GeU,
        /// [`i64_add`](crate::wasm::i64_add)
        I64Add,
        /// [`i64_sub`](crate::wasm::i64_sub)
        I64Sub,
        /// [`i64_mul`](crate::wasm::i64_mul)
        I64Mul,
        /// [`i64_bitand`](crate::wasm::i64_bitand)
        I64Bitand,
        /// [`i64_bitor`](crate::wasm::i64_bitor)
        I64Bitor,
        /// [`i64_bitxor`](crate::wasm::i64_bitxor)
        I64Bitxor,
        /// [`i64_shl`](crate::wasm::i64_shl)
        I64Shl,
        /// [`i64_shr_s`](crate::wasm::i64_shr_s)
        I64ShrS,
        /// [`i64_shr_u`](crate::wasm::i64_shr_u)
        I64ShrU,
        /// [`i64_rotl`](crate::wasm::i64_rotl)
        I64Rotl,
        /// [`i64_rotr`](crate::wasm::i64_rotr)
        I64Rotr,
        /// [`i64_div_s`](crate::wasm::i64_div_s)
        I64DivS,
        /// [`i64_div_u`](crate::wasm::i64_div_u)
        I64DivU,
        /// [`i64_rem_s`](crate::wasm::i64_rem_s)
        I64RemS,
        /// [`i64_rem_u`](crate::wasm::i64_rem_u)
        I64RemU,
        /// [`i64_eq`](crate::wasm::i64_eq)
        I64Eq,
        /// [`i64_ne`](crate::wasm::i64_ne)
        I64Ne,
        /// [`i64_lt_s`](crate::wasm::i64_lt_s)
        I64LtS,
        /// [`i64_lt_u`](crate::wasm::i64_lt_u)
        I64LtU,
        /// [`i64_le_s`](crate::wasm::i64_le_s)
        I64LeS,
        /// [`i64_le_u`](crate::wasm::i64_le_u)
        I64LeU,
        /// [`i64_gt_s`](crate::wasm::i64_gt_s)
        I64GtS,
        /// [`i64_gt_u`](crate::wasm::i64_gt_u)
        I64GtU,
        /// [`i64_ge_s`](crate::wasm::i64_ge_s)
        I64GeS,
        /// [`i64_ge_u`](crate::wasm::i64_ge_u)
        I64GeU,
        /// [`i64_add128`](crate::wasm::i64_add128)
        I64Add128,
        /// [`i64_sub128`](crate::wasm::i64_sub128)
        I64Sub128,
        /// [`i64_mul_wide_s`](crate::wasm::i64_mul_wide_s)
        I64MulWideS,
        /// [`i64_mul_wide_u`](crate::wasm::i64_mul_wide_u)
        I64MulWideU,
    }

    macro_rules! scalar_binaries {
    ($make:ident! $($with:tt)*) => { $make! { [$($with)*]
        wasm [.into()] {
            I32Add i32_add, I32Sub i32_sub, I32Mul i32_mul,
            I32Bitand i32_bitand, I32Bitor i32_bitor, I32Bitxor i32_bitxor,
            I32Shl i32_shl, I32ShrS i32_shr_s, I32ShrU i32_shr_u,
            I32Rotl i32_rotl, I32Rotr i32_rotr,
        }
        wasm [?.into()] {
            I32DivS i32_div_s, I32DivU i32_div_u, I32RemS i32_rem_s, I32RemU i32_rem_u,
        }
        wasm [.into()] {
            I32Eq i32_eq, I32Ne i32_ne, I32LtS i32_lt_s, I32LtU i32_lt_u, I32LeS i32_le_s,
            I32LeU i32_le_u, I32GtS i32_gt_s, I32GtU i32_gt_u, I32GeS i32_ge_s, I32GeU i32_ge_u,
            I64Add i64_add, I64Sub i64_sub, I64Mul i64_mul,
            I64Bitand i64_bitand, I64Bitor i64_bitor, I64Bitxor i64_bitxor,
            I64Shl i64_shl, I64ShrS i64_shr_s, I64ShrU i64_shr_u,
            I64Rotl i64_rotl, I64Rotr i64_rotr,
        }
        wasm [?.into()] {
            I64DivS i64_div_s, I64DivU i64_div_u, I64RemS i64_rem_s, I64RemU i64_rem_u,
        }
        wasm [.into()] {
            I64Eq i64_eq, I64Ne i64_ne, I64LtS i64_lt_s, I64LtU i64_lt_u, I64LeS i64_le_s,
            I64LeU i64_le_u, I64GtS i64_gt_s, I64GtU i64_gt_u, I64GeS i64_ge_s, I64GeU i64_ge_u,
        }
        wide [] {
            I64Add128 i64_add128, I64Sub128 i64_sub128,
            I64MulWideS i64_mul_wide_s, I64MulWideU i64_mul_wide_u,
        }
    } };
}

    /// The scalar instructions of two operands by name, in the order of the C library's numbers.
    pub const SCALAR_BINARIES: [(&str, ScalarBinaryOp); 54] =
        scalar_binaries!(names! ScalarBinaryOp);

    impl ScalarBinaryOp {
        /// The result for two operands in raw values. A Boolean is 0 or 1; the operands of 128 bits,
        /// and results of them, are the two words of a raw value.
        ///
        /// # Errors
        ///
        /// Divisions and remainders alone can trap: by zero with [`IntegerDivisionByZero`](crate::TrapCode::IntegerDivisionByZero), and a signed division of the least number by -1 with [`IntegerOverflow`](crate::TrapCode::IntegerOverflow).
        ///
        /// # Contract
        ///
        /// ```text
        /// ensures: result ≡ binary_raw self lhs rhs
        /// ```
        ///
        /// Definitions: [`binary_raw`](crate::specs::scalar_ops::ScalarOpsSpecs#binary_raw).
        #[inline]
        pub fn apply(self, lhs: RawVal, rhs: RawVal) -> Result<RawVal, TrapCode> {
            Ok(scalar_binaries!(calls! self(lhs.read_as(), rhs.read_as())))
        }
    }
}
mod wide {
    //! The instructions of the wide-arithmetic proposal, on raw values of two words.

    use crate::proved::raw::{RawVal, V128};
    use crate::proved::scalar::wasm;

    /// The sum modulo 2 to the power 128.
    ///
    /// # Contract
    ///
    /// ```text
    /// ensures: result ≡ raw_of_vector (add128 (vector_in lhs) (vector_in rhs))
    /// ```
    ///
    /// Definitions: [`raw_of_vector`](crate::specs::raw::RawValSpecs#raw_of_vector), [`add128`](crate::specs::scalar::NumericsSpecs#add128), [`vector_in`](crate::specs::raw::RawValSpecs#vector_in).
    #[must_use]
    #[inline]
    pub fn i64_add128(lhs: RawVal, rhs: RawVal) -> RawVal {
        let (lhs_lo, lhs_hi) = words(lhs);
        let (rhs_lo, rhs_hi) = words(rhs);
        of_words(wasm::i64_add128(lhs_lo, lhs_hi, rhs_lo, rhs_hi))
    }

    /// The difference modulo 2 to the power 128.
    ///
    /// # Contract
    ///
    /// ```text
    /// ensures: result ≡ raw_of_vector (sub128 (vector_in lhs) (vector_in rhs))
    /// ```
    ///
    /// Definitions: [`raw_of_vector`](crate::specs::raw::RawValSpecs#raw_of_vector), [`sub128`](crate::specs::scalar::NumericsSpecs#sub128), [`vector_in`](crate::specs::raw::RawValSpecs#vector_in).
    #[must_use]
    #[inline]
    pub fn i64_sub128(lhs: RawVal, rhs: RawVal) -> RawVal {
        let (lhs_lo, lhs_hi) = words(lhs);
        let (rhs_lo, rhs_hi) = words(rhs);
        of_words(wasm::i64_sub128(lhs_lo, lhs_hi, rhs_lo, rhs_hi))
    }

    /// The whole product of two numbers read signed.
    ///
    /// # Contract
    ///
    /// ```text
    /// ensures: result ≡ raw_of_vector (cast_unsigned w128 (lhs *ℤ rhs))
    /// ```
    ///
    /// Definitions: [`raw_of_vector`](crate::specs::raw::RawValSpecs#raw_of_vector).
    #[must_use]
    #[inline]
    pub fn i64_mul_wide_s(lhs: i64, rhs: i64) -> RawVal {
        of_words(wasm::i64_mul_wide_s(lhs, rhs))
    }

    /// The whole product of two numbers read unsigned.
    ///
    /// # Contract
    ///
    /// ```text
    /// ensures: result ≡ raw_of_vector (cast_unsigned w64 lhs * cast_unsigned w64 rhs)
    /// ```
    ///
    /// Definitions: [`raw_of_vector`](crate::specs::raw::RawValSpecs#raw_of_vector).
    #[must_use]
    #[inline]
    pub fn i64_mul_wide_u(lhs: i64, rhs: i64) -> RawVal {
        of_words(wasm::i64_mul_wide_u(lhs, rhs))
    }

    /// The low and the high word of a raw value.
    ///
    /// # Contract
    ///
    /// ```text
    /// ensures: unsigned_of result.0 result.1 ≡ vector_in raw
    /// ```
    ///
    /// Definitions: [`unsigned_of`](crate::specs::scalar::NumericsSpecs#unsigned_of), [`vector_in`](crate::specs::raw::RawValSpecs#vector_in).
    #[inline]
    fn words(raw: RawVal) -> (i64, i64) {
        (raw.lo.cast_signed(), raw.hi.cast_signed())
    }

    /// The raw value of a low and a high word.
    ///
    /// # Contract
    ///
    /// ```text
    /// ensures: result ≡ raw_of_vector (unsigned_of pair.0 pair.1)
    /// ```
    ///
    /// Definitions: [`raw_of_vector`](crate::specs::raw::RawValSpecs#raw_of_vector), [`unsigned_of`](crate::specs::scalar::NumericsSpecs#unsigned_of).
    #[inline]
    fn of_words(pair: (i64, i64)) -> RawVal {
        RawVal::from(V128::from_word_pair(
            pair.0.cast_unsigned(),
            pair.1.cast_unsigned(),
        ))
    }
}

pub use scalar::{SCALAR_BINARIES, SCALAR_UNARIES, ScalarBinaryOp, ScalarUnaryOp};
