//! The instructions that a machine executes, as values: a variant for each function of a shape, what
//! it gives, and its name.
//!
//! A type's variants stand in the order of its list, which has their names. Own: upstream has none.
mod load_store {
    //! The scalar loads and stores as values, at a pointer and an offset.

    use crate::proved::accesses::access::effective_address;
    use crate::proved::accesses::wasm as accesses;
    use crate::proved::ops::rows::{calls, names};
    use crate::proved::raw::{RawVal, ReadAs};
    use crate::proved::types::TrapCode;

    /// A scalar load.
    #[derive(Clone, Copy, Debug, PartialEq, Eq)]
    #[non_exhaustive]
    pub enum LoadOp {
        /// [`i32_load8_s`](crate::wasm::i32_load8_s)
        I32Load8S,
        /// [`i32_load8_u`](crate::wasm::i32_load8_u)
        I32Load8U,
        /// [`i32_load16_s`](crate::wasm::i32_load16_s)
        I32Load16S,
        /// [`i32_load16_u`](crate::wasm::i32_load16_u)
        I32Load16U,
        /// [`i64_load8_s`](crate::wasm::i64_load8_s)
        I64Load8S,
        /// [`i64_load8_u`](crate::wasm::i64_load8_u)
        I64Load8U,
        /// [`i64_load16_s`](crate::wasm::i64_load16_s)
        I64Load16S,
        /// [`i64_load16_u`](crate::wasm::i64_load16_u)
        I64Load16U,
        /// [`i64_load32_s`](crate::wasm::i64_load32_s)
        I64Load32S,
        /// [`i64_load32_u`](crate::wasm::i64_load32_u)
        I64Load32U,
        /// [`load_u32`](crate::wasm::load_u32)
        LoadU32,
        /// [`load_u64`](crate::wasm::load_u64)
        LoadU64,
    }

    macro_rules! loads {
    ($make:ident! $($with:tt)*) => { $make! { [$($with)*] accesses [.map(RawVal::from)] {
        I32Load8S i32_load8_s, I32Load8U i32_load8_u,
        I32Load16S i32_load16_s, I32Load16U i32_load16_u,
        I64Load8S i64_load8_s, I64Load8U i64_load8_u,
        I64Load16S i64_load16_s, I64Load16U i64_load16_u,
        I64Load32S i64_load32_s, I64Load32U i64_load32_u,
        LoadU32 load_u32, LoadU64 load_u64,
    } } };
}

    /// The scalar loads by name, in the order of the C library's numbers.
    pub const LOADS: [(&str, LoadOp); 12] = loads!(names! LoadOp);

    impl LoadOp {
        /// Loads from `ptr + offset`.
        ///
        /// # Errors
        ///
        /// [`MemoryOutOfBounds`](crate::TrapCode::MemoryOutOfBounds) if the bytes end past the memory.
        ///
        /// # Contract
        ///
        /// ```text
        /// ensures: result ≡ loaded_raw self memory.now (ptr + offset)
        /// ```
        ///
        /// Definitions: [`loaded_raw`](crate::specs::ops::LoadStoreOpsSpecs#loaded_raw).
        #[inline(always)]
        pub fn load(self, memory: &[u8], ptr: u64, offset: u64) -> Result<RawVal, TrapCode> {
            // The address is tested once, and not in the arm of each load.
            let address = effective_address(ptr, offset)?;
            if address > memory.len() {
                return Err(TrapCode::MemoryOutOfBounds);
            }
            self.load_front(&memory[address..])
        }

        /// # Contract
        ///
        /// ```text
        /// ensures: result ≡ loaded_raw self bytes.now 0
        /// ```
        ///
        /// Definitions: [`loaded_raw`](crate::specs::ops::LoadStoreOpsSpecs#loaded_raw).
        #[inline(always)]
        fn load_front(self, bytes: &[u8]) -> Result<RawVal, TrapCode> {
            loads!(calls! self(bytes, 0, 0))
        }
    }

    /// A scalar store.
    #[derive(Clone, Copy, Debug, PartialEq, Eq)]
    #[non_exhaustive]
    pub enum StoreOp {
        /// [`i32_store8`](crate::wasm::i32_store8)
        I32Store8,
        /// [`i32_store16`](crate::wasm::i32_store16)
        I32Store16,
        /// [`i64_store8`](crate::wasm::i64_store8)
        I64Store8,
        /// [`i64_store16`](crate::wasm::i64_store16)
        I64Store16,
        /// [`i64_store32`](crate::wasm::i64_store32)
        I64Store32,
        /// [`store32`](crate::wasm::store32)
        Store32,
        /// [`store64`](crate::wasm::store64)
        Store64,
    }

    macro_rules! stores {
    ($make:ident! $($with:tt)*) => { $make! { [$($with)*] accesses [] {
        I32Store8 i32_store8, I32Store16 i32_store16,
        I64Store8 i64_store8, I64Store16 i64_store16, I64Store32 i64_store32,
        Store32 store32, Store64 store64,
    } } };
}

    /// The scalar stores by name, in the order of the C library's numbers.
    pub const STORES: [(&str, StoreOp); 7] = stores!(names! StoreOp);

    impl StoreOp {
        /// Stores a value at `ptr + offset`.
        ///
        /// # Errors
        ///
        /// [`MemoryOutOfBounds`](crate::TrapCode::MemoryOutOfBounds) if the bytes would end past the memory; then nothing is written.
        ///
        /// # Contract
        ///
        /// ```text
        /// ensures: IsStore memory.old (ptr + offset) (stored_bytes self value) memory.new result
        /// ```
        ///
        /// Definitions: [`IsStore`](crate::specs::accesses::LoadStoreSpecs#IsStore), [`stored_bytes`](crate::specs::ops::LoadStoreOpsSpecs#stored_bytes).
        #[inline(always)]
        pub fn store(
            self,
            memory: &mut [u8],
            ptr: u64,
            offset: u64,
            value: RawVal,
        ) -> Result<(), TrapCode> {
            let address = effective_address(ptr, offset)?;
            stores!(calls! self(memory, address as u64, 0, value.read_as()))
        }
    }
}
mod rows {
    //! Macros over the rows of instructions: lists of names, and matches that call the functions.
    //!
    //! A row is a variant and the function of its name. A macro below each type has its rows, once, and
    //! gives them to a macro of this file: `binaries!(names! BinaryOp)` is the list of names. The rows
    //! are in groups: the module of their functions, and in brackets what follows a call of one.

    /// The list of names of a type: each row's name with its variant.
    macro_rules! names {
    ([$op:ident] $($module:ident $then:tt { $($variant:ident $function:ident,)* })*) => {
        [$($((stringify!($function), $op::$variant),)*)*]
    };
}

    /// What the function of an instruction's row gives for operands: of one on a lane, the lane too.
    macro_rules! calls {
    (
        [$self:ident $operands:tt]
        $($module:ident $then:tt { $($variant:ident $function:ident,)* })*
    ) => {
        match $self {
            $($(Self::$variant => $crate::proved::ops::rows::call!($module $function $operands $then),)*)*
        }
    };
    (
        [$self:ident($lane:ident) $operands:tt]
        $($module:ident $then:tt { $($variant:ident $function:ident,)* })*
    ) => {
        match $self {
            $($(Self::$variant($lane) => $crate::proved::ops::rows::call!($module $function $operands $then),)*)*
        }
    };
}

    /// A call of a function, and what follows it.
    macro_rules! call {
    ($module:ident $function:ident $operands:tt [$($then:tt)*]) => {
        $module::$function $operands $($then)*
    };
}

    /// The instruction of a kind on the lane of an index, if there is such a lane.
    macro_rules! on_lane {
    (
        [$self:ident $op:ident $lane:ident]
        $($module:ident $then:tt { $($variant:ident $function:ident,)* })*
    ) => {
        match $self {
            $($(Self::$variant => Some($op::$variant($lane.try_into().ok()?)),)*)*
        }
    };
}

    pub(crate) use call;
    pub(crate) use calls;
    pub(crate) use names;
    pub(crate) use on_lane;
}
mod vector {
    //! The vector instructions as values, on vectors and raw values, with the loads and stores of
    //! vectors and of one lane. A kind is an instruction on one lane without its index.

    use crate::proved::lanes::{ImmLaneIdx2, ImmLaneIdx4, ImmLaneIdx8, ImmLaneIdx16};
    use crate::proved::lanewise::simd as lanewise;
    use crate::proved::ops::rows::{calls, names, on_lane};
    use crate::proved::raw::{RawVal, ReadAs, V128};
    use crate::proved::types::TrapCode;
    use crate::proved::vector_access::simd as access;
    use crate::proved::widening::simd;

    /// A vector instruction whose operand is an item.
    #[derive(Clone, Copy, Debug, PartialEq, Eq)]
    #[non_exhaustive]
    pub enum MakeOp {
        /// [`i8x16_splat`](crate::simd::i8x16_splat)
        I8x16Splat,
        /// [`i16x8_splat`](crate::simd::i16x8_splat)
        I16x8Splat,
        /// [`i32x4_splat`](crate::simd::i32x4_splat)
        I32x4Splat,
        /// [`i64x2_splat`](crate::simd::i64x2_splat)
        I64x2Splat,
        /// [`v128_widen8x8_s`](crate::simd::v128_widen8x8_s)
        V128Widen8x8S,
        /// [`v128_widen8x8_u`](crate::simd::v128_widen8x8_u)
        V128Widen8x8U,
        /// [`v128_widen16x4_s`](crate::simd::v128_widen16x4_s)
        V128Widen16x4S,
        /// [`v128_widen16x4_u`](crate::simd::v128_widen16x4_u)
        V128Widen16x4U,
        /// [`v128_widen32x2_s`](crate::simd::v128_widen32x2_s)
        V128Widen32x2S,
        /// [`v128_widen32x2_u`](crate::simd::v128_widen32x2_u)
        V128Widen32x2U,
        /// [`v128_low32_zero`](crate::simd::v128_low32_zero)
        V128Low32Zero,
        /// [`v128_low64_zero`](crate::simd::v128_low64_zero)
        V128Low64Zero,
    }

    macro_rules! makes {
    ($make:ident! $($with:tt)*) => { $make! { [$($with)*]
        lanewise [] {
            I8x16Splat i8x16_splat, I16x8Splat i16x8_splat,
            I32x4Splat i32x4_splat, I64x2Splat i64x2_splat,
        }
        simd [] {
            V128Widen8x8S v128_widen8x8_s, V128Widen8x8U v128_widen8x8_u,
            V128Widen16x4S v128_widen16x4_s, V128Widen16x4U v128_widen16x4_u,
            V128Widen32x2S v128_widen32x2_s, V128Widen32x2U v128_widen32x2_u,
            V128Low32Zero v128_low32_zero, V128Low64Zero v128_low64_zero,
        }
    } };
}

    /// What makes a vector of an item, by name, in the order of the C library's numbers.
    pub const MAKES: [(&str, MakeOp); 12] = makes!(names! MakeOp);

    impl MakeOp {
        /// The vector that is made of an item in a raw value.
        ///
        /// # Contract
        ///
        /// ```text
        /// ensures: result ≡ made_vector self raw
        /// ```
        ///
        /// Definitions: [`made_vector`](crate::specs::ops::VectorOpsSpecs#made_vector).
        #[must_use]
        #[inline]
        pub fn apply(self, raw: RawVal) -> V128 {
            makes!(calls! self(raw.read_as()))
        }
    }

    /// A vector instruction of one operand.
    #[derive(Clone, Copy, Debug, PartialEq, Eq)]
    #[non_exhaustive]
    pub enum UnaryOp {
        /// [`v128_not`](crate::simd::v128_not)
        V128Not,
        /// [`i8x16_neg`](crate::simd::i8x16_neg)
        I8x16Neg,
        /// [`i16x8_neg`](crate::simd::i16x8_neg)
        I16x8Neg,
        /// [`i32x4_neg`](crate::simd::i32x4_neg)
        I32x4Neg,
        /// [`i64x2_neg`](crate::simd::i64x2_neg)
        I64x2Neg,
        /// [`i8x16_abs`](crate::simd::i8x16_abs)
        I8x16Abs,
        /// [`i16x8_abs`](crate::simd::i16x8_abs)
        I16x8Abs,
        /// [`i32x4_abs`](crate::simd::i32x4_abs)
        I32x4Abs,
        /// [`i64x2_abs`](crate::simd::i64x2_abs)
        I64x2Abs,
        /// [`i8x16_popcnt`](crate::simd::i8x16_popcnt)
        I8x16Popcnt,
        /// [`i16x8_extend_low_i8x16_s`](crate::simd::i16x8_extend_low_i8x16_s)
        I16x8ExtendLowI8x16S,
        /// [`i16x8_extend_low_i8x16_u`](crate::simd::i16x8_extend_low_i8x16_u)
        I16x8ExtendLowI8x16U,
        /// [`i16x8_extend_high_i8x16_s`](crate::simd::i16x8_extend_high_i8x16_s)
        I16x8ExtendHighI8x16S,
        /// [`i16x8_extend_high_i8x16_u`](crate::simd::i16x8_extend_high_i8x16_u)
        I16x8ExtendHighI8x16U,
        /// [`i32x4_extend_low_i16x8_s`](crate::simd::i32x4_extend_low_i16x8_s)
        I32x4ExtendLowI16x8S,
        /// [`i32x4_extend_low_i16x8_u`](crate::simd::i32x4_extend_low_i16x8_u)
        I32x4ExtendLowI16x8U,
        /// [`i32x4_extend_high_i16x8_s`](crate::simd::i32x4_extend_high_i16x8_s)
        I32x4ExtendHighI16x8S,
        /// [`i32x4_extend_high_i16x8_u`](crate::simd::i32x4_extend_high_i16x8_u)
        I32x4ExtendHighI16x8U,
        /// [`i64x2_extend_low_i32x4_s`](crate::simd::i64x2_extend_low_i32x4_s)
        I64x2ExtendLowI32x4S,
        /// [`i64x2_extend_low_i32x4_u`](crate::simd::i64x2_extend_low_i32x4_u)
        I64x2ExtendLowI32x4U,
        /// [`i64x2_extend_high_i32x4_s`](crate::simd::i64x2_extend_high_i32x4_s)
        I64x2ExtendHighI32x4S,
        /// [`i64x2_extend_high_i32x4_u`](crate::simd::i64x2_extend_high_i32x4_u)
        I64x2ExtendHighI32x4U,
        /// [`i16x8_extadd_pairwise_i8x16_s`](crate::simd::i16x8_extadd_pairwise_i8x16_s)
        I16x8ExtaddPairwiseI8x16S,
        /// [`i16x8_extadd_pairwise_i8x16_u`](crate::simd::i16x8_extadd_pairwise_i8x16_u)
        I16x8ExtaddPairwiseI8x16U,
        /// [`i32x4_extadd_pairwise_i16x8_s`](crate::simd::i32x4_extadd_pairwise_i16x8_s)
        I32x4ExtaddPairwiseI16x8S,
        /// [`i32x4_extadd_pairwise_i16x8_u`](crate::simd::i32x4_extadd_pairwise_i16x8_u)
        I32x4ExtaddPairwiseI16x8U,
    }

    macro_rules! unaries {
    ($make:ident! $($with:tt)*) => { $make! { [$($with)*]
        lanewise [] {
            V128Not v128_not,
            I8x16Neg i8x16_neg, I16x8Neg i16x8_neg, I32x4Neg i32x4_neg, I64x2Neg i64x2_neg,
            I8x16Abs i8x16_abs, I16x8Abs i16x8_abs, I32x4Abs i32x4_abs, I64x2Abs i64x2_abs,
            I8x16Popcnt i8x16_popcnt,
        }
        simd [] {
            I16x8ExtendLowI8x16S i16x8_extend_low_i8x16_s,
            I16x8ExtendLowI8x16U i16x8_extend_low_i8x16_u,
            I16x8ExtendHighI8x16S i16x8_extend_high_i8x16_s,
            I16x8ExtendHighI8x16U i16x8_extend_high_i8x16_u,
            I32x4ExtendLowI16x8S i32x4_extend_low_i16x8_s,
            I32x4ExtendLowI16x8U i32x4_extend_low_i16x8_u,
            I32x4ExtendHighI16x8S i32x4_extend_high_i16x8_s,
            I32x4ExtendHighI16x8U i32x4_extend_high_i16x8_u,
            I64x2ExtendLowI32x4S i64x2_extend_low_i32x4_s,
            I64x2ExtendLowI32x4U i64x2_extend_low_i32x4_u,
            I64x2ExtendHighI32x4S i64x2_extend_high_i32x4_s,
            I64x2ExtendHighI32x4U i64x2_extend_high_i32x4_u,
            I16x8ExtaddPairwiseI8x16S i16x8_extadd_pairwise_i8x16_s,
            I16x8ExtaddPairwiseI8x16U i16x8_extadd_pairwise_i8x16_u,
            I32x4ExtaddPairwiseI16x8S i32x4_extadd_pairwise_i16x8_s,
            I32x4ExtaddPairwiseI16x8U i32x4_extadd_pairwise_i16x8_u,
        }
    } };
}

    /// The instructions of one vector by name, in the order of the C library's numbers.
    pub const UNARIES: [(&str, UnaryOp); 26] = unaries!(names! UnaryOp);

    impl UnaryOp {
        /// The result for an operand.
        ///
        /// # Contract
        ///
        /// ```text
        /// ensures: result ≡ unary_vector self a
        /// ```
        ///
        /// Definitions: [`unary_vector`](crate::specs::ops::VectorOpsSpecs#unary_vector).
        #[must_use]
        #[inline]
        pub fn apply(self, a: V128) -> V128 {
            unaries!(calls! self(a))
        }
    }

    /// A vector instruction of two operands.
    #[derive(Clone, Copy, Debug, PartialEq, Eq)]
    #[non_exhaustive]
    pub enum BinaryOp {
        /// [`i8x16_add`](crate::simd::i8x16_add)
        I8x16Add,
        /// [`i16x8_add`](crate::simd::i16x8_add)
        I16x8Add,
        /// [`i32x4_add`](crate::simd::i32x4_add)
        I32x4Add,
        /// [`i64x2_add`](crate::simd::i64x2_add)
        I64x2Add,
        /// [`i8x16_sub`](crate::simd::i8x16_sub)
        I8x16Sub,
        /// [`i16x8_sub`](crate::simd::i16x8_sub)
        I16x8Sub,
        /// [`i32x4_sub`](crate::simd::i32x4_sub)
        I32x4Sub,
        /// [`i64x2_sub`](crate::simd::i64x2_sub)
        I64x2Sub,
        /// [`i8x16_mul`](crate::simd::i8x16_mul)
        I8x16Mul,
        /// [`i16x8_mul`](crate::simd::i16x8_mul)
        I16x8Mul,
        /// [`i32x4_mul`](crate::simd::i32x4_mul)
        I32x4Mul,
        /// [`i64x2_mul`](crate::simd::i64x2_mul)
        I64x2Mul,
        /// [`i8x16_add_sat_s`](crate::simd::i8x16_add_sat_s)
        I8x16AddSatS,
        /// [`i8x16_add_sat_u`](crate::simd::i8x16_add_sat_u)
        I8x16AddSatU,
        /// [`i16x8_add_sat_s`](crate::simd::i16x8_add_sat_s)
        I16x8AddSatS,
        /// [`i16x8_add_sat_u`](crate::simd::i16x8_add_sat_u)
        I16x8AddSatU,
        /// [`i8x16_sub_sat_s`](crate::simd::i8x16_sub_sat_s)
        I8x16SubSatS,
        /// [`i8x16_sub_sat_u`](crate::simd::i8x16_sub_sat_u)
        I8x16SubSatU,
        /// [`i16x8_sub_sat_s`](crate::simd::i16x8_sub_sat_s)
        I16x8SubSatS,
        /// [`i16x8_sub_sat_u`](crate::simd::i16x8_sub_sat_u)
        I16x8SubSatU,
        /// [`i16x8_q15mulr_sat_s`](crate::simd::i16x8_q15mulr_sat_s)
        I16x8Q15mulrSatS,
        /// [`i8x16_min_s`](crate::simd::i8x16_min_s)
        I8x16MinS,
        /// [`i8x16_min_u`](crate::simd::i8x16_min_u)
        I8x16MinU,
        /// [`i16x8_min_s`](crate::simd::i16x8_min_s)
        I16x8MinS,
        /// [`i16x8_min_u`](crate::simd::i16x8_min_u)
        I16x8MinU,
        /// [`i32x4_min_s`](crate::simd::i32x4_min_s)
        I32x4MinS,
        /// [`i32x4_min_u`](crate::simd::i32x4_min_u)
        I32x4MinU,
        /// [`i8x16_max_s`](crate::simd::i8x16_max_s)
        I8x16MaxS,
        /// [`i8x16_max_u`](crate::simd::i8x16_max_u)
        I8x16MaxU,
        /// [`i16x8_max_s`](crate::simd::i16x8_max_s)
        I16x8MaxS,
        /// [`i16x8_max_u`](crate::simd::i16x8_max_u)
        I16x8MaxU,
        /// [`i32x4_max_s`](crate::simd::i32x4_max_s)
        I32x4MaxS,
        /// [`i32x4_max_u`](crate::simd::i32x4_max_u)
        I32x4MaxU,
        /// [`i8x16_avgr_u`](crate::simd::i8x16_avgr_u)
        I8x16AvgrU,
        /// [`i16x8_avgr_u`](crate::simd::i16x8_avgr_u)
        I16x8AvgrU,
        /// [`v128_and`](crate::simd::v128_and)
        V128And,
        /// [`v128_or`](crate::simd::v128_or)
        V128Or,
        /// [`v128_xor`](crate::simd::v128_xor)
        V128Xor,
        /// [`v128_andnot`](crate::simd::v128_andnot)
        V128Andnot,
        /// [`i8x16_eq`](crate::simd::i8x16_eq)
        I8x16Eq,
        /// [`i16x8_eq`](crate::simd::i16x8_eq)
        I16x8Eq,
        /// [`i32x4_eq`](crate::simd::i32x4_eq)
        I32x4Eq,
        /// [`i64x2_eq`](crate::simd::i64x2_eq)
        I64x2Eq,
        /// [`i8x16_ne`](crate::simd::i8x16_ne)
        I8x16Ne,
        /// [`i16x8_ne`](crate::simd::i16x8_ne)
        I16x8Ne,
        /// [`i32x4_ne`](crate::simd::i32x4_ne)
        I32x4Ne,
        /// [`i64x2_ne`](crate::simd::i64x2_ne)
        I64x2Ne,
        /// [`i8x16_lt_s`](crate::simd::i8x16_lt_s)
        I8x16LtS,
        /// [`i16x8_lt_s`](crate::simd::i16x8_lt_s)
        I16x8LtS,
        /// [`i32x4_lt_s`](crate::simd::i32x4_lt_s)
        I32x4LtS,
        /// [`i64x2_lt_s`](crate::simd::i64x2_lt_s)
        I64x2LtS,
        /// [`i8x16_lt_u`](crate::simd::i8x16_lt_u)
        I8x16LtU,
        /// [`i16x8_lt_u`](crate::simd::i16x8_lt_u)
        I16x8LtU,
        /// [`i32x4_lt_u`](crate::simd::i32x4_lt_u)
        I32x4LtU,
        /// [`i8x16_le_s`](crate::simd::i8x16_le_s)
        I8x16LeS,
        /// [`i16x8_le_s`](crate::simd::i16x8_le_s)
        I16x8LeS,
        /// [`i32x4_le_s`](crate::simd::i32x4_le_s)
        I32x4LeS,
        /// [`i64x2_le_s`](crate::simd::i64x2_le_s)
        I64x2LeS,
        /// [`i8x16_le_u`](crate::simd::i8x16_le_u)
        I8x16LeU,
        /// [`i16x8_le_u`](crate::simd::i16x8_le_u)
        I16x8LeU,
        /// [`i32x4_le_u`](crate::simd::i32x4_le_u)
        I32x4LeU,
        /// [`i8x16_gt_s`](crate::simd::i8x16_gt_s)
        I8x16GtS,
        /// [`i16x8_gt_s`](crate::simd::i16x8_gt_s)
        I16x8GtS,
        /// [`i32x4_gt_s`](crate::simd::i32x4_gt_s)
        I32x4GtS,
        /// [`i64x2_gt_s`](crate::simd::i64x2_gt_s)
        I64x2GtS,
        /// [`i8x16_gt_u`](crate::simd::i8x16_gt_u)
        I8x16GtU,
        /// [`i16x8_gt_u`](crate::simd::i16x8_gt_u)
        I16x8GtU,
        /// [`i32x4_gt_u`](crate::simd::i32x4_gt_u)
        I32x4GtU,
        /// [`i8x16_ge_s`](crate::simd::i8x16_ge_s)
        I8x16GeS,
        /// [`i16x8_ge_s`](crate::simd::i16x8_ge_s)
        I16x8GeS,
        /// [`i32x4_ge_s`](crate::simd::i32x4_ge_s)
        I32x4GeS,
        /// [`i64x2_ge_s`](crate::simd::i64x2_ge_s)
        I64x2GeS,
        /// [`i8x16_ge_u`](crate::simd::i8x16_ge_u)
        I8x16GeU,
        /// [`i16x8_ge_u`](crate::simd::i16x8_ge_u)
        I16x8GeU,
        /// [`i32x4_ge_u`](crate::simd::i32x4_ge_u)
        I32x4GeU,
        /// [`i8x16_swizzle`](crate::simd::i8x16_swizzle)
        I8x16Swizzle,
        /// [`i16x8_extmul_low_i8x16_s`](crate::simd::i16x8_extmul_low_i8x16_s)
        I16x8ExtmulLowI8x16S,
        /// [`i16x8_extmul_low_i8x16_u`](crate::simd::i16x8_extmul_low_i8x16_u)
        I16x8ExtmulLowI8x16U,
        /// [`i16x8_extmul_high_i8x16_s`](crate::simd::i16x8_extmul_high_i8x16_s)
        I16x8ExtmulHighI8x16S,
        /// [`i16x8_extmul_high_i8x16_u`](crate::simd::i16x8_extmul_high_i8x16_u)
        I16x8ExtmulHighI8x16U,
        /// [`i32x4_extmul_low_i16x8_s`](crate::simd::i32x4_extmul_low_i16x8_s)
        I32x4ExtmulLowI16x8S,
        /// [`i32x4_extmul_low_i16x8_u`](crate::simd::i32x4_extmul_low_i16x8_u)
        I32x4ExtmulLowI16x8U,
        /// [`i32x4_extmul_high_i16x8_s`](crate::simd::i32x4_extmul_high_i16x8_s)
        I32x4ExtmulHighI16x8S,
        /// [`i32x4_extmul_high_i16x8_u`](crate::simd::i32x4_extmul_high_i16x8_u)
        I32x4ExtmulHighI16x8U,
        /// [`i64x2_extmul_low_i32x4_s`](crate::simd::i64x2_extmul_low_i32x4_s)
        I64x2ExtmulLowI32x4S,
        /// [`i64x2_extmul_low_i32x4_u`](crate::simd::i64x2_extmul_low_i32x4_u)
        I64x2ExtmulLowI32x4U,
        /// [`i64x2_extmul_high_i32x4_s`](crate::simd::i64x2_extmul_high_i32x4_s)
        I64x2ExtmulHighI32x4S,
        /// [`i64x2_extmul_high_i32x4_u`](crate::simd::i64x2_extmul_high_i32x4_u)
        I64x2ExtmulHighI32x4U,
        /// [`i8x16_narrow_i16x8_s`](crate::simd::i8x16_narrow_i16x8_s)
        I8x16NarrowI16x8S,
        /// [`i8x16_narrow_i16x8_u`](crate::simd::i8x16_narrow_i16x8_u)
        I8x16NarrowI16x8U,
        /// [`i16x8_narrow_i32x4_s`](crate::simd::i16x8_narrow_i32x4_s)
        I16x8NarrowI32x4S,
        /// [`i16x8_narrow_i32x4_u`](crate::simd::i16x8_narrow_i32x4_u)
        I16x8NarrowI32x4U,
        /// [`i32x4_dot_i16x8_s`](crate::simd::i32x4_dot_i16x8_s)
        I32x4DotI16x8S,
        /// [`i16x8_relaxed_dot_i8x16_i7x16_s`](crate::simd::i16x8_relaxed_dot_i8x16_i7x16_s)
        I16x8RelaxedDotI8x16I7x16S,
        /// [`i8x16_relaxed_swizzle`](crate::simd::i8x16_relaxed_swizzle)
        I8x16RelaxedSwizzle,
        /// [`i16x8_relaxed_q15mulr_s`](crate::simd::i16x8_relaxed_q15mulr_s)
        I16x8RelaxedQ15mulrS,
    }

    macro_rules! binaries {
    ($make:ident! $($with:tt)*) => { $make! { [$($with)*]
        lanewise [] {
            I8x16Add i8x16_add, I16x8Add i16x8_add, I32x4Add i32x4_add, I64x2Add i64x2_add,
            I8x16Sub i8x16_sub, I16x8Sub i16x8_sub, I32x4Sub i32x4_sub, I64x2Sub i64x2_sub,
            I8x16Mul i8x16_mul, I16x8Mul i16x8_mul, I32x4Mul i32x4_mul, I64x2Mul i64x2_mul,
            I8x16AddSatS i8x16_add_sat_s, I8x16AddSatU i8x16_add_sat_u,
            I16x8AddSatS i16x8_add_sat_s, I16x8AddSatU i16x8_add_sat_u,
            I8x16SubSatS i8x16_sub_sat_s, I8x16SubSatU i8x16_sub_sat_u,
            I16x8SubSatS i16x8_sub_sat_s, I16x8SubSatU i16x8_sub_sat_u,
            I16x8Q15mulrSatS i16x8_q15mulr_sat_s,
            I8x16MinS i8x16_min_s, I8x16MinU i8x16_min_u, I16x8MinS i16x8_min_s,
            I16x8MinU i16x8_min_u, I32x4MinS i32x4_min_s, I32x4MinU i32x4_min_u,
            I8x16MaxS i8x16_max_s, I8x16MaxU i8x16_max_u, I16x8MaxS i16x8_max_s,
            I16x8MaxU i16x8_max_u, I32x4MaxS i32x4_max_s, I32x4MaxU i32x4_max_u,
            I8x16AvgrU i8x16_avgr_u, I16x8AvgrU i16x8_avgr_u,
            V128And v128_and, V128Or v128_or, V128Xor v128_xor, V128Andnot v128_andnot,
            I8x16Eq i8x16_eq, I16x8Eq i16x8_eq, I32x4Eq i32x4_eq, I64x2Eq i64x2_eq,
            I8x16Ne i8x16_ne, I16x8Ne i16x8_ne, I32x4Ne i32x4_ne, I64x2Ne i64x2_ne,
            I8x16LtS i8x16_lt_s, I16x8LtS i16x8_lt_s, I32x4LtS i32x4_lt_s, I64x2LtS i64x2_lt_s,
            I8x16LtU i8x16_lt_u, I16x8LtU i16x8_lt_u, I32x4LtU i32x4_lt_u,
            I8x16LeS i8x16_le_s, I16x8LeS i16x8_le_s, I32x4LeS i32x4_le_s, I64x2LeS i64x2_le_s,
            I8x16LeU i8x16_le_u, I16x8LeU i16x8_le_u, I32x4LeU i32x4_le_u,
            I8x16GtS i8x16_gt_s, I16x8GtS i16x8_gt_s, I32x4GtS i32x4_gt_s, I64x2GtS i64x2_gt_s,
            I8x16GtU i8x16_gt_u, I16x8GtU i16x8_gt_u, I32x4GtU i32x4_gt_u,
            I8x16GeS i8x16_ge_s, I16x8GeS i16x8_ge_s, I32x4GeS i32x4_ge_s, I64x2GeS i64x2_ge_s,
            I8x16GeU i8x16_ge_u, I16x8GeU i16x8_ge_u, I32x4GeU i32x4_ge_u,
            I8x16Swizzle i8x16_swizzle,
        }
        simd [] {
            I16x8ExtmulLowI8x16S i16x8_extmul_low_i8x16_s,
            I16x8ExtmulLowI8x16U i16x8_extmul_low_i8x16_u,
            I16x8ExtmulHighI8x16S i16x8_extmul_high_i8x16_s,
            I16x8ExtmulHighI8x16U i16x8_extmul_high_i8x16_u,
            I32x4ExtmulLowI16x8S i32x4_extmul_low_i16x8_s,
            I32x4ExtmulLowI16x8U i32x4_extmul_low_i16x8_u,
            I32x4ExtmulHighI16x8S i32x4_extmul_high_i16x8_s,
            I32x4ExtmulHighI16x8U i32x4_extmul_high_i16x8_u,
            I64x2ExtmulLowI32x4S i64x2_extmul_low_i32x4_s,
            I64x2ExtmulLowI32x4U i64x2_extmul_low_i32x4_u,
            I64x2ExtmulHighI32x4S i64x2_extmul_high_i32x4_s,
            I64x2ExtmulHighI32x4U i64x2_extmul_high_i32x4_u,
            I8x16NarrowI16x8S i8x16_narrow_i16x8_s, I8x16NarrowI16x8U i8x16_narrow_i16x8_u,
            I16x8NarrowI32x4S i16x8_narrow_i32x4_s, I16x8NarrowI32x4U i16x8_narrow_i32x4_u,
            I32x4DotI16x8S i32x4_dot_i16x8_s,
            I16x8RelaxedDotI8x16I7x16S i16x8_relaxed_dot_i8x16_i7x16_s,
            I8x16RelaxedSwizzle i8x16_relaxed_swizzle, I16x8RelaxedQ15mulrS i16x8_relaxed_q15mulr_s,
        }
    } };
}

    /// The instructions of two vectors by name, in the order of the C library's numbers.
    pub const BINARIES: [(&str, BinaryOp); 96] = binaries!(names! BinaryOp);

    impl BinaryOp {
        /// The result for two operands.
        ///
        /// # Contract
        ///
        /// ```text
        /// ensures: result ≡ binary_vector self a b
        /// ```
        ///
        /// Definitions: [`binary_vector`](crate::specs::ops::VectorOpsSpecs#binary_vector).
        #[must_use]
        #[inline]
        pub fn apply(self, a: V128, b: V128) -> V128 {
            binaries!(calls! self(a, b))
        }
    }

    /// A vector instruction of three operands.
    #[derive(Clone, Copy, Debug, PartialEq, Eq)]
    #[non_exhaustive]
    pub enum TernaryOp {
        /// [`v128_bitselect`](crate::simd::v128_bitselect)
        V128Bitselect,
        /// [`i8x16_relaxed_laneselect`](crate::simd::i8x16_relaxed_laneselect)
        I8x16RelaxedLaneselect,
        /// [`i16x8_relaxed_laneselect`](crate::simd::i16x8_relaxed_laneselect)
        I16x8RelaxedLaneselect,
        /// [`i32x4_relaxed_laneselect`](crate::simd::i32x4_relaxed_laneselect)
        I32x4RelaxedLaneselect,
        /// [`i64x2_relaxed_laneselect`](crate::simd::i64x2_relaxed_laneselect)
        I64x2RelaxedLaneselect,
        /// [`i32x4_relaxed_dot_i8x16_i7x16_add_s`](crate::simd::i32x4_relaxed_dot_i8x16_i7x16_add_s)
        I32x4RelaxedDotI8x16I7x16AddS,
    }

    macro_rules! ternaries {
    ($make:ident! $($with:tt)*) => { $make! { [$($with)*]
        lanewise [] {
            V128Bitselect v128_bitselect,
        }
        simd [] {
            I8x16RelaxedLaneselect i8x16_relaxed_laneselect,
            I16x8RelaxedLaneselect i16x8_relaxed_laneselect,
            I32x4RelaxedLaneselect i32x4_relaxed_laneselect,
            I64x2RelaxedLaneselect i64x2_relaxed_laneselect,
            I32x4RelaxedDotI8x16I7x16AddS i32x4_relaxed_dot_i8x16_i7x16_add_s,
        }
    } };
}

    /// The instructions of three vectors by name, in the order of the C library's numbers.
    pub const TERNARIES: [(&str, TernaryOp); 6] = ternaries!(names! TernaryOp);

    impl TernaryOp {
        /// The result for three operands.
        ///
        /// # Contract
        ///
        /// ```text
        /// ensures: result ≡ ternary_vector self a b c
        /// ```
        ///
        /// Definitions: [`ternary_vector`](crate::specs::ops::VectorOpsSpecs#ternary_vector).
        #[must_use]
        #[inline]
        pub fn apply(self, a: V128, b: V128, c: V128) -> V128 {
            ternaries!(calls! self(a, b, c))
        }
    }

    /// A shift of the lanes of a vector, by an amount modulo their width.
    #[derive(Clone, Copy, Debug, PartialEq, Eq)]
    #[non_exhaustive]
    pub enum ShiftOp {
        /// [`i8x16_shl`](crate::simd::i8x16_shl)
        I8x16Shl,
        /// [`i8x16_shr_s`](crate::simd::i8x16_shr_s)
        I8x16ShrS,
        /// [`i8x16_shr_u`](crate::simd::i8x16_shr_u)
        I8x16ShrU,
        /// [`i16x8_shl`](crate::simd::i16x8_shl)
        I16x8Shl,
        /// [`i16x8_shr_s`](crate::simd::i16x8_shr_s)
        I16x8ShrS,
        /// [`i16x8_shr_u`](crate::simd::i16x8_shr_u)
        I16x8ShrU,
        /// [`i32x4_shl`](crate::simd::i32x4_shl)
        I32x4Shl,
        /// [`i32x4_shr_s`](crate::simd::i32x4_shr_s)
        I32x4ShrS,
        /// [`i32x4_shr_u`](crate::simd::i32x4_shr_u)
        I32x4ShrU,
        /// [`i64x2_shl`](crate::simd::i64x2_shl)
        I64x2Shl,
        /// [`i64x2_shr_s`](crate::simd::i64x2_shr_s)
        I64x2ShrS,
        /// [`i64x2_shr_u`](crate::simd::i64x2_shr_u)
        I64x2ShrU,
    }

    macro_rules! shifts {
    ($make:ident! $($with:tt)*) => { $make! { [$($with)*] simd [] {
        I8x16Shl i8x16_shl, I8x16ShrS i8x16_shr_s, I8x16ShrU i8x16_shr_u,
        I16x8Shl i16x8_shl, I16x8ShrS i16x8_shr_s, I16x8ShrU i16x8_shr_u,
        I32x4Shl i32x4_shl, I32x4ShrS i32x4_shr_s, I32x4ShrU i32x4_shr_u,
        I64x2Shl i64x2_shl, I64x2ShrS i64x2_shr_s, I64x2ShrU i64x2_shr_u,
    } } };
}

    /// The shifts of lanes by name, in the order of the C library's numbers.
    pub const SHIFTS: [(&str, ShiftOp); 12] = shifts!(names! ShiftOp);

    impl ShiftOp {
        /// The result for an operand and an amount.
        ///
        /// # Contract
        ///
        /// ```text
        /// ensures: result ≡ shifted_vector self a amount
        /// ```
        ///
        /// Definitions: [`shifted_vector`](crate::specs::ops::VectorOpsSpecs#shifted_vector).
        #[must_use]
        #[inline]
        pub fn apply(self, a: V128, amount: u32) -> V128 {
            shifts!(calls! self(a, amount))
        }
    }

    /// A test of a vector, or its mask.
    #[derive(Clone, Copy, Debug, PartialEq, Eq)]
    #[non_exhaustive]
    pub enum TestOp {
        /// [`i8x16_all_true`](crate::simd::i8x16_all_true)
        I8x16AllTrue,
        /// [`i16x8_all_true`](crate::simd::i16x8_all_true)
        I16x8AllTrue,
        /// [`i32x4_all_true`](crate::simd::i32x4_all_true)
        I32x4AllTrue,
        /// [`i64x2_all_true`](crate::simd::i64x2_all_true)
        I64x2AllTrue,
        /// [`v128_any_true`](crate::simd::v128_any_true)
        V128AnyTrue,
        /// [`i8x16_bitmask`](crate::simd::i8x16_bitmask)
        I8x16Bitmask,
        /// [`i16x8_bitmask`](crate::simd::i16x8_bitmask)
        I16x8Bitmask,
        /// [`i32x4_bitmask`](crate::simd::i32x4_bitmask)
        I32x4Bitmask,
        /// [`i64x2_bitmask`](crate::simd::i64x2_bitmask)
        I64x2Bitmask,
    }

    macro_rules! tests {
    ($make:ident! $($with:tt)*) => { $make! { [$($with)*] simd [.into()] {
        I8x16AllTrue i8x16_all_true, I16x8AllTrue i16x8_all_true,
        I32x4AllTrue i32x4_all_true, I64x2AllTrue i64x2_all_true,
        V128AnyTrue v128_any_true,
        I8x16Bitmask i8x16_bitmask, I16x8Bitmask i16x8_bitmask,
        I32x4Bitmask i32x4_bitmask, I64x2Bitmask i64x2_bitmask,
    } } };
}

    /// The tests and masks of a vector by name, in the order of the C library's numbers.
    pub const TESTS: [(&str, TestOp); 9] = tests!(names! TestOp);

    impl TestOp {
        /// The Boolean, as 0 or 1, or the mask.
        ///
        /// # Contract
        ///
        /// ```text
        /// ensures: result ≡ tested_raw self a
        /// ```
        ///
        /// Definitions: [`tested_raw`](crate::specs::ops::VectorOpsSpecs#tested_raw).
        #[must_use]
        #[inline]
        pub fn apply(self, a: V128) -> RawVal {
            tests!(calls! self(a))
        }
    }

    /// A lane that is taken from a vector, with its index.
    #[derive(Clone, Copy, Debug, PartialEq, Eq)]
    pub enum ExtractOp {
        /// [`i8x16_extract_lane_s`](crate::simd::i8x16_extract_lane_s)
        I8x16ExtractLaneS(ImmLaneIdx16),
        /// [`i8x16_extract_lane_u`](crate::simd::i8x16_extract_lane_u)
        I8x16ExtractLaneU(ImmLaneIdx16),
        /// [`i16x8_extract_lane_s`](crate::simd::i16x8_extract_lane_s)
        I16x8ExtractLaneS(ImmLaneIdx8),
        /// [`i16x8_extract_lane_u`](crate::simd::i16x8_extract_lane_u)
        I16x8ExtractLaneU(ImmLaneIdx8),
        /// [`i32x4_extract_lane`](crate::simd::i32x4_extract_lane)
        I32x4ExtractLane(ImmLaneIdx4),
        /// [`i64x2_extract_lane`](crate::simd::i64x2_extract_lane)
        I64x2ExtractLane(ImmLaneIdx2),
    }

    macro_rules! extractions {
    ($make:ident! $($with:tt)*) => { $make! { [$($with)*] lanewise [.into()] {
        I8x16ExtractLaneS i8x16_extract_lane_s, I8x16ExtractLaneU i8x16_extract_lane_u,
        I16x8ExtractLaneS i16x8_extract_lane_s, I16x8ExtractLaneU i16x8_extract_lane_u,
        I32x4ExtractLane i32x4_extract_lane, I64x2ExtractLane i64x2_extract_lane,
    } } };
}

    impl ExtractOp {
        /// The lane in the low bits of a raw value: one of 8 or 16 bits extended to 32, by its sign
        /// (`_s`) or by zeros (`_u`), one of 32 or 64 bits as it is. All higher bits are 0.
        ///
        /// # Contract
        ///
        /// ```text
        /// ensures: result ≡ extracted_raw self a
        /// ```
        ///
        /// Definitions: [`extracted_raw`](crate::specs::ops::LaneOpsSpecs#extracted_raw).
        #[must_use]
        #[inline]
        pub fn apply(self, a: V128) -> RawVal {
            extractions!(calls! self(lane) (a, lane))
        }
    }

    /// A lane that is taken from a vector, whatever the lane.
    #[derive(Clone, Copy, Debug, PartialEq, Eq)]
    #[non_exhaustive]
    pub enum ExtractKind {
        /// [`i8x16_extract_lane_s`](crate::simd::i8x16_extract_lane_s)
        I8x16ExtractLaneS,
        /// [`i8x16_extract_lane_u`](crate::simd::i8x16_extract_lane_u)
        I8x16ExtractLaneU,
        /// [`i16x8_extract_lane_s`](crate::simd::i16x8_extract_lane_s)
        I16x8ExtractLaneS,
        /// [`i16x8_extract_lane_u`](crate::simd::i16x8_extract_lane_u)
        I16x8ExtractLaneU,
        /// [`i32x4_extract_lane`](crate::simd::i32x4_extract_lane)
        I32x4ExtractLane,
        /// [`i64x2_extract_lane`](crate::simd::i64x2_extract_lane)
        I64x2ExtractLane,
    }

    /// The extractions of a lane by name, in the order of the C library's numbers.
    pub const EXTRACTIONS: [(&str, ExtractKind); 6] = extractions!(names! ExtractKind);

    impl ExtractKind {
        /// The instruction on the lane of an index, if there is such a lane.
        ///
        /// # Contract
        ///
        /// ```text
        /// ensures: result ≡ extract_op self lane
        /// ```
        ///
        /// Definitions: [`extract_op`](crate::specs::ops::LaneOpsSpecs#extract_op).
        #[must_use]
        #[inline]
        pub fn on(self, lane: u8) -> Option<ExtractOp> {
            extractions!(on_lane! self ExtractOp lane)
        }
    }

    /// A lane of a vector that takes an item, with its index.
    #[derive(Clone, Copy, Debug, PartialEq, Eq)]
    pub enum ReplaceOp {
        /// [`i8x16_replace_lane`](crate::simd::i8x16_replace_lane)
        I8x16ReplaceLane(ImmLaneIdx16),
        /// [`i16x8_replace_lane`](crate::simd::i16x8_replace_lane)
        I16x8ReplaceLane(ImmLaneIdx8),
        /// [`i32x4_replace_lane`](crate::simd::i32x4_replace_lane)
        I32x4ReplaceLane(ImmLaneIdx4),
        /// [`i64x2_replace_lane`](crate::simd::i64x2_replace_lane)
        I64x2ReplaceLane(ImmLaneIdx2),
    }

    macro_rules! replacements {
    ($make:ident! $($with:tt)*) => { $make! { [$($with)*] lanewise [] {
        I8x16ReplaceLane i8x16_replace_lane, I16x8ReplaceLane i16x8_replace_lane,
        I32x4ReplaceLane i32x4_replace_lane, I64x2ReplaceLane i64x2_replace_lane,
    } } };
}

    impl ReplaceOp {
        /// The vector with an item of a raw value in the lane.
        ///
        /// # Contract
        ///
        /// ```text
        /// ensures: result ≡ replaced_vector self a raw
        /// ```
        ///
        /// Definitions: [`replaced_vector`](crate::specs::ops::LaneOpsSpecs#replaced_vector).
        #[must_use]
        #[inline]
        pub fn apply(self, a: V128, raw: RawVal) -> V128 {
            replacements!(calls! self(lane) (a, lane, raw.read_as()))
        }
    }

    /// A lane of a vector that takes an item, whatever the lane.
    #[derive(Clone, Copy, Debug, PartialEq, Eq)]
    #[non_exhaustive]
    pub enum ReplaceKind {
        /// [`i8x16_replace_lane`](crate::simd::i8x16_replace_lane)
        I8x16ReplaceLane,
        /// [`i16x8_replace_lane`](crate::simd::i16x8_replace_lane)
        I16x8ReplaceLane,
        /// [`i32x4_replace_lane`](crate::simd::i32x4_replace_lane)
        I32x4ReplaceLane,
        /// [`i64x2_replace_lane`](crate::simd::i64x2_replace_lane)
        I64x2ReplaceLane,
    }

    /// The replacements of a lane by name, in the order of the C library's numbers.
    pub const REPLACEMENTS: [(&str, ReplaceKind); 4] = replacements!(names! ReplaceKind);

    impl ReplaceKind {
        /// The instruction on the lane of an index, if there is such a lane.
        ///
        /// # Contract
        ///
        /// ```text
        /// ensures: result ≡ replace_op self lane
        /// ```
        ///
        /// Definitions: [`replace_op`](crate::specs::ops::LaneOpsSpecs#replace_op).
        #[must_use]
        #[inline]
        pub fn on(self, lane: u8) -> Option<ReplaceOp> {
            replacements!(on_lane! self ReplaceOp lane)
        }
    }

    /// A load of a vector.
    #[derive(Clone, Copy, Debug, PartialEq, Eq)]
    #[non_exhaustive]
    pub enum VectorLoadOp {
        /// [`v128_load`](crate::simd::v128_load)
        V128Load,
        /// [`v128_load8x8_s`](crate::simd::v128_load8x8_s)
        V128Load8x8S,
        /// [`v128_load8x8_u`](crate::simd::v128_load8x8_u)
        V128Load8x8U,
        /// [`v128_load16x4_s`](crate::simd::v128_load16x4_s)
        V128Load16x4S,
        /// [`v128_load16x4_u`](crate::simd::v128_load16x4_u)
        V128Load16x4U,
        /// [`v128_load32x2_s`](crate::simd::v128_load32x2_s)
        V128Load32x2S,
        /// [`v128_load32x2_u`](crate::simd::v128_load32x2_u)
        V128Load32x2U,
        /// [`v128_load8_splat`](crate::simd::v128_load8_splat)
        V128Load8Splat,
        /// [`v128_load16_splat`](crate::simd::v128_load16_splat)
        V128Load16Splat,
        /// [`v128_load32_splat`](crate::simd::v128_load32_splat)
        V128Load32Splat,
        /// [`v128_load64_splat`](crate::simd::v128_load64_splat)
        V128Load64Splat,
        /// [`v128_load32_zero`](crate::simd::v128_load32_zero)
        V128Load32Zero,
        /// [`v128_load64_zero`](crate::simd::v128_load64_zero)
        V128Load64Zero,
    }

    macro_rules! vector_loads {
    ($make:ident! $($with:tt)*) => { $make! { [$($with)*] access [] {
        V128Load v128_load, V128Load8x8S v128_load8x8_s, V128Load8x8U v128_load8x8_u,
        V128Load16x4S v128_load16x4_s, V128Load16x4U v128_load16x4_u,
        V128Load32x2S v128_load32x2_s, V128Load32x2U v128_load32x2_u,
        V128Load8Splat v128_load8_splat, V128Load16Splat v128_load16_splat,
        V128Load32Splat v128_load32_splat, V128Load64Splat v128_load64_splat,
        V128Load32Zero v128_load32_zero, V128Load64Zero v128_load64_zero,
    } } };
}

    /// The loads of a vector by name, in the order of the C library's numbers.
    pub const VECTOR_LOADS: [(&str, VectorLoadOp); 13] = vector_loads!(names! VectorLoadOp);

    impl VectorLoadOp {
        /// Loads from `ptr + offset`.
        ///
        /// # Errors
        ///
        /// [`MemoryOutOfBounds`](crate::TrapCode::MemoryOutOfBounds) if the bytes end past the memory.
        ///
        /// # Contract
        ///
        /// ```text
        /// ensures: result ≡ loaded_vector self memory.now (ptr + offset)
        /// ```
        ///
        /// Definitions: [`loaded_vector`](crate::specs::ops::VectorOpsSpecs#loaded_vector).
        #[inline]
        pub fn load(self, memory: &[u8], ptr: u64, offset: u64) -> Result<V128, TrapCode> {
            vector_loads!(calls! self(memory, ptr, offset))
        }
    }

    /// A load of one lane of a vector, with its index.
    #[derive(Clone, Copy, Debug, PartialEq, Eq)]
    pub enum LoadLaneOp {
        /// [`v128_load8_lane`](crate::simd::v128_load8_lane)
        V128Load8Lane(ImmLaneIdx16),
        /// [`v128_load16_lane`](crate::simd::v128_load16_lane)
        V128Load16Lane(ImmLaneIdx8),
        /// [`v128_load32_lane`](crate::simd::v128_load32_lane)
        V128Load32Lane(ImmLaneIdx4),
        /// [`v128_load64_lane`](crate::simd::v128_load64_lane)
        V128Load64Lane(ImmLaneIdx2),
    }

    macro_rules! lane_loads {
    ($make:ident! $($with:tt)*) => { $make! { [$($with)*] access [] {
        V128Load8Lane v128_load8_lane, V128Load16Lane v128_load16_lane,
        V128Load32Lane v128_load32_lane, V128Load64Lane v128_load64_lane,
    } } };
}

    impl LoadLaneOp {
        /// The vector with the lane loaded from `ptr + offset`.
        ///
        /// # Errors
        ///
        /// [`MemoryOutOfBounds`](crate::TrapCode::MemoryOutOfBounds) if the bytes end past the memory.
        ///
        /// # Contract
        ///
        /// ```text
        /// ensures: result ≡ loaded_lane self v memory.now (ptr + offset)
        /// ```
        ///
        /// Definitions: [`loaded_lane`](crate::specs::ops::LaneOpsSpecs#loaded_lane).
        #[inline]
        pub fn load(self, memory: &[u8], ptr: u64, offset: u64, v: V128) -> Result<V128, TrapCode> {
            lane_loads!(calls! self(lane) (memory, ptr, offset, v, lane))
        }
    }

    /// A load of one lane of a vector, whatever the lane.
    #[derive(Clone, Copy, Debug, PartialEq, Eq)]
    #[non_exhaustive]
    pub enum LoadLaneKind {
        /// [`v128_load8_lane`](crate::simd::v128_load8_lane)
        V128Load8Lane,
        /// [`v128_load16_lane`](crate::simd::v128_load16_lane)
        V128Load16Lane,
        /// [`v128_load32_lane`](crate::simd::v128_load32_lane)
        V128Load32Lane,
        /// [`v128_load64_lane`](crate::simd::v128_load64_lane)
        V128Load64Lane,
    }

    /// The loads of a lane by name, in the order of the C library's numbers.
    pub const LANE_LOADS: [(&str, LoadLaneKind); 4] = lane_loads!(names! LoadLaneKind);

    impl LoadLaneKind {
        /// The instruction on the lane of an index, if there is such a lane.
        ///
        /// # Contract
        ///
        /// ```text
        /// ensures: result ≡ load_lane_op self lane
        /// ```
        ///
        /// Definitions: [`load_lane_op`](crate::specs::ops::LaneOpsSpecs#load_lane_op).
        #[must_use]
        #[inline]
        pub fn on(self, lane: u8) -> Option<LoadLaneOp> {
            lane_loads!(on_lane! self LoadLaneOp lane)
        }
    }

    /// A store of one lane of a vector, with its index.
    #[derive(Clone, Copy, Debug, PartialEq, Eq)]
    pub enum StoreLaneOp {
        /// [`v128_store8_lane`](crate::simd::v128_store8_lane)
        V128Store8Lane(ImmLaneIdx16),
        /// [`v128_store16_lane`](crate::simd::v128_store16_lane)
        V128Store16Lane(ImmLaneIdx8),
        /// [`v128_store32_lane`](crate::simd::v128_store32_lane)
        V128Store32Lane(ImmLaneIdx4),
        /// [`v128_store64_lane`](crate::simd::v128_store64_lane)
        V128Store64Lane(ImmLaneIdx2),
    }

    macro_rules! lane_stores {
    ($make:ident! $($with:tt)*) => { $make! { [$($with)*] access [] {
        V128Store8Lane v128_store8_lane, V128Store16Lane v128_store16_lane,
        V128Store32Lane v128_store32_lane, V128Store64Lane v128_store64_lane,
    } } };
}

    impl StoreLaneOp {
        /// Stores the lane at `ptr + offset`.
        ///
        /// # Errors
        ///
        /// [`MemoryOutOfBounds`](crate::TrapCode::MemoryOutOfBounds) if the bytes would end past the memory; then nothing is written.
        ///
        /// # Contract
        ///
        /// ```text
        /// ensures: IsStore memory.old (ptr + offset) (stored_lane self v) memory.new result
        /// ```
        ///
        /// Definitions: [`IsStore`](crate::specs::accesses::LoadStoreSpecs#IsStore), [`stored_lane`](crate::specs::ops::LaneOpsSpecs#stored_lane).
        #[inline]
        pub fn store(
            self,
            memory: &mut [u8],
            ptr: u64,
            offset: u64,
            v: V128,
        ) -> Result<(), TrapCode> {
            lane_stores!(calls! self(lane) (memory, ptr, offset, v, lane))
        }
    }

    /// A store of one lane of a vector, whatever the lane.
    #[derive(Clone, Copy, Debug, PartialEq, Eq)]
    #[non_exhaustive]
    pub enum StoreLaneKind {
        /// [`v128_store8_lane`](crate::simd::v128_store8_lane)
        V128Store8Lane,
        /// [`v128_store16_lane`](crate::simd::v128_store16_lane)
        V128Store16Lane,
        /// [`v128_store32_lane`](crate::simd::v128_store32_lane)
        V128Store32Lane,
        /// [`v128_store64_lane`](crate::simd::v128_store64_lane)
        V128Store64Lane,
    }

    /// The stores of a lane by name, in the order of the C library's numbers.
    pub const LANE_STORES: [(&str, StoreLaneKind); 4] = lane_stores!(names! StoreLaneKind);

    impl StoreLaneKind {
        /// The instruction on the lane of an index, if there is such a lane.
        ///
        /// # Contract
        ///
        /// ```text
        /// ensures: result ≡ store_lane_op self lane
        /// ```
        ///
        /// Definitions: [`store_lane_op`](crate::specs::ops::LaneOpsSpecs#store_lane_op).
        #[must_use]
        #[inline]
        pub fn on(self, lane: u8) -> Option<StoreLaneOp> {
            lane_stores!(on_lane! self StoreLaneOp lane)
        }
    }
}

pub use load_store::{LOADS, LoadOp, STORES, StoreOp};
pub use vector::{
    BINARIES, BinaryOp, EXTRACTIONS, ExtractKind, ExtractOp, LANE_LOADS, LANE_STORES, LoadLaneKind,
    LoadLaneOp, MAKES, MakeOp, REPLACEMENTS, ReplaceKind, ReplaceOp, SHIFTS, ShiftOp,
    StoreLaneKind, StoreLaneOp, TERNARIES, TESTS, TernaryOp, TestOp, UNARIES, UnaryOp,
    VECTOR_LOADS, VectorLoadOp,
};
