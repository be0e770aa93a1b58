//! Metered WebAssembly memories and tables under a resource limiter, instructions on numbers and
//! vectors, and a machine that runs lists of calls: the crates of this library under one name.
pub use crate::proved::accesses::access;
pub use crate::proved::lanes::{on_vectors, words};
pub use crate::proved::machine::{
    ByteList, Call, DataSegment, Machine, Replies, Reply, SlotCounts, TooManyCalls, laws, run,
    run_into, run_into_lending, run_into_reserving, run_lending, run_reserving,
};

pub mod simd {
    //! The vector instructions, the loads and stores of vectors, and the lane types and indices.
    //! Upstream: `wasmi_core::simd`.

    // Lanes, their indices, and vectors as lanes.
    pub use crate::proved::lanes::{
        LaneArray, LaneIndex, LaneInteger, LaneItem, Narrower, SimdLane, WordLane,
    };
    pub use crate::proved::lanewise::simd::{
        FromNarrow, FromWide, I8x16, I16x8, I32x4, I64x2, ImmLaneIdx, ImmLaneIdx2, ImmLaneIdx4,
        ImmLaneIdx8, ImmLaneIdx16, ImmLaneIdx32, IntoLaneIdx, IntoLanes, Lanes, OutOfBoundsLaneIdx,
        U8x16, U16x8, U32x4, U64x2,
    };

    // Lane by lane, on lanes of 8 or 16 bits.
    pub use crate::proved::lanewise::simd::{
        i8x16_abs, i8x16_add, i8x16_add_sat_s, i8x16_add_sat_u, i8x16_avgr_u, i8x16_eq,
        i8x16_extract_lane_s, i8x16_extract_lane_u, i8x16_ge_s, i8x16_ge_u, i8x16_gt_s, i8x16_gt_u,
        i8x16_le_s, i8x16_le_u, i8x16_lt_s, i8x16_lt_u, i8x16_max_s, i8x16_max_u, i8x16_min_s,
        i8x16_min_u, i8x16_mul, i8x16_ne, i8x16_neg, i8x16_popcnt, i8x16_replace_lane,
        i8x16_shuffle, i8x16_splat, i8x16_sub, i8x16_sub_sat_s, i8x16_sub_sat_u, i8x16_swizzle,
        i16x8_abs, i16x8_add, i16x8_add_sat_s, i16x8_add_sat_u, i16x8_avgr_u, i16x8_eq,
        i16x8_extract_lane_s, i16x8_extract_lane_u, i16x8_ge_s, i16x8_ge_u, i16x8_gt_s, i16x8_gt_u,
        i16x8_le_s, i16x8_le_u, i16x8_lt_s, i16x8_lt_u, i16x8_max_s, i16x8_max_u, i16x8_min_s,
        i16x8_min_u, i16x8_mul, i16x8_ne, i16x8_neg, i16x8_q15mulr_sat_s, i16x8_replace_lane,
        i16x8_splat, i16x8_sub, i16x8_sub_sat_s, i16x8_sub_sat_u,
    };

    // Lane by lane, on lanes of 32 or 64 bits, and on whole vectors.
    pub use crate::proved::lanewise::simd::{
        i32x4_abs, i32x4_add, i32x4_eq, i32x4_extract_lane, i32x4_ge_s, i32x4_ge_u, i32x4_gt_s,
        i32x4_gt_u, i32x4_le_s, i32x4_le_u, i32x4_lt_s, i32x4_lt_u, i32x4_max_s, i32x4_max_u,
        i32x4_min_s, i32x4_min_u, i32x4_mul, i32x4_ne, i32x4_neg, i32x4_replace_lane, i32x4_splat,
        i32x4_sub, i64x2_abs, i64x2_add, i64x2_eq, i64x2_extract_lane, i64x2_ge_s, i64x2_gt_s,
        i64x2_le_s, i64x2_lt_s, i64x2_mul, i64x2_ne, i64x2_neg, i64x2_replace_lane, i64x2_splat,
        i64x2_sub, v128_and, v128_andnot, v128_bitselect, v128_not, v128_or, v128_xor,
    };

    // Instructions that widen, narrow, shift or test lanes, and the relaxed ones.
    pub use crate::proved::widening::simd::{
        i8x16_all_true, i8x16_bitmask, i8x16_narrow_i16x8_s, i8x16_narrow_i16x8_u,
        i8x16_relaxed_laneselect, i8x16_relaxed_swizzle, i8x16_shl, i8x16_shr_s, i8x16_shr_u,
        i16x8_all_true, i16x8_bitmask, i16x8_extadd_pairwise_i8x16_s,
        i16x8_extadd_pairwise_i8x16_u, i16x8_extend_high_i8x16_s, i16x8_extend_high_i8x16_u,
        i16x8_extend_low_i8x16_s, i16x8_extend_low_i8x16_u, i16x8_extmul_high_i8x16_s,
        i16x8_extmul_high_i8x16_u, i16x8_extmul_low_i8x16_s, i16x8_extmul_low_i8x16_u,
        i16x8_narrow_i32x4_s, i16x8_narrow_i32x4_u, i16x8_relaxed_dot_i8x16_i7x16_s,
        i16x8_relaxed_laneselect, i16x8_relaxed_q15mulr_s, i16x8_shl, i16x8_shr_s, i16x8_shr_u,
        i32x4_all_true, i32x4_bitmask, i32x4_dot_i16x8_s, i32x4_extadd_pairwise_i16x8_s,
        i32x4_extadd_pairwise_i16x8_u, i32x4_extend_high_i16x8_s, i32x4_extend_high_i16x8_u,
        i32x4_extend_low_i16x8_s, i32x4_extend_low_i16x8_u, i32x4_extmul_high_i16x8_s,
        i32x4_extmul_high_i16x8_u, i32x4_extmul_low_i16x8_s, i32x4_extmul_low_i16x8_u,
        i32x4_relaxed_dot_i8x16_i7x16_add_s, i32x4_relaxed_laneselect, i32x4_shl, i32x4_shr_s,
        i32x4_shr_u, i64x2_all_true, i64x2_bitmask, i64x2_extend_high_i32x4_s,
        i64x2_extend_high_i32x4_u, i64x2_extend_low_i32x4_s, i64x2_extend_low_i32x4_u,
        i64x2_extmul_high_i32x4_s, i64x2_extmul_high_i32x4_u, i64x2_extmul_low_i32x4_s,
        i64x2_extmul_low_i32x4_u, i64x2_relaxed_laneselect, i64x2_shl, i64x2_shr_s, i64x2_shr_u,
        v128_any_true, v128_low32_zero, v128_low64_zero, v128_widen8x8_s, v128_widen8x8_u,
        v128_widen16x4_s, v128_widen16x4_u, v128_widen32x2_s, v128_widen32x2_u,
    };

    // Loads and stores.
    pub use crate::proved::vector_access::simd::{
        v128_load, v128_load_at, v128_load8_lane, v128_load8_lane_at, v128_load8_splat,
        v128_load8_splat_at, v128_load8x8_s, v128_load8x8_s_at, v128_load8x8_u, v128_load8x8_u_at,
        v128_load16_lane, v128_load16_lane_at, v128_load16_splat, v128_load16_splat_at,
        v128_load16x4_s, v128_load16x4_s_at, v128_load16x4_u, v128_load16x4_u_at, v128_load32_lane,
        v128_load32_lane_at, v128_load32_splat, v128_load32_splat_at, v128_load32_zero,
        v128_load32_zero_at, v128_load32x2_s, v128_load32x2_s_at, v128_load32x2_u,
        v128_load32x2_u_at, v128_load64_lane, v128_load64_lane_at, v128_load64_splat,
        v128_load64_splat_at, v128_load64_zero, v128_load64_zero_at, v128_store, v128_store_at,
        v128_store8_lane, v128_store8_lane_at, v128_store16_lane, v128_store16_lane_at,
        v128_store32_lane, v128_store32_lane_at, v128_store64_lane, v128_store64_lane_at,
    };
}
pub mod wasm {
    //! The scalar integer instructions, and the loads and stores of the integer types.
    //!
    //! A load or store without `_at` accesses the address `ptr + offset`, one with `_at` the given
    //! address; addresses count bytes. The only error of all 38 is `TrapCode::MemoryOutOfBounds`, if
    //! the access ends past the memory; then nothing is written. Upstream: `wasmi_core::wasm`.

    // Loads and stores.
    pub use crate::proved::accesses::wasm::{
        i32_load8_s, i32_load8_s_at, i32_load8_u, i32_load8_u_at, i32_load16_s, i32_load16_s_at,
        i32_load16_u, i32_load16_u_at, i32_store8, i32_store8_at, i32_store16, i32_store16_at,
        i64_load8_s, i64_load8_s_at, i64_load8_u, i64_load8_u_at, i64_load16_s, i64_load16_s_at,
        i64_load16_u, i64_load16_u_at, i64_load32_s, i64_load32_s_at, i64_load32_u,
        i64_load32_u_at, i64_store8, i64_store8_at, i64_store16, i64_store16_at, i64_store32,
        i64_store32_at, load_u32, load_u32_at, load_u64, load_u64_at, store32, store32_at, store64,
        store64_at,
    };

    // Integer instructions.
    pub use crate::proved::scalar::wasm::{
        i32_add, i32_bitand, i32_bitor, i32_bitxor, i32_clz, i32_ctz, i32_div_s, i32_div_u, i32_eq,
        i32_eqz, i32_extend8_s, i32_extend16_s, i32_ge_s, i32_ge_u, i32_gt_s, i32_gt_u, i32_le_s,
        i32_le_u, i32_lt_s, i32_lt_u, i32_mul, i32_ne, i32_popcnt, i32_rem_s, i32_rem_u, i32_rotl,
        i32_rotr, i32_shl, i32_shr_s, i32_shr_u, i32_sub, i32_wrap_i64, i64_add, i64_add128,
        i64_bitand, i64_bitor, i64_bitxor, i64_clz, i64_ctz, i64_div_s, i64_div_u, i64_eq, i64_eqz,
        i64_extend_i32_s, i64_extend_i32_u, i64_extend8_s, i64_extend16_s, i64_extend32_s,
        i64_ge_s, i64_ge_u, i64_gt_s, i64_gt_u, i64_le_s, i64_le_u, i64_lt_s, i64_lt_u, i64_mul,
        i64_mul_wide_s, i64_mul_wide_u, i64_ne, i64_popcnt, i64_rem_s, i64_rem_u, i64_rotl,
        i64_rotr, i64_shl, i64_shr_s, i64_shr_u, i64_sub, i64_sub128,
    };
}

pub use crate::proved::meter::{
    Amounts, AnswerList, AnyLimiter, CustomFuelCosts, Fuel, FuelCosts, FuelCostsProvider,
    FuelError, Holdings, Kind, Lender, LimiterAnswer, LimiterByKind, LimiterError, LimiterRef,
    MemoryError, NoLimits, Quota, Reserving, ResourceLimiter, ResourceLimiterRef, TableError,
    ValueSize,
};
pub use crate::proved::ops::{
    BinaryOp, ExtractOp, LoadLaneOp, LoadOp, MakeOp, ReplaceOp, ShiftOp, StoreLaneOp, StoreOp,
    TernaryOp, TestOp, UnaryOp, VectorLoadOp,
};
pub use crate::proved::raw::{F32, F64, Number, RawRef, RawVal, ReadAs, ReadBack, V128, WriteAs};
pub use crate::proved::scalar::value::{Integer, SignExtendFrom, Unsigned};
pub use crate::proved::scalar_ops::{ScalarBinaryOp, ScalarUnaryOp};
pub use crate::proved::store::{
    Buffer, ByteBuffer, ElementSegment, ElementSegmentRef, LinearMemory, Memory, MemoryType,
    MemoryTypeBuilder, Region, SegmentError, Table, TableType, growth,
};
pub use crate::proved::typed::{
    Global, GlobalError, GlobalType, IntoShiftAmount, Mutability, NotAReference, ShiftAmount,
    Typed, TypedRawRef, TypedRawVal,
};
pub use crate::proved::types::{
    FuncType, FuncTypeError, HostError, IndexType, InvalidTrapCode, RefType, Trap, TrapCode,
    ValType, hint,
};
