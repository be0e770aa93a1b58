//! The calls of scripts and of C, a row for each, what a machine replies to them, and every function of the crate that a
//! line can name, in a table for each command.
#[cfg(feature = "library")]
use crate::archives::PlainCall;
use crate::operands::{Operand, Words};
use crate::random::Random;
#[cfg(feature = "library")]
use crate::structs::Member;
use wasmi_core::{
    FuelError, GlobalError, GlobalType, MemoryError, MemoryType, RawRef, RawVal, ReadAs, RefType, TableError,
    TableType, TrapCode, TypedRawRef, TypedRawVal, V128,
};
#[cfg(feature = "library")]
use wasmi_core_proved::machine;

/// The crate's scalar functions, and those that it lacks.
mod wasm {
    pub use wasmi_core::wasm::*;
}

/// The crate's vector functions, and those that it lacks.
mod simd {
    pub use wasmi_core::simd::*;
}

/// Makes of the rows the enum `Call`, what reads and what draws a command, and what reads a struct of C.
///
/// A row has what the command begins with, the variant, and the type of each field, in the order in which the command writes
/// them. Before that a call that C has too has its kind, and after the type of a field the member of `PlainCall` that the
/// field is made of. A field without a member is part of another field there.
macro_rules! calls {
    (
        in C and in scripts:
        $($kind:literal $word:literal $name:ident
            $(($only:ty = $from:ident))? $({ $($field:ident: $type:ty $(= $member:ident)?),* $(,)? })?;)*
        in scripts alone:
        $($own_word:literal $own_name:ident $(($own_only:ty))? $({ $($own_field:ident: $own_type:ty),* $(,)? })?;)*
    ) => {
        pub enum Call {
            $($name $(($only))? $({ $($field: $type),* })?,)*
            $($own_name $(($own_only))? $({ $($own_field: $own_type),* })?,)*
        }

        /// The call of a command that begins with these words, with the operands that the words after them write.
        #[inline(always)]
        pub fn command(begin: &[u8], words: &mut Words<'_>) -> Option<Call> {
            Some(match begin {
                $($word => Call::$name $((<$only>::read(words)?))? $({ $($field: <$type>::read(words)?),* })?,)*
                $($own_word => Call::$own_name
                    $((<$own_only>::read(words)?))? $({ $($own_field: <$own_type>::read(words)?),* })?,)*
                _ => return None,
            })
        }

        /// What each command begins with, and what draws the words after that.
        #[allow(unused_variables, reason = "a call without fields draws nothing")]
        pub const COMMANDS: &[(&[u8], fn(&mut Random) -> String)] = &[
            $(($word, |random| String::new() $(+ &<$only>::draw(random))? $($(+ &<$type>::draw(random))*)?),)*
            $(($own_word, |random| {
                String::new() $(+ &<$own_only>::draw(random))? $($(+ &<$own_type>::draw(random))*)?
            }),)*
        ];

        /// What makes a call of the Rust crate's machine of a struct of C, by the kind of the struct. Where several rows have
        /// one kind, the first that makes a call counts.
        #[cfg(feature = "library")]
        #[allow(unused_variables, reason = "a call without fields reads nothing")]
        pub const IN_C: &[(u16, fn(&PlainCall) -> Option<machine::Call>)] = &[$(($kind, |it| {
            Some(machine::Call::$name
                $((it.$from.operand(it)?))? $({ $($($field: it.$member.operand(it)?,)?)* })?)
        })),*];
    };
}

calls! {
    in C and in scripts:
    0 b"fuel" SetFuel(u64 = count);
    1 b"left" GetFuel;
    2 b"memory" NewMemory(MemoryType = count);
    3 b"grow" GrowMemory { memory: usize = index, pages: u64 = count };
    4 b"drop memory" DropMemory(usize = index);
    5 b"load" Load { op: Load = op, memory: usize = index, ptr: u64 = ptr, offset: u64 = offset };
    5 b"vload" VectorLoad {
        op: VectorLoad = op, dst: u8 = dst, memory: usize = index, ptr: u64 = ptr, offset: u64 = offset,
    };
    6 b"store" Store {
        op: Store = op, memory: usize = index, ptr: u64 = ptr, offset: u64 = offset, value: u64 = value,
    };
    6 b"vstore" VectorStore { a: u8 = a, memory: usize = index, ptr: u64 = ptr, offset: u64 = offset };
    7 b"vloadlane" LoadLane {
        op: LoadLane = op, dst: u8 = dst, a: u8 = a, lane: u8, memory: usize = index, ptr: u64 = ptr, offset: u64 = offset,
    };
    8 b"vstorelane" StoreLane {
        op: StoreLane = op, a: u8 = a, lane: u8, memory: usize = index, ptr: u64 = ptr, offset: u64 = offset,
    };
    9 b"table" NewTable { ty: TableType = count, init: TypedRawRef = reference };
    10 b"tgrow" GrowTable { table: usize = index, delta: u64 = count, init: TypedRawRef = reference };
    11 b"drop table" DropTable(usize = index);
    12 b"get" GetElement { table: usize = index, index: u64 = to };
    13 b"tset" SetElement { table: usize = index, index: u64 = to, value: TypedRawRef = reference };
    14 b"init" InitTable {
        table: usize = index, segment: usize = source, dst: u64 = to, src: u32 = from, len: u32 = count,
    };
    15 b"copy" CopyTable {
        dst_table: usize = index, dst: u64 = to, src_table: usize = source, src: u64 = from, len: u64 = count,
    };
    16 b"fill" FillTable { table: usize = index, dst: u64 = to, value: TypedRawRef = reference, len: u64 = count };
    17 b"empty" DropItems(usize = index);
    18 b"global" NewGlobal { ty: GlobalType = is_mutable, value: RawVal = value };
    19 b"gset" SetGlobal { global: usize = index, value: TypedRawVal = value };
    20 b"gget" GetGlobal(usize = index);
    21 b"set" SetRegister { dst: u8 = dst, value: RawVal = value };
    22 b"show" GetRegister(u8 = a);
    23 b"make" Make { op: Make = op, dst: u8 = dst, a: u8 = a };
    23 b"unary" Unary { op: Unary = op, dst: u8 = dst, a: u8 = a };
    23 b"test" Test { op: Test = op, a: u8 = a };
    24 b"binary" Binary { op: Binary = op, dst: u8 = dst, a: u8 = a, b: u8 = b };
    24 b"shift" Shift { op: Shift = op, dst: u8 = dst, a: u8 = a, amount: u32 = count };
    25 b"ternary" Ternary { op: Ternary = op, dst: u8 = dst, a: u8 = a, b: u8 = b, c: u8 = c };
    26 b"extract" Extract { op: Extract = op, a: u8 = a, lane: u8 };
    27 b"replace" Replace { op: Replace = op, dst: u8 = dst, a: u8 = a, lane: u8, item: u8 = b };
    28 b"shuffle" Shuffle { dst: u8 = dst, a: u8 = a, b: u8 = b, lanes: [u8; 16] = lanes };
    29 b"mfill" FillMemory { memory: usize = index, dst: u64 = to, value: u8 = value, len: u64 = count };
    30 b"mcopy" CopyMemory {
        dst_memory: usize = index, dst: u64 = to, src_memory: usize = source, src: u64 = from, len: u64 = count,
    };
    31 b"minit" InitMemory {
        memory: usize = index, segment: usize = source, dst: u64 = to, src: u32 = from, len: u32 = count,
    };
    32 b"dempty" DropData(usize = index);

    in scripts alone:
    b"lent" NewLentMemory(MemoryType);
    b"read" Read { memory: usize, offset: usize, len: usize };
    b"write" Write { memory: usize, offset: usize, bytes: Vec<u8> };
    b"segment" NewSegment { ty: RefType, items: Vec<RawRef> };
    b"data" NewData(Vec<u8>);
}

pub enum Reply {
    Done,
    Made(&'static str, usize),
    Value(RawVal),
    Number(u64),
    Bytes(Vec<u8>),
    Reference(Option<TypedRawRef>),
    Memory(MemoryError),
    Table(TableError),
    Fuel(FuelError),
    Global(GlobalError),
    Trap(TrapCode),
    /// What is printed where the Rust crate has no error for it.
    Said(&'static str),
}
macro_rules! reply_from { ($($e:ty => $v:ident),*) => { $(impl From<$e> for Reply { fn from(e: $e) -> Self { Reply::$v(e) } })* } }
reply_from! { MemoryError => Memory, TableError => Table, FuelError => Fuel, GlobalError => Global, TrapCode => Trap }

macro_rules! direct {
    ($vis:vis $table:ident: $ty:ty = $($n:ident)*) => {
        $vis const $table: &[(&str, $ty)] = &[$((stringify!($n), simd::$n as $ty)),*];
    };
}

pub type Make = fn(RawVal) -> V128;
pub type Unary = fn(V128) -> V128;
pub type Binary = fn(V128, V128) -> V128;
pub type Ternary = fn(V128, V128, V128) -> V128;
pub type Shift = fn(V128, u32) -> V128;
pub type Test = fn(V128) -> RawVal;
pub type Extract = fn(V128, u8) -> Option<RawVal>;
pub type Replace = fn(V128, u8, RawVal) -> Option<V128>;
pub type VectorLoad = fn(&[u8], u64, u64) -> Result<V128, TrapCode>;
pub type LoadLane = fn(&[u8], u64, u64, V128, u8) -> Option<Result<V128, TrapCode>>;
pub type StoreLane = fn(&mut [u8], u64, u64, V128, u8) -> Option<Result<(), TrapCode>>;

// The bench times loads and stores, which a machine would have as values and not behind pointers.
macro_rules! loads { ($($n:ident)*) => {
    #[allow(non_camel_case_types)]
    #[derive(Copy, Clone)]
    pub enum Load { $($n),* }

    impl Load {
        #[inline(always)]
        pub fn load(self, memory: &[u8], ptr: u64, offset: u64) -> Result<RawVal, TrapCode> {
            match self { $(Self::$n => wasm::$n(memory, ptr, offset).map(RawVal::from)),* }
        }
    }

    pub const LOAD: &[(&str, Load)] = &[$((stringify!($n), Load::$n)),*];
}}
loads! { i32_load8_s i32_load8_u i32_load16_s i32_load16_u i64_load8_s i64_load8_u i64_load16_s
i64_load16_u i64_load32_s i64_load32_u load_u32 load_u64 }

macro_rules! stores { ($($n:ident)*) => {
    #[allow(non_camel_case_types)]
    #[derive(Copy, Clone)]
    pub enum Store { $($n),* }

    impl Store {
        #[inline(always)]
        pub fn store(self, memory: &mut [u8], ptr: u64, offset: u64, value: RawVal) -> Result<(), TrapCode> {
            match self { $(Self::$n => wasm::$n(memory, ptr, offset, value.read_as())),* }
        }
    }

    pub const STORE: &[(&str, Store)] = &[$((stringify!($n), Store::$n)),*];
}}
stores! { i32_store8 i32_store16 i64_store8 i64_store16 i64_store32 store32 store64 }

macro_rules! makes { ($($n:ident)*) => {
    pub const MAKE: &[(&str, Make)] = &[$((stringify!($n), |r| simd::$n(r.read_as()))),*];
}}
makes! { i8x16_splat i16x8_splat i32x4_splat i64x2_splat v128_low32_zero v128_low64_zero
v128_widen8x8_s v128_widen8x8_u v128_widen16x4_s v128_widen16x4_u v128_widen32x2_s v128_widen32x2_u }

direct! { pub UNARY: Unary =
    i8x16_neg i16x8_neg i32x4_neg i64x2_neg i8x16_abs i16x8_abs i32x4_abs i64x2_abs v128_not i8x16_popcnt
    i16x8_extend_low_i8x16_s i16x8_extend_low_i8x16_u i32x4_extend_low_i16x8_s i32x4_extend_low_i16x8_u
    i64x2_extend_low_i32x4_s i64x2_extend_low_i32x4_u
    i16x8_extend_high_i8x16_s i16x8_extend_high_i8x16_u i32x4_extend_high_i16x8_s i32x4_extend_high_i16x8_u
    i64x2_extend_high_i32x4_s i64x2_extend_high_i32x4_u
    i16x8_extadd_pairwise_i8x16_s i16x8_extadd_pairwise_i8x16_u
    i32x4_extadd_pairwise_i16x8_s i32x4_extadd_pairwise_i16x8_u
}

direct! { pub BINARY: Binary =
    i8x16_add i16x8_add i32x4_add i64x2_add i8x16_sub i16x8_sub i32x4_sub i64x2_sub
    i8x16_mul i16x8_mul i32x4_mul i64x2_mul
    i8x16_add_sat_s i8x16_add_sat_u i16x8_add_sat_s i16x8_add_sat_u
    i8x16_sub_sat_s i8x16_sub_sat_u i16x8_sub_sat_s i16x8_sub_sat_u
    i16x8_q15mulr_sat_s
    i8x16_min_s i8x16_min_u i8x16_max_s i8x16_max_u i16x8_min_s i16x8_min_u i16x8_max_s i16x8_max_u
    i32x4_min_s i32x4_min_u i32x4_max_s i32x4_max_u
    i8x16_avgr_u i16x8_avgr_u
    v128_and v128_or v128_xor v128_andnot
    i8x16_eq i16x8_eq i32x4_eq i64x2_eq i8x16_ne i16x8_ne i32x4_ne i64x2_ne
    i8x16_lt_s i16x8_lt_s i32x4_lt_s i64x2_lt_s i8x16_lt_u i16x8_lt_u i32x4_lt_u
    i8x16_le_s i16x8_le_s i32x4_le_s i64x2_le_s i8x16_le_u i16x8_le_u i32x4_le_u
    i8x16_gt_s i16x8_gt_s i32x4_gt_s i64x2_gt_s i8x16_gt_u i16x8_gt_u i32x4_gt_u
    i8x16_ge_s i16x8_ge_s i32x4_ge_s i64x2_ge_s i8x16_ge_u i16x8_ge_u i32x4_ge_u
    i8x16_swizzle
    i16x8_extmul_low_i8x16_s i16x8_extmul_low_i8x16_u i32x4_extmul_low_i16x8_s i32x4_extmul_low_i16x8_u
    i64x2_extmul_low_i32x4_s i64x2_extmul_low_i32x4_u
    i16x8_extmul_high_i8x16_s i16x8_extmul_high_i8x16_u i32x4_extmul_high_i16x8_s i32x4_extmul_high_i16x8_u
    i64x2_extmul_high_i32x4_s i64x2_extmul_high_i32x4_u
    i8x16_narrow_i16x8_s i8x16_narrow_i16x8_u i16x8_narrow_i32x4_s i16x8_narrow_i32x4_u
    i32x4_dot_i16x8_s i16x8_relaxed_dot_i8x16_i7x16_s
    i8x16_relaxed_swizzle i16x8_relaxed_q15mulr_s
}

direct! { pub TERNARY: Ternary =
    v128_bitselect i8x16_relaxed_laneselect i16x8_relaxed_laneselect i32x4_relaxed_laneselect
    i64x2_relaxed_laneselect i32x4_relaxed_dot_i8x16_i7x16_add_s
}

direct! { pub SHIFT: Shift =
    i8x16_shl i16x8_shl i32x4_shl i64x2_shl i8x16_shr_s i16x8_shr_s i32x4_shr_s i64x2_shr_s
    i8x16_shr_u i16x8_shr_u i32x4_shr_u i64x2_shr_u
}

macro_rules! tests { ($($n:ident)*) => {
    pub const TEST: &[(&str, Test)] = &[$((stringify!($n), |v| RawVal::from(simd::$n(v)))),*];
}}
tests! { v128_any_true i8x16_all_true i16x8_all_true i32x4_all_true i64x2_all_true
i8x16_bitmask i16x8_bitmask i32x4_bitmask i64x2_bitmask }

macro_rules! extracts { ($($n:ident)*) => {
    pub const EXTRACT: &[(&str, Extract)] =
        &[$((stringify!($n), |v, l| l.try_into().ok().map(|l| RawVal::from(simd::$n(v, l))))),*];
}}
extracts! { i8x16_extract_lane_s i8x16_extract_lane_u i16x8_extract_lane_s i16x8_extract_lane_u
i32x4_extract_lane i64x2_extract_lane }

macro_rules! replaces { ($($n:ident)*) => {
    pub const REPLACE: &[(&str, Replace)] =
        &[$((stringify!($n), |v, l, x| l.try_into().ok().map(|l| simd::$n(v, l, x.read_as())))),*];
}}
replaces! { i8x16_replace_lane i16x8_replace_lane i32x4_replace_lane i64x2_replace_lane }

direct! { pub VECTOR_LOAD: VectorLoad =
    v128_load v128_load8_splat v128_load16_splat v128_load32_splat v128_load64_splat
    v128_load32_zero v128_load64_zero
    v128_load8x8_s v128_load8x8_u v128_load16x4_s v128_load16x4_u v128_load32x2_s v128_load32x2_u
}

macro_rules! load_lanes { ($($n:ident)*) => {
    pub const LOAD_LANE: &[(&str, LoadLane)] =
        &[$((stringify!($n), |m, p, o, v, l| l.try_into().ok().map(|l| simd::$n(m, p, o, v, l)))),*];
}}
load_lanes! { v128_load8_lane v128_load16_lane v128_load32_lane v128_load64_lane }

macro_rules! store_lanes { ($($n:ident)*) => {
    pub const STORE_LANE: &[(&str, StoreLane)] =
        &[$((stringify!($n), |m, p, o, v, l| l.try_into().ok().map(|l| simd::$n(m, p, o, v, l)))),*];
}}
store_lanes! { v128_store8_lane v128_store16_lane v128_store32_lane v128_store64_lane }

pub fn find<T: Copy>(table: &[(&str, T)], name: &[u8]) -> Option<T> {
    table.iter().find(|(n, _)| n.as_bytes() == name).map(|&(_, f)| f)
}

/// Each command that names a vector instruction, with the name, in a fixed order.
pub fn vector_instructions() -> Vec<(&'static str, &'static str)> {
    let mut rows = Vec::new();
    macro_rules! push {
        ($($word:literal $table:ident)*) => { $(rows.extend($table.iter().map(|(name, _)| ($word, *name)));)* };
    }
    push! {
        "make" MAKE "unary" UNARY "binary" BINARY "ternary" TERNARY "shift" SHIFT "test" TEST "extract" EXTRACT
        "replace" REPLACE "vload" VECTOR_LOAD "vloadlane" LOAD_LANE "vstorelane" STORE_LANE
    }
    rows
}
