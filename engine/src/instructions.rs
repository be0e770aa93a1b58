//! The instructions: a table of those that the library has, and the form of the code that runs.
//!
//! WebAssembly core specification, 5.4 (opcodes) and 3.4 (types), with the proposals of relaxed vectors and wide arithmetic.
use crate::library::ValType;

/// Hands the table to a macro. Each row has an opcode and the name of the library's function. An opcode with a prefix is
/// `prefix << 12 | number`. A load or store has its number of bytes, an instruction on a lane the number of lanes.
#[rustfmt::skip]
macro_rules! instructions {
    ($then:ident) => {
        $then! {
            unary {
                I32 -> I32 { 0x45 i32_eqz, 0x67 i32_clz, 0x68 i32_ctz, 0x69 i32_popcnt, 0xc0 i32_extend8_s, 0xc1 i32_extend16_s }
                I64 -> I32 { 0x50 i64_eqz, 0xa7 i32_wrap_i64 }
                I32 -> I64 { 0xac i64_extend_i32_s, 0xad i64_extend_i32_u }
                I64 -> I64 { 0x79 i64_clz, 0x7a i64_ctz, 0x7b i64_popcnt, 0xc2 i64_extend8_s, 0xc3 i64_extend16_s, 0xc4 i64_extend32_s }
                I32 -> V128 { 0xfd00f i8x16_splat, 0xfd010 i16x8_splat, 0xfd011 i32x4_splat }
                I64 -> V128 { 0xfd012 i64x2_splat }
                V128 -> I32 {
                    0xfd053 v128_any_true, 0xfd063 i8x16_all_true, 0xfd064 i8x16_bitmask, 0xfd083 i16x8_all_true, 0xfd084 i16x8_bitmask,
                    0xfd0a3 i32x4_all_true, 0xfd0a4 i32x4_bitmask, 0xfd0c3 i64x2_all_true, 0xfd0c4 i64x2_bitmask
                }
                V128 -> V128 {
                    0xfd04d v128_not, 0xfd060 i8x16_abs, 0xfd061 i8x16_neg, 0xfd062 i8x16_popcnt, 0xfd080 i16x8_abs, 0xfd081 i16x8_neg,
                    0xfd0a0 i32x4_abs, 0xfd0a1 i32x4_neg, 0xfd0c0 i64x2_abs, 0xfd0c1 i64x2_neg,
                    0xfd07c i16x8_extadd_pairwise_i8x16_s, 0xfd07d i16x8_extadd_pairwise_i8x16_u,
                    0xfd07e i32x4_extadd_pairwise_i16x8_s, 0xfd07f i32x4_extadd_pairwise_i16x8_u,
                    0xfd087 i16x8_extend_low_i8x16_s, 0xfd088 i16x8_extend_high_i8x16_s, 0xfd089 i16x8_extend_low_i8x16_u,
                    0xfd08a i16x8_extend_high_i8x16_u, 0xfd0a7 i32x4_extend_low_i16x8_s, 0xfd0a8 i32x4_extend_high_i16x8_s,
                    0xfd0a9 i32x4_extend_low_i16x8_u, 0xfd0aa i32x4_extend_high_i16x8_u, 0xfd0c7 i64x2_extend_low_i32x4_s,
                    0xfd0c8 i64x2_extend_high_i32x4_s, 0xfd0c9 i64x2_extend_low_i32x4_u, 0xfd0ca i64x2_extend_high_i32x4_u
                }
            }
            binary {
                I32, I32 -> I32 {
                    0x46 i32_eq, 0x47 i32_ne, 0x48 i32_lt_s, 0x49 i32_lt_u, 0x4a i32_gt_s, 0x4b i32_gt_u, 0x4c i32_le_s, 0x4d i32_le_u,
                    0x4e i32_ge_s, 0x4f i32_ge_u, 0x6a i32_add, 0x6b i32_sub, 0x6c i32_mul, 0x71 i32_bitand, 0x72 i32_bitor,
                    0x73 i32_bitxor, 0x74 i32_shl, 0x75 i32_shr_s, 0x76 i32_shr_u, 0x77 i32_rotl, 0x78 i32_rotr
                }
                I64, I64 -> I32 {
                    0x51 i64_eq, 0x52 i64_ne, 0x53 i64_lt_s, 0x54 i64_lt_u, 0x55 i64_gt_s, 0x56 i64_gt_u, 0x57 i64_le_s, 0x58 i64_le_u,
                    0x59 i64_ge_s, 0x5a i64_ge_u
                }
                I64, I64 -> I64 {
                    0x7c i64_add, 0x7d i64_sub, 0x7e i64_mul, 0x83 i64_bitand, 0x84 i64_bitor, 0x85 i64_bitxor, 0x86 i64_shl,
                    0x87 i64_shr_s, 0x88 i64_shr_u, 0x89 i64_rotl, 0x8a i64_rotr
                }
                V128, I32 -> V128 {
                    0xfd06b i8x16_shl, 0xfd06c i8x16_shr_s, 0xfd06d i8x16_shr_u, 0xfd08b i16x8_shl, 0xfd08c i16x8_shr_s, 0xfd08d i16x8_shr_u,
                    0xfd0ab i32x4_shl, 0xfd0ac i32x4_shr_s, 0xfd0ad i32x4_shr_u, 0xfd0cb i64x2_shl, 0xfd0cc i64x2_shr_s, 0xfd0cd i64x2_shr_u
                }
                V128, V128 -> V128 {
                    0xfd00e i8x16_swizzle, 0xfd100 i8x16_relaxed_swizzle, 0xfd04e v128_and, 0xfd04f v128_andnot, 0xfd050 v128_or, 0xfd051 v128_xor,
                    0xfd023 i8x16_eq, 0xfd024 i8x16_ne, 0xfd025 i8x16_lt_s, 0xfd026 i8x16_lt_u, 0xfd027 i8x16_gt_s, 0xfd028 i8x16_gt_u,
                    0xfd029 i8x16_le_s, 0xfd02a i8x16_le_u, 0xfd02b i8x16_ge_s, 0xfd02c i8x16_ge_u,
                    0xfd02d i16x8_eq, 0xfd02e i16x8_ne, 0xfd02f i16x8_lt_s, 0xfd030 i16x8_lt_u, 0xfd031 i16x8_gt_s, 0xfd032 i16x8_gt_u,
                    0xfd033 i16x8_le_s, 0xfd034 i16x8_le_u, 0xfd035 i16x8_ge_s, 0xfd036 i16x8_ge_u,
                    0xfd037 i32x4_eq, 0xfd038 i32x4_ne, 0xfd039 i32x4_lt_s, 0xfd03a i32x4_lt_u, 0xfd03b i32x4_gt_s, 0xfd03c i32x4_gt_u,
                    0xfd03d i32x4_le_s, 0xfd03e i32x4_le_u, 0xfd03f i32x4_ge_s, 0xfd040 i32x4_ge_u,
                    0xfd0d6 i64x2_eq, 0xfd0d7 i64x2_ne, 0xfd0d8 i64x2_lt_s, 0xfd0d9 i64x2_gt_s, 0xfd0da i64x2_le_s, 0xfd0db i64x2_ge_s,
                    0xfd065 i8x16_narrow_i16x8_s, 0xfd066 i8x16_narrow_i16x8_u, 0xfd085 i16x8_narrow_i32x4_s, 0xfd086 i16x8_narrow_i32x4_u,
                    0xfd06e i8x16_add, 0xfd06f i8x16_add_sat_s, 0xfd070 i8x16_add_sat_u, 0xfd071 i8x16_sub, 0xfd072 i8x16_sub_sat_s,
                    0xfd073 i8x16_sub_sat_u, 0xfd076 i8x16_min_s, 0xfd077 i8x16_min_u, 0xfd078 i8x16_max_s, 0xfd079 i8x16_max_u,
                    0xfd07b i8x16_avgr_u, 0xfd082 i16x8_q15mulr_sat_s, 0xfd111 i16x8_relaxed_q15mulr_s,
                    0xfd112 i16x8_relaxed_dot_i8x16_i7x16_s,
                    0xfd08e i16x8_add, 0xfd08f i16x8_add_sat_s, 0xfd090 i16x8_add_sat_u, 0xfd091 i16x8_sub, 0xfd092 i16x8_sub_sat_s,
                    0xfd093 i16x8_sub_sat_u, 0xfd095 i16x8_mul, 0xfd096 i16x8_min_s, 0xfd097 i16x8_min_u, 0xfd098 i16x8_max_s,
                    0xfd099 i16x8_max_u, 0xfd09b i16x8_avgr_u,
                    0xfd09c i16x8_extmul_low_i8x16_s, 0xfd09d i16x8_extmul_high_i8x16_s, 0xfd09e i16x8_extmul_low_i8x16_u,
                    0xfd09f i16x8_extmul_high_i8x16_u,
                    0xfd0ae i32x4_add, 0xfd0b1 i32x4_sub, 0xfd0b5 i32x4_mul, 0xfd0b6 i32x4_min_s, 0xfd0b7 i32x4_min_u, 0xfd0b8 i32x4_max_s,
                    0xfd0b9 i32x4_max_u, 0xfd0ba i32x4_dot_i16x8_s,
                    0xfd0bc i32x4_extmul_low_i16x8_s, 0xfd0bd i32x4_extmul_high_i16x8_s, 0xfd0be i32x4_extmul_low_i16x8_u,
                    0xfd0bf i32x4_extmul_high_i16x8_u,
                    0xfd0ce i64x2_add, 0xfd0d1 i64x2_sub, 0xfd0d5 i64x2_mul,
                    0xfd0dc i64x2_extmul_low_i32x4_s, 0xfd0dd i64x2_extmul_high_i32x4_s, 0xfd0de i64x2_extmul_low_i32x4_u,
                    0xfd0df i64x2_extmul_high_i32x4_u
                }
            }
            ternary {
                0xfd052 v128_bitselect, 0xfd109 i8x16_relaxed_laneselect, 0xfd10a i16x8_relaxed_laneselect,
                0xfd10b i32x4_relaxed_laneselect, 0xfd10c i64x2_relaxed_laneselect,
                0xfd113 i32x4_relaxed_dot_i8x16_i7x16_add_s
            }
            divide {
                I32 { 0x6d i32_div_s, 0x6e i32_div_u, 0x6f i32_rem_s, 0x70 i32_rem_u }
                I64 { 0x7f i64_div_s, 0x80 i64_div_u, 0x81 i64_rem_s, 0x82 i64_rem_u }
            }
            load {
                I32 { 0x28 load_u32 4, 0x2c i32_load8_s 1, 0x2d i32_load8_u 1, 0x2e i32_load16_s 2, 0x2f i32_load16_u 2 }
                I64 {
                    0x29 load_u64 8, 0x30 i64_load8_s 1, 0x31 i64_load8_u 1, 0x32 i64_load16_s 2, 0x33 i64_load16_u 2,
                    0x34 i64_load32_s 4, 0x35 i64_load32_u 4
                }
                V128 {
                    0xfd000 v128_load 16, 0xfd001 v128_load8x8_s 8, 0xfd002 v128_load8x8_u 8, 0xfd003 v128_load16x4_s 8,
                    0xfd004 v128_load16x4_u 8, 0xfd005 v128_load32x2_s 8, 0xfd006 v128_load32x2_u 8, 0xfd007 v128_load8_splat 1,
                    0xfd008 v128_load16_splat 2, 0xfd009 v128_load32_splat 4, 0xfd00a v128_load64_splat 8, 0xfd05c v128_load32_zero 4,
                    0xfd05d v128_load64_zero 8
                }
            }
            store {
                I32 { 0x36 store32 4, 0x3a i32_store8 1, 0x3b i32_store16 2 }
                I64 { 0x37 store64 8, 0x3c i64_store8 1, 0x3d i64_store16 2, 0x3e i64_store32 4 }
                V128 { 0xfd00b v128_store 16 }
            }
            extract_lane {
                I32 { 0xfd015 i8x16_extract_lane_s 16, 0xfd016 i8x16_extract_lane_u 16, 0xfd018 i16x8_extract_lane_s 8,
                      0xfd019 i16x8_extract_lane_u 8, 0xfd01b i32x4_extract_lane 4 }
                I64 { 0xfd01d i64x2_extract_lane 2 }
            }
            replace_lane {
                I32 { 0xfd017 i8x16_replace_lane 16, 0xfd01a i16x8_replace_lane 8, 0xfd01c i32x4_replace_lane 4 }
                I64 { 0xfd01e i64x2_replace_lane 2 }
            }
            load_lane { 0xfd054 v128_load8_lane 16, 0xfd055 v128_load16_lane 8, 0xfd056 v128_load32_lane 4, 0xfd057 v128_load64_lane 2 }
            store_lane { 0xfd058 v128_store8_lane 16, 0xfd059 v128_store16_lane 8, 0xfd05a v128_store32_lane 4, 0xfd05b v128_store64_lane 2 }
        }
    };
}
pub(crate) use instructions;

macro_rules! codes {
    (
        unary { $($ua:ident -> $ur:ident { $($un:literal $u:ident),* })* }
        binary { $($ba:ident, $bb:ident -> $br:ident { $($bn:literal $b:ident),* })* }
        ternary { $($tn:literal $t:ident),* }
        divide { $($dt:ident { $($dn:literal $d:ident),* })* }
        load { $($lt:ident { $($ln:literal $l:ident $lw:literal),* })* }
        store { $($st:ident { $($sn:literal $s:ident $sw:literal),* })* }
        extract_lane { $($et:ident { $($en:literal $e:ident $el:literal),* })* }
        replace_lane { $($rt:ident { $($rn:literal $r:ident $rl:literal),* })* }
        load_lane { $($lln:literal $ll:ident $lll:literal),* }
        store_lane { $($sln:literal $sl:ident $sll:literal),* }
    ) => {
        /// What an internal instruction does: an instruction of the library by its name there, or one of the engine's own.
        #[derive(Clone, Copy, PartialEq, Eq, Debug)]
        #[repr(u16)]
        #[allow(non_camel_case_types)]
        pub enum Code {
            $($($u,)*)* $($($b,)*)* $($t,)* $($($d,)*)* $($($l,)*)* $($($s,)*)* $($($e,)*)* $($($r,)*)* $($ll,)* $($sl,)*
            // Control: `imm` is the place that is jumped to, the amount of fuel, or the number of values or of a function.
            fuel, branch, branch_if, branch_unless, branch_table, ret, call, call_indirect, return_call, return_call_indirect, host,
            unreachable,
            // A piece of code begins, of which `imm` is the number.
            profile,
            // An instruction that computes with floats: `lane` is its number, `imm` its place in the file.
            float,
            // Values: from slot `a` to slot `d`.
            copy, copy_two, copy_many, set, set_signed, ret_one, ret_many, zero, begin, add_two, add_branch, add_scaled, shift_and,
            and_shift, i32_sub_from, i64_sub_from, select, select_number, select_numbers, global_get, global_set, is_null, ref_func, shuffle, i64_add128, i64_sub128, i64_mul_wide_s,
            i64_mul_wide_u,
            // Memories and tables: `imm` is the number of a memory, table or segment, `lane` that of a second one.
            memory_use, add_offset, memory_size, memory_grow, memory_fill, memory_copy, memory_init, data_drop,
            table_get, table_set, table_size, table_grow, table_fill, table_copy, table_init, elem_drop,
        }

        impl Code {
            const fn found(self) -> Facts {
                use crate::library::ValType::*;
                match self {
                    $($(Code::$u => Facts::of(Kind::Unary, $ua, Some($ur)),)*)*
                    $($(Code::$b => Facts::of(Kind::Binary, $bb, Some($br)),)*)*
                    $(Code::$t => Facts::of(Kind::Ternary, V128, Some(V128)),)*
                    $($(Code::$d => Facts::of(Kind::Binary, $dt, Some($dt)),)*)*
                    $($(Code::$l => Facts::of(Kind::Load, I32, Some($lt)),)*)*
                    $($(Code::$s => Facts::of(Kind::Store, $st, None),)*)*
                    $($(Code::$e => Facts::of(Kind::Extract, V128, Some($et)),)*)*
                    $($(Code::$r => Facts::of(Kind::Replace, $rt, Some(V128)),)*)*
                    $(Code::$ll => Facts::of(Kind::Lane, V128, Some(V128)),)*
                    $(Code::$sl => Facts::of(Kind::Lane, V128, None),)*
                    Code::is_null | Code::add_offset | Code::i64_sub_from => Facts::of(Kind::Own, I64, Some(I64)),
                    Code::add_scaled | Code::shift_and | Code::and_shift | Code::i32_sub_from => Facts::of(Kind::Own, I32, Some(I32)),
                    Code::copy | Code::ref_func | Code::set | Code::set_signed | Code::global_get | Code::select | Code::select_number | Code::select_numbers => {
                        Facts { gives_last: true, has_result: true, ..Facts::NONE }
                    }
                    Code::shuffle | Code::memory_size | Code::memory_grow | Code::table_get | Code::table_size | Code::table_grow => {
                        Facts { has_result: true, is_wide: true, ..Facts::NONE }
                    }
                    _ if self.left().is_some() => Facts { is_wide: true, ..Facts::NONE },
                    _ => Facts::NONE,
                }
            }
        }

        const fn found(opcode: u32) -> Option<(Code, Form)> {
            use crate::library::ValType::*;
            Some(match opcode {
                $($($un => (Code::$u, Form::Plain(&[$ua], $ur)),)*)*
                $($($bn => (Code::$b, Form::Plain(&[$ba, $bb], $br)),)*)*
                $($tn => (Code::$t, Form::Plain(&[V128; 3], V128)),)*
                $($($dn => (Code::$d, Form::Plain(&[$dt, $dt], $dt)),)*)*
                $($($ln => (Code::$l, Form::Access($lw, None, None, Some($lt))),)*)*
                $($($sn => (Code::$s, Form::Access($sw, None, Some($st), None)),)*)*
                $($($en => (Code::$e, Form::Lane($el, &[V128], $et)),)*)*
                $($($rn => (Code::$r, Form::Lane($rl, &[V128, $rt], V128)),)*)*
                $($lln => (Code::$ll, Form::Access(16 / $lll, Some($lll), Some(V128), Some(V128))),)*
                $($sln => (Code::$sl, Form::Access(16 / $sll, Some($sll), Some(V128), None)),)*
                _ => return None,
            })
        }
    };
}
instructions!(codes);

/// What an instruction does, and how it is written in a module.
pub type Row = (Code, Form);

const fn rows<const COUNT: usize>(first: u32) -> [Option<Row>; COUNT] {
    let mut rows = [None; COUNT];
    let mut i = 0;
    while i < COUNT {
        rows[i] = found(first + i as u32);
        i += 1;
    }
    rows
}

/// The rows of opcodes of one byte, and of those of vectors.
static ROWS: [Option<Row>; 256] = rows(0);
static VECTORS: [Option<Row>; 288] = rows(0xfd000);

/// The row of an opcode.
#[inline(always)]
pub fn row(opcode: u32) -> Option<&'static Row> {
    match ROWS.get(opcode as usize) {
        Some(row) => row.as_ref(),
        None => VECTORS.get(opcode.checked_sub(0xfd000)? as usize)?.as_ref(),
    }
}

/// The facts of the library's instructions, which come first.
static FACTS: [Facts; Code::fuel as usize] = {
    let mut facts = [Facts::NONE; _];
    let (first, second) = (rows::<256>(0), rows::<288>(0xfd000));
    let mut i = 0;
    while i < 288 {
        if let Some((code, _)) = second[i] {
            facts[code as usize] = code.found();
        }
        if i < 256
            && let Some((code, _)) = first[i]
        {
            facts[code as usize] = code.found();
        }
        i += 1;
    }
    facts
};

impl Code {
    /// What is to be known of an instruction before a handler is found for it.
    #[inline(always)]
    pub fn facts(self) -> Facts {
        FACTS.get(self as usize).copied().unwrap_or_else(|| self.found())
    }

    /// How many of `a`, `b` and `c`, from `a` on, are slots of an instruction that has no handler: it is left to the loop
    /// (`execute`).
    pub const fn left(self) -> Option<usize> {
        Some(match self {
            Code::memory_fill | Code::memory_copy | Code::memory_init => 3,
            Code::table_fill | Code::table_copy | Code::table_init => 3,
            Code::table_set | Code::table_grow => 2,
            Code::table_get | Code::memory_grow => 1,
            Code::memory_size | Code::table_size | Code::data_drop | Code::elem_drop => 0,
            Code::memory_use | Code::host | Code::profile | Code::float => 0,
            _ => return None,
        })
    }
}

/// Operands, immediates and result of an instruction of the library.
#[derive(Clone, Copy)]
pub enum Form {
    Plain(&'static [ValType], ValType),
    /// With the number of lanes.
    Lane(u8, &'static [ValType], ValType),
    /// Of an address and perhaps a value, with the number of bytes, and of lanes if one is accessed.
    Access(u8, Option<u8>, Option<ValType>, Option<ValType>),
}

/// The kind of an instruction: one of the library by its operands, or one of the engine's own.
#[derive(Clone, Copy, PartialEq, Eq, Debug)]
pub(crate) enum Kind {
    Unary,
    Binary,
    Ternary,
    Load,
    Store,
    Extract,
    Replace,
    Lane,
    Own,
}

/// What is to be known of an instruction before a handler is found for it.
#[derive(Clone, Copy)]
pub(crate) struct Facts {
    pub kind: Kind,
    /// The type of the last operand, and that of the result.
    pub operand: Option<ValType>,
    pub result: Option<ValType>,
    pub has_result: bool,
    /// Whether the low word of the result is handed over to the next instruction.
    pub gives_last: bool,
    /// Whether its operands don't fit into an instruction of 16 bytes.
    pub is_wide: bool,
}

impl Facts {
    pub const NONE: Facts =
        Facts { kind: Kind::Own, operand: None, result: None, has_result: false, gives_last: false, is_wide: false };

    const fn of(kind: Kind, operand: ValType, result: Option<ValType>) -> Facts {
        let scalar = if matches!(result, Some(ValType::V128)) { None } else { result };
        Facts {
            kind,
            operand: Some(operand),
            result: scalar,
            has_result: result.is_some(),
            gives_last: scalar.is_some(),
            is_wide: matches!(kind, Kind::Lane),
        }
    }
}

/// An internal instruction. `d` is the slot of the result in the function's frame, `a`, `b` and `c` are those of operands.
#[derive(Clone, Copy, Debug)]
pub struct Op {
    pub code: Code,
    pub d: u16,
    pub a: u16,
    pub b: u16,
    pub c: u16,
    pub lane: u16,
    pub imm: u32,
}

impl Op {
    pub fn new(code: Code) -> Op {
        Op::of(code, 0)
    }

    pub fn of(code: Code, imm: u32) -> Op {
        Op { code, d: 0, a: 0, b: 0, c: 0, lane: 0, imm }
    }
}
