//! Instructions on floats. Those that move bits or change a sign are done by the library's functions of integers and
//! vectors; those that compute trap when they are executed, since the library has no arithmetic of floats.
//!
//! WebAssembly core specification, 5.4 (opcodes) and 3.4 (types), with the proposal of relaxed vectors.

use crate::instructions::{Code, Form};
use crate::library::HostError;
use crate::library::ValType::{self, *};
use std::fmt;

/// Why a guest stops that came to an instruction which computes with floats.
#[derive(Clone, Copy, Debug, PartialEq, Eq)]
pub struct FloatInstruction {
    /// The instruction's name in WebAssembly's text format.
    pub name: &'static str,
    /// The byte of the module's file at which it begins.
    pub offset: usize,
}

impl fmt::Display for FloatInstruction {
    fn fmt(&self, f: &mut fmt::Formatter<'_>) -> fmt::Result {
        write!(f, "{} at offset {}: there is no arithmetic of floats", self.name, self.offset)
    }
}

impl HostError for FloatInstruction {}

/// Instructions of one type, with opcodes in a row from the first one on.
struct Row {
    first: u32,
    names: &'static [&'static str],
    operands: &'static [ValType],
    result: ValType,
}

macro_rules! rows {
    ($($first:literal $($operand:ident)+ -> $result:ident { $($shape:ident.$does:ident)+ })*) => {
        &[$(Row {
            first: $first,
            names: &[$(concat!(stringify!($shape), ".", stringify!($does))),+],
            operands: &[$($operand),+],
            result: $result,
        }),*]
    };
}

/// The instructions that compute.
#[rustfmt::skip]
const ROWS: &[Row] = rows! {
    0x5b F32 F32 -> I32 { f32.eq f32.ne f32.lt f32.gt f32.le f32.ge }
    0x61 F64 F64 -> I32 { f64.eq f64.ne f64.lt f64.gt f64.le f64.ge }
    0x8d F32 -> F32 { f32.ceil f32.floor f32.trunc f32.nearest f32.sqrt }
    0x92 F32 F32 -> F32 { f32.add f32.sub f32.mul f32.div f32.min f32.max }
    0x9b F64 -> F64 { f64.ceil f64.floor f64.trunc f64.nearest f64.sqrt }
    0xa0 F64 F64 -> F64 { f64.add f64.sub f64.mul f64.div f64.min f64.max }
    0xa8 F32 -> I32 { i32.trunc_f32_s i32.trunc_f32_u }
    0xaa F64 -> I32 { i32.trunc_f64_s i32.trunc_f64_u }
    0xae F32 -> I64 { i64.trunc_f32_s i64.trunc_f32_u }
    0xb0 F64 -> I64 { i64.trunc_f64_s i64.trunc_f64_u }
    0xb2 I32 -> F32 { f32.convert_i32_s f32.convert_i32_u }
    0xb4 I64 -> F32 { f32.convert_i64_s f32.convert_i64_u }
    0xb6 F64 -> F32 { f32.demote_f64 }
    0xb7 I32 -> F64 { f64.convert_i32_s f64.convert_i32_u }
    0xb9 I64 -> F64 { f64.convert_i64_s f64.convert_i64_u }
    0xbb F32 -> F64 { f64.promote_f32 }
    0xfc000 F32 -> I32 { i32.trunc_sat_f32_s i32.trunc_sat_f32_u }
    0xfc002 F64 -> I32 { i32.trunc_sat_f64_s i32.trunc_sat_f64_u }
    0xfc004 F32 -> I64 { i64.trunc_sat_f32_s i64.trunc_sat_f32_u }
    0xfc006 F64 -> I64 { i64.trunc_sat_f64_s i64.trunc_sat_f64_u }
    0xfd041 V128 V128 -> V128 {
        f32x4.eq f32x4.ne f32x4.lt f32x4.gt f32x4.le f32x4.ge f64x2.eq f64x2.ne f64x2.lt f64x2.gt f64x2.le f64x2.ge
    }
    0xfd05e V128 -> V128 { f32x4.demote_f64x2_zero f64x2.promote_low_f32x4 }
    0xfd067 V128 -> V128 { f32x4.ceil f32x4.floor f32x4.trunc f32x4.nearest }
    0xfd074 V128 -> V128 { f64x2.ceil f64x2.floor }
    0xfd07a V128 -> V128 { f64x2.trunc }
    0xfd094 V128 -> V128 { f64x2.nearest }
    0xfd0e3 V128 -> V128 { f32x4.sqrt }
    0xfd0e4 V128 V128 -> V128 {
        f32x4.add f32x4.sub f32x4.mul f32x4.div f32x4.min f32x4.max f32x4.pmin f32x4.pmax
    }
    0xfd0ef V128 -> V128 { f64x2.sqrt }
    0xfd0f0 V128 V128 -> V128 {
        f64x2.add f64x2.sub f64x2.mul f64x2.div f64x2.min f64x2.max f64x2.pmin f64x2.pmax
    }
    0xfd0f8 V128 -> V128 {
        i32x4.trunc_sat_f32x4_s i32x4.trunc_sat_f32x4_u f32x4.convert_i32x4_s f32x4.convert_i32x4_u
        i32x4.trunc_sat_f64x2_s_zero i32x4.trunc_sat_f64x2_u_zero f64x2.convert_low_i32x4_s f64x2.convert_low_i32x4_u
    }
    0xfd101 V128 -> V128 {
        i32x4.relaxed_trunc_f32x4_s i32x4.relaxed_trunc_f32x4_u i32x4.relaxed_trunc_f64x2_s_zero
        i32x4.relaxed_trunc_f64x2_u_zero
    }
    0xfd105 V128 V128 V128 -> V128 { f32x4.relaxed_madd f32x4.relaxed_nmadd f64x2.relaxed_madd f64x2.relaxed_nmadd }
    0xfd10d V128 V128 -> V128 { f32x4.relaxed_min f32x4.relaxed_max f64x2.relaxed_min f64x2.relaxed_max }
};

/// What becomes of an instruction on floats.
pub(crate) enum Meaning {
    /// It computes: the number that [`name`] takes, with operands and result.
    Computes(u16, Form),
    /// It moves bits, as this instruction does for integers of the same width.
    Moves(Code, Form),
    /// It changes the sign of a value of this type: this instruction does, with the value and a constant.
    Sign(Code, ValType, u128),
    /// It gives the first of two values of this type the sign of the second one: the conjunction and the disjunction of
    /// the type's width, and the bit of the sign.
    CopiesSign(Code, Code, ValType, u128),
    /// It gives a value another type.
    Reinterprets(ValType, ValType),
    /// It is a constant.
    Constant(ValType),
}

/// The signs of the lanes of a vector.
const F32X4_SIGNS: u128 = 0x8000_0000_8000_0000_8000_0000_8000_0000;
const F64X2_SIGNS: u128 = 0x8000_0000_0000_0000_8000_0000_0000_0000;

/// What becomes of an opcode, if it is one of an instruction on floats.
pub(crate) fn meaning(opcode: u32) -> Option<Meaning> {
    use Meaning::*;
    Some(match opcode {
        0x43 => Constant(F32),
        0x44 => Constant(F64),
        0x2a => Moves(Code::load_u32, Form::Access(4, None, None, Some(F32))),
        0x2b => Moves(Code::load_u64, Form::Access(8, None, None, Some(F64))),
        0x38 => Moves(Code::store32, Form::Access(4, None, Some(F32), None)),
        0x39 => Moves(Code::store64, Form::Access(8, None, Some(F64), None)),
        0xfd013 => Moves(Code::i32x4_splat, Form::Plain(&[F32], V128)),
        0xfd014 => Moves(Code::i64x2_splat, Form::Plain(&[F64], V128)),
        0xfd01f => Moves(Code::i32x4_extract_lane, Form::Lane(4, &[V128], F32)),
        0xfd020 => Moves(Code::i32x4_replace_lane, Form::Lane(4, &[V128, F32], V128)),
        0xfd021 => Moves(Code::i64x2_extract_lane, Form::Lane(2, &[V128], F64)),
        0xfd022 => Moves(Code::i64x2_replace_lane, Form::Lane(2, &[V128, F64], V128)),
        0x8b => Sign(Code::i32_bitand, F32, 0x7fff_ffff),
        0x8c => Sign(Code::i32_bitxor, F32, 0x8000_0000),
        0x98 => CopiesSign(Code::i32_bitand, Code::i32_bitor, F32, 0x8000_0000),
        0x99 => Sign(Code::i64_bitand, F64, 0x7fff_ffff_ffff_ffff),
        0x9a => Sign(Code::i64_bitxor, F64, 0x8000_0000_0000_0000),
        0xa6 => CopiesSign(Code::i64_bitand, Code::i64_bitor, F64, 0x8000_0000_0000_0000),
        0xfd0e0 => Sign(Code::v128_and, V128, !F32X4_SIGNS),
        0xfd0e1 => Sign(Code::v128_xor, V128, F32X4_SIGNS),
        0xfd0ec => Sign(Code::v128_and, V128, !F64X2_SIGNS),
        0xfd0ed => Sign(Code::v128_xor, V128, F64X2_SIGNS),
        0xbc => Reinterprets(F32, I32),
        0xbd => Reinterprets(F64, I64),
        0xbe => Reinterprets(I32, F32),
        0xbf => Reinterprets(I64, F64),
        _ => return computing(opcode),
    })
}

fn computing(opcode: u32) -> Option<Meaning> {
    let place = |row: &Row| opcode.checked_sub(row.first).filter(|place| (*place as usize) < row.names.len());
    let (number, row, place) = (0..).zip(ROWS).find_map(|(number, row)| Some((number, row, place(row)?)))?;
    Some(Meaning::Computes(number << 8 | place as u16, Form::Plain(row.operands, row.result)))
}

/// The name of an instruction that computes.
pub(crate) fn name(number: u16) -> &'static str {
    ROWS[usize::from(number >> 8)].names[usize::from(number & 0xff)]
}
