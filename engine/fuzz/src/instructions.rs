//! The instructions on numbers and vectors: their codes are those of `conformance/instructions.txt`, and their types follow from their names.
use crate::module::{Type, Type::*, unsigned};

/// What an instruction has besides its code.
#[derive(Clone, Copy, PartialEq, Eq, Debug)]
pub enum Immediate {
    None,
    /// An access of two to the power of so many bytes.
    Access(u32),
    /// One lane of so many.
    Lane(u8),
    LaneOfAccess(u32, u8),
    Shuffle,
}

/// An instruction. An access takes its address before the other operands.
#[derive(Clone, Debug)]
pub struct Instruction {
    pub code: Vec<u8>,
    pub operands: Vec<Type>,
    pub result: Option<Type>,
    pub immediate: Immediate,
}

/// What instructions on floats do that move bits.
const MOVES: [&str; 9] =
    ["load", "store", "abs", "neg", "copysign", "splat", "extract_lane", "replace_lane", "reinterpret"];

/// All that neither compute with floats nor have results that an implementation may choose.
pub fn instructions() -> Vec<Instruction> {
    let text = include_str!("../../../conformance/instructions.txt");
    let shuffle = Instruction {
        code: vec![0xfd, 13],
        operands: vec![V128, V128],
        result: Some(V128),
        immediate: Immediate::Shuffle,
    };
    let rows = text.lines().filter(|line| !line.starts_with('#')).flat_map(|line| {
        let mut words = line.split(' ');
        let (class, first) = (words.next().unwrap_or(""), words.next().unwrap_or(""));
        words.enumerate().filter_map(move |(place, name)| instruction(class, first, place, name)).collect::<Vec<_>>()
    });
    rows.chain([shuffle]).collect()
}

/// The bytes of a code that is written as `6a` or, with a prefix, as `fd6e`.
fn bytes(first: &str, place: usize) -> Vec<u8> {
    let number = |word: &str| u64::from_str_radix(word, 16).expect("a code") + place as u64;
    if first.len() == 2 {
        return vec![number(first) as u8];
    }
    let mut code = vec![u8::from_str_radix(&first[..2], 16).expect("a prefix")];
    unsigned(&mut code, number(&first[2..]));
    code
}

fn instruction(class: &str, first: &str, place: usize, name: &str) -> Option<Instruction> {
    let (shape, does) = name.split_once('.')?;
    let is_of_floats = ["f32", "f64"].iter().any(|it| name.contains(it));
    if ["relaxed", "ref."].iter().any(|it| name.contains(it))
        || is_of_floats && !MOVES.contains(&does.split("_f").next().unwrap_or(does).split("_i").next().unwrap_or(does))
    {
        return None;
    }
    let (lane, lanes) = match shape {
        "i64" | "i64x2" => (I64, 2),
        "f32" | "f32x4" => (F32, 4),
        "f64" | "f64x2" => (F64, 2),
        "i8x16" => (I32, 16),
        "i16x8" => (I32, 8),
        _ => (I32, 4),
    };
    let (operands, result, immediate) = match class {
        "plain" => plain(shape, does, lane)?,
        "access" => access(shape, does, lane),
        "lane" if does.starts_with("extract") => (vec![V128], Some(lane), Immediate::Lane(lanes)),
        "lane" => (vec![V128, lane], Some(V128), Immediate::Lane(lanes)),
        "lane_access" => {
            let bits = width(does, 128);
            let immediate = Immediate::LaneOfAccess((bits / 8).trailing_zeros(), (128 / bits) as u8);
            (vec![V128], does.starts_with("load").then_some(V128), immediate)
        }
        _ => return None,
    };
    Some(Instruction { code: bytes(first, place), operands, result, immediate })
}

/// The bits that an access moves: `load16_s` 16, `load8x8_s` 64, `load` all.
fn width(does: &str, all: u32) -> u32 {
    let digits = does.trim_start_matches(|it: char| it.is_ascii_alphabetic()).split('_').next().unwrap_or("");
    digits.split('x').map(|it| it.parse::<u32>().unwrap_or(all)).product()
}

fn access(shape: &str, does: &str, scalar: Type) -> (Vec<Type>, Option<Type>, Immediate) {
    let (ty, all) = match shape {
        "v128" => (V128, 128),
        "i64" | "f64" => (scalar, 64),
        _ => (scalar, 32),
    };
    let immediate = Immediate::Access((width(does, all) / 8).trailing_zeros());
    if does.starts_with("load") { (vec![], Some(ty), immediate) } else { (vec![ty], None, immediate) }
}

fn plain(shape: &str, does: &str, lane: Type) -> Option<(Vec<Type>, Option<Type>, Immediate)> {
    let is_vector = shape.contains('x') || shape == "v128";
    let ty = if is_vector { V128 } else { lane };
    let is = |words: &[&str]| words.contains(&does);
    let starts = |words: &[&str]| words.iter().any(|it| does.starts_with(it));
    let (operands, result) = match does {
        "reinterpret_f32" => (vec![F32], I32),
        "reinterpret_f64" => (vec![F64], I64),
        "reinterpret_i32" => (vec![I32], F32),
        "reinterpret_i64" => (vec![I64], F64),
        "wrap_i64" => (vec![I64], I32),
        "extend_i32_s" | "extend_i32_u" => (vec![I32], I64),
        "splat" => (vec![lane], V128),
        "bitselect" => (vec![V128; 3], V128),
        "eqz" | "any_true" | "all_true" | "bitmask" => (vec![ty], I32),
        _ if is(&["clz", "ctz", "popcnt", "not", "abs", "neg"]) || starts(&["extend", "extadd"]) => (vec![ty], ty),
        _ if is_vector && starts(&["shl", "shr"]) => (vec![V128, I32], V128),
        _ if !is_vector && (is(&["eq", "ne"]) || starts(&["lt_", "gt_", "le_", "ge_"])) => (vec![ty, ty], I32),
        _ => (vec![ty, ty], ty),
    };
    Some((operands, Some(result), Immediate::None))
}
