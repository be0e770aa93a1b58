//! The call of the Rust crate's machine that a call of include/wasmi_machine.h stands for, by the rows of `calls`.
use crate::archives::{PlainCall, Words};
use crate::calls::{IN_C, find};
use crate::instructions::here;
use std::collections::HashMap;
use std::sync::LazyLock;
use wasmi_core_proved::machine::{Call, ImmLaneIdx32};
use wasmi_core_proved::ops::*;
use wasmi_core_proved::{
    GlobalType, MemoryType, Mutability, RawRef, RawVal, RefType, TableType, TypedRawRef, TypedRawVal, ValType,
};

/// The names of instructions by their kinds and numbers.
static NAMES: LazyLock<HashMap<(&str, u16), &str>> =
    LazyLock::new(|| here::functions::<0>().iter().map(|it| ((it.kind, it.number), it.name)).collect());

/// A row for each number of the headers: its kind, the number and its name.
pub const NUMBERS: &str = include_str!("../../../include/numbers.tsv");

/// How many kinds of calls the headers have: the numbers from this one on stand for none.
pub fn kinds() -> u64 {
    NUMBERS.lines().filter(|row| row.starts_with("call\t")).count() as u64
}

/// None if there is no such call.
pub fn call_of(it: &PlainCall) -> Option<Call> {
    let call = IN_C.iter().filter(|(kind, _)| *kind == it.kind).find_map(|(_, made)| made(it))?;
    // The row of the one store that is in no list doesn't look at its number.
    let is_vector_store = NAMES.get(&("store", it.op)) == Some(&"v128_store");
    (!matches!(call, Call::VectorStore { .. }) || is_vector_store).then_some(call)
}

/// The instruction in a list that has the number of a kind.
fn op_at<T: Copy>(kind: &str, number: u16, list: &[(&str, T)]) -> Option<T> {
    find(list, NAMES.get(&(kind, number))?.as_bytes())
}

fn val_type(number: u8) -> Option<ValType> {
    use ValType::{ExternRef, F32, F64, FuncRef, I32, I64};
    [I32, I64, F32, F64, ValType::V128, FuncRef, ExternRef].get(usize::from(number)).copied()
}

pub fn reference_type(number: u8) -> Option<RefType> {
    match number {
        5 => Some(RefType::Func),
        6 => Some(RefType::Extern),
        _ => None,
    }
}

fn maximum(call: &PlainCall) -> Option<u64> {
    (call.has_maximum != 0).then_some(call.maximum)
}

/// A member of a struct, as an operand of the type `T`, which other members may belong to; none if it stands for none.
pub trait Member<T> {
    fn operand(self, call: &PlainCall) -> Option<T>;
}

macro_rules! as_it_is {
    ($($type:ty)*) => { $(
        impl Member<$type> for $type {
            fn operand(self, _: &PlainCall) -> Option<$type> {
                Some(self)
            }
        }
    )* };
}
as_it_is! { u8 u64 usize }

impl Member<u32> for u64 {
    fn operand(self, _: &PlainCall) -> Option<u32> {
        self.try_into().ok()
    }
}

impl Member<RawVal> for Words {
    fn operand(self, _: &PlainCall) -> Option<RawVal> {
        Some(self.into())
    }
}

/// The lowest byte.
impl Member<u8> for Words {
    fn operand(self, _: &PlainCall) -> Option<u8> {
        Some(self.lo as u8)
    }
}

impl Member<TypedRawVal> for Words {
    fn operand(self, call: &PlainCall) -> Option<TypedRawVal> {
        Some(TypedRawVal::new(val_type(call.ty)?, self.into()))
    }
}

impl Member<TypedRawRef> for u32 {
    fn operand(self, call: &PlainCall) -> Option<TypedRawRef> {
        Some(TypedRawRef::new(RawRef::from(self), reference_type(call.ty)?))
    }
}

impl Member<GlobalType> for u8 {
    fn operand(self, call: &PlainCall) -> Option<GlobalType> {
        let mutability = if self == 0 { Mutability::Const } else { Mutability::Var };
        Some(GlobalType::new(val_type(call.ty)?, mutability))
    }
}

impl Member<MemoryType> for u64 {
    fn operand(self, call: &PlainCall) -> Option<MemoryType> {
        let mut builder = MemoryType::builder();
        builder.min(self).max(maximum(call)).page_size_log2(call.page_size_log2).memory64(call.is_64 != 0);
        builder.build().ok()
    }
}

impl Member<TableType> for u64 {
    fn operand(self, call: &PlainCall) -> Option<TableType> {
        let (element, maximum) = (reference_type(call.ty)?, maximum(call));
        if maximum.is_some_and(|most| most < self) {
            return None;
        }
        if call.is_64 != 0 {
            return Some(TableType::new64(element, self, maximum));
        }
        let maximum = match maximum {
            Some(most) => Some(most.try_into().ok()?),
            None => None,
        };
        Some(TableType::new(element, self.try_into().ok()?, maximum))
    }
}

impl Member<[ImmLaneIdx32; 16]> for [u8; 16] {
    fn operand(self, _: &PlainCall) -> Option<[ImmLaneIdx32; 16]> {
        let lanes: Vec<_> = self.into_iter().map_while(|lane| lane.try_into().ok()).collect();
        lanes.try_into().ok()
    }
}

macro_rules! instructions {
    ($($type:ty: $kind:literal $list:ident;)*) => { $(
        impl Member<$type> for u16 {
            fn operand(self, _: &PlainCall) -> Option<$type> {
                op_at($kind, self, &$list)
            }
        }
    )* };
}
instructions! {
    LoadOp: "load" LOADS; VectorLoadOp: "load" VECTOR_LOADS; StoreOp: "store" STORES;
    MakeOp: "unary" MAKES; UnaryOp: "unary" UNARIES; TestOp: "unary" TESTS;
    BinaryOp: "binary" BINARIES; ShiftOp: "binary" SHIFTS; TernaryOp: "ternary" TERNARIES;
}

macro_rules! on_lanes {
    ($($type:ty: $kind:literal $list:ident;)*) => { $(
        impl Member<$type> for u16 {
            fn operand(self, call: &PlainCall) -> Option<$type> {
                op_at($kind, self, &$list)?.on(call.lane)
            }
        }
    )* };
}
on_lanes! {
    ExtractOp: "extract_lane" EXTRACTIONS; ReplaceOp: "replace_lane" REPLACEMENTS;
    LoadLaneOp: "load_lane" LANE_LOADS; StoreLaneOp: "store_lane" LANE_STORES;
}
