//! Handlers: what executes an instruction, and then those that follow.
//!
//! An operand lies in a slot, is the last result, or stands in the instruction itself. A result goes to a slot or is only
//! handed over. A handler is made for each way that occurs.

use crate::execute::state::{Handler, Outcome, Slots, State, end, next};
use crate::execute::{of_library, own};
use crate::instructions::Code;
use crate::library::{RawVal, ReadAs, V128, WriteAs};
use crate::lower::Instruction;

/// Where an operand lies, or a result goes: a slot, the result that is handed over, or the instruction.
pub(crate) type Way = u8;
pub(crate) const SLOT: Way = 0;
pub(crate) const LAST: Way = 1;
pub(crate) const IMM: Way = 2;

/// A value of code. Vectors are in slots only.
pub(super) trait Value: Sized {
    fn read<const FROM: Way>(slot: u16, number: i64, slots: Slots, last: u64) -> Self;
    /// Writes a result, and gives the last result.
    fn write<const TO: Way>(self, slot: u16, slots: Slots) -> u64;
}

macro_rules! scalars {
    ($($ty:ty),*) => { $(
        impl Value for $ty {
            #[inline(always)]
            fn read<const FROM: Way>(slot: u16, number: i64, slots: Slots, last: u64) -> Self {
                match FROM {
                    SLOT => slots.get(slot),
                    LAST => RawVal::from(last).read_as(),
                    _ => RawVal::from(number).read_as(),
                }
            }

            #[inline(always)]
            fn write<const TO: Way>(self, slot: u16, slots: Slots) -> u64 {
                let mut raw = RawVal::default();
                raw.write_as(self);
                let last = raw.read_as();
                if TO == SLOT {
                    slots.set::<u64>(slot, last);
                }
                last
            }
        }
    )* };
}
scalars!(i8, i16, i32, i64, u8, u16, u32, u64, bool);

impl Value for V128 {
    #[inline(always)]
    fn read<const FROM: Way>(slot: u16, _: i64, slots: Slots, _: u64) -> Self {
        slots.get(slot)
    }

    #[inline(always)]
    fn write<const TO: Way>(self, slot: u16, slots: Slots) -> u64 {
        slots.set(slot, self);
        0
    }
}

/// A handler after which the next instruction is executed. It gives the last result. `by loop` is before a handler that may
/// have variables in memory, and `by loop if V128` before one that may have some if one of the types is that of vectors.
macro_rules! handler {
    (by loop if V128 in [V128 $($ty:ident)?] $($rest:tt)*) => { handler!(@next_by_loop $($rest)*); };
    (by loop if V128 in [$ty:ident V128] $($rest:tt)*) => { handler!(@next_by_loop $($rest)*); };
    (by loop if V128 in [$($ty:ident)*] $($rest:tt)*) => { handler!(@next $($rest)*); };
    (by loop $($rest:tt)*) => { handler!(@next_by_loop $($rest)*); };
    ($name:ident $($rest:tt)*) => { handler!(@next $name $($rest)*); };
    (@$next:ident $name:ident $(<$($way:ident),*>)? |$op:ident, $slots:ident, $state:ident, $last:ident| $body:expr) => {
        #[allow(unused_variables)]
        pub(super) fn $name<'a, $($(const $way: Way),*)?>(
            code: &'a [Instruction],
            $slots: Slots<'a>,
            $state: &mut State<'a>,
            $last: u64,
        ) -> Outcome {
            let [$op, _, ..] = code else { return end() };
            let last = $body;
            $next(&code[1..], $slots, $state, last)
        }
    };
}

/// A handler that goes on at a place of its own.
macro_rules! control {
    ($name:ident $(<$($way:ident),*>)? |$code:ident, $op:ident, $slots:ident, $state:ident, $last:ident| $body:expr) => {
        #[allow(unused_variables)]
        pub(super) fn $name<'a, $($(const $way: Way),*)?>(
            $code: &'a [Instruction],
            $slots: Slots<'a>,
            $state: &mut State<'a>,
            $last: u64,
        ) -> Outcome {
            let [$op, ..] = $code else { return end() };
            $body
        }
    };
}

macro_rules! or_trap {
    ($it:expr) => {
        match $it {
            Ok(it) => it,
            Err(trap) => return trapped(trap),
        }
    };
}

/// Goes to a place if this is wanted, and else on.
#[inline(always)]
pub(super) fn branch_to<'a>(
    is_taken: bool,
    code: &'a [Instruction],
    slots: Slots<'a>,
    state: &mut State<'a>,
    last: u64,
) -> Outcome {
    let [op, rest @ ..] = code else { return end() };
    if is_taken { next(state.code(op.imm), slots, state, last) } else { next(rest, slots, state, last) }
}

/// The handler for these ways, if there is one.
macro_rules! ways {
    ($way:expr, $name:path: $(($($it:ident),*))*) => {
        match $way {
            $([$($it,)* ..] => {
                use $name as handler;
                handler::<$($it),*> as Handler
            })*
            _ => return None,
        }
    };
}

pub(super) use {control, handler, or_trap, ways};

/// How an instruction is executed: alone, with the addition before it, of a slot or of a constant, or with the branch
/// after it.
#[derive(Clone, Copy, PartialEq)]
pub(crate) enum Shape {
    Plain,
    Sum,
    Moved,
    Branch,
}

/// The handler of an instruction, if there is one of this shape for these ways.
pub(crate) fn find(code: Code, shape: Shape, way: [Way; 3]) -> Option<Handler> {
    match shape {
        Shape::Plain => of_library::plain(code, way).or_else(|| own::find(code, way)),
        Shape::Sum => of_library::sum(code, way),
        Shape::Moved => of_library::moved(code, way),
        Shape::Branch => of_library::branch(code, way),
    }
}
