//! Handlers of the library's instructions: alone, with the address of an access computed, or with a branch on the result.

use crate::execute::handlers::{IMM, LAST, SLOT, Value, Way, branch_to, control, handler, or_trap, ways};
use crate::execute::state::{Handler, Outcome, Slots, State, end, next, next_by_loop, trapped};
use crate::instructions::{Code, instructions};
use crate::library::{TrapCode, V128};
use crate::lower::Instruction;

/// The functions of instructions.
mod library {
    pub use crate::library::{simd::*, wasm::*};
}

#[inline(always)]
fn lane<T: TryFrom<u8>>(lane: u16) -> Result<T, TrapCode> {
    T::try_from(lane as u8).map_err(|_| TrapCode::UnreachableCodeReached)
}

/// The sum of an address of 32 bits and a slot, as `i32.add` gives it.
#[inline(always)]
fn address_sum<const A: Way>(op: &Instruction, slots: Slots, last: u64) -> u64 {
    let a = Value::read::<A>(op.a, 0, slots, last);
    library::i32_add(a, slots.get(op.low())).cast_unsigned().into()
}

/// The sum of an address of 32 bits and a constant.
#[inline(always)]
fn address_moved<const A: Way>(op: &Instruction, slots: Slots, last: u64) -> u64 {
    let a = Value::read::<A>(op.a, 0, slots, last);
    library::i32_add(a, op.low().cast_signed().into()).cast_unsigned().into()
}

/// Refuses an access at a sum of 32 bits whose bytes aren't all there. What the library tests follows from this, and the
/// compiler leaves it out.
#[inline(always)]
fn bounded<const WIDTH: u64>(bytes: &[u8], address: u64, offset: u16) -> Result<(), TrapCode> {
    if address + u64::from(offset) + WIDTH > bytes.len() as u64 { Err(TrapCode::MemoryOutOfBounds) } else { Ok(()) }
}

#[inline(always)]
fn is_true(value: impl Value, slots: Slots) -> bool {
    value.write::<LAST>(0, slots) as u32 != 0
}

/// A load to a slot by a function of its own, so that the handler has no variable in memory, which would be in the way of
/// the jump at its end.
#[inline(never)]
fn load_apart(
    load: impl Fn(&[u8], u64, u64) -> Result<V128, TrapCode>,
    bytes: &[u8],
    address: u64,
    offset: u64,
    (slot, slots): (u16, Slots),
) -> Result<(), TrapCode> {
    slots.set(slot, load(bytes, address, offset)?);
    Ok(())
}

macro_rules! loaded {
    (v128_load32_zero, $($rest:tt)*) => { loaded!(@apart v128_load32_zero, $($rest)*) };
    (v128_load64_zero, $($rest:tt)*) => { loaded!(@apart v128_load64_zero, $($rest)*) };
    (@apart $l:ident, $to:ident, $bytes:expr, $address:expr, $offset:expr, $slot:expr, $slots:expr) => {{
        or_trap!(load_apart(library::$l, $bytes, $address, $offset, ($slot, $slots)));
        0
    }};
    ($l:ident, $to:ident, $bytes:expr, $address:expr, $offset:expr, $slot:expr, $slots:expr) => {
        or_trap!(library::$l($bytes, $address, $offset)).write::<$to>($slot, $slots)
    };
}

/// The ways of a result and an operand.
macro_rules! unary {
    ($way:expr, $name:path, V128, $to:ident) => { ways!($way, $name: (SLOT, SLOT)) };
    ($way:expr, $name:path, $a:ident, V128) => { ways!($way, $name: (SLOT, SLOT)) };
    ($way:expr, $name:path, $a:ident, $to:ident) => {
        ways!($way, $name: (SLOT, SLOT) (SLOT, LAST) (LAST, SLOT) (LAST, LAST))
    };
}

/// The ways of a result and two operands, of which the second one may stand in the instruction.
macro_rules! binary {
    ($way:expr, $name:path, V128, $other:ident) => { ways!($way, $name: (SLOT, SLOT, SLOT) (SLOT, SLOT, IMM)) };
    ($way:expr, $name:path, $scalar:ident, $other:ident) => {
        ways!($way, $name:
            (SLOT, SLOT, SLOT) (SLOT, LAST, SLOT) (SLOT, SLOT, LAST) (SLOT, SLOT, IMM) (SLOT, LAST, IMM)
            (LAST, SLOT, SLOT) (LAST, LAST, SLOT) (LAST, SLOT, LAST) (LAST, SLOT, IMM) (LAST, LAST, IMM))
    };
}

/// The ways of a result and an address. That of a constant address is `IMM`: the offset has it then.
macro_rules! load {
    ($way:expr, $name:path, V128) => { ways!($way, $name: (SLOT, SLOT) (SLOT, IMM)) };
    ($way:expr, $name:path, $scalar:ident) => {
        ways!($way, $name: (SLOT, SLOT) (SLOT, LAST) (SLOT, IMM) (LAST, SLOT) (LAST, LAST) (LAST, IMM))
    };
}

/// The ways of a value, which may stand in the instruction, and an address as in a load.
macro_rules! store {
    ($way:expr, $name:path, V128) => { ways!($way, $name: (SLOT, SLOT) (SLOT, IMM)) };
    ($way:expr, $name:path, $scalar:ident) => {
        ways!($way, $name:
            (SLOT, SLOT) (SLOT, LAST) (SLOT, IMM) (LAST, SLOT) (LAST, IMM) (IMM, SLOT) (IMM, LAST) (IMM, IMM))
    };
}

/// A branch that computes what it depends on. It is taken where the result isn't 0, or where it is.
macro_rules! branch_on {
    ($name:ident, V128, $to:ident) => {};
    ($name:ident, $scalar:ident, I32) => {
        control!(
            $name < UNLESS,
            A,
            B > |code, op, slots, state, last| {
                let a = Value::read::<A>(op.a, 0, slots, last);
                let value = library::$name(a, Value::read::<B>(op.d, op.short(), slots, last));
                branch_to(is_true(value, slots) == (UNLESS == SLOT), code, slots, state, last)
            }
        );
    };
    ($name:ident, $scalar:ident, $to:ident) => {};
}

/// The ways of such a branch.
macro_rules! branch {
    ($way:expr, $name:path, V128, $to:ident) => {
        return None
    };
    ($way:expr, $name:path, $scalar:ident, I32) => {
        binary!($way, $name, I32, I32)
    };
    ($way:expr, $name:path, $scalar:ident, $to:ident) => {
        return None
    };
}

/// Loads and stores whose address is computed.
macro_rules! accesses {
    ($module:ident, $address:ident, { $($l:ident $lt:ident $lw:literal),* } { $($s:ident $st:ident $sw:literal),* }) => {
        mod $module {
            use super::*;
            $(handler!(by loop if V128 in [$lt] $l<TO, A> |op, slots, state, last| {
                let address = $address::<A>(op, slots, last);
                or_trap!(bounded::<$lw>(state.bytes, address, op.high()));
                loaded!($l, TO, state.bytes, address, op.high().into(), op.d, slots)
            });)*
            $(handler!(by loop $s<B, A> |op, slots, state, last| {
                let address = $address::<A>(op, slots, last);
                or_trap!(bounded::<$sw>(state.bytes, address, op.high()));
                or_trap!(library::$s(state.bytes, address, op.high().into(), slots.get(op.d)));
                last
            });)*

            pub(in crate::execute) fn find(code: Code, way: [Way; 3]) -> Option<Handler> {
                Some(match code {
                    $(Code::$l => load_at!(way, self::$l, $lt),)*
                    $(Code::$s => ways!(way, self::$s: (SLOT, SLOT) (SLOT, LAST)),)*
                    _ => return None,
                })
            }
        }
    };
}

macro_rules! load_at {
    ($way:expr, $name:path, V128) => { ways!($way, $name: (SLOT, SLOT) (SLOT, LAST)) };
    ($way:expr, $name:path, $scalar:ident) => {
        ways!($way, $name: (SLOT, SLOT) (LAST, SLOT) (SLOT, LAST) (LAST, LAST))
    };
}

macro_rules! handlers {
    (
        unary { $($ua:ident -> $ur:ident { $($un:literal $u:ident),* })* }
        binary { $($ba:ident, $bb:ident -> $br:ident { $($bn:literal $b:ident),* })* }
        ternary { $($tn:literal $t:ident),* }
        divide { $($dt:ident { $($dn:literal $d:ident),* })* }
        load { $($lt:ident { $($ln:literal $l:ident $lw:literal),* })* }
        store { $($st:ident { $($sn:literal $s:ident $sw:literal),* })* }
        extract_lane { $($et:ident { $($en:literal $e:ident $el:literal),* })* }
        replace_lane { $($rt:ident { $($rn:literal $r:ident $rl:literal),* })* }
        load_lane { $($lln:literal $ll:ident $lll:literal),* }
        store_lane { $($sln:literal $sl:ident $sll:literal),* }
    ) => {
        mod plain {
            use super::*;
            $($(handler!(by loop if V128 in [$ua $ur] $u<TO, A> |op, slots, state, last| {
                library::$u(Value::read::<A>(op.a, 0, slots, last)).write::<TO>(op.d, slots)
            });)*)*
            $($(handler!(by loop if V128 in [$ba $br] $b<TO, A, B> |op, slots, state, last| {
                let a = Value::read::<A>(op.a, 0, slots, last);
                library::$b(a, Value::read::<B>(op.low(), op.number(), slots, last)).write::<TO>(op.d, slots)
            });)*)*
            $(handler!(by loop $t |op, slots, state, last| {
                library::$t(slots.get(op.a), slots.get(op.low()), slots.get(op.high())).write::<SLOT>(op.d, slots)
            });)*
            $($(handler!($d<TO, A, B> |op, slots, state, last| {
                let a = Value::read::<A>(op.a, 0, slots, last);
                let b = Value::read::<B>(op.low(), op.number(), slots, last);
                or_trap!(library::$d(a, b)).write::<TO>(op.d, slots)
            });)*)*
            $($(handler!(by loop if V128 in [$lt] $l<TO, A> |op, slots, state, last| {
                let address = Value::read::<A>(op.a, 0, slots, last);
                loaded!($l, TO, state.bytes, address, op.imm.into(), op.d, slots)
            });)*)*
            $($(handler!(by loop $s<B, A> |op, slots, state, last| {
                let address = Value::read::<A>(op.a, 0, slots, last);
                let value = Value::read::<B>(op.d, op.short(), slots, last);
                or_trap!(library::$s(state.bytes, address, op.imm.into(), value));
                last
            });)*)*
            $($(handler!(by loop $e |op, slots, state, last| {
                library::$e(slots.get(op.a), or_trap!(lane(op.high()))).write::<SLOT>(op.d, slots)
            });)*)*
            $($(handler!(by loop $r |op, slots, state, last| {
                library::$r(slots.get(op.a), or_trap!(lane(op.high())), slots.get(op.low())).write::<SLOT>(op.d, slots)
            });)*)*
            $(handler!(by loop $ll |op, slots, state, last| {
                let op = state.body.wide[op.imm as usize];
                let lane = or_trap!(lane(op.lane));
                let value = library::$ll(state.bytes, slots.number(op.a), op.imm.into(), slots.get(op.b), lane);
                or_trap!(value).write::<SLOT>(op.d, slots)
            });)*
            $(handler!(by loop $sl |op, slots, state, last| {
                let op = state.body.wide[op.imm as usize];
                let lane = or_trap!(lane(op.lane));
                or_trap!(library::$sl(state.bytes, slots.number(op.a), op.imm.into(), slots.get(op.b), lane));
                last
            });)*

            /// The handler of an instruction of the library, whose result and operands go these ways.
            pub(in crate::execute) fn find(code: Code, way: [Way; 3]) -> Option<Handler> {
                Some(match code {
                    $($(Code::$u => unary!(way, self::$u, $ua, $ur),)*)*
                    $($(Code::$b => binary!(way, self::$b, $ba, $bb),)*)*
                    $(Code::$t => self::$t as Handler,)*
                    $($(Code::$d => binary!(way, self::$d, $dt, $dt),)*)*
                    $($(Code::$l => load!(way, self::$l, $lt),)*)*
                    $($(Code::$s => store!(way, self::$s, $st),)*)*
                    $($(Code::$e => self::$e as Handler,)*)*
                    $($(Code::$r => self::$r as Handler,)*)*
                    $(Code::$ll => self::$ll as Handler,)*
                    $(Code::$sl => self::$sl as Handler,)*
                    _ => return None,
                })
            }
        }

        accesses!(sums, address_sum, { $($($l $lt $lw),*),* } { $($($s $st $sw),*),* });
        accesses!(moves, address_moved, { $($($l $lt $lw),*),* } { $($($s $st $sw),*),* });

        /// Branches that compute what they depend on.
        mod branches {
            use super::*;
            $($(branch_on!($b, $ba, $br);)*)*

            pub(in crate::execute) fn find(code: Code, way: [Way; 3]) -> Option<Handler> {
                Some(match code {
                    $($(Code::$b => branch!(way, self::$b, $ba, $br),)*)*
                    _ => return None,
                })
            }
        }
    };
}
instructions!(handlers);

pub(super) use branches::find as branch;
pub(super) use moves::find as moved;
pub(super) use plain::find as plain;
pub(super) use sums::find as sum;
