//! Handlers of the engine's own instructions: control, copies, globals, and what is frequent together.

use crate::execute::Exit;
use crate::execute::calls::{call, call_indirect, ret, ret_many, ret_one, return_call, return_call_indirect};
use crate::execute::handlers::{IMM, LAST, SLOT, Value, Way, branch_to, control, handler, or_trap, ways};
use crate::execute::state::{Handler, Outcome, Slots, State, end, next, next_by_loop, trapped};
use crate::instructions::Code;
use crate::library::{RawVal, ReadAs, TrapCode, TypedRawVal, simd, wasm};
use crate::lower::Instruction;

/// The handler of an instruction of the engine's own.
pub(super) fn find(code: Code, way: [Way; 3]) -> Option<Handler> {
    of_values(code, way).or_else(|| of_control(code, way))
}

fn of_values(code: Code, way: [Way; 3]) -> Option<Handler> {
    Some(match code {
        Code::zero => return zeros(way[0]),
        Code::begin => begin,
        Code::copy => ways!(way, copy: (SLOT, SLOT) (SLOT, LAST)),
        Code::copy_two => copy_two,
        Code::copy_many => copy_many,
        Code::set => set,
        Code::set_signed => set_signed,
        Code::add_two => add_two,
        Code::add_scaled => ways!(way, add_scaled:
            (SLOT, SLOT, SLOT) (SLOT, SLOT, LAST) (LAST, SLOT, SLOT) (LAST, SLOT, LAST)),
        Code::shift_and => ways!(way, shift_and: (SLOT, SLOT) (SLOT, LAST) (LAST, SLOT) (LAST, LAST)),
        Code::and_shift => ways!(way, and_shift: (SLOT, SLOT) (SLOT, LAST) (LAST, SLOT) (LAST, LAST)),
        Code::i32_sub_from => ways!(way, i32_sub_from: (SLOT, SLOT) (SLOT, LAST) (LAST, SLOT) (LAST, LAST)),
        Code::i64_sub_from => ways!(way, i64_sub_from: (SLOT, SLOT) (SLOT, LAST) (LAST, SLOT) (LAST, LAST)),
        Code::select => ways!(way, select: (SLOT, SLOT) (SLOT, LAST) (LAST, SLOT) (LAST, LAST)),
        Code::select_number => ways!(way, select_number:
            (SLOT, SLOT, SLOT) (SLOT, SLOT, LAST) (SLOT, LAST, SLOT) (SLOT, LAST, LAST)
            (LAST, SLOT, SLOT) (LAST, SLOT, LAST) (LAST, LAST, SLOT) (LAST, LAST, LAST)),
        Code::select_numbers => ways!(way, select_numbers: (SLOT, SLOT) (SLOT, LAST) (LAST, SLOT) (LAST, LAST)),
        Code::shuffle => shuffle,
        Code::global_get => ways!(way, global_get: (SLOT) (LAST)),
        Code::global_set => global_set,
        Code::ref_func => ref_func,
        Code::is_null => is_null,
        Code::add_offset => add_offset,
        Code::i64_add128 => i64_add128,
        Code::i64_sub128 => i64_sub128,
        Code::i64_mul_wide_s => i64_mul_wide_s,
        Code::i64_mul_wide_u => i64_mul_wide_u,
        _ => return None,
    })
}

fn of_control(code: Code, way: [Way; 3]) -> Option<Handler> {
    Some(match code {
        Code::fuel => fuel,
        Code::branch => branch,
        Code::branch_if | Code::branch_unless => {
            ways!(way, branch_if: (SLOT, SLOT) (SLOT, LAST) (LAST, SLOT) (LAST, LAST))
        }
        Code::add_branch => ways!(way, add_branch: (SLOT) (LAST)),
        Code::branch_table => ways!(way, branch_table: (SLOT, SLOT) (SLOT, LAST)),
        Code::ret => ret,
        Code::ret_one => ways!(way, ret_one: (SLOT, SLOT) (SLOT, LAST) (SLOT, IMM)),
        Code::ret_many => ret_many,
        Code::call => call,
        Code::call_indirect => call_indirect,
        Code::return_call => return_call,
        Code::return_call_indirect => return_call_indirect,
        Code::unreachable => unreachable,
        _ => return None,
    })
}

/// The handler that writes so many zeros.
#[rustfmt::skip]
fn zeros(count: Way) -> Option<Handler> {
    const ZEROS: [Handler; 16] = [
        zero::<1>, zero::<2>, zero::<3>, zero::<4>, zero::<5>, zero::<6>, zero::<7>, zero::<8>,
        zero::<9>, zero::<10>, zero::<11>, zero::<12>, zero::<13>, zero::<14>, zero::<15>, zero::<16>,
    ];
    ZEROS.get(usize::from(count).checked_sub(1)?).copied()
}

handler! { zero<COUNT> |op, slots, state, last| {
    slots.zero::<COUNT>(op.d);
    last
} }

handler! { begin |op, slots, state, last| {
    slots.begin(state.body);
    last
} }

handler! { copy<TO, A> |op, slots, state, last| {
    if A == LAST {
        last.write::<SLOT>(op.d, slots)
    } else {
        slots.set::<RawVal>(op.d, slots.get(op.a));
        slots.number(op.d)
    }
} }

handler! { copy_two |op, slots, state, last| {
    slots.set::<RawVal>(op.d, slots.get(op.a));
    slots.set::<RawVal>(op.low(), slots.get(op.high()));
    last
} }

handler! { copy_many |op, slots, state, last| {
    slots.copy(op.d, op.a, op.low());
    last
} }

/// Writes a constant of any type whose upper word is 0.
#[inline(always)]
fn put(low: u64, slot: u16, slots: Slots) -> u64 {
    slots.set(slot, RawVal::from(low));
    low
}

handler! { set |op, slots, state, last| put(op.imm.into(), op.d, slots) }
handler! { set_signed |op, slots, state, last| put(op.number().cast_unsigned(), op.d, slots) }

/// A number of 16 bits with its sign, as an `i32`.
#[inline(always)]
fn widened(number: u16) -> u64 {
    i32::from(number.cast_signed()).cast_unsigned().into()
}

handler! { i32_sub_from<TO, A> |op, slots, state, last| {
    wasm::i32_sub(op.imm.cast_signed(), Value::read::<A>(op.a, 0, slots, last)).write::<TO>(op.d, slots)
} }

handler! { i64_sub_from<TO, A> |op, slots, state, last| {
    wasm::i64_sub(op.number(), Value::read::<A>(op.a, 0, slots, last)).write::<TO>(op.d, slots)
} }

handler! { add_two |op, slots, state, last| {
    let [one, other] = [op.low(), op.high()].map(|it| it.cast_signed().into());
    slots.set(op.d, wasm::i32_add(slots.get(op.d), one));
    wasm::i32_add(slots.get(op.a), other).write::<SLOT>(op.a, slots)
} }

handler! { add_scaled<TO, A, B> |op, slots, state, last| {
    let b = Value::read::<B>(op.low(), 0, slots, last);
    wasm::i32_add(slots.get(op.a), wasm::i32_shl(b, op.high().into())).write::<TO>(op.d, slots)
} }

handler! { shift_and<TO, A> |op, slots, state, last| {
    let shifted = wasm::i32_shr_u(Value::read::<A>(op.a, 0, slots, last), op.high().into());
    (shifted & u32::from(op.low())).write::<TO>(op.d, slots)
} }

handler! { and_shift<TO, A> |op, slots, state, last| {
    let masked = wasm::i32_bitand(Value::read::<A>(op.a, 0, slots, last), op.low().into());
    wasm::i32_shl(masked, op.high().into()).write::<TO>(op.d, slots)
} }

handler! { select<TO, C> |op, slots, state, last| {
    let is_first = <i32 as Value>::read::<C>(op.high(), 0, slots, last) != 0;
    let from = if is_first { op.a } else { op.low() };
    if TO == SLOT {
        slots.set::<RawVal>(op.d, slots.get(from));
    }
    slots.number(from)
} }

// One of a slot and a number: the slot if the condition isn't 0, or with `UNLESS` if it is.
handler! { select_number<TO, C, UNLESS> |op, slots, state, last| {
    let is_slot = (<i32 as Value>::read::<C>(op.high(), 0, slots, last) != 0) == (UNLESS == SLOT);
    let number = RawVal::from(widened(op.low()));
    let value = if is_slot { slots.get(op.a) } else { number };
    if TO == SLOT {
        slots.set(op.d, value);
    }
    value.read_as()
} }

// One of two numbers.
handler! { select_numbers<TO, C> |op, slots, state, last| {
    let is_first = <i32 as Value>::read::<C>(op.a, 0, slots, last) != 0;
    let number = widened(if is_first { op.low() } else { op.high() });
    if TO == SLOT { put(number, op.d, slots) } else { number }
} }

handler! { by loop shuffle |op, slots, state, last| {
    let op = state.body.wide[op.imm as usize];
    let lanes = state.body.shuffles[op.imm as usize];
    slots.set(op.d, simd::i8x16_shuffle(slots.get(op.a), slots.get(op.b), lanes));
    last
} }

handler! { global_get<TO> |op, slots, state, last| {
    let (numbers, globals) = &state.globals;
    let Some(global) = numbers.get(op.imm as usize).and_then(|it| globals.get(*it)) else { return end() };
    let value = *global.get_raw();
    if TO == SLOT {
        slots.set(op.d, value);
    }
    value.read_as()
} }

handler! { global_set |op, slots, state, last| {
    let (numbers, globals) = &mut state.globals;
    let Some(global) = numbers.get(op.imm as usize).and_then(|it| globals.get_mut(*it)) else { return end() };
    let value = TypedRawVal::new(global.ty().content(), slots.get(op.a));
    or_trap!(global.set(value).map_err(|_| TrapCode::UnreachableCodeReached));
    last
} }

handler! { ref_func |op, slots, state, last| (state.first + op.imm).write::<SLOT>(op.d, slots) }
handler! { is_null |op, slots, state, last| slots.reference(op.a).is_null().write::<SLOT>(op.d, slots) }

handler! { add_offset |op, slots, state, last| {
    let address = slots.number(op.a).checked_add(slots.number(op.low()));
    or_trap!(address.ok_or(TrapCode::MemoryOutOfBounds)).write::<SLOT>(op.d, slots)
} }

macro_rules! wide {
    ($($name:ident($($operand:literal),*))*) => {
        $(handler! { $name |op, slots, state, last| {
            let (low, high) = wasm::$name($(slots.get(op.a + $operand)),*);
            slots.set(op.a, low);
            slots.set(op.a + 1, high);
            last
        } })*
    };
}
wide! { i64_add128(0, 1, 2, 3) i64_sub128(0, 1, 2, 3) i64_mul_wide_s(0, 1) i64_mul_wide_u(0, 1) }

control! { fuel |code, op, slots, state, last| {
    let units = op.imm.into();
    if state.fuel.consume_fuel_if(|_| units).is_err() {
        state.frame.next = state.place_of(code);
        state.exit = Exit::OutOfFuel;
        return Outcome::Exit;
    }
    next(code.get(1..).unwrap_or_default(), slots, state, last)
} }

control! { unreachable |code, op, slots, state, last| end() }
control! { branch |code, op, slots, state, last| next(state.code(op.imm), slots, state, last) }

control! { branch_if<UNLESS, A> |code, op, slots, state, last| {
    let is_taken = (<i32 as Value>::read::<A>(op.a, 0, slots, last) != 0) == (UNLESS == SLOT);
    branch_to(is_taken, code, slots, state, last)
} }

control! { add_branch<UNLESS> |code, op, slots, state, last| {
    let value = wasm::i32_add(slots.get(op.d), op.a.cast_signed().into());
    let last = value.write::<SLOT>(op.d, slots);
    branch_to((value != 0) == (UNLESS == SLOT), code, slots, state, last)
} }

control! { branch_table<TO, A> |code, op, slots, state, last| {
    let number = <u32 as Value>::read::<A>(op.a, 0, slots, last).min(op.imm);
    next(code.get(1 + number as usize..).unwrap_or_default(), slots, state, last)
} }
