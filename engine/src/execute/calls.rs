//! Handlers of calls and returns within an instance.

use crate::execute::Exit;
use crate::execute::handlers::{IMM, LAST, Way, control, or_trap};
use crate::execute::state::{Outcome, Slots, State, end, next, trapped};
use crate::library::{RawVal, TrapCode};
use crate::lower::{Instruction, Lazy, TYPE_BITS};
use crate::stack::{Frame, SLOTS};

control! { ret |code, op, slots, state, last| back(state, last) }

control! { ret_one<TO, A> |code, op, slots, state, last| {
    if A == LAST {
        slots.set::<u64>(0, last);
    } else if A == IMM {
        slots.set(0, RawVal::from(u64::from(op.imm)));
    } else {
        slots.set::<RawVal>(0, slots.get(op.a));
    }
    back(state, last)
} }

control! { ret_many |code, op, slots, state, last| {
    slots.copy(0, op.a, op.low());
    back(state, last)
} }

control! { call |code, op, slots, state, last| enter(op.imm, code, op, slots, state) }

control! { call_indirect |code, op, slots, state, last| match or_trap!(callee(op, slots, state)) {
    Ok(callee) => enter(callee, code, op, slots, state),
    Err(exit) => leave(exit, code, state),
} }

control! { return_call |code, op, slots, state, last| replace(op.imm, code, op, slots, state) }

control! { return_call_indirect |code, op, slots, state, last| match or_trap!(callee(op, slots, state)) {
    Ok(callee) => replace(callee, code, op, slots, state),
    Err(exit) => leave(exit, code, state),
} }

/// Leaves the instance, to go on after the call.
fn leave<'a>(exit: Exit, code: &'a [Instruction], state: &mut State<'a>) -> Outcome {
    state.frame.next = state.place_of(code) + 1;
    state.exit = exit;
    Outcome::Exit
}

/// Goes on in another function, whose frame takes the place of the present one.
#[inline(always)]
fn replace<'a>(
    callee: u32,
    code: &'a [Instruction],
    op: &'a Instruction,
    slots: Slots<'a>,
    state: &mut State<'a>,
) -> Outcome {
    let Some(lazy) = state.bodies.get(callee as usize) else { return end() };
    let Some(body) = lazy.made() else { return make(code, slots, state, callee) };
    if state.frame.base + body.slots + SLOTS > state.values.len() {
        return trapped(TrapCode::StackOverflow);
    }
    slots.copy(0, op.a, body.params);
    state.frame = Frame { function: callee as usize, next: 0, ..state.frame };
    state.body = body;
    next(&body.code, slots, state, 0)
}

/// Goes on where the present function was called.
#[inline(always)]
fn back<'a>(state: &mut State<'a>, last: u64) -> Outcome {
    if state.frames.len() == state.floor {
        return Outcome::Exit;
    }
    let Some(frame) = state.frames.pop() else { return end() };
    let Some(body) = state.bodies.get(frame.function).and_then(Lazy::made) else { return end() };
    let Some(slots) = Slots::at(state.values, frame.base) else { return end() };
    (state.frame, state.body) = (frame, body);
    next(body.code.get(frame.next..).unwrap_or_default(), slots, state, last)
}

/// The function that an indirect call leads to, or the exit to a function of another instance. The instruction has the
/// number of the type, and above it that of the table.
#[inline(always)]
fn callee(op: &Instruction, slots: Slots, state: &State) -> Result<Result<u32, Exit>, TrapCode> {
    let (ty, table) = (op.imm & ((1 << TYPE_BITS) - 1), op.imm >> TYPE_BITS);
    let (numbers, tables) = state.tables;
    let table = numbers.get(table as usize).and_then(|it| tables.get(*it));
    let element = table.and_then(|it| it.get(slots.number(op.d))).ok_or(TrapCode::TableOutOfBounds)?;
    let reference = u32::from(element.raw());
    let callee = reference.wrapping_sub(state.first);
    let module = state.module;
    let Some(own) = module.functions.get(callee as usize) else {
        let base = state.frame.base + usize::from(op.a);
        let is_null = reference == 0;
        return if is_null {
            Err(TrapCode::IndirectCallToNull)
        } else {
            Ok(Err(Exit::Foreign { reference, ty, base }))
        };
    };
    if module.same.get(*own as usize) == Some(&ty) { Ok(Ok(callee)) } else { Err(TrapCode::BadSignature) }
}

/// Goes on in another function.
#[inline(always)]
fn enter<'a>(
    callee: u32,
    code: &'a [Instruction],
    op: &'a Instruction,
    slots: Slots<'a>,
    state: &mut State<'a>,
) -> Outcome {
    let Some(lazy) = state.bodies.get(callee as usize) else { return end() };
    let Some(body) = lazy.made() else { return make(code, slots, state, callee) };
    let base = state.frame.base + usize::from(op.a);
    if state.frames.len() >= state.calls || base + body.slots + SLOTS > state.values.len() {
        return trapped(TrapCode::StackOverflow);
    }
    if state.frames.len() == state.frames.capacity() {
        return grow(code, slots, state, 0);
    }
    let Some(slots) = Slots::at(state.values, base) else { return end() };
    state.frames.push(Frame { next: state.place_of(code) + 1, ..state.frame });
    state.frame = Frame { function: callee as usize, next: 0, base };
    state.body = body;
    next(&body.code, slots, state, 0)
}

/// Makes what is executed of a function, and repeats the call.
#[cold]
#[inline(never)]
fn make<'a>(code: &'a [Instruction], slots: Slots<'a>, state: &mut State<'a>, callee: u32) -> Outcome {
    make_apart(state, callee);
    next(code, slots, state, 0)
}

/// Makes what is executed of a function. A function of its own has the variables in memory, which would be in the way of
/// the jump at the end of `make`: each function that is called for the first time would take stack then.
#[cold]
#[inline(never)]
fn make_apart(state: &State, callee: u32) {
    state.bodies[callee as usize].body(state.module.config);
}

/// Makes room for more frames, and repeats the call.
#[cold]
#[inline(never)]
fn grow<'a>(code: &'a [Instruction], slots: Slots<'a>, state: &mut State<'a>, last: u64) -> Outcome {
    state.frames.reserve(1);
    next(code, slots, state, last)
}
