//! What handlers share, and how one hands over to the next.

use crate::execute::Exit;
use crate::library::{Fuel, Global, RawRef, RawVal, ReadAs, Table, TrapCode, WriteAs};
use crate::lower::{Body, Instruction, Lazy};
use crate::module::Module;
use crate::stack::{Frame, SLOTS};
use crate::store::Arena;
use std::cell::Cell;

/// The slots that instructions name, of which the first ones are those of the frame.
#[derive(Clone, Copy)]
pub(crate) struct Slots<'a>(&'a [Cell<RawVal>; SLOTS]);

impl<'a> Slots<'a> {
    /// The slots from a value on.
    #[inline(always)]
    pub fn at(values: &'a [Cell<RawVal>], base: usize) -> Option<Slots<'a>> {
        values.get(base..base + SLOTS)?.try_into().ok().map(Slots)
    }

    #[inline(always)]
    pub fn get<T>(self, slot: u16) -> T
    where
        RawVal: ReadAs<T>,
    {
        self.0[usize::from(slot)].get().read_as()
    }

    #[inline(always)]
    pub fn set<T>(self, slot: u16, value: T)
    where
        RawVal: WriteAs<T>,
    {
        let cell = &self.0[usize::from(slot)];
        let mut raw = cell.get();
        raw.write_as(value);
        cell.set(raw);
    }

    /// An address, an index or a length: the low word, whose upper half is 0 for a value of 32 bits.
    #[inline(always)]
    pub fn number(self, slot: u16) -> u64 {
        self.get(slot)
    }

    #[inline(always)]
    pub fn reference(self, slot: u16) -> RawRef {
        RawRef::from(self.get::<u32>(slot))
    }

    /// The size before a growth, or -1 at the width of the size.
    pub fn set_size(self, slot: u16, size: Option<u64>, is_64: bool) {
        match (size, is_64) {
            (Some(size), _) => self.set(slot, size),
            (None, true) => self.set(slot, -1_i64),
            (None, false) => self.set(slot, -1_i32),
        }
    }

    /// Copies slots downwards.
    #[inline(always)]
    pub fn copy(self, to: u16, from: u16, count: u16) {
        for i in 0..count {
            self.set::<RawVal>(to + i, self.get(from + i));
        }
    }

    /// Writes so many zeros.
    #[inline(always)]
    pub fn zero<const COUNT: u8>(self, from: u16) {
        let from = usize::from(from);
        for it in self.0.get(from..from + usize::from(COUNT)).unwrap_or_default() {
            it.set(RawVal::default());
        }
    }

    /// Makes the frame of a function whose parameters lie there already.
    pub fn begin(self, body: &Body) {
        let zeros = &self.0[usize::from(body.params)..usize::from(body.locals)];
        zeros.iter().for_each(|it| it.set(RawVal::default()));
        let constants = self.0[usize::from(body.locals)..].iter().zip(&body.constants);
        constants.for_each(|(cell, it)| cell.set(*it));
    }
}

/// What handlers share: the present function, and what instructions use.
pub(crate) struct State<'a> {
    pub bytes: &'a mut [u8],
    pub body: &'a Body,
    pub frame: Frame,
    pub values: &'a [Cell<RawVal>],
    pub frames: &'a mut Vec<Frame>,
    /// How many frames there were before.
    pub floor: usize,
    /// How many there may be.
    pub calls: usize,
    pub module: &'a Module,
    pub bodies: &'a [Lazy],
    /// The reference of the first function.
    pub first: u32,
    pub fuel: &'a mut Fuel,
    /// The numbers of the instance's tables, and the tables of the store.
    pub tables: (&'a [u32], &'a Arena<Table>),
    pub globals: (&'a [u32], &'a mut Arena<Global>),
    /// What handlers end for.
    pub exit: Exit,
    /// What is executed next, where handlers return to the loop.
    #[cfg(not(all(one_unit, not(debug_assertions))))]
    pub place: (&'a [Instruction], Slots<'a>, u64),
}

/// Why handlers end.
#[derive(Clone, Copy)]
pub(crate) enum Outcome {
    /// The next instruction is to be executed.
    #[cfg(not(all(one_unit, not(debug_assertions))))]
    Next,
    /// The loop is to end for `exit`.
    Exit,
    Trap(TrapCode),
    /// The last instruction needs what handlers don't have.
    Leave,
}

/// What executes an instruction and those that follow it. It takes the code from this instruction on, the slots, what
/// handlers share, and the last result.
pub(crate) type Handler = for<'a> fn(&'a [Instruction], Slots<'a>, &mut State<'a>, u64) -> Outcome;

/// The outcome of a trap. It is made apart, so that a handler does nothing for it in advance.
#[cold]
#[inline(never)]
pub(crate) fn trapped(trap: TrapCode) -> Outcome {
    Outcome::Trap(std::hint::black_box(trap))
}

/// Code never ends without an instruction that leads elsewhere.
#[inline(always)]
pub(crate) fn end() -> Outcome {
    trapped(TrapCode::UnreachableCodeReached)
}

/// Executes the first of these instructions and those that follow. It comes last in a handler, so that it is a jump.
#[cfg(all(jumps, not(debug_assertions)))]
#[inline(always)]
pub(crate) fn next<'a>(code: &'a [Instruction], slots: Slots<'a>, state: &mut State<'a>, last: u64) -> Outcome {
    match code {
        [op, ..] => (op.handler)(code, slots, state, last),
        [] => end(),
    }
}

/// Says what is executed next.
#[cfg(not(all(jumps, not(debug_assertions))))]
#[inline(always)]
pub(crate) fn next<'a>(code: &'a [Instruction], slots: Slots<'a>, state: &mut State<'a>, last: u64) -> Outcome {
    next_by_loop(code, slots, state, last)
}

/// As [`next`], in a handler that has variables in memory unless the compiler sees all that it calls. They would be in the
/// way of a jump, so it returns to the loop where that isn't certain.
#[cfg(all(one_unit, not(debug_assertions)))]
#[inline(always)]
pub(crate) fn next_by_loop<'a>(code: &'a [Instruction], slots: Slots<'a>, state: &mut State<'a>, last: u64) -> Outcome {
    next(code, slots, state, last)
}

/// Says what is executed next.
#[cfg(not(all(one_unit, not(debug_assertions))))]
#[inline(always)]
pub(crate) fn next_by_loop<'a>(code: &'a [Instruction], slots: Slots<'a>, state: &mut State<'a>, last: u64) -> Outcome {
    state.place = (code, slots, last);
    Outcome::Next
}

impl<'a> State<'a> {
    /// Executes instructions until one of them ends the handlers.
    #[cfg(all(one_unit, not(debug_assertions)))]
    pub fn run(&mut self, code: &'a [Instruction], slots: Slots<'a>) -> Outcome {
        next(code, slots, self, 0)
    }

    /// Executes instructions until one of them ends the handlers.
    #[cfg(not(all(one_unit, not(debug_assertions))))]
    pub fn run(&mut self, code: &'a [Instruction], slots: Slots<'a>) -> Outcome {
        self.place = (code, slots, 0);
        loop {
            let (code, slots, last) = self.place;
            let Some(op) = code.first() else { return end() };
            match (op.handler)(code, slots, self, last) {
                Outcome::Next => {}
                outcome => return outcome,
            }
        }
    }

    /// The code from a place on.
    #[inline(always)]
    pub fn code(&self, place: u32) -> &'a [Instruction] {
        self.body.code.get(place as usize..).unwrap_or_default()
    }

    /// The place of the first of these instructions.
    #[inline(always)]
    pub fn place_of(&self, code: &[Instruction]) -> usize {
        self.body.code.len() - code.len()
    }
}
