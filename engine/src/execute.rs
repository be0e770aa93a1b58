//! Runs translated code. WebAssembly core specification, 4.4.
//!
//! Values, instructions, loads, stores, growths, tables and fuel are the library's; calls and jumps are the engine's.

#[cfg(feature = "crate")]
use crate::bulk::Bulk;
use crate::floats::{self, FloatInstruction};
use crate::instructions::{Code, Op};
use crate::library::{Fuel, Memory, MemoryError, RawVal, Table, TableError, TrapCode};
use crate::lower::{Body, Instruction};
use crate::stack::{Activation, Lent, SLOTS};
use crate::store::{Entity, Inner, Items, Limiter};
use state::{Outcome, Slots, State};
use std::cell::Cell;

mod calls;
mod handlers;
mod of_library;
mod own;
mod state;

pub(crate) use handlers::{IMM, LAST, SLOT, Shape, Way, find};
pub(crate) use state::Handler;

/// Why the loop ends.
#[derive(Clone, Copy)]
pub(crate) enum Exit {
    /// All calls have returned.
    Done,
    /// The fuel of the next instruction isn't there.
    OutOfFuel,
    /// An imported function was called, whose arguments begin the frame.
    Host(u32),
    /// A function of another instance was called through a table, with arguments that begin at this value. Its type has to
    /// be this one of the module.
    Foreign { reference: u32, ty: u32, base: usize },
    /// An instruction computes with floats.
    Float(FloatInstruction),
}

/// Runs the code of an instance from a place on, until its first call returns or a function outside of it is called. The
/// place is then that at which it goes on; after a trap it is somewhere in the function that has trapped.
pub(crate) fn execute(inner: &mut Inner, at: &mut Activation) -> Result<Exit, TrapCode> {
    let mut current = 0;
    loop {
        let op = match run(inner, at, current)? {
            Ran::Ended(exit) => return Ok(exit),
            Ran::Left(op) => op,
        };
        match op.code {
            Code::host => {
                at.frame.next += 1;
                return Ok(Exit::Host(op.imm));
            }
            Code::float => {
                let (name, offset) = (floats::name(op.lane), op.imm as usize);
                return Ok(Exit::Float(FloatInstruction { name, offset }));
            }
            Code::memory_use => current = op.imm as usize,
            Code::profile => inner.begin_piece(op.imm, at),
            _ => match left(op, inner, at) {
                Err(TrapCode::OutOfFuel) => return Ok(Exit::OutOfFuel),
                ended => ended?,
            },
        }
        at.frame.next += 1;
    }
}

/// Why handlers have ended: the loop is to end, or to do an instruction, which is the next one.
enum Ran {
    Ended(Exit),
    Left(Op),
}

/// Runs handlers, for which a memory is the first one.
fn run(inner: &mut Inner, at: &mut Activation, memory: usize) -> Result<Ran, TrapCode> {
    let Inner { fuel, instances, items, stack, .. } = inner;
    let Lent { values, frames, calls, .. } = stack.as_mut().ok_or(TrapCode::StackOverflow)?.lend();
    let values = Cell::from_mut(values).as_slice_of_cells();
    let Entity { module, memories, tables, globals, first, .. } = &instances[at.instance];
    let body = module.code[at.frame.function].body(module.config);
    let slots = Slots::at(values, at.frame.base).ok_or(TrapCode::StackOverflow)?;
    let code = body.code.get(at.frame.next..).unwrap_or_default();
    let mut state = State {
        // The library lends the bytes of a memory until it is used in another way.
        bytes: memories.get(memory).map_or(&mut [][..], |it| items.memories[*it].data_mut()),
        body,
        frame: at.frame,
        floor: at.floor,
        calls,
        values,
        frames,
        module,
        bodies: &module.code,
        first: *first,
        fuel,
        tables: (tables, &items.tables),
        globals: (globals, &mut items.globals),
        exit: Exit::Done,
        #[cfg(not(all(one_unit, not(debug_assertions))))]
        place: (code, slots, 0),
    };
    let outcome = state.run(code, slots);
    at.frame = state.frame;
    match outcome {
        Outcome::Exit => Ok(Ran::Ended(state.exit)),
        Outcome::Trap(trap) => Err(trap),
        _ => Ok(Ran::Left(state.body.wide[state.body.code[at.frame.next].imm as usize])),
    }
}

/// Leaves an instruction to the loop.
pub(crate) const LEAVE: Handler = leave;

fn leave<'a>(code: &'a [Instruction], _: Slots<'a>, state: &mut State<'a>, _: u64) -> Outcome {
    state.frame.next = state.place_of(code);
    Outcome::Leave
}

/// Does an instruction that handlers leave to the loop.
fn left(op: Op, inner: &mut Inner, at: &Activation) -> Result<(), TrapCode> {
    let Inner { fuel, limiter, instances, items, stack, .. } = inner;
    let Lent { values, .. } = stack.as_mut().ok_or(TrapCode::StackOverflow)?.lend();
    let values = Cell::from_mut(values).as_slice_of_cells();
    let slots = Slots::at(values, at.frame.base).ok_or(TrapCode::StackOverflow)?;
    bulk(op, &mut instances[at.instance], items, fuel, limiter, slots)
}

/// Checks that there is room for the frame of a function.
pub(crate) fn enter(values: &[RawVal], body: &Body, base: usize) -> Result<(), TrapCode> {
    if base + body.slots + SLOTS <= values.len() { Ok(()) } else { Err(TrapCode::StackOverflow) }
}

/// An instruction on a memory, a table or a segment. Afterwards the bytes of memories may lie elsewhere.
#[inline(never)]
fn bulk(
    op: Op,
    instance: &mut Entity,
    items: &mut Items,
    fuel: &mut Fuel,
    limiter: &mut Limiter,
    slots: Slots,
) -> Result<(), TrapCode> {
    let Entity { module, memories, tables, elements, is_dropped, .. } = instance;
    let (number, second) = (op.imm as usize, usize::from(op.lane));
    macro_rules! memory {
        ($number:expr) => {
            items.memories[memories[$number]]
        };
    }
    macro_rules! table {
        ($number:expr) => {
            items.tables[tables[$number]]
        };
    }
    let [a, b, c] = [op.a, op.b, op.c].map(|slot| slots.number(slot));
    match op.code {
        Code::memory_size => slots.set(op.d, memory!(number).size()),
        Code::memory_grow => {
            let size = match memory!(number).grow(a, Some(fuel), &mut limiter.lent()) {
                Err(MemoryError::OutOfBoundsGrowth | MemoryError::OutOfSystemMemory) => None,
                grown => Some(grown.map_err(of_memory)?),
            };
            slots.set_size(op.d, size, memory!(number).ty().is_64());
        }
        Code::memory_fill => memory!(number).fill(a, b as u8, c, Some(fuel)).map_err(of_memory)?,
        // Two memories of the store, or one, within which the ranges may overlap.
        Code::memory_copy => match items.memories.pair([memories[number], memories[second]]) {
            Some([target, source]) => Memory::copy(target, a, source, b, c, Some(fuel)).map_err(of_memory)?,
            None => memory!(number).copy_within(a, b, c, Some(fuel)).map_err(of_memory)?,
        },
        Code::memory_init => {
            let bytes = if is_dropped[number] { &[] } else { &module.data[number].bytes[..] };
            memory!(second).init(bytes, a, b as u32, c as u32, Some(fuel)).map_err(of_memory)?;
        }
        Code::data_drop => is_dropped[number] = true,
        Code::table_get => slots.set(op.d, table!(number).get(a).ok_or(TrapCode::TableOutOfBounds)?.raw()),
        Code::table_set => table!(number).set_raw(a, slots.reference(op.b)).map_err(of_table)?,
        Code::table_size => slots.set(op.d, table!(number).size()),
        Code::table_grow => {
            let size = match table!(number).grow_raw(b, slots.reference(op.a), Some(fuel), &mut limiter.lent()) {
                Err(TableError::GrowOutOfBounds | TableError::OutOfSystemMemory) => None,
                grown => Some(grown.map_err(of_table)?),
            };
            slots.set_size(op.d, size, table!(number).ty().is_64());
        }
        Code::table_fill => table!(number).fill_raw(a, slots.reference(op.b), c, Some(fuel)).map_err(of_table)?,
        // Two tables of the store, or one, within which the ranges may overlap.
        Code::table_copy => match items.tables.pair([tables[number], tables[second]]) {
            Some([target, source]) => Table::copy(target, a, source, b, c, Some(fuel)).map_err(of_table)?,
            None => table!(number).copy_within(a, b, c, Some(fuel)).map_err(of_table)?,
        },
        Code::table_init => {
            let segment = elements[number].as_ref();
            table!(second).init(segment, a, b as u32, c as u32, Some(fuel)).map_err(of_table)?;
        }
        Code::elem_drop => elements[number].drop_items(),
        _ => return Err(TrapCode::UnreachableCodeReached),
    }
    Ok(())
}

/// How the error of a memory or a table stops a guest.
macro_rules! traps {
    ($name:ident, $error:ident, $growth:ident, $out_of_bounds:ident) => {
        #[cold]
        pub(crate) fn $name(error: $error) -> TrapCode {
            match error {
                $error::OutOfFuel { .. } => TrapCode::OutOfFuel,
                $error::ResourceLimiterDeniedAllocation
                | $error::$growth
                | $error::MinimumSizeOverflow
                | $error::MaximumSizeOverflow => TrapCode::GrowthOperationLimited,
                $error::OutOfSystemMemory => TrapCode::OutOfSystemMemory,
                _ => TrapCode::$out_of_bounds,
            }
        }
    };
}
traps!(of_memory, MemoryError, OutOfBoundsGrowth, MemoryOutOfBounds);
traps!(of_table, TableError, GrowOutOfBounds, TableOutOfBounds);

#[cfg(any(test, feature = "handlers"))]
mod tests;
#[cfg(feature = "handlers")]
pub use tests::taking_stack;
