//! That handlers take no stack: each is executed in a row, once and many times, and the stack is as high after both.

use super::state::{Outcome, Slots, State};
use super::{Exit, Handler, Shape, find};
use crate::instructions::{self, Code, Op};
use crate::library::simd::ImmLaneIdx32;
use crate::library::{Fuel, FuelCostsProvider, RawVal};
use crate::lower::{Body, Instruction};
use crate::module::Module;
use crate::stack::{Frame, SLOTS};
use crate::store::Arena;
use std::cell::Cell;

const OWN: [Code; 32] = [
    Code::fuel,
    Code::branch,
    Code::branch_if,
    Code::branch_unless,
    Code::branch_table,
    Code::copy,
    Code::copy_two,
    Code::copy_many,
    Code::set,
    Code::set_signed,
    Code::begin,
    Code::zero,
    Code::add_two,
    Code::add_branch,
    Code::add_scaled,
    Code::shift_and,
    Code::and_shift,
    Code::i32_sub_from,
    Code::i64_sub_from,
    Code::select,
    Code::select_number,
    Code::select_numbers,
    Code::global_get,
    Code::global_set,
    Code::ref_func,
    Code::is_null,
    Code::shuffle,
    Code::add_offset,
    Code::i64_add128,
    Code::i64_sub128,
    Code::i64_mul_wide_s,
    Code::i64_mul_wide_u,
];

/// Notes the height of the stack where a frame's base is, and ends.
fn probe<'a>(_: &'a [Instruction], _: Slots<'a>, state: &mut State<'a>, _: u64) -> Outcome {
    let here = 0_u8;
    state.frame.base = std::ptr::from_ref(&here).addr();
    Outcome::Exit
}

/// A function that is a result of 8, an instruction so many times, and the probe.
fn body(code: Code, shape: Shape, handler: Handler, count: u32) -> Body {
    let set = find(Code::set, Shape::Plain, [0; 3]).unwrap();
    let jumps = matches!(code, Code::branch | Code::branch_if | Code::branch_unless | Code::add_branch);
    let imm = |place: u32| match code {
        _ if jumps || shape == Shape::Branch => place + 1,
        Code::branch_table => 0,
        _ if code.facts().is_wide => 0,
        _ => 0x1_0001,
    };
    let instruction = |place| Instruction { handler, d: 8, a: 8, imm: imm(place) };
    let first = Instruction { handler: set, d: 9, a: 0, imm: 8 };
    let last = Instruction { handler: probe, ..first };
    let code = [first].into_iter().chain((1..=count).map(instruction)).chain([last, last]).collect();
    let wide = [Op { d: 8, a: 8, b: 8, lane: 1, ..Op::new(Code::shuffle) }].into();
    let lanes = [0; 16].map(|lane: u8| ImmLaneIdx32::try_from(lane).ok().unwrap());
    Body {
        params: 1,
        locals: 4,
        constants: [].into(),
        slots: 16,
        code,
        wide,
        shuffles: [lanes].into(),
        pieces: [].into(),
    }
}

/// The height of the stack after a function, if the probe was reached.
fn height(body: Body) -> Option<usize> {
    let module = Module { code: vec![body.into()], ..Module::default() };
    let mut values = vec![RawVal::from(8_u64); SLOTS];
    let values = Cell::from_mut(&mut values[..]).as_slice_of_cells();
    let slots = Slots::at(values, 0).unwrap();
    let body = module.code[0].made().unwrap();
    let mut state = State {
        bytes: &mut vec![0; 1 << 18],
        body,
        frame: Frame { function: 0, next: 0, base: 0 },
        floor: 0,
        calls: 0,
        values,
        frames: &mut vec![],
        module: &module,
        bodies: &module.code,
        first: 1,
        fuel: &mut Fuel::new(false, FuelCostsProvider::default()),
        tables: (&[], &Arena::default()),
        globals: (&[], &mut Arena::default()),
        exit: Exit::Done,
        #[cfg(not(all(one_unit, not(debug_assertions))))]
        place: (&body.code, slots, 0),
    };
    let outcome = state.run(&body.code, slots);
    matches!(outcome, Outcome::Exit).then_some(state.frame.base)
}

/// The handlers that take stack, and how many have been executed.
pub fn taking_stack() -> (Vec<String>, usize) {
    let opcodes = (0..0x100).chain(0xfc000..0xfc020).chain(0xfd000..0xfd120);
    let codes = opcodes.filter_map(|it| instructions::row(it).map(|(code, _)| *code)).chain(OWN);
    let (mut count, mut found) = (0, vec![]);
    for code in codes {
        for shape in [Shape::Plain, Shape::Sum, Shape::Moved, Shape::Branch] {
            for way in (0..27).map(|it| [it / 9, it / 3 % 3, it % 3]) {
                let Some(handler) = find(code, shape, way) else { continue };
                let [once, often] = [1, 50].map(|count| height(body(code, shape, handler, count)));
                count += usize::from(often.is_some());
                if often.is_some() && once != often {
                    found.push(format!("{code:?} {way:?}"));
                }
            }
        }
    }
    (found, count)
}

#[test]
fn handlers_take_no_stack() {
    let (found, count) = taking_stack();
    assert!(found.is_empty(), "{found:?}");
    assert!(count > 1000, "{count} handlers");
}
