//! What is executed of a function's code, and how it is made: instructions that hold their handlers.
//!
//! An instruction may take an operand as the last result, so that no slot is written and read between them, or hold a
//! number as an operand. Some pairs become one instruction: a comparison and the branch on it, an addition and the access
//! at the sum, a result and its copy, two copies, and others that are frequent.
//!
//! A slot of an operand is read once, by the instruction that takes the operand; only a branch that keeps its operands
//! copies them first, and it stands between.

use crate::engine::Config;
use crate::execute::{Handler, IMM, LAST, LEAVE, SLOT, Shape, Way, find};
use crate::instructions::{Code, Facts, Kind, Op};
use crate::library::simd::ImmLaneIdx32;
use crate::library::{RawVal, ReadAs, V128};
use crate::profile::{Piece, pieces_of};
use crate::translate::Function;
use std::mem;
use std::sync::{Mutex, OnceLock, PoisonError};

mod fuse;

/// How many bits the number of a type takes beside that of a table.
pub(crate) const TYPE_BITS: u32 = 20;

/// An instruction with its handler. What the numbers are is the handler's: slots, a constant, a place.
#[derive(Clone, Copy)]
pub(crate) struct Instruction {
    pub handler: Handler,
    pub d: u16,
    pub a: u16,
    pub imm: u32,
}

/// That of a machine whose pointers have 8 bytes; others have smaller ones.
const _: () = assert!(size_of::<Instruction>() <= 16);

impl Instruction {
    #[inline(always)]
    pub fn low(&self) -> u16 {
        self.imm as u16
    }

    #[inline(always)]
    pub fn high(&self) -> u16 {
        (self.imm >> 16) as u16
    }

    /// The constant in `imm`.
    #[inline(always)]
    pub fn number(&self) -> i64 {
        self.imm.cast_signed().into()
    }

    /// The constant in `d`.
    #[inline(always)]
    pub fn short(&self) -> i64 {
        self.d.cast_signed().into()
    }
}

/// A function that was validated and translated. What is executed is made of it when it is first called.
pub(crate) struct Lazy {
    body: OnceLock<Body>,
    function: Mutex<Function>,
}

impl Lazy {
    pub fn new(function: Function) -> Lazy {
        Lazy { body: OnceLock::new(), function: function.into() }
    }

    /// What is executed, if it was made already.
    #[inline(always)]
    pub fn made(&self) -> Option<&Body> {
        self.body.get()
    }

    pub fn body(&self, config: Config) -> &Body {
        let function = || mem::take(&mut *self.function.lock().unwrap_or_else(PoisonError::into_inner));
        self.body.get_or_init(|| lower(function(), config))
    }
}

#[cfg(any(test, feature = "handlers"))]
impl From<Body> for Lazy {
    fn from(body: Body) -> Lazy {
        Lazy { body: body.into(), function: Mutex::default() }
    }
}

/// A function as it is executed.
pub(crate) struct Body {
    pub params: u16,
    /// How many slots the parameters and locals take.
    pub locals: u16,
    /// What the slots after those begin with.
    pub constants: Box<[RawVal]>,
    /// How many slots the frame takes.
    pub slots: usize,
    pub code: Box<[Instruction]>,
    /// Instructions that don't fit into one of 16 bytes, by number.
    pub wide: Box<[Op]>,
    pub shuffles: Box<[[ImmLaneIdx32; 16]]>,
    /// If it is profiled, the instructions of its pieces.
    pub pieces: Box<[Piece]>,
}

/// An instruction whose handler isn't found yet.
#[derive(Clone, Copy)]
struct Draft {
    op: Op,
    facts: Facts,
    shape: Shape,
    /// Where the result goes, and where the operands lie. Of a branch the first is `LAST` if it is taken at 0.
    way: [Way; 3],
    /// A handler that was found, if it is for what the instruction is now.
    found: Option<(Handler, Wanted)>,
}

/// What a handler is for.
type Wanted = (Code, Shape, [Way; 3]);

impl Draft {
    fn new(op: Op) -> Draft {
        Draft { op, facts: op.code.facts(), shape: Shape::Plain, way: [SLOT; 3], found: None }
    }

    fn handler(&self) -> Option<Handler> {
        match self.found {
            Some((handler, found)) if found == self.wanted() => Some(handler),
            _ if self.shape == Shape::Plain && self.op.code.left().is_some() => Some(LEAVE),
            _ => find(self.op.code, self.shape, self.way),
        }
    }

    /// The same with one way changed, if there is a handler for this.
    fn with(mut self, index: usize, way: Way) -> Option<Draft> {
        self.way[index] = way;
        self.checked()
    }

    /// The same, if there is a handler for it, which is kept.
    fn checked(mut self) -> Option<Draft> {
        self.found = Some((self.handler()?, self.wanted()));
        Some(self)
    }

    fn wanted(&self) -> Wanted {
        (self.op.code, self.shape, self.way)
    }

    /// Which of `a`, `b` and `c` are slots that are read.
    fn reads(&self) -> [bool; 3] {
        if let Some(count) = self.op.code.left() {
            return [0, 1, 2].map(|it| it < count);
        }
        let [first, second, third] = self.way.map(|way| way == SLOT);
        let is_sum = self.shape == Shape::Sum;
        match (self.facts.kind, self.op.code) {
            _ if self.shape == Shape::Branch => [second, third, false],
            (Kind::Unary | Kind::Load | Kind::Extract, _) => [second, false, is_sum],
            (Kind::Binary, _) => [second, third, false],
            (Kind::Store, _) => [second, first, is_sum],
            (Kind::Replace | Kind::Lane, _) => [true, true, false],
            (Kind::Ternary, _) => [true; 3],
            (_, Code::select) => [true, true, second],
            (_, Code::select_number) => [true, false, second],
            (_, Code::copy_two) => [true, false, true],
            (_, Code::add_scaled) => [true, third, false],
            (_, Code::shift_and | Code::and_shift | Code::i32_sub_from | Code::i64_sub_from | Code::select_numbers) => {
                [second, false, false]
            }
            (_, Code::copy | Code::branch_if | Code::branch_unless | Code::branch_table | Code::ret_one) => {
                [second, false, false]
            }
            (_, Code::call_indirect | Code::return_call_indirect) => [false, true, false],
            (_, Code::global_set | Code::is_null) => [true, false, false],
            (_, Code::shuffle | Code::add_offset) => [true, true, false],
            _ => [false; 3],
        }
    }
}

struct Lowering<'f> {
    function: &'f Function,
    /// The first slots of constants and of operands.
    first: [u16; 2],
    /// The new place of each instruction that is jumped to, and `NOWHERE` for the others.
    places: Vec<u32>,
    /// The instructions that jump.
    jumps: Vec<usize>,
    /// The slot of each constant that has one, and the constants in the order of their slots.
    slots: Vec<Option<u16>>,
    constants: Vec<RawVal>,
    /// The present instruction, which may become one with the next one.
    last: Option<Draft>,
    code: Vec<Instruction>,
    wide: Vec<Op>,
}

const NOWHERE: u32 = u32::MAX;

/// Makes the code of a function, which charges fuel and is profiled or isn't.
pub(crate) fn lower(function: Function, config: Config) -> Body {
    let mut piece = 0;
    let locals = (function.params + function.zeros) as u16;
    let count = function.constants.len();
    let mut it = Lowering {
        function: &function,
        first: [locals, locals + count as u16],
        places: labels(&function.code),
        jumps: vec![],
        slots: vec![None; count],
        constants: vec![],
        last: None,
        code: Vec::with_capacity(function.code.len()),
        wide: vec![],
    };
    for (place, op) in function.code.iter().enumerate() {
        it.mark(place);
        if op.code == Code::fuel && config.is_profiled() {
            it.lower(Op::of(Code::profile, piece));
            piece += 1;
        }
        if config.is_metered() || op.code != Code::fuel {
            it.lower(*op);
        }
    }
    it.flush();
    let shift = it.begin(locals);
    for jump in it.jumps {
        let imm = &mut it.code[jump + shift].imm;
        *imm = it.places[*imm as usize] + shift as u32;
    }
    Body {
        params: function.params as u16,
        locals,
        constants: it.constants.into(),
        slots: function.slots,
        code: it.code.into(),
        wide: it.wide.into(),
        shuffles: function.shuffles.into(),
        pieces: if config.is_profiled() { pieces_of(&function.code) } else { Box::default() },
    }
}

/// The places that something jumps to are 0, the others `NOWHERE`.
fn labels(code: &[Op]) -> Vec<u32> {
    let mut places = vec![NOWHERE; code.len() + 1];
    for (place, op) in code.iter().enumerate() {
        match op.code {
            Code::branch | Code::branch_if | Code::branch_unless => places[op.imm as usize] = 0,
            Code::branch_table => places[place + 1..=place + 1 + op.imm as usize].fill(0),
            _ => {}
        }
    }
    places
}

impl Lowering<'_> {
    /// Puts the instruction that begins a frame before the others, if there has to be one. Returns how many there are.
    fn begin(&mut self, locals: u16) -> usize {
        let (zeros, params) = (self.function.zeros, self.function.params as u16);
        if zeros == 0 && self.constants.is_empty() {
            return 0;
        }
        let few = Way::try_from(zeros).ok().filter(|_| self.constants.is_empty());
        let few = few.and_then(|count| find(Code::zero, Shape::Plain, [count, SLOT, SLOT]));
        let handler = few.or_else(|| find(Code::begin, Shape::Plain, [SLOT; 3])).unwrap_or(LEAVE);
        self.code.insert(0, Instruction { handler, d: params, a: locals, imm: 0 });
        1
    }

    /// Notes the new place of an instruction that is jumped to, which becomes one with none before it.
    fn mark(&mut self, place: usize) {
        if self.places[place] != NOWHERE {
            self.flush();
            self.places[place] = self.code.len() as u32;
        }
    }

    fn lower(&mut self, op: Op) {
        let draft = Draft::new(op);
        match (draft.facts.kind, op.code) {
            (Kind::Binary, _) => self.binary(draft),
            (_, Code::i32_eqz) => self.eqz(draft),
            (Kind::Unary, _) => self.push_using(draft, 1, op.a),
            (Kind::Load, _) => self.load(draft),
            (Kind::Store, _) => self.store(draft),
            (_, Code::copy) => self.copy(draft),
            (_, Code::select) => self.select(draft),
            (_, Code::branch_if) => self.branch_if(draft, SLOT),
            (_, Code::branch_unless) => self.branch_if(draft, LAST),
            (_, Code::branch_table) => self.push_using(draft, 1, op.a),
            (_, Code::ret) => self.ret(draft),
            _ => self.push(draft),
        }
    }

    /// Keeps an instruction, and finds the handler of the one before.
    fn push(&mut self, draft: Draft) {
        self.flush();
        self.last = Some(draft);
    }

    /// The same, where an operand may be the last result.
    fn push_using(&mut self, draft: Draft, index: usize, slot: u16) {
        let draft = self.using_last(draft, index, slot).unwrap_or(draft);
        self.push(draft);
    }

    fn flush(&mut self) {
        if let Some(draft) = self.last.take() {
            let is_jump =
                matches!(draft.op.code, Code::branch | Code::branch_if | Code::branch_unless | Code::add_branch);
            if is_jump || draft.shape == Shape::Branch {
                self.jumps.push(self.code.len());
            }
            let instruction = self.encode(draft);
            self.code.push(instruction);
        }
    }

    /// An instruction with the last result as an operand. The result goes to no slot then if nothing else reads it.
    fn using_last(&mut self, draft: Draft, index: usize, slot: u16) -> Option<Draft> {
        let last = self.last.filter(|it| it.facts.gives_last && it.op.d == slot)?;
        let draft = draft.with(index, LAST)?;
        if slot >= self.first[1] {
            self.last = last.with(0, LAST).or(Some(last));
        }
        Some(draft)
    }

    /// The last instruction, if its result is this operand, which nothing else reads.
    fn only_use(&self, slot: u16) -> Option<Draft> {
        self.last.filter(|it| it.facts.has_result && it.op.d == slot && slot >= self.first[1])
    }

    /// The bits of a constant, if one lies in the slot and has at most 64.
    fn constant(&self, slot: u16) -> Option<u64> {
        let index = usize::from(slot).checked_sub(self.first[0].into())?;
        let raw = self.function.constants.get(index)?;
        let is_narrow = V128::from(*raw).as_u128() >> 64 == 0;
        is_narrow.then(|| raw.read_as())
    }

    /// Whether a slot is one of constants.
    fn is_constant(&self, slot: u16) -> bool {
        (self.first[0]..self.first[1]).contains(&slot)
    }

    /// The slot of an operand. A constant gets one when it is first read.
    fn slot(&mut self, slot: u16) -> u16 {
        let [constants, _] = self.first;
        if !self.is_constant(slot) {
            return slot;
        }
        let index = usize::from(slot - constants);
        let next = constants + self.constants.len() as u16;
        *self.slots[index].get_or_insert_with(|| {
            self.constants.push(self.function.constants[index]);
            next
        })
    }

    /// Gives an instruction its handler, and its numbers their places: in 16 bytes, or in `wide`.
    fn encode(&mut self, draft: Draft) -> Instruction {
        let mut op = draft.op;
        if [op.a, op.b, op.c].iter().any(|it| self.is_constant(*it)) {
            let [is_a, is_b, is_c] = draft.reads();
            for (slot, is_read) in [(&mut op.a, is_a), (&mut op.b, is_b), (&mut op.c, is_c)] {
                if is_read {
                    *slot = self.slot(*slot);
                }
            }
        }
        let handler = draft.handler().unwrap_or(LEAVE);
        if draft.facts.is_wide {
            self.wide.push(op);
            return Instruction { handler, d: op.d, a: op.a, imm: self.wide.len() as u32 - 1 };
        }
        let (d, imm) = numbers(&draft, op);
        Instruction { handler, d, a: op.a, imm }
    }
}

/// What stands in `d` and in `imm`.
fn numbers(draft: &Draft, op: Op) -> (u16, u32) {
    let Op { d, b, c, lane, imm, .. } = op;
    match (draft.facts.kind, op.code) {
        _ if draft.shape == Shape::Branch => (b, imm),
        (Kind::Load, _) if draft.shape != Shape::Plain => (d, pair(c, imm as u16)),
        (Kind::Store, _) if draft.shape != Shape::Plain => (b, pair(c, imm as u16)),
        (Kind::Store, _) => (b, imm),
        (Kind::Binary, _) if draft.way[2] == IMM => (d, imm),
        (Kind::Binary, _) | (_, Code::add_offset) => (d, b.into()),
        (Kind::Ternary, _) | (_, Code::copy_two) => (d, pair(b, c)),
        (_, Code::select | Code::select_number | Code::select_numbers) => (d, pair(b, c)),
        (_, Code::add_two | Code::add_scaled | Code::shift_and | Code::and_shift) => (d, pair(b, c)),
        (Kind::Extract | Kind::Replace, _) => (d, pair(b, lane)),
        (_, Code::call_indirect | Code::return_call_indirect) => (b, imm | u32::from(lane) << TYPE_BITS),
        _ => (d, imm),
    }
}

fn pair(low: u16, high: u16) -> u32 {
    u32::from(low) | u32::from(high) << 16
}

#[cfg(test)]
mod tests;
