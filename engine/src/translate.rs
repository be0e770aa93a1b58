//! Validates a function, and translates it from a stack machine's code to a register machine's.
//!
//! WebAssembly core specification, 3.3 (validation of instructions), 5.4 (their binary format) and 7.3 (the algorithm).
//!
//! A frame has slots for the locals, then for the function's constants, then for operands: the operand at height `h` of the
//! stack has a slot of its own. `local.get` and constants write no slot: the operand is known to lie in a local or a
//! constant, and is copied to its own slot where the local changes or a jump may come.
//!
//! Code charges its fuel in blocks: an instruction `fuel` stands before each piece of code that only its first instruction
//! is jumped to, and takes one unit for each instruction of the piece.

use crate::floats::{self, Meaning};
use crate::instructions::{self, Code, Form, Op};
use crate::library::simd::ImmLaneIdx32;
use crate::library::{self, FuelCostsProvider, FuncType, RawRef, RawVal, ValType, ValType::*};
use crate::limits;
use crate::module::Module;
use crate::operands::{Operands, Place, are_same};
use crate::proposals;
use crate::reader::{Read, Reader, Refusal, RefusalKind, ensure};
use std::collections::HashMap;

/// The code of a function, and what its frame begins with.
#[derive(Default)]
pub(crate) struct Function {
    pub params: usize,
    /// How many slots after the parameters begin as zero.
    pub zeros: usize,
    /// What is written to the slots after those.
    pub constants: Vec<RawVal>,
    /// How many slots there are.
    pub slots: usize,
    pub code: Vec<Op>,
    pub shuffles: Vec<[ImmLaneIdx32; 16]>,
}

impl Function {
    /// The code of an imported function: it leaves the engine for this function of the host.
    pub fn of_host(host: u32, ty: &FuncType) -> Function {
        let (params, results) = (usize::from(ty.len_params()), usize::from(ty.len_results()));
        let code = vec![Op::of(Code::fuel, 1), Op::of(Code::host, host), Op::of(Code::ret, results as u32)];
        Function { params, slots: params.max(results), code, ..Function::default() }
    }
}

/// The first of the slots of constants while a function is translated.
const CONSTANTS: u16 = 0x8000;

/// How many constants are searched one after another.
const FEW: usize = 32;

/// In place of a jump where there is none.
const NO_JUMP: u32 = u32::MAX;

/// What a block is, with the place that a loop begins at or the test that an `if` begins with.
#[derive(Clone, Copy)]
enum Kind {
    Block,
    Loop(u32),
    If(usize),
}

struct Block<'m> {
    kind: Kind,
    params: &'m [ValType],
    results: &'m [ValType],
    height: usize,
    /// Whether nothing is emitted, now and at the beginning.
    is_dead: bool,
    was_dead: bool,
    /// Whether operands may be missing, since a jump came before.
    is_open: bool,
    /// The last jump to the end. Each has the one before it in `imm`, until the place of the end is known.
    exits: u32,
}

struct Translator<'m, 'b> {
    module: &'m Module,
    reader: Reader<'b>,
    /// Where the present instruction begins.
    at: usize,
    locals: Vec<ValType>,
    /// The number of each constant, if there are many.
    numbers: HashMap<u128, usize>,
    /// Constants that came lately, by a part of their bits.
    recent: [u16; 128],
    operands: &'m mut Operands,
    blocks: Vec<Block<'m>>,
    code: Vec<Op>,
    /// The rest of the result.
    made: Function,
    /// The last instruction, if it has written the operand on the top and nothing jumps between.
    last: Option<usize>,
    /// The instruction that charges for the present piece of code.
    fuel: Option<usize>,
}

/// Validates and translates the body of a function.
pub(crate) fn function(module: &Module, number: u32, mut reader: Reader, operands: &mut Operands) -> Read<Function> {
    ensure(reader.len() <= limits::BODY, reader.unsupported("the body of a function is too long"))?;
    let ty = module.type_of(number);
    let locals = locals(ty, &mut reader)?;
    operands.begin(locals.len());
    let mut it = Translator {
        module,
        reader,
        at: reader.at,
        locals,
        numbers: HashMap::new(),
        recent: [0; 128],
        operands,
        blocks: vec![],
        code: Vec::with_capacity(reader.len() / 4 + 1),
        made: Function { params: usize::from(ty.len_params()), ..Function::default() },
        last: None,
        fuel: Some(0),
    };
    it.code.push(Op::of(Code::fuel, 1));
    it.open(Kind::Block, (&[], ty.results()))?;
    while !it.blocks.is_empty() {
        it.at = it.reader.at;
        it.instruction()?;
    }
    ensure(it.reader.is_empty(), it.reader.malformed("the body of a function is longer than its code"))?;
    Ok(it.finish(ty.len_results().into()))
}

/// The types of the parameters and of the locals.
fn locals(ty: &FuncType, reader: &mut Reader) -> Read<Vec<ValType>> {
    let begin = *reader;
    let mut locals = ty.params().to_vec();
    let mut all = locals.len() as u64;
    for (count, ty) in reader.list(|it| Ok((it.u32()?, it.val_type()?)))? {
        all += u64::from(count);
        if all <= limits::LOCALS as u64 {
            locals.extend(std::iter::repeat_n(ty, count as usize));
        }
    }
    ensure(all <= u32::MAX.into(), begin.malformed("a function has 2^32 locals or more"))?;
    ensure(all == locals.len() as u64, begin.unsupported("a function has too many locals"))?;
    Ok(locals)
}

/// A type as a list of one.
fn one(ty: ValType) -> &'static [ValType] {
    const TYPES: [ValType; 7] = [I32, I64, F32, F64, V128, FuncRef, ExternRef];
    TYPES.iter().find(|it| **it == ty).map_or(&[], std::slice::from_ref)
}

/// The fuel for writing so many slots at once.
fn price(slots: usize) -> u32 {
    FuelCostsProvider::default().fuel_for_copying_values::<u8>(slots as u64 * size_of::<RawVal>() as u64) as u32
}

impl<'m> Translator<'m, '_> {
    /// Gives constants and operands their slots.
    fn finish(mut self, results: usize) -> Function {
        let Function { params, constants, .. } = &self.made;
        let (locals, constants) = (self.locals.len(), constants.len());
        let moved = |slot: u16| match slot {
            _ if slot >= CONSTANTS => locals as u16 + (slot - CONSTANTS),
            _ if usize::from(slot) >= locals => slot + constants as u16,
            _ => slot,
        };
        for op in &mut self.code {
            (op.d, op.a, op.b, op.c) = (moved(op.d), moved(op.a), moved(op.b), moved(op.c));
        }
        self.code[0].imm += price(locals + constants - params);
        self.code.shrink_to_fit();
        let slots = (locals + constants + self.operands.most).max(results);
        Function { zeros: locals - params, slots, code: self.code, ..self.made }
    }

    fn invalid(&self, what: &'static str) -> Refusal {
        Refusal { kind: RefusalKind::Invalid, offset: self.at, what }
    }

    #[inline(always)]
    fn block(&mut self) -> &mut Block<'m> {
        self.blocks.last_mut().expect("the body has ended")
    }

    fn emit(&mut self, op: Op) {
        self.emit_for(op, 1);
    }

    /// An instruction that costs so many units of fuel.
    #[inline(always)]
    fn emit_for(&mut self, op: Op, units: u32) {
        if !self.block().is_dead {
            self.pay(units);
            self.code.push(op);
        }
    }

    /// So many units of fuel for what comes next.
    #[inline(always)]
    fn pay(&mut self, units: u32) {
        if self.block().is_dead {
            return;
        }
        let fuel = *self.fuel.get_or_insert_with(|| {
            self.code.push(Op::new(Code::fuel));
            self.code.len() - 1
        });
        self.code[fuel].imm += units;
        self.last = None;
    }

    /// The place of the next instruction, to which something may jump.
    fn label(&mut self) -> u32 {
        (self.last, self.fuel) = (None, None);
        self.code.len() as u32
    }

    // Operands.

    fn slot(&self, place: Place, height: usize) -> u16 {
        match place {
            Place::Local(local) => local,
            Place::Constant(constant) => CONSTANTS + constant,
            Place::Reference | Place::Own => self.own(height),
        }
    }

    fn own(&self, height: usize) -> u16 {
        (self.locals.len() + height) as u16
    }

    #[inline(always)]
    fn push_at(&mut self, ty: Option<ValType>, place: Place) -> Read<u16> {
        self.operands.push(ty, place);
        self.is_bounded().map(|()| self.own(self.operands.len() - 1))
    }

    fn push_all(&mut self, types: &[ValType]) -> Read<()> {
        self.operands.push_all(types);
        self.is_bounded()
    }

    fn is_bounded(&self) -> Read<()> {
        let refusal = self.reader.unsupported("a function has too many operands at once");
        ensure(self.operands.len() <= limits::OPERANDS, refusal)
    }

    /// An operand of any type: its type, and its slot.
    #[inline(always)]
    fn pop_any(&mut self) -> Read<(Option<ValType>, u16)> {
        let (height, is_open) = (self.block().height, self.block().is_open);
        if self.operands.len() == height {
            return ensure(is_open, self.invalid("an operand is missing")).map(|()| (None, 0));
        }
        let slot = self.slot(self.operands.place(), self.operands.len() - 1);
        Ok((self.operands.pop(), slot))
    }

    #[inline(always)]
    fn pop(&mut self, wanted: ValType) -> Read<u16> {
        let (ty, slot) = self.pop_any()?;
        ensure(ty.is_none_or(|ty| ty == wanted), self.invalid("an operand has another type")).map(|()| slot)
    }

    /// Checks the last operands, of which some may be missing after a jump. Returns whether that is so.
    fn check_label(&mut self, types: &[ValType]) -> Read<bool> {
        let (height, is_open) = (self.block().height, self.block().is_open);
        ensure(self.operands.agree(height, types), self.invalid("an operand has another type"))?;
        let is_missing = self.operands.len() - height < types.len();
        ensure(is_open || !is_missing, self.invalid("an operand is missing")).map(|()| is_missing)
    }

    /// The same, after which they are there, and their types known.
    fn check(&mut self, types: &[ValType]) -> Read<()> {
        if self.check_label(types)? {
            let height = self.block().height;
            self.operands.truncate(height);
            return self.push_all(types);
        }
        self.operands.know(types);
        Ok(())
    }

    /// An instruction with a result.
    #[inline(always)]
    fn result(&mut self, op: Op, ty: Option<ValType>) -> Read<()> {
        let d = self.push_at(ty, Place::Own)?;
        self.emit(Op { d, ..op });
        if !self.block().is_dead {
            self.last = Some(self.code.len() - 1);
        }
        Ok(())
    }

    /// An instruction of up to three operands.
    fn plain(&mut self, op: Op, operands: &[ValType], result: Option<ValType>) -> Read<()> {
        let mut slots = [0; 3];
        for (slot, ty) in slots.iter_mut().zip(operands).rev() {
            *slot = self.pop(*ty)?;
        }
        let [a, b, c] = slots;
        self.finish_plain(Op { a, b, c, ..op }, result)
    }

    fn finish_plain(&mut self, op: Op, result: Option<ValType>) -> Read<()> {
        if result.is_some() {
            return self.result(op, result);
        }
        self.emit(op);
        Ok(())
    }

    /// The slot of a constant.
    fn constant_slot(&mut self, bits: u128) -> Read<u16> {
        let is_it = |it: &RawVal| library::V128::from(*it).as_u128() == bits;
        let recent = (bits as u32).wrapping_mul(0x9e37_79b9) as usize >> 25;
        let constants = &self.made.constants;
        if constants.get(usize::from(self.recent[recent])).is_some_and(is_it) {
            return Ok(self.recent[recent]);
        }
        let found = match self.numbers.is_empty() {
            true => constants.iter().position(is_it),
            false => self.numbers.get(&bits).copied(),
        };
        self.recent[recent] = found.map_or_else(|| self.new_constant(bits), |number| Ok(number as u16))?;
        Ok(self.recent[recent])
    }

    /// The slot of a constant that has none yet. Of the first ones the numbers aren't kept apart.
    fn new_constant(&mut self, bits: u128) -> Read<u16> {
        let (low, constants) = (bits as u64, &mut self.made.constants);
        let refusal = self.reader.unsupported("a function has too many constants");
        ensure(constants.len() < limits::CONSTANTS, refusal)?;
        constants.push(if bits > low.into() { library::V128::from(bits).into() } else { low.into() });
        if constants.len() > FEW {
            let first = if self.numbers.is_empty() { 0 } else { constants.len() - 1 };
            let new = constants.iter().enumerate().skip(first);
            self.numbers.extend(new.map(|(number, it)| (library::V128::from(*it).as_u128(), number)));
        }
        Ok(constants.len() as u16 - 1)
    }

    fn constant(&mut self, ty: ValType, bits: impl Into<u128>) -> Read<()> {
        let number = self.constant_slot(bits.into())?;
        self.push_at(Some(ty), Place::Constant(number)).map(drop)
    }

    /// Copies operands to their own slots.
    fn settle(&mut self, operands: Vec<(usize, Place)>) {
        for (height, place) in operands {
            match place {
                Place::Reference => self.pay(1),
                _ => self.emit(Op { d: self.own(height), a: self.slot(place, height), ..Op::new(Code::copy) }),
            }
        }
    }

    /// Copies the last operands to their own slots.
    #[inline(always)]
    fn settle_last(&mut self, count: usize) {
        if count == 0 {
            return;
        }
        let operands = self.operands.settle_last(count);
        self.settle(operands);
    }

    /// The same, but a single operand is copied by the jump.
    fn settle_several(&mut self, count: usize) {
        self.settle_last(if count == 1 { 0 } else { count });
    }

    /// Takes operands that lie in their own slots then.
    fn take_settled(&mut self, types: &[ValType]) -> Read<()> {
        self.check(types)?;
        self.settle_last(types.len());
        self.operands.truncate(self.operands.len() - types.len());
        Ok(())
    }

    /// Copies the operands that lie in a local, or in any, to their own slots. Returns whether there was one.
    #[inline(always)]
    fn settle_locals(&mut self, local: Option<u16>) -> bool {
        if !self.operands.has_lent(local) {
            return false;
        }
        let operands = self.operands.settle_locals(local);
        let any = !operands.is_empty();
        self.settle(operands);
        any
    }

    // Blocks.

    fn open(&mut self, kind: Kind, (params, results): (&'m [ValType], &'m [ValType])) -> Read<()> {
        let is_dead = self.blocks.last().is_some_and(|it| it.is_dead);
        let height = self.operands.len() - params.len();
        let (was_dead, is_open, exits) = (is_dead, false, NO_JUMP);
        self.blocks.push(Block { kind, params, results, height, is_dead, was_dead, is_open, exits });
        let refusal = self.reader.unsupported("a function has too many blocks in each other");
        ensure(self.blocks.len() <= limits::BLOCKS, refusal)
    }

    /// What follows isn't reached.
    fn end_here(&mut self) {
        let height = self.block().height;
        self.operands.truncate(height);
        (self.block().is_dead, self.block().is_open) = (true, true);
    }

    /// A block that a jump leads to, and the operands that the jump takes.
    fn target(&self, depth: u32) -> Read<(usize, &'m [ValType])> {
        let index = (self.blocks.len() - 1).checked_sub(depth as usize).ok_or(self.invalid("a label is unknown"))?;
        let block = &self.blocks[index];
        Ok((index, if matches!(block.kind, Kind::Loop(_)) { block.params } else { block.results }))
    }

    /// A jump, with the last operands copied to where the block has them.
    fn jump(&mut self, index: usize, count: usize) {
        if self.block().is_dead {
            return;
        }
        let top = self.operands.len() - count;
        let place = if count == 1 { self.operands.place() } else { Place::Own };
        let a = self.slot(place, top);
        if index == 0 {
            return self.emit_for(Op { a, ..Op::of(Code::ret, count as u32) }, 1 + price(count));
        }
        let d = self.own(self.blocks[index].height);
        if a == d && place == Place::Reference {
            self.pay(1);
        }
        match count {
            _ if count == 0 || a == d => {}
            1 => self.emit(Op { d, a, ..Op::new(Code::copy) }),
            _ => self.emit_for(Op { d, a, ..Op::of(Code::copy_many, count as u32) }, 1 + price(count)),
        }
        self.emit(Op::new(Code::branch));
        self.leave(index, self.code.len() - 1);
    }

    /// A jump with operands of these types.
    fn jump_with(&mut self, index: usize, types: &[ValType]) -> Read<()> {
        self.check(types)?;
        self.settle_several(types.len());
        self.jump(index, types.len());
        Ok(())
    }

    /// An instruction jumps to the end of a block, whose place isn't known yet, or to the beginning of a loop.
    fn leave(&mut self, index: usize, exit: usize) {
        match self.blocks[index].kind {
            Kind::Loop(begin) => self.code[exit].imm = begin,
            _ => self.code[exit].imm = std::mem::replace(&mut self.blocks[index].exits, exit as u32),
        }
    }

    /// Closes a block or the first half of an `if`: its results lie in slots of their own.
    fn close(&mut self) -> Read<()> {
        let results = self.block().results;
        self.take_settled(results)?;
        ensure(self.operands.len() == self.block().height, self.invalid("an operand is left"))
    }

    fn block_type(&mut self) -> Read<(&'m [ValType], &'m [ValType])> {
        match self.reader.peek() {
            Some(0x40) => self.reader.byte().map(|_| (&[][..], &[][..])),
            Some(byte) if byte & 0xc0 == 0x40 => Ok((&[], one(self.reader.val_type()?))),
            _ => {
                let ty = self.reader.type_of_block()?.and_then(|ty| self.module.types.get(ty as usize));
                Ok(ty.ok_or(self.invalid("a type is unknown"))?.params_results())
            }
        }
    }

    fn begin_block(&mut self, opcode: u32) -> Read<()> {
        let ty = self.block_type()?;
        let a = if opcode == 4 { self.pop(I32)? } else { 0 };
        self.take_settled(ty.0)?;
        self.settle_locals(None);
        self.push_all(ty.0)?;
        if opcode == 4 {
            self.emit(Op { a, ..Op::new(Code::branch_unless) });
        }
        let kind = match opcode {
            2 => Kind::Block,
            3 => Kind::Loop(self.label()),
            _ => Kind::If(self.label() as usize - 1),
        };
        self.open(kind, ty)
    }

    fn begin_else(&mut self) -> Read<()> {
        let Kind::If(test) = self.block().kind else {
            return Err(self.reader.malformed("an else has no if").into());
        };
        self.close()?;
        self.block().kind = Kind::Block;
        self.jump(self.blocks.len() - 1, 0);
        let label = self.label();
        let (is_dead, params) = (self.block().was_dead, self.block().params);
        if !is_dead {
            self.code[test].imm = label;
        }
        (self.block().is_dead, self.block().is_open) = (is_dead, false);
        self.push_all(params)
    }

    fn end(&mut self) -> Read<()> {
        if self.blocks.len() == 1 {
            let results = self.block().results;
            self.jump_with(0, results)?;
            self.blocks.pop();
            return ensure(self.operands.len() == results.len(), self.invalid("an operand is left"));
        }
        self.close()?;
        let label = self.label();
        if let Some(block) = self.blocks.pop() {
            if let Kind::If(test) = block.kind {
                let is_kept = are_same(block.params, block.results);
                ensure(is_kept, self.invalid("an if without an else changes the stack"))?;
                if !block.was_dead {
                    self.code[test].imm = label;
                }
            }
            let mut exit = block.exits;
            while exit != NO_JUMP {
                exit = std::mem::replace(&mut self.code[exit as usize].imm, label);
            }
            self.push_all(block.results)?;
        }
        Ok(())
    }

    fn branch_if(&mut self) -> Read<()> {
        let depth = self.reader.u32()?;
        let (index, types) = self.target(depth)?;
        let a = self.pop(I32)?;
        self.check(types)?;
        if self.block().is_dead {
            return Ok(());
        }
        if types.is_empty() && index != 0 {
            self.emit(Op { a, ..Op::new(Code::branch_if) });
            self.leave(index, self.code.len() - 1);
            return Ok(());
        }
        self.settle_several(types.len());
        self.emit(Op { a, ..Op::new(Code::branch_unless) });
        let test = self.code.len() - 1;
        self.jump(index, types.len());
        self.code[test].imm = self.label();
        Ok(())
    }

    /// A jump for each label, in a row. Where operands are to be copied it goes to the copies first.
    fn branch_table(&mut self) -> Read<()> {
        let mut depths = self.reader.list(Reader::u32)?;
        ensure(depths.len() <= limits::LABELS, self.reader.unsupported("a table of labels is too long"))?;
        depths.push(self.reader.u32()?);
        let a = self.pop(I32)?;
        let count = self.target(depths[depths.len() - 1])?.1.len();
        for depth in &depths {
            let (_, types) = self.target(*depth)?;
            ensure(types.len() == count, self.invalid("labels of one table take different operands"))?;
            self.check_label(types)?;
        }
        if !self.block().is_dead {
            self.settle_last(count);
            self.emit(Op { a, ..Op::of(Code::branch_table, depths.len() as u32 - 1) });
            self.jumps(&depths, count)?;
        }
        self.end_here();
        Ok(())
    }

    fn jumps(&mut self, depths: &[u32], count: usize) -> Read<()> {
        let first = self.code.len();
        self.code.extend(depths.iter().map(|_| Op::new(Code::branch)));
        let mut places = HashMap::new();
        for (exit, depth) in (first..).zip(depths) {
            let (index, _) = self.target(*depth)?;
            if count == 0 && index != 0 {
                self.leave(index, exit);
            } else if let Some(place) = places.get(depth) {
                self.code[exit].imm = *place;
            } else {
                let place = self.label();
                self.code[exit].imm = place;
                self.jump(index, count);
                places.insert(*depth, place);
            }
        }
        Ok(())
    }

    // Instructions.

    fn instruction(&mut self) -> Read<()> {
        let first = u32::from(self.reader.byte()?);
        let opcode = if matches!(first, 0xfc | 0xfd) { first << 12 | self.reader.u32()?.min(0xfff) } else { first };
        if let Some((code, form)) = instructions::row(opcode) {
            return self.of_the_library(Op::new(*code), form);
        }
        match opcode {
            0x00..=0x05 | 0x0b..=0x0f => self.control(opcode),
            0x10..=0x13 => self.call(opcode),
            0x1a => self.pop_any().map(drop),
            0x1b | 0x1c => self.select(opcode),
            0x20..=0x24 => self.variable(opcode),
            // `table.get`, `table.set`, `memory.size`, `memory.grow`, `memory.copy`, `memory.fill`, `table.copy`, `table.grow`,
            // `table.size` and `table.fill`.
            0x25 | 0x26 | 0x3f | 0x40 | 0xfc00a | 0xfc00b | 0xfc00e..=0xfc011 => self.of_elements(opcode),
            // `memory.init`, `data.drop`, `table.init` and `elem.drop`.
            0xfc008 | 0xfc009 | 0xfc00c | 0xfc00d => self.of_segments(opcode),
            0x41 => self.reader.i32().and_then(|value| self.constant(I32, value.cast_unsigned())),
            0x42 => self.reader.i64().and_then(|value| self.constant(I64, value.cast_unsigned())),
            0xd0..=0xd2 => self.reference(opcode),
            0xfc013..=0xfc016 => self.wide(opcode),
            0xfd00c => self.reader.v128().and_then(|value| self.constant(V128, value.as_u128())),
            0xfd00d => self.shuffle(),
            _ => self.other(opcode),
        }
    }

    /// An instruction of floats, or an unknown one.
    fn other(&mut self, opcode: u32) -> Read<()> {
        let mut at = self.reader;
        at.at = self.at;
        match floats::meaning(opcode) {
            Some(_) if at.is_strict => Err(at.unsupported("an instruction is one on floats").into()),
            Some(meaning) => self.of_floats(meaning),
            None => Err(at.unknown(proposals::of_instruction(opcode), "an instruction is unknown").into()),
        }
    }

    fn of_floats(&mut self, meaning: Meaning) -> Read<()> {
        match meaning {
            Meaning::Constant(ty) => {
                let bits = self.reader.float(if ty == F32 { 4 } else { 8 })?;
                self.constant(ty, bits)
            }
            Meaning::Moves(code, form) => self.of_the_library(Op::new(code), &form),
            Meaning::Reinterprets(from, to) => {
                self.check(&[from])?;
                self.operands.know(&[to]);
                Ok(())
            }
            Meaning::Sign(code, ty, bits) => {
                let (a, b) = (self.pop(ty)?, CONSTANTS + self.constant_slot(bits)?);
                self.result(Op { a, b, ..Op::new(code) }, Some(ty))
            }
            Meaning::CopiesSign(and, or, ty, sign) => {
                let (b, a) = (self.pop(ty)?, self.pop(ty)?);
                let (rest, sign) = (CONSTANTS + self.constant_slot(sign - 1)?, CONSTANTS + self.constant_slot(sign)?);
                let (left, right) = (self.own(self.operands.len()), self.own(self.operands.len() + 1));
                self.emit(Op { d: left, a, b: rest, ..Op::new(and) });
                self.emit_for(Op { d: right, a: b, b: sign, ..Op::new(and) }, 0);
                self.emit_for(Op { d: left, a: left, b: right, ..Op::new(or) }, 0);
                self.push_at(Some(ty), Place::Own).map(drop)
            }
            Meaning::Computes(lane, form) => {
                self.of_the_library(Op { lane, ..Op::of(Code::float, self.at as u32) }, &form)?;
                // What follows isn't reached, but has its operands.
                self.block().is_dead = true;
                Ok(())
            }
        }
    }

    fn control(&mut self, opcode: u32) -> Read<()> {
        match opcode {
            0x00 => self.emit(Op::new(Code::unreachable)),
            0x01 => {}
            0x02..=0x04 => self.begin_block(opcode)?,
            0x05 => self.begin_else()?,
            0x0b => self.end()?,
            0x0c => {
                let depth = self.reader.u32()?;
                let (index, types) = self.target(depth)?;
                self.jump_with(index, types)?;
            }
            0x0d => self.branch_if()?,
            0x0e => self.branch_table()?,
            _ => self.jump_with(0, self.blocks[0].results)?,
        }
        if matches!(opcode, 0x00 | 0x0c | 0x0f) {
            self.end_here();
        }
        Ok(())
    }

    fn call(&mut self, opcode: u32) -> Read<()> {
        let module = self.module;
        let number = self.reader.u32()?;
        let (ty, op) = if matches!(opcode, 0x10 | 0x12) {
            let ty = module.functions.get(number as usize).ok_or(self.invalid("a function is unknown"))?;
            (*ty as usize, Op::of(Code::call, number))
        } else {
            let (table, index, element) = self.table()?;
            ensure(element == FuncRef, self.invalid("a call goes through a table of no functions"))?;
            let same = *module.same.get(number as usize).ok_or(self.invalid("a type is unknown"))?;
            (number as usize, Op { b: self.pop(index)?, lane: table as u16, ..Op::of(Code::call_indirect, same) })
        };
        let ty = &module.types[ty];
        if opcode >= 0x12 {
            return self.return_call(op, ty);
        }
        self.take_settled(ty.params())?;
        let a = self.own(self.operands.len());
        self.emit(Op { a, ..op });
        self.push_all(ty.results())
    }

    /// A call whose results are those of the function, the frame of which becomes that of the callee.
    fn return_call(&mut self, op: Op, ty: &FuncType) -> Read<()> {
        let is_right = are_same(ty.results(), self.blocks[0].results);
        ensure(is_right, self.invalid("a tail call has other results than the function"))?;
        self.take_settled(ty.params())?;
        let code = if op.code == Code::call { Code::return_call } else { Code::return_call_indirect };
        let a = self.own(self.operands.len());
        self.emit_for(Op { a, code, ..op }, 1 + price(ty.params().len()));
        // A function of another instance returns to here.
        if code == Code::return_call_indirect {
            self.emit_for(Op { a, ..Op::of(Code::ret, ty.results().len() as u32) }, 0);
        }
        self.end_here();
        Ok(())
    }

    fn select(&mut self, opcode: u32) -> Read<()> {
        let given = if opcode == 0x1c { self.reader.list(Reader::val_type)? } else { vec![] };
        ensure(opcode == 0x1b || given.len() == 1, self.invalid("a select has another number of types than one"))?;
        let (c, (right, b), (left, a)) = (self.pop(I32)?, self.pop_any()?, self.pop_any()?);
        let ty = given.first().copied().or(left).or(right);
        let are_same = [left, right].iter().all(|it| it.is_none() || *it == ty);
        ensure(are_same, self.invalid("a select has operands of two types"))?;
        let is_named = !given.is_empty() || ty.is_none_or(|it| !it.is_ref());
        ensure(is_named, self.invalid("a select of references doesn't name their type"))?;
        self.result(Op { a, b, c, ..Op::new(Code::select) }, ty)
    }

    fn variable(&mut self, opcode: u32) -> Read<()> {
        let number = self.reader.u32()?;
        if opcode < 0x23 {
            let ty = *self.locals.get(number as usize).ok_or(self.invalid("a local is unknown"))?;
            return match opcode {
                0x20 => self.push_at(Some(ty), Place::Local(number as u16)).map(drop),
                _ => self.set_local(number as u16, ty, opcode == 0x22),
            };
        }
        let (ty, _) = self.module.globals.get(number as usize).ok_or(self.invalid("a global is unknown"))?;
        if opcode == 0x23 {
            return self.plain(Op::of(Code::global_get, number), &[], Some(ty.content()));
        }
        ensure(ty.mutability().is_mut(), self.invalid("a constant global is set"))?;
        self.plain(Op::of(Code::global_set, number), &[ty.content()], None)
    }

    /// Writes an operand to a local, or lets the instruction before write it there.
    fn set_local(&mut self, d: u16, ty: ValType, keeps: bool) -> Read<()> {
        let a = self.pop(ty)?;
        let last = self.last;
        let is_kept = self.settle_locals(Some(d));
        match last {
            Some(last) if !is_kept && self.code[last].d == a && !self.block().is_dead => {
                self.code[last].d = d;
                self.last = None;
            }
            _ if a != d => self.emit(Op { d, a, ..Op::new(Code::copy) }),
            _ => {}
        }
        if keeps {
            self.push_at(Some(ty), Place::Local(d))?;
        }
        Ok(())
    }

    fn reference(&mut self, opcode: u32) -> Read<()> {
        if opcode == 0xd0 {
            let ty = self.reader.ref_type()?;
            return self.constant(ty.into(), u32::from(RawRef::null()));
        }
        if opcode == 0xd1 {
            let (ty, a) = self.pop_any()?;
            ensure(ty.is_none_or(|it| it.is_ref()), self.invalid("an operand isn't a reference"))?;
            return self.result(Op { a, ..Op::new(Code::is_null) }, Some(I32));
        }
        let function = self.reader.u32()?;
        let is_declared =
            self.module.is_declared.get(function as usize).ok_or(self.invalid("a function is unknown"))?;
        ensure(*is_declared, self.invalid("a reference is to a function that isn't declared"))?;
        // A reference depends on the instance, but is paid for as a constant.
        self.constant_slot((function + 1).into())?;
        let d = self.push_at(Some(FuncRef), Place::Reference)?;
        self.emit_for(Op { d, ..Op::of(Code::ref_func, function) }, 0);
        Ok(())
    }

    /// A table, with the types of its indices and of its elements.
    fn table(&mut self) -> Read<(u32, ValType, ValType)> {
        let number = self.reader.u32()?;
        let (ty, _) = self.module.tables.get(number as usize).ok_or(self.invalid("a table is unknown"))?;
        Ok((number, ty.index_ty().ty(), ty.element().into()))
    }

    /// A memory, the first one if none is named, with the type of its addresses.
    fn memory(&mut self, is_named: bool) -> Read<(u32, ValType)> {
        let number = if is_named { self.reader.u32()? } else { 0 };
        let ty = self.module.memories.get(number as usize).ok_or(self.invalid("a memory is unknown"))?;
        Ok((number, ty.index_ty().ty()))
    }

    /// Instructions on a table, or on a memory: as if its elements were numbers of 32 bits.
    fn of_elements(&mut self, opcode: u32) -> Read<()> {
        let is_memory = matches!(opcode, 0x3f | 0x40 | 0xfc00a | 0xfc00b);
        let named = |it: &mut Self| match is_memory {
            true => it.memory(true).map(|(number, address)| (number, address, I32)),
            false => it.table(),
        };
        let (imm, index, element) = named(self)?;
        match opcode {
            0x25 => self.plain(Op::of(Code::table_get, imm), &[index], Some(element)),
            0x26 => self.plain(Op::of(Code::table_set, imm), &[index, element], None),
            0x3f => self.plain(Op::of(Code::memory_size, imm), &[], Some(index)),
            0x40 => self.plain(Op::of(Code::memory_grow, imm), &[index], Some(index)),
            0xfc00b => self.plain(Op::of(Code::memory_fill, imm), &[index, element, index], None),
            0xfc00f => self.plain(Op::of(Code::table_grow, imm), &[element, index], Some(index)),
            0xfc010 => self.plain(Op::of(Code::table_size, imm), &[], Some(index)),
            0xfc011 => self.plain(Op::of(Code::table_fill, imm), &[index, element, index], None),
            // `memory.copy` and `table.copy`.
            _ => {
                let (from, index_of_source, ty) = named(self)?;
                ensure(ty == element, self.invalid("two tables have different types"))?;
                let count = if index == I64 { index_of_source } else { I32 };
                let code = if is_memory { Code::memory_copy } else { Code::table_copy };
                self.plain(Op { lane: from as u16, ..Op::of(code, imm) }, &[index, index_of_source, count], None)
            }
        }
    }

    /// Segments that are copied from, to a memory or a table, or dropped.
    fn of_segments(&mut self, opcode: u32) -> Read<()> {
        let segment = self.reader.u32()?;
        let elements = self.module.elements.get(segment as usize);
        if opcode < 0xfc00c {
            let count = self.module.data_count.ok_or(self.reader.malformed("the data count section is missing"))?;
            ensure(segment < count, self.invalid("a data segment is unknown"))?;
        } else {
            ensure(elements.is_some(), self.invalid("an element segment is unknown"))?;
        }
        let (code, number, index) = match opcode {
            0xfc008 => {
                let (memory, address) = self.memory(true)?;
                (Code::memory_init, memory, address)
            }
            0xfc00c => {
                let (table, index, ty) = self.table()?;
                let is_right = elements.is_some_and(|it| ty == it.ty.into());
                ensure(is_right, self.invalid("an element segment has another type than the table"))?;
                (Code::table_init, table, index)
            }
            _ => {
                self.emit(Op::of(if opcode == 0xfc009 { Code::data_drop } else { Code::elem_drop }, segment));
                return Ok(());
            }
        };
        self.plain(Op { lane: number as u16, ..Op::of(code, segment) }, &[index, I32, I32], None)
    }

    /// Instructions with two results, which lie where their operands lay.
    fn wide(&mut self, opcode: u32) -> Read<()> {
        let codes = [Code::i64_add128, Code::i64_sub128, Code::i64_mul_wide_s, Code::i64_mul_wide_u];
        let operands = &[I64; 4][..if opcode < 0xfc015 { 4 } else { 2 }];
        self.take_settled(operands)?;
        let a = self.own(self.operands.len());
        self.emit(Op { a, ..Op::new(codes[opcode as usize - 0xfc013]) });
        self.push_all(&[I64, I64])
    }

    fn shuffle(&mut self) -> Read<()> {
        let lanes = self.reader.take(16)?;
        let indices: Vec<_> = lanes.iter().filter_map(|lane| ImmLaneIdx32::try_from(*lane).ok()).collect();
        self.made.shuffles.push(indices.try_into().or(Err(self.invalid("there is no such lane")))?);
        self.plain(Op::of(Code::shuffle, self.made.shuffles.len() as u32 - 1), &[V128, V128], Some(V128))
    }

    fn of_the_library(&mut self, op: Op, form: &Form) -> Read<()> {
        match *form {
            Form::Plain(operands, result) => self.plain(op, operands, Some(result)),
            Form::Lane(lanes, operands, result) => {
                let lane = self.lane(lanes)?;
                self.plain(Op { lane, ..op }, operands, Some(result))
            }
            Form::Access(bytes, lanes, value, result) => {
                let (op, memory) = self.access(op, bytes, lanes, value)?;
                if memory != 0 {
                    self.emit(Op::of(Code::memory_use, memory));
                }
                self.finish_plain(op, result)?;
                if memory != 0 {
                    self.emit(Op::new(Code::memory_use));
                }
                Ok(())
            }
        }
    }

    fn lane(&mut self, lanes: u8) -> Read<u16> {
        let lane = self.reader.byte()?;
        ensure(lane < lanes, self.invalid("there is no such lane")).map(|()| lane.into())
    }

    /// A load or a store of so many bytes, with the value that it takes, and its memory. An access to another memory than
    /// the first one stands between two instructions that change the memory; an offset beyond 32 bits is added before.
    fn access(&mut self, op: Op, bytes: u8, lanes: Option<u8>, value: Option<ValType>) -> Read<(Op, u32)> {
        let begin = self.reader;
        let flags = self.reader.u32()?;
        let (memory, address) = self.memory(flags & 0x40 != 0)?;
        let align = flags & !0x40;
        ensure(align < 0x40, begin.malformed("the alignment of an access is beyond 64 bits"))?;
        let offset = if address == I64 { self.reader.u64()? } else { self.reader.u32()?.into() };
        let lane = lanes.map_or(Ok(0), |lanes| self.lane(lanes))?;
        ensure(align <= bytes.trailing_zeros(), self.invalid("an alignment is above the bytes of its access"))?;
        let b = value.map_or(Ok(0), |ty| self.pop(ty))?;
        let mut a = self.pop(address)?;
        let imm = u32::try_from(offset).unwrap_or(0);
        if u64::from(imm) != offset {
            let (d, b) = (self.own(self.operands.len()), CONSTANTS + self.constant_slot(offset.into())?);
            self.emit(Op { d, a, b, ..Op::new(Code::add_offset) });
            a = d;
        }
        Ok((Op { a, b, imm, lane, ..op }, memory))
    }
}
