//! Random bodies: values and statements of every kind, loops and calls that end, jumps out of everything, and code that can't be reached.
use crate::instructions::{Immediate, Instruction};
use crate::module::{BUDGET, Shape, Type, Type::*, constant, sized, unsigned, with_budget};
use crate::random::Random;

struct Body<'a> {
    shape: &'a Shape,
    random: &'a mut Random,
    instructions: &'a [Instruction],
    code: Vec<u8>,
    locals: Vec<Type>,
    /// From here on the locals count loops, and nothing else changes them; `counters` are those that are free.
    first_counter: usize,
    counters: Vec<usize>,
    /// What a jump to each label takes, the outermost first.
    labels: Vec<Vec<Type>>,
    /// How many more instructions the body may have, about.
    room: i64,
}

pub fn body(shape: &Shape, function: usize, random: &mut Random, instructions: &[Instruction]) -> Vec<u8> {
    let mut bytes = vec![];
    if function == 0 {
        sized(&mut bytes, &with_budget());
        return bytes;
    }
    let signature = shape.signature(function);
    let mut locals = signature.params.clone();
    locals.extend((0..random.below(6)).map(|_| *random.of(&[I32, I32, I64, F32, F64, V128, Func, Extern])));
    let first_counter = locals.len();
    let counters: Vec<_> = (first_counter..first_counter + 3).collect();
    locals.extend([I32; 3]);
    let own = locals[signature.params.len()..].to_vec();
    let labels = vec![signature.results.clone()];
    let room = 30 + random.below(120) as i64;
    let mut it = Body { shape, random, instructions, code: vec![], locals, first_counter, counters, labels, room };
    unsigned(&mut it.code, own.len() as u64);
    own.iter().for_each(|ty| it.code.extend([1, *ty as u8]));
    it.pay();
    it.statements(4);
    if it.random.once_in(3) {
        it.tail_call(3);
    } else {
        it.values(&signature.results, 3);
    }
    it.code.push(0x0b);
    sized(&mut bytes, &it.code);
    bytes
}

impl Body<'_> {
    fn op(&mut self, code: &[u8], index: usize) {
        self.code.extend(code);
        unsigned(&mut self.code, index as u64);
    }

    /// Takes one of the budget, and traps if there is none.
    fn pay(&mut self) {
        let budget = BUDGET as u8;
        self.code.extend([0x23, budget, 0x45, 0x04, 0x40, 0x00, 0x0b, 0x23, budget, 0x41, 1, 0x6b, 0x24, budget]);
    }

    fn statements(&mut self, most: usize) {
        for _ in 0..self.random.below(most + 1) {
            self.statement(3);
        }
    }

    fn values(&mut self, types: &[Type], depth: usize) {
        types.iter().for_each(|ty| self.value(*ty, depth));
    }

    fn number(&mut self, ty: Type, value: i64) {
        self.code.push(if ty == I64 { 0x42 } else { 0x41 });
        crate::module::signed(&mut self.code, value);
    }

    fn local(&mut self, ty: Type, is_written: bool) -> Option<usize> {
        let is_fit = |it: &usize| self.locals[*it] == ty && !(is_written && *it >= self.first_counter);
        let fitting: Vec<_> = (0..self.locals.len()).filter(is_fit).collect();
        (!fitting.is_empty()).then(|| *self.random.of(&fitting))
    }

    fn global(&mut self, ty: Type, is_written: bool) -> Option<usize> {
        let is_fit =
            |it: &usize| *it != BUDGET && self.shape.globals[*it].0 == ty && (self.shape.globals[*it].1 || !is_written);
        let fitting: Vec<_> = (0..self.shape.globals.len()).filter(is_fit).collect();
        (!fitting.is_empty()).then(|| *self.random.of(&fitting))
    }

    fn table(&mut self, ty: Option<Type>) -> Option<usize> {
        let is_fit = |it: &usize| ty.is_none_or(|ty| self.shape.tables[*it].0 == ty);
        let fitting: Vec<_> = (0..self.shape.tables.len()).filter(is_fit).collect();
        (!fitting.is_empty()).then(|| *self.random.of(&fitting))
    }

    fn leaf(&mut self, ty: Type) {
        let (local, global) = (self.local(ty, false), self.global(ty, false));
        match (self.random.below(4), local, global) {
            (0 | 1, Some(local), _) => self.op(&[0x20], local),
            (2, _, Some(global)) => self.op(&[0x23], global),
            _ => constant(&mut self.code, ty, self.random, self.shape.functions.len()),
        }
    }

    /// Leaves a value of a type.
    fn value(&mut self, ty: Type, depth: usize) {
        self.room -= 1;
        if depth == 0 || self.room < 0 {
            return self.leaf(ty);
        }
        match self.random.below(16) {
            0 | 1 => self.leaf(ty),
            2 => self.select(ty, depth),
            3 => self.block_of(ty, depth),
            4 => self.choice_of(ty, depth),
            5 => self.call_for(ty, depth),
            6 => match self.local(ty, true) {
                Some(local) => {
                    self.value(ty, depth - 1);
                    self.op(&[0x22], local);
                }
                None => self.leaf(ty),
            },
            7 | 8 => self.special(ty, depth),
            _ => self.instruction_for(Some(ty), depth),
        }
    }

    fn select(&mut self, ty: Type, depth: usize) {
        self.values(&[ty, ty, I32], depth - 1);
        if ty.is_reference() || self.random.once_in(4) {
            self.code.extend([0x1c, 1, ty as u8]);
        } else {
            self.code.push(0x1b);
        }
    }

    fn block_of(&mut self, ty: Type, depth: usize) {
        self.code.extend([0x02, ty as u8]);
        self.labels.push(vec![ty]);
        if self.random.once_in(2) {
            self.statement(depth - 1);
        }
        self.value(ty, depth - 1);
        if self.random.once_in(2) {
            self.value(I32, depth - 1);
            self.op(&[0x0d], 0);
        }
        if self.random.once_in(4) {
            self.op(&[0x0c], 0);
            self.unreached();
        }
        self.labels.pop();
        self.code.push(0x0b);
    }

    fn choice_of(&mut self, ty: Type, depth: usize) {
        self.value(I32, depth - 1);
        self.code.extend([0x04, ty as u8]);
        self.labels.push(vec![ty]);
        self.value(ty, depth - 1);
        self.code.push(0x05);
        self.value(ty, depth - 1);
        self.labels.pop();
        self.code.push(0x0b);
    }

    /// Calls a function, directly or by a table, and leaves its results.
    fn call(&mut self, function: usize, depth: usize) {
        self.call_by([0x10, 0x11], function, depth);
    }

    /// Calls a function whose results are those of this one, and returns them.
    fn tail_call(&mut self, depth: usize) {
        let alike: Vec<_> =
            (1..self.shape.functions.len()).filter(|it| self.shape.signature(*it).results == self.labels[0]).collect();
        let function = *self.random.of(&alike);
        self.call_by([0x12, 0x13], function, depth);
        self.unreached();
    }

    fn call_by(&mut self, [direct, by_table]: [u8; 2], function: usize, depth: usize) {
        let signature = self.shape.signature(function).clone();
        self.values(&signature.params, depth.saturating_sub(2));
        let Some(table) = self.table(Some(Func)).filter(|_| self.random.once_in(2)) else {
            return self.op(&[direct], function);
        };
        let at = self.random.below(self.shape.tables[table].1.least as usize + 1) as i64;
        if self.random.once_in(2) {
            // The element becomes the function, so that the call is sometimes one that can be made.
            self.number(I32, at);
            self.op(&[0xd2], function);
            self.op(&[0x26], table);
        }
        self.number(I32, at);
        self.op(&[by_table], self.shape.functions[function]);
        unsigned(&mut self.code, table as u64);
    }

    fn call_for(&mut self, ty: Type, depth: usize) {
        let fitting: Vec<_> = (1..self.shape.functions.len())
            .filter(|it| self.shape.signature(*it).results.first() == Some(&ty))
            .collect();
        if fitting.is_empty() {
            return self.instruction_for(Some(ty), depth);
        }
        let function = *self.random.of(&fitting);
        self.call(function, depth);
        let more = self.shape.signature(function).results.len() - 1;
        self.code.extend(vec![0x1a; more]);
    }

    /// An instruction on memories or tables with a result.
    fn special(&mut self, ty: Type, depth: usize) {
        let address = self.shape.address();
        match (ty, self.random.below(6)) {
            (I32 | I64, 0) if ty == address && self.shape.memory.is_some() => self.code.extend([0x3f, 0]),
            (I32 | I64, 1) if ty == address && self.shape.memory.is_some() => {
                let has_most = self.shape.memory.as_ref().is_some_and(|it| it.most.is_some());
                self.growth(ty, has_most);
                self.code.extend([0x40, 0]);
            }
            (I32, 2) => {
                let table = self.table(None).unwrap_or(0);
                self.op(&[0xfc, 16], table);
            }
            (I32, 3) => {
                let table = self.table(None).unwrap_or(0);
                self.value(self.shape.tables[table].0, depth - 1);
                self.growth(I32, self.shape.tables[table].1.most.is_some());
                self.op(&[0xfc, 15], table);
            }
            (I32, 4) => self.reinterpreted(F32, 0xbc, depth),
            (I64, 4) => self.reinterpreted(F64, 0xbd, depth),
            (I32, _) if self.random.once_in(2) => {
                let ty = *self.random.of(&[Func, Extern]);
                self.value(ty, depth - 1);
                self.code.push(0xd1);
            }
            (Func | Extern, 0..4) => match self.table(Some(ty)) {
                Some(table) => {
                    self.small(I32, self.shape.tables[table].1.least as usize + 2, depth);
                    self.op(&[0x25], table);
                }
                None => self.leaf(ty),
            },
            _ => self.instruction_for(Some(ty), depth),
        }
    }

    /// The bits of a float.
    fn reinterpreted(&mut self, ty: Type, code: u8, depth: usize) {
        self.value(ty, depth - 1);
        self.code.push(code);
    }

    /// How much something grows. Without a maximum it is little, since what memory there is isn't for WebAssembly to say.
    fn growth(&mut self, ty: Type, has_most: bool) {
        let count =
            if has_most && self.random.once_in(8) { self.random.number() as i64 } else { self.random.below(3) as i64 };
        self.number(ty, if ty == I32 { i64::from(count as i32) } else { count });
    }

    /// A number that is mostly below `bound`.
    fn small(&mut self, ty: Type, bound: usize, depth: usize) {
        if self.random.once_in(24) {
            return self.value(ty, depth.saturating_sub(1));
        }
        let value = self.random.below(bound.max(1)) as i64;
        self.number(ty, value);
    }

    /// An address: mostly within the first page, sometimes about its end, and at times anything.
    fn address(&mut self, depth: usize) {
        let ty = self.shape.address();
        match self.random.below(16) {
            0 => {
                let near = 65_536 - self.random.below(20) as i64;
                self.number(ty, near);
            }
            1 => self.value(ty, depth.saturating_sub(1)),
            2..8 => {
                self.value(ty, depth.saturating_sub(1));
                self.number(ty, 0x3fff);
                self.code.push(if ty == I64 { 0x83 } else { 0x71 });
            }
            _ => self.small(ty, 600, depth),
        }
    }

    /// The alignment and the offset of an access.
    fn access(&mut self, most: u32) {
        let align = self.random.below(most as usize + 1) as u64;
        let offset = match self.random.below(20) {
            0 => self.random.number() & if self.shape.is_wide { u64::MAX } else { 0xffff_ffff },
            1 => 65_520 + self.random.below(30) as u64,
            it if it < 10 => 0,
            _ => self.random.below(100) as u64,
        };
        unsigned(&mut self.code, align);
        unsigned(&mut self.code, offset);
    }

    /// An instruction on numbers, vectors or the memory whose result has a type.
    fn instruction_for(&mut self, result: Option<Type>, depth: usize) {
        let has_memory = self.shape.memory.is_some();
        let touches = |it: &Instruction| matches!(it.immediate, Immediate::Access(_) | Immediate::LaneOfAccess(..));
        let fitting: Vec<_> = self
            .instructions
            .iter()
            .filter(|it| it.result == result && (has_memory || !touches(it)))
            .cloned()
            .collect();
        match (fitting.is_empty(), result) {
            (true, Some(ty)) => return self.leaf(ty),
            (true, None) => return,
            _ => {}
        }
        let instruction = self.random.of(&fitting).clone();
        if touches(&instruction) {
            self.address(depth);
        }
        self.values(&instruction.operands, depth - 1);
        self.code.extend(&instruction.code);
        match instruction.immediate {
            Immediate::None => {}
            Immediate::Access(align) => self.access(align),
            Immediate::Lane(lanes) => self.lane(lanes),
            Immediate::LaneOfAccess(align, lanes) => {
                self.access(align);
                self.lane(lanes);
            }
            Immediate::Shuffle => (0..16).for_each(|_| self.lane(32)),
        }
    }

    fn lane(&mut self, lanes: u8) {
        let lane = self.random.below(usize::from(lanes)) as u8;
        self.code.push(lane);
    }

    /// Something that leaves nothing.
    fn statement(&mut self, depth: usize) {
        self.room -= 1;
        if depth == 0 || self.room < 0 {
            return;
        }
        let ty = *self.random.of(&[I32, I32, I64, F32, F64, V128, Func, Extern]);
        match self.random.below(20) {
            0..=3 => match self.local(ty, true) {
                Some(local) => {
                    self.value(ty, depth);
                    self.op(&[0x21], local);
                }
                None => self.dropped(ty, depth),
            },
            4 | 5 => match self.global(ty, true) {
                Some(global) => {
                    self.value(ty, depth);
                    self.op(&[0x24], global);
                }
                None => self.dropped(ty, depth),
            },
            6..=8 => self.instruction_for(None, depth),
            9 | 10 => self.bulk(depth),
            11 => self.looped(depth),
            12 => self.chosen(depth),
            13 => self.block_with_operands(depth),
            14 | 15 => self.jump(depth),
            16 => {
                let function = 1 + self.random.below(self.shape.functions.len() - 1);
                self.call(function, depth);
                self.code.extend(vec![0x1a; self.shape.signature(function).results.len()]);
            }
            17 => self.of_table(depth),
            18 if self.random.once_in(12) => {
                self.code.push(0);
                self.unreached();
            }
            18 if self.random.once_in(2) => self.tail_call(depth),
            _ => self.dropped(ty, depth),
        }
    }

    fn dropped(&mut self, ty: Type, depth: usize) {
        self.value(ty, depth);
        self.code.push(0x1a);
    }

    /// A loop of at most six rounds, which pays for each.
    fn looped(&mut self, depth: usize) {
        let Some(counter) = self.counters.pop() else {
            return self.dropped(I32, depth);
        };
        let rounds = 1 + self.random.below(6) as i64;
        self.number(I32, rounds);
        self.op(&[0x21], counter);
        self.code.extend([0x03, 0x40]);
        self.labels.push(vec![]);
        self.pay();
        self.statement(depth - 1);
        self.statement(depth - 1);
        self.op(&[0x20], counter);
        self.code.extend([0x41, 1, 0x6b]);
        self.op(&[0x22], counter);
        self.op(&[0x0d], 0);
        self.labels.pop();
        self.code.push(0x0b);
        // A loop within this one may not count by the same local, but a later one may.
        self.counters.push(counter);
    }

    fn chosen(&mut self, depth: usize) {
        self.value(I32, depth - 1);
        self.code.extend([0x04, 0x40]);
        self.labels.push(vec![]);
        self.statement(depth - 1);
        if self.random.once_in(2) {
            self.code.push(0x05);
            self.statement(depth - 1);
        }
        self.labels.pop();
        self.code.push(0x0b);
    }

    /// A block by a signature of the module: its operands are given, and its results dropped.
    fn block_with_operands(&mut self, depth: usize) {
        let at = self.random.below(self.shape.signatures.len());
        let signature = self.shape.signatures[at].clone();
        self.values(&signature.params, depth - 1);
        self.op(&[0x02], at);
        self.labels.push(signature.results.clone());
        self.statement(depth - 1);
        self.code.extend(vec![0x1a; signature.params.len()]);
        self.values(&signature.results, depth - 1);
        if self.random.once_in(3) {
            self.value(I32, depth - 1);
            self.op(&[0x0d], 0);
        }
        self.labels.pop();
        self.code.push(0x0b);
        self.code.extend(vec![0x1a; signature.results.len()]);
    }

    /// A jump to any label: on a condition, by a table of labels, or in any case.
    fn jump(&mut self, depth: usize) {
        let label = self.random.below(self.labels.len());
        let (out, taken) = (self.labels.len() - 1 - label, self.labels[label].clone());
        self.values(&taken, depth - 1);
        match self.random.below(6) {
            0..=2 => {
                self.value(I32, depth - 1);
                self.op(&[0x0d], out);
                self.code.extend(vec![0x1a; taken.len()]);
            }
            3 => {
                let alike: Vec<_> = (0..self.labels.len()).filter(|it| self.labels[*it] == taken).collect();
                self.value(I32, depth - 1);
                let count = self.random.below(5);
                self.op(&[0x0e], count);
                for _ in 0..=count {
                    let to = self.labels.len() - 1 - *self.random.of(&alike);
                    unsigned(&mut self.code, to as u64);
                }
                self.unreached();
            }
            4 if label == 0 => {
                self.code.push(0x0f);
                self.unreached();
            }
            _ => {
                self.op(&[0x0c], out);
                self.unreached();
            }
        }
    }

    /// Code after a jump, where the stack has whatever is wanted. It ends with nothing on the stack.
    fn unreached(&mut self) {
        for _ in 0..self.random.below(3) {
            match self.random.below(6) {
                0 => self.code.extend([0x6a, 0x1a]),
                1 => self.code.extend([0x1b, 0x1a]),
                2 => self.dropped(I64, 1),
                3 => self.code.extend([0x02, 0x40, 0x0b]),
                4 => self.code.extend([0xd1, 0x1a]),
                _ => self.code.push(0x1a),
            }
        }
    }

    /// `memory.fill`, `copy`, `init` and `data.drop`.
    fn bulk(&mut self, depth: usize) {
        if self.shape.memory.is_none() {
            return self.of_table(depth);
        }
        let address = self.shape.address();
        let segments = self.shape.data.len();
        match self.random.below(5) {
            0 => {
                self.address(depth);
                self.value(I32, depth - 1);
                self.small(address, 300, depth);
                self.code.extend([0xfc, 11, 0]);
            }
            1 | 2 => {
                self.address(depth);
                self.address(depth);
                self.small(address, 300, depth);
                self.code.extend([0xfc, 10, 0, 0]);
            }
            3 if segments > 0 => {
                let segment = self.random.below(segments);
                self.address(depth);
                let len = self.shape.data[segment] as usize;
                self.small(I32, len / 2 + 2, depth);
                self.small(I32, len / 2 + 2, depth);
                self.op(&[0xfc, 8], segment);
                self.code.push(0);
            }
            4 if segments > 0 && self.random.once_in(3) => {
                let segment = self.random.below(segments);
                self.op(&[0xfc, 9], segment);
            }
            _ => self.dropped(I32, depth),
        }
    }

    /// `table.set`, `fill`, `copy`, `init` and `elem.drop`.
    fn of_table(&mut self, depth: usize) {
        let table = self.table(None).unwrap_or(0);
        let (ty, size) = (self.shape.tables[table].0, self.shape.tables[table].1.least as usize + 1);
        match self.random.below(6) {
            0 | 1 => {
                self.small(I32, size, depth);
                self.value(ty, depth - 1);
                self.op(&[0x26], table);
            }
            2 => {
                self.small(I32, size, depth);
                self.value(ty, depth - 1);
                self.small(I32, size, depth);
                self.op(&[0xfc, 17], table);
            }
            3 => {
                let from = self.table(Some(ty)).unwrap_or(table);
                (0..3).for_each(|_| self.small(I32, size, depth));
                self.op(&[0xfc, 14], table);
                unsigned(&mut self.code, from as u64);
            }
            4 => {
                let fitting: Vec<_> =
                    (0..self.shape.elements.len()).filter(|it| self.shape.elements[*it].ty == ty).collect();
                if fitting.is_empty() {
                    return self.dropped(I32, depth);
                }
                (0..3).for_each(|_| self.small(I32, size.min(5), depth));
                let segment = *self.random.of(&fitting);
                self.op(&[0xfc, 12], segment);
                unsigned(&mut self.code, table as u64);
            }
            _ => {
                let count = self.shape.elements.len();
                if count > 0 && self.random.once_in(3) {
                    let segment = self.random.below(count);
                    self.op(&[0xfc, 13], segment);
                }
            }
        }
    }
}
