//! Instructions that take the last result or a constant, or become one with the last instruction.

use super::{Draft, Lowering};
use crate::execute::{IMM, LAST, SLOT, Shape, Way};
use crate::instructions::{Code, Facts, Op};
use crate::library::ValType;

/// An instruction that gives the same with its operands exchanged.
fn exchanged(code: Code) -> Option<Code> {
    Some(match code {
        Code::i32_lt_s => Code::i32_gt_s,
        Code::i32_lt_u => Code::i32_gt_u,
        Code::i32_gt_s => Code::i32_lt_s,
        Code::i32_gt_u => Code::i32_lt_u,
        Code::i32_le_s => Code::i32_ge_s,
        Code::i32_le_u => Code::i32_ge_u,
        Code::i32_ge_s => Code::i32_le_s,
        Code::i32_ge_u => Code::i32_le_u,
        Code::i64_lt_s => Code::i64_gt_s,
        Code::i64_lt_u => Code::i64_gt_u,
        Code::i64_gt_s => Code::i64_lt_s,
        Code::i64_gt_u => Code::i64_lt_u,
        Code::i64_le_s => Code::i64_ge_s,
        Code::i64_le_u => Code::i64_ge_u,
        Code::i64_ge_s => Code::i64_le_s,
        Code::i64_ge_u => Code::i64_le_u,
        Code::i32_add | Code::i32_mul | Code::i32_bitand | Code::i32_bitor | Code::i32_bitxor => code,
        Code::i64_add | Code::i64_mul | Code::i64_bitand | Code::i64_bitor | Code::i64_bitxor => code,
        Code::i32_eq | Code::i32_ne | Code::i64_eq | Code::i64_ne => code,
        _ => return None,
    })
}

/// The comparison that gives the opposite.
fn opposite(code: Code) -> Option<Code> {
    Some(match code {
        Code::i32_eq => Code::i32_ne,
        Code::i32_ne => Code::i32_eq,
        Code::i32_lt_s => Code::i32_ge_s,
        Code::i32_lt_u => Code::i32_ge_u,
        Code::i32_gt_s => Code::i32_le_s,
        Code::i32_gt_u => Code::i32_le_u,
        Code::i32_le_s => Code::i32_gt_s,
        Code::i32_le_u => Code::i32_gt_u,
        Code::i32_ge_s => Code::i32_lt_s,
        Code::i32_ge_u => Code::i32_lt_u,
        Code::i64_eq => Code::i64_ne,
        Code::i64_ne => Code::i64_eq,
        Code::i64_lt_s => Code::i64_ge_s,
        Code::i64_lt_u => Code::i64_ge_u,
        Code::i64_gt_s => Code::i64_le_s,
        Code::i64_gt_u => Code::i64_le_u,
        Code::i64_le_s => Code::i64_gt_s,
        Code::i64_le_u => Code::i64_gt_u,
        Code::i64_ge_s => Code::i64_lt_s,
        Code::i64_ge_u => Code::i64_lt_u,
        _ => return None,
    })
}

/// The number that stands in an instruction for an operand of this type with these bits.
fn number(bits: u64, ty: Option<ValType>) -> Option<i32> {
    match ty {
        Some(ValType::I32) => Some(bits as u32 as i32),
        Some(ValType::I64) => i32::try_from(bits.cast_signed()).ok(),
        _ => None,
    }
}

/// The number of 16 bits that stands in an instruction for an operand of any type with these bits.
fn short(bits: u64) -> Option<u16> {
    let number = u32::try_from(bits).ok()?.cast_signed();
    i16::try_from(number).ok().map(i16::cast_unsigned)
}

impl Lowering<'_> {
    /// An instruction of two operands. A constant becomes the second one where it may.
    pub fn binary(&mut self, mut draft: Draft) {
        let Op { a, b, .. } = draft.op;
        if self.constant(a).is_some() && self.constant(b).is_none() {
            draft.op = exchanged(draft.op.code).map_or(draft.op, |code| Op { code, a: b, b: a, ..draft.op });
        }
        let Op { a, b, .. } = draft.op;
        if let Some(draft) = self.with_number(draft) {
            return self.push_using(draft, 1, draft.op.a);
        }
        if let Some(number) = self.constant(b).and_then(|bits| number(bits, draft.facts.operand)) {
            (draft.op.imm, draft.way[2]) = (number.cast_unsigned(), IMM);
            match self.with_field(draft).or_else(|| self.with_addition(draft)) {
                Some(draft) => self.last = Some(draft),
                None => self.push_using(draft, 1, a),
            }
            return;
        }
        match self.with_shift(draft) {
            Some(draft) => self.last = Some(draft),
            None => self.push_using_one(draft, [(1, a), (2, b)]),
        }
    }

    /// Of a comparison and its negation the opposite comparison.
    pub fn eqz(&mut self, draft: Draft) {
        let test = self.only_use(draft.op.a).filter(|it| it.shape == Shape::Plain);
        let code = test.and_then(|test| opposite(test.op.code));
        match test.zip(code) {
            Some((test, code)) => self.last = Some(Draft { op: Op { code, d: draft.op.d, ..test.op }, ..test }),
            None => match test.filter(|it| it.op.code == Code::i32_eqz) {
                Some(test) => {
                    let op = Op { code: Code::i32_ne, d: draft.op.d, imm: 0, ..test.op };
                    self.last = Some(Draft { way: [SLOT, test.way[1], IMM], ..Draft::new(op) });
                }
                None => self.push_using(draft, 1, draft.op.a),
            },
        }
    }

    /// A difference from a constant, and the low half of 64 bits.
    fn with_number(&self, draft: Draft) -> Option<Draft> {
        let Op { code, a, b, .. } = draft.op;
        let from = |code| Some((code, b, number(self.constant(a)?, draft.facts.operand)?.cast_unsigned()));
        let (code, a, imm) = match code {
            Code::i32_sub => from(Code::i32_sub_from)?,
            Code::i64_sub => from(Code::i64_sub_from)?,
            Code::i64_bitand if self.constant(b) == Some(u32::MAX.into()) => (Code::i64_extend_i32_u, a, 0),
            _ => return None,
        };
        Some(Draft::new(Op { code, a, imm, ..draft.op }))
    }

    /// The addition of an operand that was shifted by a constant.
    fn with_shift(&self, draft: Draft) -> Option<Draft> {
        let Op { code, d, a, b, .. } = draft.op;
        let (shifted, other) = if self.only_use(b).is_some() { (b, a) } else { (a, b) };
        let shift = self.only_use(shifted)?;
        let is_shift = shift.op.code == Code::i32_shl && shift.shape == Shape::Plain && shift.way[2] == IMM;
        if code != Code::i32_add || !is_shift || other == shifted {
            return None;
        }
        let op = Op { code: Code::add_scaled, d, a: other, b: shift.op.a, c: (shift.op.imm & 31) as u16, ..shift.op };
        Some(Draft { way: [SLOT, SLOT, shift.way[1]], ..Draft::new(op) })
    }

    /// A shift and a mask by constants.
    fn with_field(&self, draft: Draft) -> Option<Draft> {
        let first = self.only_use(draft.op.a).filter(|it| it.shape == Shape::Plain && it.way[2] == IMM)?;
        let (code, shift, mask) = match (first.op.code, draft.op.code) {
            (Code::i32_shr_u, Code::i32_bitand) => (Code::shift_and, first.op.imm, draft.op.imm),
            (Code::i32_bitand, Code::i32_shl) => (Code::and_shift, draft.op.imm, first.op.imm),
            _ => return None,
        };
        let b = u16::try_from(mask).ok()?;
        let op = Op { code, d: draft.op.d, b, c: (shift & 31) as u16, ..first.op };
        Some(Draft { way: [SLOT, first.way[1], SLOT], ..Draft::new(op) })
    }

    /// Two additions of constants to locals.
    fn with_addition(&self, draft: Draft) -> Option<Draft> {
        let one = in_place(self.last?)?;
        let other = in_place(draft)?;
        let op = Op { code: Code::add_two, a: draft.op.d, b: one, c: other, ..self.last?.op };
        Some(Draft::new(op))
    }

    /// Keeps an instruction of which one of two operands may be the last result.
    fn push_using_one(&mut self, draft: Draft, [(first, a), (second, b)]: [(usize, u16); 2]) {
        if a == b {
            return self.push(draft);
        }
        let used = self.using_last(draft, first, a).or_else(|| self.using_last(draft, second, b));
        self.push(used.unwrap_or(draft));
    }

    pub fn load(&mut self, draft: Draft) {
        let draft = self.at_constant(draft);
        match self.with_sum(draft) {
            Some(draft) => self.last = Some(draft),
            None => self.push_using(draft, 1, draft.op.a),
        }
    }

    pub fn store(&mut self, draft: Draft) {
        let mut draft = self.at_constant(draft);
        let Op { a, b, .. } = draft.op;
        let number = self.constant(b).and_then(|bits| number(bits, draft.facts.operand));
        if let Some(number) = number.and_then(|it| i16::try_from(it).ok()) {
            (draft.op.b, draft.way[0]) = (number.cast_unsigned(), IMM);
            return self.push_using(draft, 1, a);
        }
        match self.with_sum(draft) {
            Some(draft) => self.last = Some(draft),
            None => self.push_using_one(draft, [(1, a), (0, b)]),
        }
    }

    /// An access whose address is constant has the address in its offset, if the sum fits there.
    fn at_constant(&self, draft: Draft) -> Draft {
        let sum = self.constant(draft.op.a).and_then(|it| it.checked_add(draft.op.imm.into()));
        let imm = sum.and_then(|it| u32::try_from(it).ok());
        imm.and_then(|imm| Draft { op: Op { imm, ..draft.op }, ..draft }.with(1, IMM)).unwrap_or(draft)
    }

    /// An access that takes the place of the addition before it, with the operands of that.
    fn with_sum(&self, draft: Draft) -> Option<Draft> {
        let sum = self.only_use(draft.op.a)?;
        let is_sum = sum.op.code == Code::i32_add && sum.shape == Shape::Plain;
        let fits = draft.op.imm < 1 << 16 && draft.op.b != draft.op.a;
        let [_, a, b] = sum.way;
        let (shape, way, operands) = match (a, b) {
            (_, SLOT) => (Shape::Sum, a, [sum.op.a, sum.op.b]),
            (_, LAST) => (Shape::Sum, LAST, [sum.op.b, sum.op.a]),
            _ => {
                let number = i16::try_from(sum.op.imm.cast_signed()).ok()?;
                (Shape::Moved, a, [sum.op.a, number.cast_unsigned()])
            }
        };
        let [a, c] = operands;
        let draft = Draft { op: Op { a, c, ..draft.op }, shape, way: [SLOT, way, SLOT], ..draft };
        draft.checked().filter(|_| is_sum && fits)
    }

    /// A choice between operands of which one or both may be numbers.
    pub fn select(&mut self, draft: Draft) {
        let Op { a, b, c, .. } = draft.op;
        let numbers = [a, b].map(|it| self.constant(it).and_then(short));
        let (op, unless) = match numbers {
            [None, None] => return self.push_using(draft, 1, c),
            [None, Some(b)] => (Op { code: Code::select_number, b, ..draft.op }, SLOT),
            [Some(a), None] => (Op { code: Code::select_number, a: b, b: a, ..draft.op }, LAST),
            [Some(b), Some(number)] => (Op { code: Code::select_numbers, a: c, b, c: number, ..draft.op }, SLOT),
        };
        self.push_using(Draft { way: [SLOT, SLOT, unless], ..Draft::new(op) }, 1, c);
    }

    pub fn copy(&mut self, draft: Draft) {
        let Op { d, a, .. } = draft.op;
        if let Some(op) = self.constant(a).and_then(|bits| set(d, bits)) {
            return self.push(Draft::new(op));
        }
        if let Some(last) = self.only_use(a) {
            let last = Draft { op: Op { d, ..last.op }, ..last };
            self.last = last.with(0, SLOT).or(Some(last));
            return;
        }
        if let Some(first) = self.last.filter(|it| it.op.code == Code::copy && it.way == [SLOT; 3]) {
            self.last = Some(Draft::new(Op { code: Code::copy_two, b: d, c: a, ..first.op }));
            return;
        }
        self.push_typed(draft);
    }

    /// Keeps an instruction that copies a value of any type, and so may take the last result only if that is no vector.
    fn push_typed(&mut self, draft: Draft) {
        match self.last.filter(|it| it.facts.result.is_some()) {
            Some(_) => self.push_using(draft, 1, draft.op.a),
            None => self.push(draft),
        }
    }

    /// A branch, which is taken where the operand isn't 0, or where it is.
    pub fn branch_if(&mut self, mut draft: Draft, unless: Way) {
        draft.way[0] = unless;
        let test = self.only_use(draft.op.a).filter(|it| it.shape == Shape::Plain);
        let fused = test.and_then(|test| with_test(draft, test)).and_then(Draft::checked);
        let fused = fused.or_else(|| self.with_count(draft));
        match fused {
            Some(fused) => self.last = Some(fused),
            None => self.push_using(draft, 1, draft.op.a),
        }
    }

    /// The addition of a constant to a local, and a branch on the local.
    fn with_count(&self, branch: Draft) -> Option<Draft> {
        let count = self.last.filter(|it| it.op.d == branch.op.a && it.op.d < self.first[0])?;
        let op = Op { code: Code::add_branch, d: count.op.d, a: in_place(count)?, ..branch.op };
        Some(Draft { way: branch.way, ..Draft::new(op) })
    }

    pub fn ret(&mut self, mut draft: Draft) {
        match draft.op.imm {
            0 => self.push(draft),
            1 => {
                draft.op.code = Code::ret_one;
                match self.constant(draft.op.a).and_then(|it| u32::try_from(it).ok()) {
                    Some(imm) => self.push(Draft { op: Op { imm, ..draft.op }, way: [SLOT, IMM, SLOT], ..draft }),
                    None => self.push_typed(draft),
                }
            }
            _ => {
                draft.op.code = Code::ret_many;
                self.push(draft);
            }
        }
    }
}

/// The constant that an instruction adds to a slot of 32 bits.
fn in_place(draft: Draft) -> Option<u16> {
    let Draft { op, shape, way, .. } = draft;
    if op.d != op.a || shape != Shape::Plain || way != [SLOT, SLOT, IMM] {
        return None;
    }
    let number = match op.code {
        Code::i32_add => op.imm.cast_signed(),
        Code::i32_sub => op.imm.cast_signed().checked_neg()?,
        _ => return None,
    };
    i16::try_from(number).ok().map(i16::cast_unsigned)
}

/// The instruction that writes a constant to a slot, if it can hold the bits.
fn set(d: u16, bits: u64) -> Option<Op> {
    let op = match u32::try_from(bits) {
        Ok(imm) => Op::of(Code::set, imm),
        Err(_) => Op::of(Code::set_signed, i32::try_from(bits.cast_signed()).ok()?.cast_unsigned()),
    };
    Some(Op { d, ..op })
}

/// A branch that takes the place of what it depends on.
fn with_test(branch: Draft, test: Draft) -> Option<Draft> {
    let [unless, ..] = branch.way;
    let [_, a, b] = test.way;
    let imm = branch.op.imm;
    let fused = |code, b, way| {
        let op = Op { code, b, imm, ..test.op };
        Some(Draft { facts: Facts::NONE, shape: Shape::Branch, way, ..Draft::new(op) })
    };
    match test.op.code {
        Code::i32_eqz => {
            let op = Op { a: test.op.a, ..branch.op };
            Some(Draft { op, way: [if unless == LAST { SLOT } else { LAST }, a, SLOT], ..branch })
        }
        Code::i64_eqz => fused(Code::i64_eq, 0, [unless, a, IMM]),
        code if b == IMM => {
            let number = i16::try_from(test.op.imm.cast_signed()).ok()?;
            fused(code, number.cast_unsigned(), [unless, a, IMM])
        }
        code => fused(code, test.op.b, [unless, a, b]),
    }
}
