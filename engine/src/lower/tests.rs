//! Which constants are copied when a function begins, and which branches stay apart.

use super::lower;
use crate::engine::Config;
use crate::instructions::{Code, Op};
use crate::library::RawVal;
use crate::translate::Function;

/// A parameter, the first of the slots of constants, and a slot of operands.
const LOCAL: u16 = 0;
const FIRST: u16 = 1;
const OWN: u16 = 9;

/// How many constants are copied of a function with these ones, whose code is one instruction and a return. If none is,
/// nothing stands before the code.
fn copied(constants: &[u64], op: Op) -> usize {
    let constants = constants.iter().map(|it| RawVal::from(*it)).collect();
    let code = vec![op, Op::of(Code::ret, 0)];
    let body = lower(Function { params: 1, constants, slots: 16, code, ..Function::default() }, Config::default());
    assert_eq!(body.code.len(), if body.constants.is_empty() { 2 } else { 3 });
    body.constants.len()
}

#[test]
fn addresses_that_fit_are_not_copied() {
    let load = |code, address, imm| copied(&[address], Op { d: OWN, a: FIRST, ..Op::of(code, imm) });
    for code in [Code::load_u32, Code::i64_load8_s, Code::v128_load] {
        assert_eq!(load(code, 0, 1024), 0);
        assert_eq!(load(code, 0xffff_0000, 0xffff), 0);
        assert_eq!(load(code, 0xffff_0000, 0x1_0000), 1);
        assert_eq!(load(code, 1 << 32, 0), 1);
        assert_eq!(load(code, u64::MAX, 1), 1);
    }
    for (code, own) in [(Code::store32, OWN), (Code::i64_store8, FIRST + 1), (Code::v128_store, OWN)] {
        assert_eq!(copied(&[1024, 7], Op { a: FIRST, b: own, ..Op::of(code, 8) }), 0);
    }
    assert_eq!(copied(&[1024, 70_000], Op { a: FIRST, b: FIRST + 1, ..Op::of(Code::store64, 8) }), 1);
}

#[test]
fn operands_that_fit_are_not_copied() {
    let of = |code, constants: &[u64], [a, b, c]: [u16; 3]| copied(constants, Op { d: OWN, a, b, c, ..Op::new(code) });
    let minus_one = u64::from(u32::MAX);
    for (one, copies) in [(0, 0), (7, 0), (minus_one, 0), (32_768, 1), (u64::MAX, 1)] {
        assert_eq!(of(Code::select, &[one], [FIRST, LOCAL, LOCAL]), copies);
        assert_eq!(of(Code::select, &[one], [LOCAL, FIRST, LOCAL]), copies);
        assert_eq!(of(Code::select, &[one, 5], [FIRST, FIRST + 1, LOCAL]), copies);
    }
    assert_eq!(of(Code::i32_sub, &[minus_one], [FIRST, LOCAL, 0]), 0);
    assert_eq!(of(Code::i64_sub, &[u64::MAX], [FIRST, LOCAL, 0]), 0);
    assert_eq!(of(Code::i64_sub, &[minus_one], [FIRST, LOCAL, 0]), 1);
    assert_eq!(of(Code::i64_bitand, &[minus_one], [FIRST, LOCAL, 0]), 0);
    assert_eq!(of(Code::i64_bitand, &[minus_one + 1], [LOCAL, FIRST, 0]), 1);
    assert_eq!(copied(&[minus_one], Op { a: FIRST, ..Op::of(Code::ret, 1) }), 0);
    assert_eq!(copied(&[1 << 32], Op { a: FIRST, ..Op::of(Code::ret, 1) }), 1);
}

#[test]
fn a_branch_on_what_the_loop_does_stays_apart() {
    for code in [Code::memory_size, Code::memory_grow, Code::table_size, Code::table_grow, Code::table_get] {
        let (first, branch) = (Op { d: OWN, ..Op::new(code) }, Op { a: OWN, ..Op::of(Code::branch_if, 2) });
        let code = vec![first, branch, Op::of(Code::ret, 0)];
        let body = lower(Function { params: 1, slots: 16, code, ..Function::default() }, Config::default());
        assert_eq!(body.code.len(), 3);
    }
}
