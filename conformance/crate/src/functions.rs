// The functions of a library's instructions, on operands. This file is a part of two modules, in which `library` is the Rust crate and the proved one.
use super::{Answer, Answers, FORMS_DIFFER, Operands, Row, Words};
use library::{RawVal, TrapCode, V128, simd, wasm};

/// All functions but the shuffle, in the order of include/numbers.tsv.
pub fn functions<const N: usize>() -> Vec<Row<N>> {
    include!(concat!(env!("OUT_DIR"), "/functions.rs"))
}

/// What functions return.
trait Returned {
    fn answer(self) -> Answer;
}

macro_rules! returned {
    ($($ty:ty)*) => { $(impl Returned for $ty {
        fn answer(self) -> Answer {
            Ok(Words::new(V128::from(RawVal::from(self)).as_u128()))
        }
    })* };
}

returned!(bool i32 u32 i64 u64 V128);

impl Returned for (i64, i64) {
    fn answer(self) -> Answer {
        Ok(Words { lo: self.0.cast_unsigned(), hi: self.1.cast_unsigned() })
    }
}

impl Returned for () {
    fn answer(self) -> Answer {
        Ok(Words::default())
    }
}

impl<T: Returned> Returned for Result<T, TrapCode> {
    fn answer(self) -> Answer {
        self.map_err(|trap| trap as u8)?.answer()
    }
}

/// An operand, as the type that a function takes.
fn operand<T: From<RawVal>, const N: usize>(it: &Operands<N>, index: usize) -> T {
    RawVal::from(V128::from(it.words[index].bits())).into()
}

fn unary<A: From<RawVal>, R: Returned, const N: usize>(f: impl Fn(A) -> R, it: &Operands<N>) -> Answers {
    Some([f(operand(it, 0)).answer(); 2])
}

fn binary<A: From<RawVal>, B: From<RawVal>, R: Returned, const N: usize>(
    f: impl Fn(A, B) -> R,
    it: &Operands<N>,
) -> Answers {
    Some([f(operand(it, 0), operand(it, 1)).answer(); 2])
}

fn binary_128<const N: usize>(f: impl Fn(i64, i64, i64, i64) -> (i64, i64), it: &Operands<N>) -> Answers {
    let [a, b, _] = it.words.map(|words| (words.lo.cast_signed(), words.hi.cast_signed()));
    Some([f(a.0, a.1, b.0, b.1).answer(); 2])
}

fn ternary<const N: usize>(f: impl Fn(V128, V128, V128) -> V128, it: &Operands<N>) -> Answers {
    Some([f(operand(it, 0), operand(it, 1), operand(it, 2)).answer(); 2])
}

fn extract_lane<L: TryFrom<u8>, R: Returned, const N: usize>(f: impl Fn(V128, L) -> R, it: &Operands<N>) -> Answers {
    Some([f(operand(it, 0), it.lane.try_into().ok()?).answer(); 2])
}

fn replace_lane<L: TryFrom<u8>, T: From<RawVal>, const N: usize>(
    f: impl Fn(V128, L, T) -> V128,
    it: &Operands<N>,
) -> Answers {
    Some([f(operand(it, 0), it.lane.try_into().ok()?, operand(it, 1)).answer(); 2])
}

/// The shuffle, of lanes that are below 32.
pub fn shuffle<const N: usize>(it: &mut Operands<N>) -> Answers {
    let lanes = it.lanes.map(|lane| simd::ImmLaneIdx32::try_from(lane).ok().expect("a lane of two vectors"));
    Some([simd::i8x16_shuffle(operand(it, 0), operand(it, 1), lanes).answer(); 2])
}

/// The address `ptr + offset`, if there is one.
fn address<const N: usize>(it: &Operands<N>) -> Option<usize> {
    it.ptr.checked_add(it.offset).map(|sum| sum as usize)
}

/// The answers of both forms of a function, of which the second takes an address, if there is one.
fn both(answer: Answer, at: Option<Answer>) -> Answers {
    Some([answer, at.unwrap_or(answer)])
}

fn load<R: Returned, const N: usize>(
    f: impl Fn(&[u8], u64, u64) -> R,
    at: impl Fn(&[u8], usize) -> R,
    it: &Operands<N>,
) -> Answers {
    let answer = f(&it.memory, it.ptr, it.offset).answer();
    both(answer, address(it).map(|address| at(&it.memory, address).answer()))
}

fn store<T: From<RawVal>, R: Returned, const N: usize>(
    f: impl Fn(&mut [u8], u64, u64, T) -> R,
    at: impl Fn(&mut [u8], usize, T) -> R,
    it: &mut Operands<N>,
) -> Answers {
    let mut other = it.memory;
    let second = address(it).map(|address| at(&mut other, address, operand(it, 0)).answer());
    let value = operand(it, 0);
    let answer = f(&mut it.memory, it.ptr, it.offset, value).answer();
    both(answer, if it.memory == other { second } else { Some(Err(FORMS_DIFFER)) })
}

fn load_lane<L: TryFrom<u8>, R: Returned, const N: usize>(
    f: impl Fn(&[u8], u64, u64, V128, L) -> R,
    at: impl Fn(&[u8], usize, V128, L) -> R,
    it: &Operands<N>,
) -> Answers {
    let answer = f(&it.memory, it.ptr, it.offset, operand(it, 0), it.lane.try_into().ok()?).answer();
    let lane = it.lane.try_into().ok()?;
    both(answer, address(it).map(|address| at(&it.memory, address, operand(it, 0), lane).answer()))
}

fn store_lane<L: TryFrom<u8>, R: Returned, const N: usize>(
    f: impl Fn(&mut [u8], u64, u64, V128, L) -> R,
    at: impl Fn(&mut [u8], usize, V128, L) -> R,
    it: &mut Operands<N>,
) -> Answers {
    let mut other = it.memory;
    let (vector, lane) = (operand(it, 0), it.lane.try_into().ok()?);
    let second = address(it).map(|address| at(&mut other, address, vector, lane).answer());
    let answer = f(&mut it.memory, it.ptr, it.offset, vector, it.lane.try_into().ok()?).answer();
    both(answer, if it.memory == other { second } else { Some(Err(FORMS_DIFFER)) })
}
