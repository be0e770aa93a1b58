// The loops of each row over arrays. This file is a part of two modules, in which `library` is the Rust crate and this one.
use super::{COUNT, Row, Words, slice, slice_mut};
use library::simd::{self, ImmLaneIdx};
use library::{V128, wasm};

fn from_word_pair(low: u64, high: u64) -> V128 {
    V128::from(u128::from(low) | u128::from(high) << 64)
}

fn vector(words: Words) -> V128 {
    from_word_pair(words.low, words.high)
}

fn words(vector: V128) -> Words {
    let number = vector.as_u128();
    Words { low: number as u64, high: (number >> 64) as u64 }
}

macro_rules! lanes {
    ($($name:ident $count:literal)*) => { $(
        fn $name(index: u8) -> ImmLaneIdx<$count> {
            ImmLaneIdx::try_from(index).ok().unwrap()
        }
    )* };
}
lanes! { lane2 2 lane4 4 lane8 8 lane16 16 lane32 32 }

/// What the loops see a vector as, in memory.
trait Held: Copy {
    fn get(self) -> V128;
    fn of(vector: V128) -> Self;
}

impl Held for V128 {
    fn get(self) -> V128 {
        self
    }
    fn of(vector: V128) -> V128 {
        vector
    }
}

impl Held for Words {
    fn get(self) -> V128 {
        vector(self)
    }
    fn of(vector: V128) -> Words {
        words(vector)
    }
}

/// The three loops, over any form of a vector; two little-endian words are the sixteen bytes of a `V128`.
#[inline(always)]
unsafe fn each<H: Held>(a: *const Words, b: *const Words, out: *mut Words, count: usize, f: impl Fn(V128, V128, V128) -> V128) {
    let (a, b, out) = unsafe { (slice::<H>(a, count), slice::<H>(b, count), slice_mut::<H>(out, count)) };
    let Some(&kept) = b.first() else {
        return;
    };
    for ((a, b), out) in a.iter().zip(b).zip(out) {
        *out = H::of(f(a.get(), b.get(), kept.get()));
    }
}

#[inline(always)]
unsafe fn each_load<H: Held>(memory: *const Words, bytes: usize, b: *const Words, out: *mut Words, count: usize, f: impl Fn(&[u8], V128) -> V128) {
    let (memory, b, out) = unsafe { (slice::<u8>(memory, bytes), slice::<H>(b, count), slice_mut::<H>(out, count)) };
    for (b, out) in b.iter().zip(out) {
        *out = H::of(f(memory, b.get()));
    }
}

#[inline(always)]
unsafe fn each_store<H: Held>(a: *const Words, b: *const Words, count: usize, memory: *mut Words, bytes: usize, f: impl Fn(&mut [u8], V128, V128)) {
    let (a, b, memory) = unsafe { (slice::<H>(a, count), slice::<H>(b, count), slice_mut::<u8>(memory, bytes)) };
    for (a, b) in a.iter().zip(b) {
        f(memory, a.get(), b.get());
    }
}

macro_rules! row {
    ($name:ident, $lengths:expr, |$a:ident, $m:ident, $b:ident, $out:ident, $n:ident| $H:ident $body:expr) => {{
        unsafe extern "C" fn in_vectors($a: *const Words, $m: usize, $b: *const Words, _b: usize, $out: *mut Words, $n: usize) {
            type $H = V128;
            unsafe { $body }
        }
        unsafe extern "C" fn in_words($a: *const Words, $m: usize, $b: *const Words, _b: usize, $out: *mut Words, $n: usize) {
            type $H = Words;
            unsafe { $body }
        }
        Row { name: stringify!($name), lengths: $lengths, vectors: in_vectors, words: in_words }
    }};
}

macro_rules! vector_rows {
    ($($name:ident |$x:ident, $y:ident, $kept:ident, $first:ident, $low:ident, $high:ident| $e:expr;)*) => {
        vec![$(row!($name, [COUNT; 3], |a, _m, b, out, n| H each::<H>(a, b, out, n, |$x, $y, $kept| {
            let (Words { low: $first, high: _ }, Words { low: $low, high: $high }) = (words($x), words($y));
            $e
        }))),*]
    };
}

macro_rules! load_rows {
    ($($name:ident |$memory:ident, $y:ident, $low:ident, $high:ident| $e:expr;)*) => {
        vec![$(row!($name, [16 * COUNT, COUNT, COUNT], |a, m, b, out, n| H each_load::<H>(a, m, b, out, n, |$memory, $y| {
            let Words { low: $low, high: $high } = words($y);
            $e.unwrap()
        }))),*]
    };
}

macro_rules! store_rows {
    ($($name:ident |$memory:ident, $x:ident, $first:ident, $low:ident, $high:ident| $e:expr;)*) => {
        vec![$(row!($name, [COUNT, COUNT, 16 * COUNT], |a, m, b, out, n| H each_store::<H>(a, b, m, out, n, |$memory, $x, y| {
            let (Words { low: $first, high: _ }, Words { low: $low, high: $high }) = (words($x), words(y));
            $e.unwrap()
        }))),*]
    };
}

#[allow(unused_variables)]
mod rows {
    use super::*;
    include!("rows.rs");
}

/// The rows of each kind.
pub fn tables() -> [(&'static str, Vec<Row>); 8] {
    [
        ("lanewise", rows::lanewise()),
        ("widening", rows::widening()),
        ("load", rows::loads()),
        ("store", rows::stores()),
        ("number_load", rows::number_loads()),
        ("number_store", rows::number_stores()),
        ("third", rows::lanewise_thirds()),
        ("third", rows::widening_thirds()),
    ]
}
