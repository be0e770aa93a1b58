//! Lanes in registers give what lanes in arrays give. The instructions of SSSE3 and SSE4.1 are compared where the target has
//! them, as under `RUSTFLAGS=-Ctarget-cpu=x86-64-v3`, and else what stands in their place.

use crate::rattle::simd::prelude as registers;
use crate::rattle::simd_arrays::prelude as arrays;
use std::vec::Vec;

type Bytes = [u8; 16];

/// What each operation gives for two vectors and an amount of a shift, in one of the two forms.
macro_rules! results_of {
    ($($form:ident)*) => { $(
        fn $form(x: Bytes, y: Bytes, amount: i64) -> Vec<Bytes> {
            use $form::*;
            let mut all = Vec::new();
            let (a, b) = (u8x16::from_array(x), u8x16::from_array(y));
            all.extend([a + b, a - b, a & b, a | b, a ^ b, !a, a.simd_min(b)].map(u8x16::to_array));
            all.extend([a.saturating_add(b), a.saturating_sub(b)].map(u8x16::to_array));
            all.extend([a.simd_eq(b).select(a, b), a.simd_lt(b).select(a, b)].map(u8x16::to_array));
            all.push(a.swizzle_dyn_within::<16>(b).to_array());
            all.push(a.shuffle(b, core::array::from_fn(|i| 5 * i % 32)).to_array());
            all.extend([a.extract::<0, 8>().cast::<u16>(), a.extract::<8, 8>().cast::<u16>()].map(|v| v.to_le_bytes().to_array()));
            integers!(all a b u16x8 8, u32x4 4, u64x2 2, i16x8 8, i32x4 4, i64x2 2);
            shifted!(all a b amount u16x8 u16, u32x4 u32, u64x2 u64, i16x8 i16, i32x4 i32);
            ordered!(all a b u16x8, u32x4, u64x2);
            widened!(all a u16x8 u32 4, i16x8 i32 4, i32x4 i64 2);
            let (c, d) = (u16x8::from_le_bytes(a), u16x8::from_le_bytes(b));
            all.extend([c.saturating_add(d), c.saturating_sub(d)].map(|v| v.to_le_bytes().to_array()));
            let (top, shift) = (u32x8::splat(0x8000), u32x8::splat(16));
            let products = ((c.cast::<u32>() ^ top) - top) * d.cast::<u32>();
            all.extend([products, products >> shift].map(|v| v.cast::<u16>().to_le_bytes().to_array()));
            let (c, d) = (u32x4::from_le_bytes(a), u32x4::from_le_bytes(b));
            for indices in [[0, 4, 1, 5], [2, 4, 3, 5], [0, 1, 0, 1], [0, 1, 4, 5]] {
                all.push(c.shuffle(d, indices).to_le_bytes().to_array());
            }
            all
        }
    )* };
}

macro_rules! integers {
    ($all:ident $a:ident $b:ident $($name:ident $count:literal),*) => { $(
        let (a, b) = ($name::from_le_bytes($a), $name::from_le_bytes($b));
        let mixed = a.shuffle(b, core::array::from_fn(|i| 3 * i % (2 * $count)));
        for v in [a + b, a - b, a & b, a | b, a ^ b, !a, $name::from_array(a.to_array()), $name::splat(a.to_array()[0]), mixed] {
            $all.push(v.to_le_bytes().to_array());
        }
    )* };
}

macro_rules! shifted {
    ($all:ident $a:ident $b:ident $amount:ident $($name:ident $lane:ident),*) => { $(
        let (a, b, n) = ($name::from_le_bytes($a), $name::from_le_bytes($b), $name::splat($amount as $lane));
        for v in [a << n, a >> n, a << b, a >> b, a << $amount as i32, a >> $amount as i32] {
            $all.push(v.to_le_bytes().to_array());
        }
    )* };
}

macro_rules! ordered {
    ($all:ident $a:ident $b:ident $($name:ident),*) => { $(
        let (a, b) = ($name::from_le_bytes($a), $name::from_le_bytes($b));
        for v in [a.simd_eq(b).select(a, b), a.simd_lt(b).select(a, b), a * b] {
            $all.push(v.to_le_bytes().to_array());
        }
    )* };
}

macro_rules! widened {
    ($all:ident $a:ident $($name:ident $wide:ident $half:literal),*) => { $(
        let v = $name::from_le_bytes($a);
        $all.push(v.extract::<0, $half>().cast::<$wide>().to_le_bytes().to_array());
        $all.push(v.extract::<$half, $half>().cast::<$wide>().to_le_bytes().to_array());
    )* };
}

results_of!(registers arrays);

fn agree(x: Bytes, y: Bytes, amount: i64) {
    let (found, expected) = (registers(x, y, amount), arrays(x, y, amount));
    assert_eq!(found, expected, "{x:?} {y:?} {amount}");
}

/// Vectors whose lanes of each width are 0, 1, -1, the least and the greatest number, and some whose lanes all differ.
fn edges() -> Vec<Bytes> {
    let mut edges = Vec::from([0, 1, 0x7f, 0x80, 0xff].map(|byte| [byte; 16]));
    for width in [2, 4, 8, 16] {
        for (low, middle, high) in [(1, 0, 0), (0, 0, 0x80), (0xff, 0xff, 0x7f)] {
            edges.push(core::array::from_fn(|i| match i % width {
                0 => low,
                place if place == width - 1 => high,
                _ => middle,
            }));
        }
    }
    let counted = [(1, 0), (255, 15), (17, 0), (23, 0x79)];
    edges.extend(counted.map(|(by, from): (u8, u8)| {
        core::array::from_fn(|i| by.wrapping_mul(i as u8).wrapping_add(from))
    }));
    edges
}

#[test]
fn registers_give_what_arrays_give_on_edges() {
    let edges = edges();
    for x in &edges {
        for y in &edges {
            for amount in [0, 1, 7, 8, 15, 16, 31, 32, 63, 64, 255, -1, i64::MIN] {
                agree(*x, *y, amount);
            }
        }
    }
}

struct Random(u64);

impl Random {
    fn next(&mut self) -> u64 {
        self.0 = self.0.wrapping_add(0x9e37_79b9_7f4a_7c15);
        let bits = (self.0 ^ (self.0 >> 30)).wrapping_mul(0xbf58_476d_1ce4_e5b9);
        let bits = (bits ^ (bits >> 27)).wrapping_mul(0x94d0_49bb_1331_11eb);
        bits ^ (bits >> 31)
    }

    /// Bytes of which a third are 0, 0x7f, 0x80 or 0xff.
    fn bytes(&mut self) -> Bytes {
        core::array::from_fn(|_| {
            let n = self.next();
            match n % 3 {
                0 => [0, 0x7f, 0x80, 0xff][(n >> 8) as usize % 4],
                _ => (n >> 16) as u8,
            }
        })
    }
}

#[test]
fn registers_give_what_arrays_give_on_random_vectors() {
    let mut random = Random(1);
    let pairs = if cfg!(debug_assertions) {
        20_000
    } else {
        1_000_000
    };
    for _ in 0..pairs {
        agree(random.bytes(), random.bytes(), random.next() as i64);
    }
}
