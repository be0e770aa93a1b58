//! Lanes of a vector as arrays, of which LLVM makes vectors where it can.
#![allow(clippy::manual_memcpy, clippy::needless_range_loop)] // all loops have one form, which LLVM knows

use core::ops::{Add, BitAnd, BitOr, BitXor, Mul, Not, Shl, Shr, Sub};

/// The types by their names.
pub mod prelude {
    #![allow(non_camel_case_types)]
    use super::Simd;
    /// 16 unsigned lanes of 8 bits.
    pub type u8x16 = Simd<u8, 16>;
    /// 8 unsigned lanes of 16 bits.
    pub type u16x8 = Simd<u16, 8>;
    /// 4 unsigned lanes of 32 bits.
    pub type u32x4 = Simd<u32, 4>;
    /// 2 unsigned lanes of 64 bits.
    pub type u64x2 = Simd<u64, 2>;
    /// 8 unsigned lanes of 32 bits.
    pub type u32x8 = Simd<u32, 8>;
    /// 8 signed lanes of 16 bits.
    pub type i16x8 = Simd<i16, 8>;
    /// 4 signed lanes of 32 bits.
    pub type i32x4 = Simd<i32, 4>;
    /// 2 signed lanes of 64 bits.
    pub type i64x2 = Simd<i64, 2>;
    /// Whether lanes are arrays.
    #[cfg_attr(
        feature = "sse2",
        allow(dead_code, reason = "read where lanes are arrays")
    )]
    pub const AS_ARRAYS: bool = true;
}

/// `N` lanes of an integer.
#[derive(Clone, Copy, Debug, PartialEq, Eq)]
pub struct Simd<T, const N: usize>([T; N]);

/// For each lane, whether it is chosen.
#[derive(Clone, Copy, Debug, PartialEq, Eq)]
pub struct Mask<const N: usize>([bool; N]);

/// An integer that is a lane, with sums, differences and products that wrap.
pub trait Lane:
    Copy
    + Default
    + Ord
    + BitAnd<Output = Self>
    + BitOr<Output = Self>
    + BitXor<Output = Self>
    + Not<Output = Self>
{
    /// The sum, wrapped to the width.
    fn add(self, other: Self) -> Self;
    /// The difference, wrapped to the width.
    fn sub(self, other: Self) -> Self;
    /// The product, wrapped to the width.
    fn mul(self, other: Self) -> Self;
    /// The bits moved up, by an amount modulo the width.
    fn shl(self, amount: Self) -> Self;
    /// The bits moved down, by an amount modulo the width; a signed number keeps its sign.
    fn shr(self, amount: Self) -> Self;
    /// The number.
    fn wide(self) -> i128;
    /// The number, wrapped to the width.
    fn of_wide(number: i128) -> Self;
}

macro_rules! lanes {
    ($($lane:ident)*) => { $(impl Lane for $lane {
        inlined! {
            fn add(self, other: Self) -> Self { self.wrapping_add(other) }
            fn sub(self, other: Self) -> Self { self.wrapping_sub(other) }
            fn mul(self, other: Self) -> Self { self.wrapping_mul(other) }
            fn shl(self, amount: Self) -> Self { self.wrapping_shl(amount as u32) }
            fn shr(self, amount: Self) -> Self { self.wrapping_shr(amount as u32) }
            fn wide(self) -> i128 { self as i128 }
            fn of_wide(number: i128) -> Self { number as Self }
        }
    })* };
}

lanes!(u8 u16 u32 u64 i16 i32 i64);

/// The array of what a function gives for each index.
#[inline(always)]
fn array<T: Copy + Default, const N: usize>(f: impl Fn(usize) -> T) -> [T; N] {
    let mut lanes = [T::default(); N];
    for i in 0..N {
        lanes[i] = f(i);
    }
    lanes
}

impl<T: Lane, const N: usize> Simd<T, N> {
    inlined! {
        /// The lanes of an array.
        pub fn from_array(lanes: [T; N]) -> Self {
            Simd(lanes)
        }
        /// The lanes as an array.
        pub fn to_array(self) -> [T; N] {
            self.0
        }
        /// The same number in each lane.
        pub fn splat(lane: T) -> Self {
            Simd([lane; N])
        }
        /// Which lanes are equal.
        pub fn simd_eq(self, other: Self) -> Mask<N> {
            Mask(self.zip(other, |x, y| x == y))
        }
        /// Which lanes are less.
        pub fn simd_lt(self, other: Self) -> Mask<N> {
            Mask(self.zip(other, |x, y| x < y))
        }
        /// The smaller ones of the lanes.
        pub fn simd_min(self, other: Self) -> Self {
            Simd(self.zip(other, |x, y| if x < y { x } else { y }))
        }
    }

    #[inline(always)]
    fn zip<U: Copy + Default>(self, other: Self, f: impl Fn(T, T) -> U) -> [U; N] {
        array(|i| f(self.0[i], other.0[i]))
    }

    #[inline(always)]
    fn each<U: Lane>(self, f: impl Fn(T) -> U) -> Simd<U, N> {
        Simd(array(|i| f(self.0[i])))
    }

    /// The lanes as another integer: a wider one has the number, a narrower one its low bits.
    #[inline(always)]
    pub fn cast<U: Lane>(self) -> Simd<U, N> {
        self.each(|x| U::of_wide(x.wide()))
    }

    /// `M` lanes from `START` on.
    #[inline(always)]
    pub fn extract<const START: usize, const M: usize>(self) -> Simd<T, M> {
        const { assert!(START + M <= N) };
        Simd(array(|i| self.0[START + i]))
    }

    /// Lanes of both vectors by their indices, those of the other counted on.
    #[inline(always)]
    pub fn shuffle<const M: usize>(self, other: Self, indices: [usize; M]) -> Simd<T, M> {
        let lane = |i| if i < N { self.0[i] } else { other.0[i - N] };
        Simd(array(|i| lane(indices[i])))
    }
}

impl<const N: usize> Mask<N> {
    /// The chosen lanes of one vector, and the others of another.
    #[inline(always)]
    pub fn select<T: Lane>(self, chosen: Simd<T, N>, other: Simd<T, N>) -> Simd<T, N> {
        Simd(array(|i| if self.0[i] { chosen.0[i] } else { other.0[i] }))
    }
}

macro_rules! saturating {
    ($($lane:ident $n:literal)*) => { $(impl Simd<$lane, $n> {
        inlined! {
            /// The sums, at most the greatest number.
            pub fn saturating_add(self, other: Self) -> Self {
                Simd(self.zip(other, $lane::saturating_add))
            }
            /// The differences, at least 0.
            pub fn saturating_sub(self, other: Self) -> Self {
                Simd(self.zip(other, $lane::saturating_sub))
            }
        }
    })* };
}

saturating!(u8 16 u16 8);

impl Simd<u8, 16> {
    /// The lanes at the lowest 4 bits of the indices, 0 where the highest bit of an index is set.
    #[inline(always)]
    pub fn swizzle_dyn_within<const K: usize>(self, indices: Self) -> Self {
        let mut table = [0; 32];
        table[..16].copy_from_slice(&self.0);
        indices.each(|i| table[usize::from(i & 0xf | i >> 3 & 0x10)])
    }
}

macro_rules! bytes {
    ($($lane:ident $n:literal $size:literal)*) => { $(impl Simd<$lane, $n> {
        inlined! {
            /// The bytes of the lanes, the lowest first.
            pub fn to_le_bytes(self) -> Simd<u8, 16> {
                let mut bytes = [0; 16];
                for i in 0..$n {
                    let lane = self.0[i].to_le_bytes();
                    for j in 0..$size {
                        bytes[$size * i + j] = lane[j];
                    }
                }
                Simd(bytes)
            }
            /// The lanes of these bytes, the lowest first.
            pub fn from_le_bytes(bytes: Simd<u8, 16>) -> Self {
                let mut lanes = [0; $n];
                for i in 0..$n {
                    let mut lane = [0; $size];
                    for j in 0..$size {
                        lane[j] = bytes.0[$size * i + j];
                    }
                    lanes[i] = $lane::from_le_bytes(lane);
                }
                Simd(lanes)
            }
        }
    })* };
}

bytes!(u16 8 2 u32 4 4 u64 2 8 i16 8 2 i32 4 4 i64 2 8);

operators! { [T: Lane, const N: usize] Simd<T, N>:
    Add add(a, b: Self) { Simd(a.zip(b, Lane::add)) }
    Sub sub(a, b: Self) { Simd(a.zip(b, Lane::sub)) }
    Mul mul(a, b: Self) { Simd(a.zip(b, Lane::mul)) }
    Shl shl(a, b: Self) { Simd(a.zip(b, Lane::shl)) }
    Shr shr(a, b: Self) { Simd(a.zip(b, Lane::shr)) }
    BitAnd bitand(a, b: Self) { Simd(a.zip(b, |x, y| x & y)) }
    BitOr bitor(a, b: Self) { Simd(a.zip(b, |x, y| x | y)) }
    BitXor bitxor(a, b: Self) { Simd(a.zip(b, |x, y| x ^ y)) }
    Not not(a) { a.each(|x| !x) }
    Shl<i32> shl(a, amount: i32) { a.each(|x| Lane::shl(x, T::of_wide(i128::from(amount)))) }
    Shr<i32> shr(a, amount: i32) { a.each(|x| Lane::shr(x, T::of_wide(i128::from(amount)))) }
}
