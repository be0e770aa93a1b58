//! Lanes of a vector as one register of SSE2, which the target has: what `simd_arrays.rs`, which describes it, does lane by lane.
#![allow(non_camel_case_types, unsafe_code)]
#![allow(dead_code)] // not each width needs each operation
use arch::__m128i;
#[cfg(target_arch = "x86")]
use core::arch::x86 as arch;
#[cfg(target_arch = "x86_64")]
use core::arch::x86_64 as arch;
use core::ops::{Add, BitAnd, BitOr, BitXor, Mul, Not, Shl, Shr, Sub};

/// The types by their names.
pub mod prelude {
    pub use super::{ByLane as _, i16x8, i32x4, i64x2, u8x16, u16x8, u32x4, u32x8, u64x2};
    /// Whether lanes are arrays.
    pub const AS_ARRAYS: bool = false;
}

// The instructions used. The unsafe blocks of this file are the crate's only ones.
macro_rules! instructions {
    ($($name:ident($($operand:ident),*);)*) => { $(
        #[inline(always)]
        fn $name($($operand: __m128i),*) -> __m128i {
            // SAFETY: the instruction is a function of its operands alone, and the processor has it: this file is compiled
            // where the target feature `sse2` is on, and what is younger stands under its own.
            unsafe { arch::$name($($operand),*) }
        }
    )* };
}

instructions! {
    _mm_add_epi8(a, b); _mm_add_epi16(a, b); _mm_add_epi32(a, b); _mm_add_epi64(a, b);
    _mm_sub_epi8(a, b); _mm_sub_epi16(a, b); _mm_sub_epi32(a, b); _mm_sub_epi64(a, b);
    _mm_mullo_epi16(a, b); _mm_min_epu8(a, b); _mm_packs_epi32(a, b);
    _mm_adds_epu8(a, b); _mm_adds_epu16(a, b); _mm_subs_epu8(a, b); _mm_subs_epu16(a, b);
    _mm_and_si128(a, b); _mm_or_si128(a, b); _mm_xor_si128(a, b); _mm_andnot_si128(a, b);
    _mm_cmpeq_epi8(a, b); _mm_cmpeq_epi16(a, b); _mm_cmpeq_epi32(a, b);
    _mm_cmplt_epi8(a, b); _mm_cmplt_epi16(a, b); _mm_cmplt_epi32(a, b);
    _mm_sll_epi16(a, n); _mm_sll_epi32(a, n); _mm_sll_epi64(a, n);
    _mm_srl_epi16(a, n); _mm_srl_epi32(a, n); _mm_srl_epi64(a, n);
    _mm_sra_epi16(a, n); _mm_sra_epi32(a, n);
    _mm_unpacklo_epi8(a, b); _mm_unpackhi_epi8(a, b); _mm_unpacklo_epi16(a, b); _mm_unpackhi_epi16(a, b);
    _mm_unpacklo_epi32(a, b); _mm_unpackhi_epi32(a, b); _mm_unpacklo_epi64(a, b); _mm_unpackhi_epi64(a, b);
}

#[cfg(target_feature = "ssse3")]
instructions! { _mm_shuffle_epi8(a, b); }
#[cfg(target_feature = "sse4.1")]
instructions! { _mm_mullo_epi32(a, b); _mm_cvtepi32_epi64(a); }

inlined! {
    fn of_words(low: u64, high: u64) -> __m128i {
        // SAFETY: as in `instructions`.
        unsafe { arch::_mm_set_epi64x(high as i64, low as i64) }
    }
    fn same(word: u64) -> __m128i {
        of_words(word, word)
    }
}

/// Half of the lanes, from `START` on, to be cast.
#[derive(Clone, Copy)]
pub struct Half<V, const START: usize>(V);

/// What lanes can be cast to: those at twice or half their width.
pub trait Cast<T> {
    type To;
    fn to(self) -> Self::To;
}

/// Casts by the lane.
pub trait ByLane: Sized {
    #[inline(always)]
    fn cast<T>(self) -> Self::To
    where
        Self: Cast<T>,
    {
        self.to()
    }
}
impl<V> ByLane for V {}

/// For each lane, all ones where it is chosen.
#[derive(Clone, Copy)]
pub struct Mask<V>(V);

macro_rules! vectors {
    ($($name:ident $lane:ident $count:literal $add:ident $sub:ident;)*) => { $(
        /// Lanes of an integer.
        #[derive(Clone, Copy, Debug)]
        pub struct $name(__m128i);

        impl $name {
            inlined! {
                pub fn from_array(lanes: [$lane; $count]) -> Self {
                    // SAFETY: both are 16 bytes, and each pattern of bits is a value of both.
                    Self(unsafe { core::mem::transmute::<[$lane; $count], __m128i>(lanes) })
                }
                pub fn to_array(self) -> [$lane; $count] {
                    // SAFETY: as in `from_array`.
                    unsafe { core::mem::transmute::<__m128i, [$lane; $count]>(self.0) }
                }
                pub fn splat(lane: $lane) -> Self {
                    Self::from_array([lane; $count])
                }
                pub fn to_le_bytes(self) -> u8x16 {
                    u8x16(self.0)
                }
                pub fn from_le_bytes(bytes: u8x16) -> Self {
                    Self(bytes.0)
                }
                pub fn shuffle(self, other: Self, indices: [usize; $count]) -> Self {
                    // Lanes of 32 bits in turns with those of another vector: as plain lanes, LLVM takes them out one by one.
                    match indices[..] {
                        [0, 4, 1, 5] => return Self(_mm_unpacklo_epi32(self.0, other.0)),
                        [2, 4, 3, 5] => return Self(_mm_unpacklo_epi32(_mm_unpackhi_epi64(self.0, self.0), other.0)),
                        [0, 1, 0, 1] => return Self(_mm_unpacklo_epi64(self.0, self.0)),
                        _ => {}
                    }
                    let (a, b) = (self.to_array(), other.to_array());
                    Self::from_array(indices.map(|i| if i < $count { a[i] } else { b[i - $count] }))
                }
                /// The one amount of all lanes, if it is one.
                fn amount(self) -> Option<$lane> {
                    let lanes = self.to_array();
                    lanes.iter().all(|lane| *lane == lanes[0]).then_some(lanes[0] & (128 / $count - 1))
                }
            }

            #[inline(always)]
            pub fn extract<const START: usize, const M: usize>(self) -> Half<Self, START> {
                const { assert!(2 * M == $count && START % M == 0) };
                Half(self)
            }

            #[inline(always)]
            fn zip(self, other: Self, f: impl Fn($lane, $lane) -> $lane) -> Self {
                let (a, b) = (self.to_array(), other.to_array());
                let mut lanes = [0; $count];
                for i in 0..$count {
                    lanes[i] = f(a[i], b[i]);
                }
                Self::from_array(lanes)
            }
        }

        operators! { [] $name:
            Add add(a, b: Self) { $name($add(a.0, b.0)) }
            Sub sub(a, b: Self) { $name($sub(a.0, b.0)) }
            BitAnd bitand(a, b: Self) { $name(_mm_and_si128(a.0, b.0)) }
            BitOr bitor(a, b: Self) { $name(_mm_or_si128(a.0, b.0)) }
            BitXor bitxor(a, b: Self) { $name(_mm_xor_si128(a.0, b.0)) }
            Not not(a) { $name(_mm_xor_si128(a.0, same(u64::MAX))) }
        }

        impl Mask<$name> {
            inlined! {
                pub fn select(self, chosen: $name, other: $name) -> $name {
                    $name(_mm_or_si128(_mm_and_si128(self.0.0, chosen.0), _mm_andnot_si128(self.0.0, other.0)))
                }
            }
        }
    )* };
}

vectors! {
    u8x16 u8 16 _mm_add_epi8 _mm_sub_epi8;
    u16x8 u16 8 _mm_add_epi16 _mm_sub_epi16;
    u32x4 u32 4 _mm_add_epi32 _mm_sub_epi32;
    u64x2 u64 2 _mm_add_epi64 _mm_sub_epi64;
    i16x8 i16 8 _mm_add_epi16 _mm_sub_epi16;
    i32x4 i32 4 _mm_add_epi32 _mm_sub_epi32;
    i64x2 i64 2 _mm_add_epi64 _mm_sub_epi64;
}

/// Lanes that are compared as unsigned numbers: those with the highest bit flipped, as signed ones.
macro_rules! compared {
    ($($name:ident $eq:ident $lt:ident $top:expr;)*) => { $(impl $name {
        inlined! {
            pub fn simd_eq(self, other: Self) -> Mask<Self> {
                Mask(Self($eq(self.0, other.0)))
            }
            pub fn simd_lt(self, other: Self) -> Mask<Self> {
                Mask(Self($lt(_mm_xor_si128(self.0, $top), _mm_xor_si128(other.0, $top))))
            }
        }
    })* };
}

compared! {
    u8x16 _mm_cmpeq_epi8 _mm_cmplt_epi8 same(0x8080_8080_8080_8080);
    u16x8 _mm_cmpeq_epi16 _mm_cmplt_epi16 same(0x8000_8000_8000_8000);
    u32x4 _mm_cmpeq_epi32 _mm_cmplt_epi32 same(0x8000_0000_8000_0000);
}

macro_rules! saturating {
    ($($name:ident $add:ident $sub:ident;)*) => { $(impl $name {
        inlined! {
            pub fn saturating_add(self, other: Self) -> Self {
                Self($add(self.0, other.0))
            }
            pub fn saturating_sub(self, other: Self) -> Self {
                Self($sub(self.0, other.0))
            }
        }
    })* };
}

saturating! {
    u8x16 _mm_adds_epu8 _mm_subs_epu8;
    u16x8 _mm_adds_epu16 _mm_subs_epu16;
}

impl u64x2 {
    inlined! {
        pub fn simd_eq(self, other: Self) -> Mask<Self> {
            Mask(self.zip(other, |x, y| if x == y { u64::MAX } else { 0 }))
        }
        pub fn simd_lt(self, other: Self) -> Mask<Self> {
            Mask(self.zip(other, |x, y| if x < y { u64::MAX } else { 0 }))
        }
    }
}

impl u8x16 {
    #[inline(always)]
    pub fn simd_min(self, other: Self) -> Self {
        Self(_mm_min_epu8(self.0, other.0))
    }

    #[inline(always)]
    pub fn swizzle_dyn_within<const K: usize>(self, indices: Self) -> Self {
        #[cfg(target_feature = "ssse3")]
        return Self(_mm_shuffle_epi8(self.0, indices.0));
        #[cfg(not(target_feature = "ssse3"))]
        {
            // Words are put together from bytes, without a branch for each index.
            let table = self.to_array();
            let inside = Self(_mm_and_si128(indices.0, same(0x0f0f_0f0f_0f0f_0f0f))).to_array();
            let word = |start: usize| {
                let bytes = inside[start..start + 8].iter().rev();
                bytes.fold(0, |word, i| word << 8 | u64::from(table[usize::from(*i)]))
            };
            let picked = of_words(word(0), word(8));
            Self(_mm_andnot_si128(_mm_cmplt_epi8(indices.0, same(0)), picked))
        }
    }
}

operators! { [] u16x8:
    Mul mul(a, b: Self) { u16x8(_mm_mullo_epi16(a.0, b.0)) }
}
// By lanes, where the processor lacks it, since LLVM then knows a product of two numbers of 16 bits.
#[cfg(target_feature = "sse4.1")]
operators! { [] u32x4:
    Mul mul(a, b: Self) { u32x4(_mm_mullo_epi32(a.0, b.0)) }
}
#[cfg(not(target_feature = "sse4.1"))]
operators! { [] u32x4:
    Mul mul(a, b: Self) { a.zip(b, u32::wrapping_mul) }
}
operators! { [] u64x2:
    Mul mul(a, b: Self) { a.zip(b, u64::wrapping_mul) }
}

macro_rules! shifted {
    ($($name:ident $lane:ident $shl:ident $shr:ident;)*) => { $(
        operators! { [] $name:
            Shl shl(a, amounts: Self) {
                match amounts.amount() {
                    Some(amount) => $name($shl(a.0, of_words(amount as u64, 0))),
                    None => a.zip(amounts, |x, amount| x.wrapping_shl(amount as u32)),
                }
            }
            Shr shr(a, amounts: Self) {
                match amounts.amount() {
                    Some(amount) => $name($shr(a.0, of_words(amount as u64, 0))),
                    None => a.zip(amounts, |x, amount| x.wrapping_shr(amount as u32)),
                }
            }
            Shl<i32> shl(a, amount: i32) { a << $name::splat(amount as $lane) }
            Shr<i32> shr(a, amount: i32) { a >> $name::splat(amount as $lane) }
        }
    )* };
}

shifted! {
    u16x8 u16 _mm_sll_epi16 _mm_srl_epi16;
    u32x4 u32 _mm_sll_epi32 _mm_srl_epi32;
    u64x2 u64 _mm_sll_epi64 _mm_srl_epi64;
    i16x8 i16 _mm_sll_epi16 _mm_sra_epi16;
    i32x4 i32 _mm_sll_epi32 _mm_sra_epi32;
}

macro_rules! widened {
    ($($from:ident $lane:ident $to:ident |$v:ident| $low:expr, $high:expr;)*) => { $(impl<const START: usize> Cast<$lane> for Half<$from, START> {
        type To = $to;
        #[inline(always)]
        fn to(self) -> $to {
            let $v = self.0.0;
            $to(if START == 0 { $low } else { $high })
        }
    })* };
}

widened! {
    u8x16 u16 u16x8 |v| _mm_unpacklo_epi8(v, same(0)), _mm_unpackhi_epi8(v, same(0));
    u16x8 u32 u32x4 |v| _mm_unpacklo_epi16(v, same(0)), _mm_unpackhi_epi16(v, same(0));
    i16x8 i32 i32x4 |v| _mm_sra_epi32(_mm_unpacklo_epi16(v, v), of_words(16, 0)), _mm_sra_epi32(_mm_unpackhi_epi16(v, v), of_words(16, 0));
}

#[cfg(target_feature = "sse4.1")]
widened! {
    i32x4 i64 i64x2 |v| _mm_cvtepi32_epi64(v), _mm_cvtepi32_epi64(_mm_unpackhi_epi64(v, v));
}
// As plain lanes: LLVM then knows that a product of two such lanes is one of 32 bits.
#[cfg(not(target_feature = "sse4.1"))]
widened! { i32x4 i64 i64x2 |v| extended(v, 0), extended(v, 2); }
inlined! {
    fn extended(v: __m128i, start: usize) -> __m128i {
        let lanes = i32x4(v).to_array();
        i64x2::from_array([i64::from(lanes[start]), i64::from(lanes[start + 1])]).0
    }
}

/// Eight lanes of 32 bits, in two registers.
#[derive(Clone, Copy, Debug)]
pub struct u32x8(u32x4, u32x4);

impl u32x8 {
    #[inline(always)]
    pub fn splat(lane: u32) -> Self {
        Self(u32x4::splat(lane), u32x4::splat(lane))
    }
}

impl Cast<u16> for u32x8 {
    type To = u16x8;
    #[inline(always)]
    fn to(self) -> u16x8 {
        // The upper half of each lane becomes its sign, so that a signed pack keeps all bits.
        let signed = |v: u32x4| _mm_sra_epi32(_mm_sll_epi32(v.0, of_words(16, 0)), of_words(16, 0));
        u16x8(_mm_packs_epi32(signed(self.0), signed(self.1)))
    }
}

impl Cast<u32> for u16x8 {
    type To = u32x8;
    #[inline(always)]
    fn to(self) -> u32x8 {
        let (low, high) = (self.extract::<0, 4>(), self.extract::<4, 4>());
        u32x8(low.cast::<u32>(), high.cast::<u32>())
    }
}

operators! { [] u32x8:
    Sub sub(a, b: Self) { u32x8(a.0 - b.0, a.1 - b.1) }
    Mul mul(a, b: Self) { u32x8(a.0 * b.0, a.1 * b.1) }
    Shr shr(a, b: Self) { u32x8(a.0 >> b.0, a.1 >> b.1) }
    BitXor bitxor(a, b: Self) { u32x8(a.0 ^ b.0, a.1 ^ b.1) }
}
