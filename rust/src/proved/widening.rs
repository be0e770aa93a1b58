//! WebAssembly's vector instructions that widen, narrow, shift or test lanes, and the relaxed ones.
#[cfg(any(doc, test))]
pub mod laws {
    //! Laws on lanes that are made of lanes of another width and on wrapped numbers, on tests of lanes
    //! and on the bits that they give.

    /// Lane i of a vector that is made of half of the narrow lanes is the row of the narrow lanes
    /// `first + i`, wrapped to the wide width. `A` is the integer as which a narrow lane is read.
    ///
    /// # Contract
    ///
    /// ```text
    /// ensures unary: (narrow wide : Width) (first : ℕ) (read : ℕ → A) (row : A → ℕ) (v i : ℕ)
    ///     → i < lane_count wide → lane wide (half_unary narrow wide first read row v) i
    ///     ≡ row (read (lane narrow v (first + i))) % 2 ^ bits wide
    /// ensures binary: (narrow wide : Width) (first : ℕ) (read : ℕ → A) (row : A → A → ℕ) (a b i : ℕ)
    ///     → i < lane_count wide → lane wide (half_binary narrow wide first read row a b) i
    ///     ≡ row (read (lane narrow a (first + i)))
    ///     (read (lane narrow b (first + i))) % 2 ^ bits wide
    /// ```
    ///
    /// Definitions: [`lane_count`](crate::specs::lanes::VectorSpecs#lane_count), [`lane`](crate::specs::lanes::VectorSpecs#lane), [`half_unary`](crate::specs::widening::WideningTableSpecs#half_unary), [`half_binary`](crate::specs::widening::WideningTableSpecs#half_binary).
    ///
    /// `A` is any type.
    #[inline]
    pub fn lanes_of_halves<A>() {}

    /// Lane i of half of a vector, extended, is read as the narrow lane is: the lanes of the lower half
    /// keep their index, and those of the upper half are counted on.
    ///
    /// # Contract
    ///
    /// ```text
    /// ensures low_s: (narrow wide : Width) (v i : ℕ) → bits narrow ≤ bits wide → i < lane_count wide
    ///     → signed wide (lane wide (vector.extend_low_s narrow wide v) i)
    ///     ≡ signed narrow (lane narrow v i)
    /// ensures low_u: (narrow wide : Width) (v i : ℕ) → bits narrow ≤ bits wide → i < lane_count wide
    ///     → lane wide (vector.extend_low_u narrow wide v) i ≡ lane narrow v i
    /// ensures high_s: (narrow wide : Width) (v i : ℕ) → bits narrow ≤ bits wide → i < lane_count wide
    ///     → signed wide (lane wide (vector.extend_high_s narrow wide v) i)
    ///     ≡ signed narrow (lane narrow v (lane_count wide + i))
    /// ensures high_u: (narrow wide : Width) (v i : ℕ) → bits narrow ≤ bits wide → i < lane_count wide
    ///     → lane wide (vector.extend_high_u narrow wide v) i ≡ lane narrow v (lane_count wide + i)
    /// ```
    ///
    /// Definitions: [`lane_count`](crate::specs::lanes::VectorSpecs#lane_count), [`lane`](crate::specs::lanes::VectorSpecs#lane), [`extend_low_s`](crate::specs::widening::WideningTableSpecs#extend_low_s), [`extend_low_u`](crate::specs::widening::WideningTableSpecs#extend_low_u), [`extend_high_s`](crate::specs::widening::WideningTableSpecs#extend_high_s), [`extend_high_u`](crate::specs::widening::WideningTableSpecs#extend_high_u).
    #[inline]
    pub fn extended_lanes() {}

    /// A number wrapped to a width is below 2 to its power; one in the signed range is read as itself.
    ///
    /// # Contract
    ///
    /// ```text
    /// ensures below: (w : Width) (z : ℤ) → wrap w z < 2 ^ bits w
    /// ensures signed: (w : Width) (z : ℤ) → FitsSigned w z → signed w (wrap w z) ≡ z
    /// ```
    ///
    /// Definitions: [`wrap`](crate::specs::types::NumbersSpecs#wrap).
    #[inline]
    pub fn wrapped_numbers() {}

    /// Lane i of a vector that is made of neighbouring narrow lanes is the row of the narrow lanes 2i
    /// and 2i + 1, wrapped to the wide width. `A` is the integer as which a narrow lane is read.
    ///
    /// # Contract
    ///
    /// ```text
    /// ensures unary: (narrow wide : Width) (read : ℕ → A) (row : A → A → ℕ) (v i : ℕ)
    ///     → i < lane_count wide → lane wide (pairwise_unary narrow wide read row v) i
    ///     ≡ row (read (lane narrow v (2 * i))) (read (lane narrow v (2 * i + 1))) % 2 ^ bits wide
    /// ensures binary: (narrow wide : Width) (read : ℕ → A) (row : A → A → A → A → ℕ) (a b i : ℕ)
    ///     → i < lane_count wide → lane wide (pairwise_binary narrow wide read row a b) i
    ///     ≡ row (read (lane narrow a (2 * i))) (read (lane narrow a (2 * i + 1)))
    ///     (read (lane narrow b (2 * i))) (read (lane narrow b (2 * i + 1))) % 2 ^ bits wide
    /// ```
    ///
    /// Definitions: [`lane_count`](crate::specs::lanes::VectorSpecs#lane_count), [`lane`](crate::specs::lanes::VectorSpecs#lane), [`pairwise_unary`](crate::specs::widening::WideningTableSpecs#pairwise_unary), [`pairwise_binary`](crate::specs::widening::WideningTableSpecs#pairwise_binary).
    ///
    /// `A` is any type.
    #[inline]
    pub fn pairwise_lanes<A>() {}

    /// The lanes of a vector made of two vectors' wide lanes are the rows of the first one's, then the
    /// second's, wrapped to the narrow width. `A` is the integer as which a wide lane is read.
    ///
    /// # Contract
    ///
    /// ```text
    /// ensures low: (wide narrow : Width) (read : ℕ → A) (row : A → ℕ) (low high i : ℕ)
    ///     → i < lane_count wide → i < lane_count narrow
    ///     → lane narrow (from_low_high wide narrow read row low high) i
    ///     ≡ row (read (lane wide low i)) % 2 ^ bits narrow
    /// ensures high: (wide narrow : Width) (read : ℕ → A) (row : A → ℕ) (low high i : ℕ)
    ///     → lane_count wide + i < lane_count narrow
    ///     → lane narrow (from_low_high wide narrow read row low high) (lane_count wide + i)
    ///     ≡ row (read (lane wide high i)) % 2 ^ bits narrow
    /// ```
    ///
    /// Definitions: [`lane_count`](crate::specs::lanes::VectorSpecs#lane_count), [`lane`](crate::specs::lanes::VectorSpecs#lane), [`from_low_high`](crate::specs::widening::WideningTableSpecs#from_low_high).
    ///
    /// `A` is any type.
    #[inline]
    pub fn lanes_of_wide_lanes<A>() {}

    /// Bit i of the number that is made of a test of each lane tells whether the test holds of lane i,
    /// and no other bit is 1. `A` is the integer as which a lane is read.
    ///
    /// # Contract
    ///
    /// ```text
    /// ensures bit: (w : Width) (read : ℕ → A) (test : A → Bool) (v i : ℕ) → i < lane_count w
    ///     → bit_at (lane_bits w read test v) i ≡ (if test (read (lane w v i)) then 1 else 0)
    /// ensures below: (w : Width) (read : ℕ → A) (test : A → Bool) (v : ℕ)
    ///     → lane_bits w read test v < 2 ^ lane_count w
    /// ensures bit_of_test: (n : ℕ) (test : ℕ → Bool) (i : ℕ) → i < n
    ///     → bit_at (first_bits n test) i ≡ (if test i then 1 else 0)
    /// ensures tests_below: (n : ℕ) (test : ℕ → Bool) → first_bits n test < 2 ^ n
    /// ```
    ///
    /// Definitions: [`lane_count`](crate::specs::lanes::VectorSpecs#lane_count), [`lane_bits`](crate::specs::widening::WideningTableSpecs#lane_bits), [`lane`](crate::specs::lanes::VectorSpecs#lane), [`first_bits`](crate::specs::widening::WideningTableSpecs#first_bits).
    ///
    /// `A` is any type.
    #[inline]
    pub fn bits_of_lanes<A>() {}

    /// A test of every lane holds exactly where it holds of each. `A` is the integer a lane is read as.
    ///
    /// # Contract
    ///
    /// ```text
    /// ensures lanes: (w : Width) (read : ℕ → A) (test : A → Bool) (v : ℕ)
    ///     → IsTrue (every_lane w read test v)
    ///     ↔ ((i : ℕ) → i < lane_count w → IsTrue (test (read (lane w v i))))
    /// ensures numbers: (n : ℕ) (test : ℕ → Bool)
    ///     → IsTrue (holds_below n test) ↔ ((i : ℕ) → i < n → IsTrue (test i))
    /// ```
    ///
    /// Definitions: [`every_lane`](crate::specs::widening::WideningTableSpecs#every_lane), [`lane_count`](crate::specs::lanes::VectorSpecs#lane_count), [`lane`](crate::specs::lanes::VectorSpecs#lane), [`holds_below`](crate::specs::widening::WideningTableSpecs#holds_below).
    ///
    /// `A` is any type.
    #[inline]
    pub fn tests_of_lanes<A>() {}
}
pub mod simd {
    //! The vector instructions that widen, narrow, shift or test lanes, the relaxed ones, and what
    //! loads of parts of a vector make of a number.
    //!
    //! Each function is the instruction of its name: `i16x8_extend_low_i8x16_s` is
    //! `i16x8.extend_low_i8x16_s`, which makes 8 lanes of 16 bits of 16 lanes of 8 bits; lane 0 is the
    //! lowest. Core specification: vector instructions; what each gives stands in
    //! `specs/WideningTable.antt`, and for the shifts in `VectorTable` of `wasmi_lanewise`. Upstream:
    //! `wasmi_core::simd`. Private functions here make an instruction for each lane type; how such a
    //! type takes its lanes at twice their width is in `wide`.

    mod wide {
        //! Lanes at twice their width, and lanes read as signed ones, as `core::simd` vectors.
        //! `ExtendedLane` takes those of half a vector and makes their products, `PairedLane` takes every
        //! second one of a vector and makes their sums. LLVM takes plain lanes out one by one.

        use crate::proved::lanes::{SimdLane, bytes_of};
        use crate::proved::raw::V128;
        use crate::rattle::simd::prelude::*;

        /// A lane that is extended to twice its width.
        ///
        /// # Contract
        ///
        /// ```text
        /// -- `Wide` has twice the width.
        /// widens: IsWidening Self.LaneInteger.width Self.Wide.LaneInteger.width
        ///     (lane_count Self.Wide.LaneInteger.width)
        /// ```
        ///
        /// Definitions: [`IsWidening`](crate::specs::widening::WideningProofsSpecs#IsWidening), [`lane_count`](crate::specs::lanes::VectorSpecs#lane_count).
        pub(super) trait ExtendedLane: SimdLane {
            /// The lane of twice the width.
            type Wide: SimdLane;

            /// The lanes of the lower half.
            ///
            /// # Contract
            ///
            /// ```text
            /// ensures lanes: (i : ℕ) → i < lane_count Self.Wide.width
            ///     → Self.Wide.at result i ≡ lane Self.width v i
            /// ```
            ///
            /// Definitions: [`lane_count`](crate::specs::lanes::VectorSpecs#lane_count), [`lane`](crate::specs::lanes::VectorSpecs#lane).
            fn low(v: V128) -> <Self::Wide as SimdLane>::Vector;

            /// The lanes of the upper half.
            ///
            /// # Contract
            ///
            /// ```text
            /// ensures lanes: (i : ℕ) → i < lane_count Self.Wide.width
            ///     → Self.Wide.at result i ≡ lane Self.width v (lane_count Self.Wide.width + i)
            /// ```
            ///
            /// Definitions: [`lane_count`](crate::specs::lanes::VectorSpecs#lane_count), [`lane`](crate::specs::lanes::VectorSpecs#lane).
            fn high(v: V128) -> <Self::Wide as SimdLane>::Vector;

            /// The lanes of the lower half, the sign copied.
            ///
            /// # Contract
            ///
            /// ```text
            /// ensures lanes: (i : ℕ) → i < lane_count Self.Wide.width → Self.Wide.at result i
            ///     ≡ cast_unsigned Self.Wide.width (signed Self.width (lane Self.width v i))
            /// ```
            ///
            /// Definitions: [`lane_count`](crate::specs::lanes::VectorSpecs#lane_count), [`lane`](crate::specs::lanes::VectorSpecs#lane).
            fn low_signed(v: V128) -> <Self::Wide as SimdLane>::Vector;

            /// The lanes of the upper half, the sign copied.
            ///
            /// # Contract
            ///
            /// ```text
            /// ensures lanes: (i : ℕ) → i < lane_count Self.Wide.width → Self.Wide.at result i
            ///     ≡ cast_unsigned Self.Wide.width
            ///     (signed Self.width (lane Self.width v (lane_count Self.Wide.width + i)))
            /// ```
            ///
            /// Definitions: [`lane_count`](crate::specs::lanes::VectorSpecs#lane_count), [`lane`](crate::specs::lanes::VectorSpecs#lane).
            fn high_signed(v: V128) -> <Self::Wide as SimdLane>::Vector;

            /// The products of wide lanes, modulo 2 to the power of their width.
            ///
            /// # Contract
            ///
            /// ```text
            /// ensures lanes: (i : ℕ) → i < lane_count Self.Wide.width → Self.Wide.at result i
            ///     ≡ Self.Wide.at a i * Self.Wide.at b i % 2 ^ bits Self.Wide.width
            /// ```
            ///
            /// Definitions: [`lane_count`](crate::specs::lanes::VectorSpecs#lane_count).
            fn products(
                a: <Self::Wide as SimdLane>::Vector,
                b: <Self::Wide as SimdLane>::Vector,
            ) -> <Self::Wide as SimdLane>::Vector;
        }

        /// A lane of which neighbouring ones are put together at twice their width: a lane of twice the
        /// width is two neighbours, and shifts take each out of it.
        pub(super) trait PairedLane: ExtendedLane {
            /// The lanes with an even number.
            ///
            /// # Contract
            ///
            /// ```text
            /// ensures lanes: (i : ℕ) → i < lane_count Self.Wide.width
            ///     → Self.Wide.at result i ≡ lane Self.width v (2 * i)
            /// ```
            ///
            /// Definitions: [`lane_count`](crate::specs::lanes::VectorSpecs#lane_count), [`lane`](crate::specs::lanes::VectorSpecs#lane).
            fn even(v: V128) -> <Self::Wide as SimdLane>::Vector;

            /// The lanes with an odd number.
            ///
            /// # Contract
            ///
            /// ```text
            /// ensures lanes: (i : ℕ) → i < lane_count Self.Wide.width
            ///     → Self.Wide.at result i ≡ lane Self.width v (2 * i + 1)
            /// ```
            ///
            /// Definitions: [`lane_count`](crate::specs::lanes::VectorSpecs#lane_count), [`lane`](crate::specs::lanes::VectorSpecs#lane).
            fn odd(v: V128) -> <Self::Wide as SimdLane>::Vector;

            /// The lanes with an even number, the sign copied.
            ///
            /// # Contract
            ///
            /// ```text
            /// ensures lanes: (i : ℕ) → i < lane_count Self.Wide.width → Self.Wide.at result i
            ///     ≡ cast_unsigned Self.Wide.width (signed Self.width (lane Self.width v (2 * i)))
            /// ```
            ///
            /// Definitions: [`lane_count`](crate::specs::lanes::VectorSpecs#lane_count), [`lane`](crate::specs::lanes::VectorSpecs#lane).
            fn even_signed(v: V128) -> <Self::Wide as SimdLane>::Vector;

            /// The lanes with an odd number, the sign copied.
            ///
            /// # Contract
            ///
            /// ```text
            /// ensures lanes: (i : ℕ) → i < lane_count Self.Wide.width → Self.Wide.at result i
            ///     ≡ cast_unsigned Self.Wide.width (signed Self.width (lane Self.width v (2 * i + 1)))
            /// ```
            ///
            /// Definitions: [`lane_count`](crate::specs::lanes::VectorSpecs#lane_count), [`lane`](crate::specs::lanes::VectorSpecs#lane).
            fn odd_signed(v: V128) -> <Self::Wide as SimdLane>::Vector;

            /// The sums of wide lanes, modulo 2 to the power of their width.
            ///
            /// # Contract
            ///
            /// ```text
            /// ensures lanes: (i : ℕ) → i < lane_count Self.Wide.width → Self.Wide.at result i
            ///     ≡ (Self.Wide.at a i + Self.Wide.at b i) % 2 ^ bits Self.Wide.width
            /// ```
            ///
            /// Definitions: [`lane_count`](crate::specs::lanes::VectorSpecs#lane_count).
            fn sums(
                a: <Self::Wide as SimdLane>::Vector,
                b: <Self::Wide as SimdLane>::Vector,
            ) -> <Self::Wide as SimdLane>::Vector;
        }

        impl ExtendedLane for u8 {
            type Wide = u16;

            #[inline(always)]
            fn low(v: V128) -> u16x8 {
                bytes_of(v).extract::<0, 8>().cast::<u16>()
            }

            #[inline(always)]
            fn high(v: V128) -> u16x8 {
                bytes_of(v).extract::<8, 8>().cast::<u16>()
            }

            #[inline(always)]
            fn low_signed(v: V128) -> u16x8 {
                sign_copied(u8::low(v))
            }

            #[inline(always)]
            fn high_signed(v: V128) -> u16x8 {
                sign_copied(u8::high(v))
            }

            #[inline(always)]
            fn products(a: u16x8, b: u16x8) -> u16x8 {
                a * b
            }
        }

        impl PairedLane for u8 {
            #[inline(always)]
            fn even(v: V128) -> u16x8 {
                u16::lanes_of(v) & u16x8::splat(0xff)
            }

            #[inline(always)]
            fn odd(v: V128) -> u16x8 {
                u16::lanes_of(v) >> 8
            }

            #[inline(always)]
            fn even_signed(v: V128) -> u16x8 {
                u16x8::from_le_bytes(((i16x8_of(v) << 8) >> 8).to_le_bytes())
            }

            #[inline(always)]
            fn odd_signed(v: V128) -> u16x8 {
                u16x8::from_le_bytes((i16x8_of(v) >> 8).to_le_bytes())
            }

            #[inline(always)]
            fn sums(a: u16x8, b: u16x8) -> u16x8 {
                a + b
            }
        }

        impl ExtendedLane for u16 {
            type Wide = u32;

            #[inline(always)]
            fn low(v: V128) -> u32x4 {
                u16::lanes_of(v).extract::<0, 4>().cast::<u32>()
            }

            #[inline(always)]
            fn high(v: V128) -> u32x4 {
                u16::lanes_of(v).extract::<4, 4>().cast::<u32>()
            }

            #[inline(always)]
            fn low_signed(v: V128) -> u32x4 {
                u32x4::from_le_bytes(i16x8_of(v).extract::<0, 4>().cast::<i32>().to_le_bytes())
            }

            #[inline(always)]
            fn high_signed(v: V128) -> u32x4 {
                u32x4::from_le_bytes(i16x8_of(v).extract::<4, 4>().cast::<i32>().to_le_bytes())
            }

            #[inline(always)]
            fn products(a: u32x4, b: u32x4) -> u32x4 {
                a * b
            }
        }

        impl PairedLane for u16 {
            #[inline(always)]
            fn even(v: V128) -> u32x4 {
                u32::lanes_of(v) & u32x4::splat(0xffff)
            }

            #[inline(always)]
            fn odd(v: V128) -> u32x4 {
                u32::lanes_of(v) >> 16
            }

            #[inline(always)]
            fn even_signed(v: V128) -> u32x4 {
                u32x4::from_le_bytes(((i32x4_of(v) << 16) >> 16).to_le_bytes())
            }

            #[inline(always)]
            fn odd_signed(v: V128) -> u32x4 {
                u32x4::from_le_bytes((i32x4_of(v) >> 16).to_le_bytes())
            }

            #[inline(always)]
            fn sums(a: u32x4, b: u32x4) -> u32x4 {
                a + b
            }
        }

        // Zeros come between the lanes of a half: of a cast LLVM takes the lanes out of their word.
        impl ExtendedLane for u32 {
            type Wide = u64;

            #[inline(always)]
            fn low(v: V128) -> u64x2 {
                let items = u32::lanes_of(v).shuffle(u32x4::splat(0), [0, 4, 1, 5]);
                u64x2::from_le_bytes(items.to_le_bytes())
            }

            #[inline(always)]
            fn high(v: V128) -> u64x2 {
                let items = u32::lanes_of(v).shuffle(u32x4::splat(0), [2, 4, 3, 5]);
                u64x2::from_le_bytes(items.to_le_bytes())
            }

            #[inline(always)]
            fn low_signed(v: V128) -> u64x2 {
                u64x2::from_le_bytes(i32x4_of(v).extract::<0, 2>().cast::<i64>().to_le_bytes())
            }

            #[inline(always)]
            fn high_signed(v: V128) -> u64x2 {
                u64x2::from_le_bytes(i32x4_of(v).extract::<2, 2>().cast::<i64>().to_le_bytes())
            }

            #[inline(always)]
            fn products(a: u64x2, b: u64x2) -> u64x2 {
                a * b
            }
        }

        // Numbers of 8 bits, the sign copied to 16: their highest bit is flipped, and taken off again.
        /// # Contract
        ///
        /// ```text
        /// ensures lanes: (i x : ℕ) → i < 8 → slice_index bytes i ≡ x → x < 2 ^ 8
        ///     → slice_index result i ≡ cast_unsigned w16 (signed w8 x)
        /// ```
        #[inline(always)]
        fn sign_copied(bytes: u16x8) -> u16x8 {
            if AS_ARRAYS {
                let words = u64x2::from_le_bytes(bytes.to_le_bytes());
                let tops = words & u64x2::splat(0x0080_0080_0080_0080);
                return u16x8::from_le_bytes((words | (tops << 9) - (tops << 1)).to_le_bytes());
            }
            let tops = u16x8::splat(0x80);
            (bytes ^ tops) - tops
        }

        // The lanes of 16 bits, read signed.
        /// # Contract
        ///
        /// ```text
        /// ensures lanes: (i : ℕ) → i < 8 → slice_index_or result i (pos 0) ≡ signed w16 (lane w16 v i)
        /// ```
        ///
        /// Definitions: [`lane`](crate::specs::lanes::VectorSpecs#lane).
        #[inline(always)]
        fn i16x8_of(v: V128) -> i16x8 {
            i16x8::from_le_bytes(bytes_of(v))
        }

        // The lanes of 32 bits, read signed.
        /// # Contract
        ///
        /// ```text
        /// ensures lanes: (i : ℕ) → i < 4 → slice_index_or result i (pos 0) ≡ signed w32 (lane w32 v i)
        /// ```
        ///
        /// Definitions: [`lane`](crate::specs::lanes::VectorSpecs#lane).
        #[inline(always)]
        fn i32x4_of(v: V128) -> i32x4 {
            i32x4::from_le_bytes(bytes_of(v))
        }
    }

    use crate::proved::lanes::{
        FromWide, I8x16, I16x8, I32x4, I64x2, Lanes, SimdLane, WordLane, bytes_of, clamped_i8,
        clamped_i16, from_bytes, from_u64x2, on_vectors, u64x2_of,
    };
    use crate::proved::lanewise::clamp::{clamped_u8, clamped_u16};
    use crate::proved::lanewise::shift::{shifted_left, shifted_right};
    use crate::proved::lanewise::simd::{i8x16_swizzle, i16x8_q15mulr_sat_s, v128_bitselect};
    use crate::proved::raw::V128;
    use crate::proved::widening::simd::wide::{ExtendedLane, PairedLane};
    use crate::rattle::simd::prelude::*;

    // Lanes extended to twice their width.

    /// The lanes of the lower half, read signed.
    ///
    /// # Contract
    ///
    /// ```text
    /// ensures: result ≡ vector.extend_low_s w8 w16 v
    /// ```
    ///
    /// Definitions: [`extend_low_s`](crate::specs::widening::WideningTableSpecs#extend_low_s).
    #[must_use]
    #[inline]
    pub fn i16x8_extend_low_i8x16_s(v: V128) -> V128 {
        extended_low_s::<u8>(v)
    }

    /// The lanes of the lower half, read unsigned.
    ///
    /// # Contract
    ///
    /// ```text
    /// ensures: result ≡ vector.extend_low_u w8 w16 v
    /// ```
    ///
    /// Definitions: [`extend_low_u`](crate::specs::widening::WideningTableSpecs#extend_low_u).
    #[must_use]
    #[inline]
    pub fn i16x8_extend_low_i8x16_u(v: V128) -> V128 {
        extended_low_u::<u8>(v)
    }

    /// The lanes of the upper half, read signed.
    ///
    /// # Contract
    ///
    /// ```text
    /// ensures: result ≡ vector.extend_high_s w8 w16 v
    /// ```
    ///
    /// Definitions: [`extend_high_s`](crate::specs::widening::WideningTableSpecs#extend_high_s).
    #[must_use]
    #[inline]
    pub fn i16x8_extend_high_i8x16_s(v: V128) -> V128 {
        extended_high_s::<u8>(v)
    }

    /// The lanes of the upper half, read unsigned.
    ///
    /// # Contract
    ///
    /// ```text
    /// ensures: result ≡ vector.extend_high_u w8 w16 v
    /// ```
    ///
    /// Definitions: [`extend_high_u`](crate::specs::widening::WideningTableSpecs#extend_high_u).
    #[must_use]
    #[inline]
    pub fn i16x8_extend_high_i8x16_u(v: V128) -> V128 {
        extended_high_u::<u8>(v)
    }

    /// The lanes of the lower half, read signed.
    ///
    /// # Contract
    ///
    /// ```text
    /// ensures: result ≡ vector.extend_low_s w16 w32 v
    /// ```
    ///
    /// Definitions: [`extend_low_s`](crate::specs::widening::WideningTableSpecs#extend_low_s).
    #[must_use]
    #[inline]
    pub fn i32x4_extend_low_i16x8_s(v: V128) -> V128 {
        extended_low_s::<u16>(v)
    }

    /// The lanes of the lower half, read unsigned.
    ///
    /// # Contract
    ///
    /// ```text
    /// ensures: result ≡ vector.extend_low_u w16 w32 v
    /// ```
    ///
    /// Definitions: [`extend_low_u`](crate::specs::widening::WideningTableSpecs#extend_low_u).
    #[must_use]
    #[inline]
    pub fn i32x4_extend_low_i16x8_u(v: V128) -> V128 {
        extended_low_u::<u16>(v)
    }

    /// The lanes of the upper half, read signed.
    ///
    /// # Contract
    ///
    /// ```text
    /// ensures: result ≡ vector.extend_high_s w16 w32 v
    /// ```
    ///
    /// Definitions: [`extend_high_s`](crate::specs::widening::WideningTableSpecs#extend_high_s).
    #[must_use]
    #[inline]
    pub fn i32x4_extend_high_i16x8_s(v: V128) -> V128 {
        extended_high_s::<u16>(v)
    }

    /// The lanes of the upper half, read unsigned.
    ///
    /// # Contract
    ///
    /// ```text
    /// ensures: result ≡ vector.extend_high_u w16 w32 v
    /// ```
    ///
    /// Definitions: [`extend_high_u`](crate::specs::widening::WideningTableSpecs#extend_high_u).
    #[must_use]
    #[inline]
    pub fn i32x4_extend_high_i16x8_u(v: V128) -> V128 {
        extended_high_u::<u16>(v)
    }

    /// The lanes of the lower half, read signed.
    ///
    /// # Contract
    ///
    /// ```text
    /// ensures: result ≡ vector.extend_low_s w32 w64 v
    /// ```
    ///
    /// Definitions: [`extend_low_s`](crate::specs::widening::WideningTableSpecs#extend_low_s).
    #[must_use]
    #[inline]
    pub fn i64x2_extend_low_i32x4_s(v: V128) -> V128 {
        extended_low_s::<u32>(v)
    }

    /// The lanes of the lower half, read unsigned.
    ///
    /// # Contract
    ///
    /// ```text
    /// ensures: result ≡ vector.extend_low_u w32 w64 v
    /// ```
    ///
    /// Definitions: [`extend_low_u`](crate::specs::widening::WideningTableSpecs#extend_low_u).
    #[must_use]
    #[inline]
    pub fn i64x2_extend_low_i32x4_u(v: V128) -> V128 {
        extended_low_u::<u32>(v)
    }

    /// The lanes of the upper half, read signed.
    ///
    /// # Contract
    ///
    /// ```text
    /// ensures: result ≡ vector.extend_high_s w32 w64 v
    /// ```
    ///
    /// Definitions: [`extend_high_s`](crate::specs::widening::WideningTableSpecs#extend_high_s).
    #[must_use]
    #[inline]
    pub fn i64x2_extend_high_i32x4_s(v: V128) -> V128 {
        extended_high_s::<u32>(v)
    }

    /// The lanes of the upper half, read unsigned.
    ///
    /// # Contract
    ///
    /// ```text
    /// ensures: result ≡ vector.extend_high_u w32 w64 v
    /// ```
    ///
    /// Definitions: [`extend_high_u`](crate::specs::widening::WideningTableSpecs#extend_high_u).
    #[must_use]
    #[inline]
    pub fn i64x2_extend_high_i32x4_u(v: V128) -> V128 {
        extended_high_u::<u32>(v)
    }

    /// What `v128.load8x8_s` makes of a number: its 8 lanes of 8 bits, read signed. Upstream's own.
    ///
    /// # Contract
    ///
    /// ```text
    /// ensures: result ≡ vector.widen_s w8 w16 number
    /// ```
    ///
    /// Definitions: [`widen_s`](crate::specs::widening::WideningTableSpecs#widen_s).
    #[must_use]
    #[inline]
    pub fn v128_widen8x8_s(number: u64) -> V128 {
        i16x8_extend_low_i8x16_s(V128::from_word_pair(number, 0))
    }

    /// What `v128.load8x8_u` makes of a number: its 8 lanes of 8 bits, read unsigned. Upstream's own.
    ///
    /// # Contract
    ///
    /// ```text
    /// ensures: result ≡ vector.widen_u w8 w16 number
    /// ```
    ///
    /// Definitions: [`widen_u`](crate::specs::widening::WideningTableSpecs#widen_u).
    #[must_use]
    #[inline]
    pub fn v128_widen8x8_u(number: u64) -> V128 {
        i16x8_extend_low_i8x16_u(V128::from_word_pair(number, 0))
    }

    /// What `v128.load16x4_s` makes of a number: its 4 lanes of 16 bits, read signed. Upstream's own.
    ///
    /// # Contract
    ///
    /// ```text
    /// ensures: result ≡ vector.widen_s w16 w32 number
    /// ```
    ///
    /// Definitions: [`widen_s`](crate::specs::widening::WideningTableSpecs#widen_s).
    #[must_use]
    #[inline]
    pub fn v128_widen16x4_s(number: u64) -> V128 {
        i32x4_extend_low_i16x8_s(V128::from_word_pair(number, 0))
    }

    /// What `v128.load16x4_u` makes of a number: its 4 lanes of 16 bits, read unsigned. Upstream's own.
    ///
    /// # Contract
    ///
    /// ```text
    /// ensures: result ≡ vector.widen_u w16 w32 number
    /// ```
    ///
    /// Definitions: [`widen_u`](crate::specs::widening::WideningTableSpecs#widen_u).
    #[must_use]
    #[inline]
    pub fn v128_widen16x4_u(number: u64) -> V128 {
        i32x4_extend_low_i16x8_u(V128::from_word_pair(number, 0))
    }

    /// What `v128.load32x2_s` makes of a number: its 2 lanes of 32 bits, read signed. Upstream's own.
    ///
    /// # Contract
    ///
    /// ```text
    /// ensures: result ≡ vector.widen_s w32 w64 number
    /// ```
    ///
    /// Definitions: [`widen_s`](crate::specs::widening::WideningTableSpecs#widen_s).
    #[must_use]
    #[inline]
    pub fn v128_widen32x2_s(number: u64) -> V128 {
        i64x2_extend_low_i32x4_s(V128::from_word_pair(number, 0))
    }

    /// What `v128.load32x2_u` makes of a number: its 2 lanes of 32 bits, read unsigned. Upstream's own.
    ///
    /// # Contract
    ///
    /// ```text
    /// ensures: result ≡ vector.widen_u w32 w64 number
    /// ```
    ///
    /// Definitions: [`widen_u`](crate::specs::widening::WideningTableSpecs#widen_u).
    #[must_use]
    #[inline]
    pub fn v128_widen32x2_u(number: u64) -> V128 {
        i64x2_extend_low_i32x4_u(V128::from_word_pair(number, 0))
    }

    /// What `v128.load32_zero` makes of a number: it is lane 0, and the others are 0. Upstream's own.
    ///
    /// # Contract
    ///
    /// ```text
    /// ensures: result ≡ vector.low_zero w32 number
    /// ```
    ///
    /// Definitions: [`low_zero`](crate::specs::widening::WideningTableSpecs#low_zero).
    #[must_use]
    #[inline]
    pub fn v128_low32_zero(number: u32) -> V128 {
        v128_low64_zero(u64::from(number))
    }

    /// What `v128.load64_zero` makes of a number: it is lane 0, and the others are 0. Upstream's own.
    ///
    /// # Contract
    ///
    /// ```text
    /// ensures: result ≡ vector.low_zero w64 number
    /// ```
    ///
    /// Definitions: [`low_zero`](crate::specs::widening::WideningTableSpecs#low_zero).
    #[must_use]
    #[inline]
    pub fn v128_low64_zero(number: u64) -> V128 {
        // By lanes of 32 bits: of two words LLVM makes two stores.
        let items = u32::lanes_of(V128::from_word_pair(number, 0));
        u32::vector_of(items.shuffle(u32x4::splat(0), [0, 1, 4, 5]))
    }

    /// # Contract
    ///
    /// ```text
    /// ensures: result ≡ vector.extend_low_s T.width T.Wide.width v
    /// ```
    ///
    /// Definitions: [`extend_low_s`](crate::specs::widening::WideningTableSpecs#extend_low_s).
    ///
    /// `T` is a type with the trait `ExtendedLane`.
    #[inline(always)]
    fn extended_low_s<T: ExtendedLane>(v: V128) -> V128 {
        T::Wide::vector_of(T::low_signed(v))
    }

    /// # Contract
    ///
    /// ```text
    /// ensures: result ≡ vector.extend_low_u T.width T.Wide.width v
    /// ```
    ///
    /// Definitions: [`extend_low_u`](crate::specs::widening::WideningTableSpecs#extend_low_u).
    ///
    /// `T` is a type with the trait `ExtendedLane`.
    #[inline(always)]
    fn extended_low_u<T: ExtendedLane>(v: V128) -> V128 {
        T::Wide::vector_of(T::low(v))
    }

    /// # Contract
    ///
    /// ```text
    /// ensures: result ≡ vector.extend_high_s T.width T.Wide.width v
    /// ```
    ///
    /// Definitions: [`extend_high_s`](crate::specs::widening::WideningTableSpecs#extend_high_s).
    ///
    /// `T` is a type with the trait `ExtendedLane`.
    #[inline(always)]
    fn extended_high_s<T: ExtendedLane>(v: V128) -> V128 {
        T::Wide::vector_of(T::high_signed(v))
    }

    /// # Contract
    ///
    /// ```text
    /// ensures: result ≡ vector.extend_high_u T.width T.Wide.width v
    /// ```
    ///
    /// Definitions: [`extend_high_u`](crate::specs::widening::WideningTableSpecs#extend_high_u).
    ///
    /// `T` is a type with the trait `ExtendedLane`.
    #[inline(always)]
    fn extended_high_u<T: ExtendedLane>(v: V128) -> V128 {
        T::Wide::vector_of(T::high(v))
    }

    // Lanes narrowed to half of their width.

    /// The lanes of `low`, then of `high`, read signed, clamped to the signed range of 8 bits.
    ///
    /// # Contract
    ///
    /// ```text
    /// ensures: result ≡ vector.narrow_s w16 w8 low high
    /// ```
    ///
    /// Definitions: [`narrow_s`](crate::specs::widening::WideningTableSpecs#narrow_s).
    #[must_use]
    #[inline]
    pub fn i8x16_narrow_i16x8_s(low: V128, high: V128) -> V128 {
        from_low_high::<I16x8, I8x16, _>(low, high, |x| clamped_i8(x))
    }

    /// The lanes of `low`, then of `high`, read signed, clamped to the unsigned range of 8 bits.
    ///
    /// # Contract
    ///
    /// ```text
    /// ensures: result ≡ vector.narrow_u w16 w8 low high
    /// ```
    ///
    /// Definitions: [`narrow_u`](crate::specs::widening::WideningTableSpecs#narrow_u).
    #[must_use]
    #[inline]
    pub fn i8x16_narrow_i16x8_u(low: V128, high: V128) -> V128 {
        from_low_high::<I16x8, I8x16, _>(low, high, clamped_u8)
    }

    /// The lanes of `low`, then of `high`, read signed, clamped to the signed range of 16 bits.
    ///
    /// # Contract
    ///
    /// ```text
    /// ensures: result ≡ vector.narrow_s w32 w16 low high
    /// ```
    ///
    /// Definitions: [`narrow_s`](crate::specs::widening::WideningTableSpecs#narrow_s).
    #[must_use]
    #[inline]
    pub fn i16x8_narrow_i32x4_s(low: V128, high: V128) -> V128 {
        from_low_high::<I32x4, I16x8, _>(low, high, |x| clamped_i16(x))
    }

    /// The lanes of `low`, then of `high`, read signed, clamped to the unsigned range of 16 bits.
    ///
    /// # Contract
    ///
    /// ```text
    /// ensures: result ≡ vector.narrow_u w32 w16 low high
    /// ```
    ///
    /// Definitions: [`narrow_u`](crate::specs::widening::WideningTableSpecs#narrow_u).
    #[must_use]
    #[inline]
    pub fn i16x8_narrow_i32x4_u(low: V128, high: V128) -> V128 {
        from_low_high::<I32x4, I16x8, _>(low, high, clamped_u16)
    }

    // The instructions `narrow_*`: applies `f` to the lanes of `low`, then to those of `high`.
    /// # Contract
    ///
    /// ```text
    /// requires callable: F.IsAlwaysCallable f
    /// ensures lanes: (row : W.Item → ℕ) → ((x : W.Item) (z : L.Item)
    ///     → W.Item.Fits x → L.Item.Fits z → F.post f x z → L.Item.image z ≡ row x)
    ///     → result ≡ vector.from_low_high W.Item.width L.Item.width W.Item.read row low high
    /// ```
    ///
    /// Definitions: [`from_low_high`](crate::specs::widening::WideningTableSpecs#from_low_high).
    ///
    /// `F` is the type of the closure. `L` is a type with the trait `FromWide`. `W` is a type with the trait `Lanes`.
    #[inline(always)]
    fn from_low_high<W: Lanes, L: FromWide<W>, F: Fn(W::Item) -> L::Item>(
        low: V128,
        high: V128,
        f: F,
    ) -> V128 {
        L::from_low_high(W::from_v128(low), W::from_v128(high), f).into_v128()
    }

    // Products of lanes, of twice their width, and sums of neighbouring lanes and of their products.

    /// The products of the lanes of the lower halves, read signed.
    ///
    /// # Contract
    ///
    /// ```text
    /// ensures: result ≡ vector.extmul_low_s w8 w16 lhs rhs
    /// ```
    ///
    /// Definitions: [`extmul_low_s`](crate::specs::widening::WideningTableSpecs#extmul_low_s).
    #[must_use]
    #[inline]
    pub fn i16x8_extmul_low_i8x16_s(lhs: V128, rhs: V128) -> V128 {
        products_low_s::<u8>(lhs, rhs)
    }

    /// The products of the lanes of the lower halves, read unsigned.
    ///
    /// # Contract
    ///
    /// ```text
    /// ensures: result ≡ vector.extmul_low_u w8 w16 lhs rhs
    /// ```
    ///
    /// Definitions: [`extmul_low_u`](crate::specs::widening::WideningTableSpecs#extmul_low_u).
    #[must_use]
    #[inline]
    pub fn i16x8_extmul_low_i8x16_u(lhs: V128, rhs: V128) -> V128 {
        products_low_u::<u8>(lhs, rhs)
    }

    /// The products of the lanes of the upper halves, read signed.
    ///
    /// # Contract
    ///
    /// ```text
    /// ensures: result ≡ vector.extmul_high_s w8 w16 lhs rhs
    /// ```
    ///
    /// Definitions: [`extmul_high_s`](crate::specs::widening::WideningTableSpecs#extmul_high_s).
    #[must_use]
    #[inline]
    pub fn i16x8_extmul_high_i8x16_s(lhs: V128, rhs: V128) -> V128 {
        products_high_s::<u8>(lhs, rhs)
    }

    /// The products of the lanes of the upper halves, read unsigned.
    ///
    /// # Contract
    ///
    /// ```text
    /// ensures: result ≡ vector.extmul_high_u w8 w16 lhs rhs
    /// ```
    ///
    /// Definitions: [`extmul_high_u`](crate::specs::widening::WideningTableSpecs#extmul_high_u).
    #[must_use]
    #[inline]
    pub fn i16x8_extmul_high_i8x16_u(lhs: V128, rhs: V128) -> V128 {
        products_high_u::<u8>(lhs, rhs)
    }

    /// The products of the lanes of the lower halves, read signed.
    ///
    /// # Contract
    ///
    /// ```text
    /// ensures: result ≡ vector.extmul_low_s w16 w32 lhs rhs
    /// ```
    ///
    /// Definitions: [`extmul_low_s`](crate::specs::widening::WideningTableSpecs#extmul_low_s).
    #[must_use]
    #[inline]
    pub fn i32x4_extmul_low_i16x8_s(lhs: V128, rhs: V128) -> V128 {
        products_low_s::<u16>(lhs, rhs)
    }

    /// The products of the lanes of the lower halves, read unsigned.
    ///
    /// # Contract
    ///
    /// ```text
    /// ensures: result ≡ vector.extmul_low_u w16 w32 lhs rhs
    /// ```
    ///
    /// Definitions: [`extmul_low_u`](crate::specs::widening::WideningTableSpecs#extmul_low_u).
    #[must_use]
    #[inline]
    pub fn i32x4_extmul_low_i16x8_u(lhs: V128, rhs: V128) -> V128 {
        products_low_u::<u16>(lhs, rhs)
    }

    /// The products of the lanes of the upper halves, read signed.
    ///
    /// # Contract
    ///
    /// ```text
    /// ensures: result ≡ vector.extmul_high_s w16 w32 lhs rhs
    /// ```
    ///
    /// Definitions: [`extmul_high_s`](crate::specs::widening::WideningTableSpecs#extmul_high_s).
    #[must_use]
    #[inline]
    pub fn i32x4_extmul_high_i16x8_s(lhs: V128, rhs: V128) -> V128 {
        products_high_s::<u16>(lhs, rhs)
    }

    /// The products of the lanes of the upper halves, read unsigned.
    ///
    /// # Contract
    ///
    /// ```text
    /// ensures: result ≡ vector.extmul_high_u w16 w32 lhs rhs
    /// ```
    ///
    /// Definitions: [`extmul_high_u`](crate::specs::widening::WideningTableSpecs#extmul_high_u).
    #[must_use]
    #[inline]
    pub fn i32x4_extmul_high_i16x8_u(lhs: V128, rhs: V128) -> V128 {
        products_high_u::<u16>(lhs, rhs)
    }

    /// The products of the lanes of the lower halves, read signed.
    ///
    /// # Contract
    ///
    /// ```text
    /// ensures: result ≡ vector.extmul_low_s w32 w64 lhs rhs
    /// ```
    ///
    /// Definitions: [`extmul_low_s`](crate::specs::widening::WideningTableSpecs#extmul_low_s).
    #[must_use]
    #[inline]
    pub fn i64x2_extmul_low_i32x4_s(lhs: V128, rhs: V128) -> V128 {
        products_low_s::<u32>(lhs, rhs)
    }

    /// The products of the lanes of the lower halves, read unsigned.
    ///
    /// # Contract
    ///
    /// ```text
    /// ensures: result ≡ vector.extmul_low_u w32 w64 lhs rhs
    /// ```
    ///
    /// Definitions: [`extmul_low_u`](crate::specs::widening::WideningTableSpecs#extmul_low_u).
    #[must_use]
    #[inline]
    pub fn i64x2_extmul_low_i32x4_u(lhs: V128, rhs: V128) -> V128 {
        products_low_u::<u32>(lhs, rhs)
    }

    /// The products of the lanes of the upper halves, read signed.
    ///
    /// # Contract
    ///
    /// ```text
    /// ensures: result ≡ vector.extmul_high_s w32 w64 lhs rhs
    /// ```
    ///
    /// Definitions: [`extmul_high_s`](crate::specs::widening::WideningTableSpecs#extmul_high_s).
    #[must_use]
    #[inline]
    pub fn i64x2_extmul_high_i32x4_s(lhs: V128, rhs: V128) -> V128 {
        products_high_s::<u32>(lhs, rhs)
    }

    /// The products of the lanes of the upper halves, read unsigned.
    ///
    /// # Contract
    ///
    /// ```text
    /// ensures: result ≡ vector.extmul_high_u w32 w64 lhs rhs
    /// ```
    ///
    /// Definitions: [`extmul_high_u`](crate::specs::widening::WideningTableSpecs#extmul_high_u).
    #[must_use]
    #[inline]
    pub fn i64x2_extmul_high_i32x4_u(lhs: V128, rhs: V128) -> V128 {
        products_high_u::<u32>(lhs, rhs)
    }

    /// The sums of neighbouring lanes, read signed.
    ///
    /// # Contract
    ///
    /// ```text
    /// ensures: result ≡ vector.extadd_pairwise_s w8 w16 v
    /// ```
    ///
    /// Definitions: [`extadd_pairwise_s`](crate::specs::widening::WideningTableSpecs#extadd_pairwise_s).
    #[must_use]
    #[inline]
    pub fn i16x8_extadd_pairwise_i8x16_s(v: V128) -> V128 {
        neighbours_s::<u8>(v)
    }

    /// The sums of neighbouring lanes, read unsigned.
    ///
    /// # Contract
    ///
    /// ```text
    /// ensures: result ≡ vector.extadd_pairwise_u w8 w16 v
    /// ```
    ///
    /// Definitions: [`extadd_pairwise_u`](crate::specs::widening::WideningTableSpecs#extadd_pairwise_u).
    #[must_use]
    #[inline]
    pub fn i16x8_extadd_pairwise_i8x16_u(v: V128) -> V128 {
        neighbours_u::<u8>(v)
    }

    /// The sums of neighbouring lanes, read signed.
    ///
    /// # Contract
    ///
    /// ```text
    /// ensures: result ≡ vector.extadd_pairwise_s w16 w32 v
    /// ```
    ///
    /// Definitions: [`extadd_pairwise_s`](crate::specs::widening::WideningTableSpecs#extadd_pairwise_s).
    #[must_use]
    #[inline]
    pub fn i32x4_extadd_pairwise_i16x8_s(v: V128) -> V128 {
        neighbours_s::<u16>(v)
    }

    /// The sums of neighbouring lanes, read unsigned.
    ///
    /// # Contract
    ///
    /// ```text
    /// ensures: result ≡ vector.extadd_pairwise_u w16 w32 v
    /// ```
    ///
    /// Definitions: [`extadd_pairwise_u`](crate::specs::widening::WideningTableSpecs#extadd_pairwise_u).
    #[must_use]
    #[inline]
    pub fn i32x4_extadd_pairwise_i16x8_u(v: V128) -> V128 {
        neighbours_u::<u16>(v)
    }

    /// The sums of the products of neighbouring lanes, read signed, modulo 2 to the power 32.
    ///
    /// # Contract
    ///
    /// ```text
    /// ensures: result ≡ vector.dot_s w16 w32 lhs rhs
    /// ```
    ///
    /// Definitions: [`dot_s`](crate::specs::widening::WideningTableSpecs#dot_s).
    #[must_use]
    #[inline]
    pub fn i32x4_dot_i16x8_s(lhs: V128, rhs: V128) -> V128 {
        dots::<u16>(lhs, rhs)
    }

    /// The sums of the products of neighbouring lanes, both read signed, modulo 2 to the power 16.
    ///
    /// # Contract
    ///
    /// ```text
    /// ensures: result ≡ vector.relaxed_dot_s lhs rhs
    /// ```
    ///
    /// Definitions: [`relaxed_dot_s`](crate::specs::widening::WideningTableSpecs#relaxed_dot_s).
    #[must_use]
    #[inline]
    pub fn i16x8_relaxed_dot_i8x16_i7x16_s(lhs: V128, rhs: V128) -> V128 {
        dots::<u8>(lhs, rhs)
    }

    /// # Contract
    ///
    /// ```text
    /// ensures: result ≡ vector.extmul_low_s T.width T.Wide.width lhs rhs
    /// ```
    ///
    /// Definitions: [`extmul_low_s`](crate::specs::widening::WideningTableSpecs#extmul_low_s).
    ///
    /// `T` is a type with the trait `ExtendedLane`.
    #[inline(always)]
    fn products_low_s<T: ExtendedLane>(lhs: V128, rhs: V128) -> V128 {
        T::Wide::vector_of(T::products(T::low_signed(lhs), T::low_signed(rhs)))
    }

    /// # Contract
    ///
    /// ```text
    /// ensures: result ≡ vector.extmul_low_u T.width T.Wide.width lhs rhs
    /// ```
    ///
    /// Definitions: [`extmul_low_u`](crate::specs::widening::WideningTableSpecs#extmul_low_u).
    ///
    /// `T` is a type with the trait `ExtendedLane`.
    #[inline(always)]
    fn products_low_u<T: ExtendedLane>(lhs: V128, rhs: V128) -> V128 {
        T::Wide::vector_of(T::products(T::low(lhs), T::low(rhs)))
    }

    /// # Contract
    ///
    /// ```text
    /// ensures: result ≡ vector.extmul_high_s T.width T.Wide.width lhs rhs
    /// ```
    ///
    /// Definitions: [`extmul_high_s`](crate::specs::widening::WideningTableSpecs#extmul_high_s).
    ///
    /// `T` is a type with the trait `ExtendedLane`.
    #[inline(always)]
    fn products_high_s<T: ExtendedLane>(lhs: V128, rhs: V128) -> V128 {
        T::Wide::vector_of(T::products(T::high_signed(lhs), T::high_signed(rhs)))
    }

    /// # Contract
    ///
    /// ```text
    /// ensures: result ≡ vector.extmul_high_u T.width T.Wide.width lhs rhs
    /// ```
    ///
    /// Definitions: [`extmul_high_u`](crate::specs::widening::WideningTableSpecs#extmul_high_u).
    ///
    /// `T` is a type with the trait `ExtendedLane`.
    #[inline(always)]
    fn products_high_u<T: ExtendedLane>(lhs: V128, rhs: V128) -> V128 {
        T::Wide::vector_of(T::products(T::high(lhs), T::high(rhs)))
    }

    /// # Contract
    ///
    /// ```text
    /// ensures: result ≡ vector.extadd_pairwise_s T.width T.Wide.width v
    /// ```
    ///
    /// Definitions: [`extadd_pairwise_s`](crate::specs::widening::WideningTableSpecs#extadd_pairwise_s).
    ///
    /// `T` is a type with the trait `PairedLane`.
    #[inline(always)]
    fn neighbours_s<T: PairedLane>(v: V128) -> V128 {
        T::Wide::vector_of(T::sums(T::even_signed(v), T::odd_signed(v)))
    }

    /// # Contract
    ///
    /// ```text
    /// ensures: result ≡ vector.extadd_pairwise_u T.width T.Wide.width v
    /// ```
    ///
    /// Definitions: [`extadd_pairwise_u`](crate::specs::widening::WideningTableSpecs#extadd_pairwise_u).
    ///
    /// `T` is a type with the trait `PairedLane`.
    #[inline(always)]
    fn neighbours_u<T: PairedLane>(v: V128) -> V128 {
        if AS_ARRAYS {
            let (even, odd) = (
                T::Wide::vector_of(T::even(v)).words(),
                T::Wide::vector_of(T::odd(v)).words(),
            );
            return V128::from_word_pair(even.0 + odd.0, even.1 + odd.1);
        }
        T::Wide::vector_of(T::sums(T::even(v), T::odd(v)))
    }

    /// # Contract
    ///
    /// ```text
    /// ensures: result ≡ vector.dot_s T.width T.Wide.width lhs rhs
    /// ```
    ///
    /// Definitions: [`dot_s`](crate::specs::widening::WideningTableSpecs#dot_s).
    ///
    /// `T` is a type with the trait `PairedLane`.
    #[inline(always)]
    fn dots<T: PairedLane>(lhs: V128, rhs: V128) -> V128 {
        let evens = T::products(T::even_signed(lhs), T::even_signed(rhs));
        let odds = T::products(T::odd_signed(lhs), T::odd_signed(rhs));
        T::Wide::vector_of(T::sums(evens, odds))
    }

    // Shifts of lanes, by an amount modulo their width.
    //
    // Without the sign the two words of the vector are shifted together; with the sign it is done lane
    // by lane, or for lanes of 8 bits by a shift without sign of lanes moved by half of their range.

    /// The lanes shifted to the left, the bits above each lane dropped. `amount` is taken modulo 8.
    ///
    /// # Contract
    ///
    /// ```text
    /// ensures: result ≡ lanewise.shl w8 v amount
    /// ```
    ///
    /// Definitions: [`shl`](crate::specs::lanewise::VectorTableSpecs#shl).
    #[must_use]
    #[inline]
    pub fn i8x16_shl(v: V128, amount: u32) -> V128 {
        shifted_left::<u8>(v, amount)
    }

    /// The lanes shifted to the right, the sign copied. `amount` is taken modulo 8.
    ///
    /// # Contract
    ///
    /// ```text
    /// ensures: result ≡ lanewise.shr_s w8 v amount
    /// ```
    ///
    /// Definitions: [`shr_s`](crate::specs::lanewise::VectorTableSpecs#shr_s).
    #[must_use]
    #[inline]
    pub fn i8x16_shr_s(v: V128, amount: u32) -> V128 {
        // What the lanes were moved by is a multiple of what they are divided by.
        let biased = u8::vector_of(u8::biased(u8::lanes_of(v)));
        let shifted = i8x16_shr_u(biased, amount);
        let half = V128::from(HALVES_OF_8[(amount % 8) as usize]);
        from_bytes(bytes_of(shifted) - bytes_of(half))
    }

    /// The lanes shifted to the right, with zeros. `amount` is taken modulo 8.
    ///
    /// # Contract
    ///
    /// ```text
    /// ensures: result ≡ lanewise.shr_u w8 v amount
    /// ```
    ///
    /// Definitions: [`shr_u`](crate::specs::lanewise::VectorTableSpecs#shr_u).
    #[must_use]
    #[inline]
    pub fn i8x16_shr_u(v: V128, amount: u32) -> V128 {
        shifted_right::<u8>(v, amount)
    }

    /// The lanes shifted to the left, the bits above each lane dropped. `amount` is taken modulo 16.
    ///
    /// # Contract
    ///
    /// ```text
    /// ensures: result ≡ lanewise.shl w16 v amount
    /// ```
    ///
    /// Definitions: [`shl`](crate::specs::lanewise::VectorTableSpecs#shl).
    #[must_use]
    #[inline]
    pub fn i16x8_shl(v: V128, amount: u32) -> V128 {
        shifted_left::<u16>(v, amount)
    }

    /// The lanes shifted to the right, the sign copied. `amount` is taken modulo 16.
    ///
    /// # Contract
    ///
    /// ```text
    /// ensures: result ≡ lanewise.shr_s w16 v amount
    /// ```
    ///
    /// Definitions: [`shr_s`](crate::specs::lanewise::VectorTableSpecs#shr_s).
    #[must_use]
    #[inline]
    pub fn i16x8_shr_s(v: V128, amount: u32) -> V128 {
        on_vectors::unary::<I16x8, _>(v, |x| x.wrapping_shr(amount))
    }

    /// The lanes shifted to the right, with zeros. `amount` is taken modulo 16.
    ///
    /// # Contract
    ///
    /// ```text
    /// ensures: result ≡ lanewise.shr_u w16 v amount
    /// ```
    ///
    /// Definitions: [`shr_u`](crate::specs::lanewise::VectorTableSpecs#shr_u).
    #[must_use]
    #[inline]
    pub fn i16x8_shr_u(v: V128, amount: u32) -> V128 {
        shifted_right::<u16>(v, amount)
    }

    /// The lanes shifted to the left, the bits above each lane dropped. `amount` is taken modulo 32.
    ///
    /// # Contract
    ///
    /// ```text
    /// ensures: result ≡ lanewise.shl w32 v amount
    /// ```
    ///
    /// Definitions: [`shl`](crate::specs::lanewise::VectorTableSpecs#shl).
    #[must_use]
    #[inline]
    pub fn i32x4_shl(v: V128, amount: u32) -> V128 {
        shifted_left::<u32>(v, amount)
    }

    /// The lanes shifted to the right, the sign copied. `amount` is taken modulo 32.
    ///
    /// # Contract
    ///
    /// ```text
    /// ensures: result ≡ lanewise.shr_s w32 v amount
    /// ```
    ///
    /// Definitions: [`shr_s`](crate::specs::lanewise::VectorTableSpecs#shr_s).
    #[must_use]
    #[inline]
    pub fn i32x4_shr_s(v: V128, amount: u32) -> V128 {
        on_vectors::unary::<I32x4, _>(v, |x| x.wrapping_shr(amount))
    }

    /// The lanes shifted to the right, with zeros. `amount` is taken modulo 32.
    ///
    /// # Contract
    ///
    /// ```text
    /// ensures: result ≡ lanewise.shr_u w32 v amount
    /// ```
    ///
    /// Definitions: [`shr_u`](crate::specs::lanewise::VectorTableSpecs#shr_u).
    #[must_use]
    #[inline]
    pub fn i32x4_shr_u(v: V128, amount: u32) -> V128 {
        shifted_right::<u32>(v, amount)
    }

    /// The lanes shifted to the left, the bits above each lane dropped. `amount` is taken modulo 64.
    ///
    /// # Contract
    ///
    /// ```text
    /// ensures: result ≡ lanewise.shl w64 v amount
    /// ```
    ///
    /// Definitions: [`shl`](crate::specs::lanewise::VectorTableSpecs#shl).
    #[must_use]
    #[inline]
    pub fn i64x2_shl(v: V128, amount: u32) -> V128 {
        from_u64x2(u64x2_of(v) << u64x2::splat(u64::from(amount % 64)))
    }

    /// The lanes shifted to the right, the sign copied. `amount` is taken modulo 64.
    ///
    /// # Contract
    ///
    /// ```text
    /// ensures: result ≡ lanewise.shr_s w64 v amount
    /// ```
    ///
    /// Definitions: [`shr_s`](crate::specs::lanewise::VectorTableSpecs#shr_s).
    #[must_use]
    #[inline]
    pub fn i64x2_shr_s(v: V128, amount: u32) -> V128 {
        on_vectors::unary::<I64x2, _>(v, |x| x.wrapping_shr(amount))
    }

    /// The lanes shifted to the right, with zeros. `amount` is taken modulo 64.
    ///
    /// # Contract
    ///
    /// ```text
    /// ensures: result ≡ lanewise.shr_u w64 v amount
    /// ```
    ///
    /// Definitions: [`shr_u`](crate::specs::lanewise::VectorTableSpecs#shr_u).
    #[must_use]
    #[inline]
    pub fn i64x2_shr_u(v: V128, amount: u32) -> V128 {
        from_u64x2(u64x2_of(v) >> u64x2::splat(u64::from(amount % 64)))
    }

    /// Half of the range of 8 bits in each lane, shifted to the right by 0 to 7.
    const HALVES_OF_8: [u128; 8] = [
        0x8080_8080_8080_8080_8080_8080_8080_8080,
        0x4040_4040_4040_4040_4040_4040_4040_4040,
        0x2020_2020_2020_2020_2020_2020_2020_2020,
        0x1010_1010_1010_1010_1010_1010_1010_1010,
        0x0808_0808_0808_0808_0808_0808_0808_0808,
        0x0404_0404_0404_0404_0404_0404_0404_0404,
        0x0202_0202_0202_0202_0202_0202_0202_0202,
        0x0101_0101_0101_0101_0101_0101_0101_0101,
    ];

    // Tests of lanes, on the two words of a vector.

    /// Whether no lane is 0.
    ///
    /// # Contract
    ///
    /// ```text
    /// ensures: result ≡ vector.all_true w8 v
    /// ```
    ///
    /// Definitions: [`all_true`](crate::specs::widening::WideningTableSpecs#all_true).
    #[must_use]
    #[inline]
    pub fn i8x16_all_true(v: V128) -> bool {
        no_zero::<u8>(v)
    }

    /// Whether no lane is 0.
    ///
    /// # Contract
    ///
    /// ```text
    /// ensures: result ≡ vector.all_true w16 v
    /// ```
    ///
    /// Definitions: [`all_true`](crate::specs::widening::WideningTableSpecs#all_true).
    #[must_use]
    #[inline]
    pub fn i16x8_all_true(v: V128) -> bool {
        no_zero::<u16>(v)
    }

    /// Whether no lane is 0.
    ///
    /// # Contract
    ///
    /// ```text
    /// ensures: result ≡ vector.all_true w32 v
    /// ```
    ///
    /// Definitions: [`all_true`](crate::specs::widening::WideningTableSpecs#all_true).
    #[must_use]
    #[inline]
    pub fn i32x4_all_true(v: V128) -> bool {
        no_zero::<u32>(v)
    }

    /// Whether no lane is 0.
    ///
    /// # Contract
    ///
    /// ```text
    /// ensures: result ≡ vector.all_true w64 v
    /// ```
    ///
    /// Definitions: [`all_true`](crate::specs::widening::WideningTableSpecs#all_true).
    #[must_use]
    #[inline]
    pub fn i64x2_all_true(v: V128) -> bool {
        no_zero::<u64>(v)
    }

    /// Whether some bit is 1.
    ///
    /// # Contract
    ///
    /// ```text
    /// ensures: result ≡ vector.any_true v
    /// ```
    ///
    /// Definitions: [`any_true`](crate::specs::widening::WideningTableSpecs#any_true).
    #[must_use]
    #[inline]
    pub fn v128_any_true(v: V128) -> bool {
        v.as_u128() != 0
    }

    /// The highest bits of the lanes, that of lane i at bit i.
    ///
    /// # Contract
    ///
    /// ```text
    /// ensures: result ≡ vector.bitmask w8 v
    /// ```
    ///
    /// Definitions: [`bitmask`](crate::specs::widening::WideningTableSpecs#bitmask).
    #[must_use]
    #[inline]
    pub fn i8x16_bitmask(v: V128) -> u32 {
        let (low, high) = v.words();
        tops_of_8(low) | (tops_of_8(high) << 8)
    }

    /// The highest bits of the lanes, that of lane i at bit i.
    ///
    /// # Contract
    ///
    /// ```text
    /// ensures: result ≡ vector.bitmask w16 v
    /// ```
    ///
    /// Definitions: [`bitmask`](crate::specs::widening::WideningTableSpecs#bitmask).
    #[must_use]
    #[inline]
    pub fn i16x8_bitmask(v: V128) -> u32 {
        let (low, high) = v.words();
        // The product brings each bit to its place in the highest byte.
        let both = ((low & u16::TOPS) >> 4) + (high & u16::TOPS);
        (both.wrapping_mul(0x0000_2000_4000_8001) >> 56) as u32
    }

    /// The highest bits of the lanes, that of lane i at bit i.
    ///
    /// # Contract
    ///
    /// ```text
    /// ensures: result ≡ vector.bitmask w32 v
    /// ```
    ///
    /// Definitions: [`bitmask`](crate::specs::widening::WideningTableSpecs#bitmask).
    #[must_use]
    #[inline]
    pub fn i32x4_bitmask(v: V128) -> u32 {
        let (low, high) = v.words();
        // Bits 0 and 2 have the lanes 0 and 2, bits 32 and 34 the lanes 1 and 3.
        let both = ((low & u32::TOPS) >> 31) + ((high & u32::TOPS) >> 29);
        ((both + (both >> 31)) & 0xf) as u32
    }

    /// The highest bits of the lanes, that of lane i at bit i.
    ///
    /// # Contract
    ///
    /// ```text
    /// ensures: result ≡ vector.bitmask w64 v
    /// ```
    ///
    /// Definitions: [`bitmask`](crate::specs::widening::WideningTableSpecs#bitmask).
    #[must_use]
    #[inline]
    pub fn i64x2_bitmask(v: V128) -> u32 {
        let (low, high) = v.words();
        (low >> 63) as u32 | (((high >> 63) as u32) << 1)
    }

    /// # Contract
    ///
    /// ```text
    /// ensures: result ≡ vector.all_true T.width v
    /// ```
    ///
    /// Definitions: [`all_true`](crate::specs::widening::WideningTableSpecs#all_true).
    ///
    /// `T` is a type with the trait `WordLane`.
    #[inline(always)]
    fn no_zero<T: WordLane>(v: V128) -> bool {
        let (low, high) = v.words();
        no_zero_in_word::<T>(low) & no_zero_in_word::<T>(high)
    }

    // The lowest lane that is 0 borrows, and gets a highest bit; the lanes above don't matter then.
    /// # Contract
    ///
    /// ```text
    /// ensures: result ≡ holds_below (lanes_in_word T.width)
    ///     (λ i. not (nat_eq (field (bits T.width * i) (bits T.width) word) 0))
    /// ```
    ///
    /// Definitions: [`holds_below`](crate::specs::widening::WideningTableSpecs#holds_below), [`lanes_in_word`](crate::specs::lanes::WordsSpecs#lanes_in_word), [`field`](crate::specs::lanes::WordsSpecs#field).
    ///
    /// `T` is a type with the trait `WordLane`.
    #[inline(always)]
    fn no_zero_in_word<T: WordLane>(word: u64) -> bool {
        word.wrapping_sub(T::ONES) & !word & T::TOPS == 0
    }

    // The top bits of a word's lanes of 8 bits: the product brings each to its place in the top byte.
    /// # Contract
    ///
    /// ```text
    /// ensures: result ≡ first_bits 8 (λ i. nat_le (2 ^ 7) (field (8 * i) 8 word))
    /// ```
    ///
    /// Definitions: [`first_bits`](crate::specs::widening::WideningTableSpecs#first_bits), [`field`](crate::specs::lanes::WordsSpecs#field).
    #[inline(always)]
    fn tops_of_8(word: u64) -> u32 {
        ((word & u8::TOPS).wrapping_mul(0x0002_0408_1020_4081) >> 56) as u32
    }

    // The relaxed instructions. Where the standard leaves a choice, each gives what another one gives.

    /// As `i8x16_swizzle`: 0 where the index is above 15.
    ///
    /// # Contract
    ///
    /// ```text
    /// ensures: result ≡ vector.relaxed_swizzle a s
    /// ```
    ///
    /// Definitions: [`relaxed_swizzle`](crate::specs::widening::WideningTableSpecs#relaxed_swizzle).
    #[must_use]
    #[inline]
    pub fn i8x16_relaxed_swizzle(a: V128, s: V128) -> V128 {
        i8x16_swizzle(a, s)
    }

    /// As `v128_bitselect`: the bits of `a` where `c` has ones, those of `b` where it has zeros.
    ///
    /// # Contract
    ///
    /// ```text
    /// ensures: result ≡ vector.relaxed_laneselect a b c
    /// ```
    ///
    /// Definitions: [`relaxed_laneselect`](crate::specs::widening::WideningTableSpecs#relaxed_laneselect).
    #[must_use]
    #[inline]
    pub fn i8x16_relaxed_laneselect(a: V128, b: V128, c: V128) -> V128 {
        v128_bitselect(a, b, c)
    }

    /// As `v128_bitselect`: the bits of `a` where `c` has ones, those of `b` where it has zeros.
    ///
    /// # Contract
    ///
    /// ```text
    /// ensures: result ≡ vector.relaxed_laneselect a b c
    /// ```
    ///
    /// Definitions: [`relaxed_laneselect`](crate::specs::widening::WideningTableSpecs#relaxed_laneselect).
    #[must_use]
    #[inline]
    pub fn i16x8_relaxed_laneselect(a: V128, b: V128, c: V128) -> V128 {
        v128_bitselect(a, b, c)
    }

    /// As `v128_bitselect`: the bits of `a` where `c` has ones, those of `b` where it has zeros.
    ///
    /// # Contract
    ///
    /// ```text
    /// ensures: result ≡ vector.relaxed_laneselect a b c
    /// ```
    ///
    /// Definitions: [`relaxed_laneselect`](crate::specs::widening::WideningTableSpecs#relaxed_laneselect).
    #[must_use]
    #[inline]
    pub fn i32x4_relaxed_laneselect(a: V128, b: V128, c: V128) -> V128 {
        v128_bitselect(a, b, c)
    }

    /// As `v128_bitselect`: the bits of `a` where `c` has ones, those of `b` where it has zeros.
    ///
    /// # Contract
    ///
    /// ```text
    /// ensures: result ≡ vector.relaxed_laneselect a b c
    /// ```
    ///
    /// Definitions: [`relaxed_laneselect`](crate::specs::widening::WideningTableSpecs#relaxed_laneselect).
    #[must_use]
    #[inline]
    pub fn i64x2_relaxed_laneselect(a: V128, b: V128, c: V128) -> V128 {
        v128_bitselect(a, b, c)
    }

    /// As `i16x8_q15mulr_sat_s`: the one product that doesn't fit is clamped.
    ///
    /// # Contract
    ///
    /// ```text
    /// ensures: result ≡ vector.relaxed_q15mulr_s a b
    /// ```
    ///
    /// Definitions: [`relaxed_q15mulr_s`](crate::specs::widening::WideningTableSpecs#relaxed_q15mulr_s).
    #[must_use]
    #[inline]
    pub fn i16x8_relaxed_q15mulr_s(a: V128, b: V128) -> V128 {
        i16x8_q15mulr_sat_s(a, b)
    }

    /// The sums of neighbouring lanes of `i16x8_relaxed_dot_i8x16_i7x16_s`, read signed, and of `c`,
    /// modulo 2 to the power 32.
    ///
    /// # Contract
    ///
    /// ```text
    /// ensures: result ≡ vector.relaxed_dot_add_s lhs rhs c
    /// ```
    ///
    /// Definitions: [`relaxed_dot_add_s`](crate::specs::widening::WideningTableSpecs#relaxed_dot_add_s).
    #[must_use]
    #[inline]
    pub fn i32x4_relaxed_dot_i8x16_i7x16_add_s(lhs: V128, rhs: V128, c: V128) -> V128 {
        let dot = i16x8_relaxed_dot_i8x16_i7x16_s(lhs, rhs);
        let pairs = i32x4_extadd_pairwise_i16x8_s(dot);
        u32::vector_of(u16::sums(u32::lanes_of(pairs), u32::lanes_of(c)))
    }
}
