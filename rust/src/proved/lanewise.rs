//! The vector instructions of WebAssembly that work lane by lane.
pub mod clamp {
    //! Numbers clamped to the unsigned range of a lane of half their width.

    /// The item of a lane that holds the number, clamped to the unsigned range of 8 bits.
    ///
    /// # Contract
    ///
    /// ```text
    /// ensures: cast_unsigned w8 result ≡ clamp_unsigned w8 x
    /// ```
    #[must_use]
    #[inline]
    pub fn clamped_u8(x: i16) -> i8 {
        (x.clamp(0, 255) as u8).cast_signed()
    }

    /// The item of a lane that holds the number, clamped to the unsigned range of 16 bits.
    ///
    /// # Contract
    ///
    /// ```text
    /// ensures: cast_unsigned w16 result ≡ clamp_unsigned w16 x
    /// ```
    #[must_use]
    #[inline]
    pub fn clamped_u16(x: i32) -> i16 {
        (x.clamp(0, 65535) as u16).cast_signed()
    }
}
pub mod shift {
    //! Shifts of lanes of 8, 16 and 32 bits without sign, by an amount modulo their width.
    //!
    //! The two words of the vector are shifted together, and the bits are masked that would leave their
    //! lane. The masks, the low bits of each lane, come from a table for each width.

    use crate::proved::lanes::{WordLane, from_u64x2, u64x2_of};
    use crate::proved::raw::V128;
    use crate::rattle::simd::prelude::*;

    /// The lanes shifted left, the bits above each lane dropped. `amount` is taken modulo their width.
    ///
    /// # Contract
    ///
    /// ```text
    /// ensures: result ≡ vector.shl T.width v amount
    /// ```
    ///
    /// Definitions: [`shl`](crate::specs::lanewise::VectorTableSpecs#shl).
    ///
    /// `T` is a type with the trait `NarrowLane`.
    #[inline(always)]
    #[must_use]
    pub fn shifted_left<T: NarrowLane>(v: V128, amount: u32) -> V128 {
        let amount = u64::from(amount % T::BITS);
        let kept = T::shift_masks(amount);
        from_u64x2((u64x2_of(v) & kept) << u64x2::splat(amount))
    }

    /// The lanes shifted to the right, with zeros. `amount` is taken modulo their width.
    ///
    /// # Contract
    ///
    /// ```text
    /// ensures: result ≡ vector.shr_u T.width v amount
    /// ```
    ///
    /// Definitions: [`shr_u`](crate::specs::lanewise::VectorTableSpecs#shr_u).
    ///
    /// `T` is a type with the trait `NarrowLane`.
    #[inline(always)]
    #[must_use]
    pub fn shifted_right<T: NarrowLane>(v: V128, amount: u32) -> V128 {
        let amount = u64::from(amount % T::BITS);
        let kept = T::shift_masks(amount);
        from_u64x2((u64x2_of(v) >> u64x2::splat(amount)) & kept)
    }

    /// A lane of which a word has more than one, so that a shifted word needs a mask.
    pub trait NarrowLane: WordLane {
        /// The low bits of each lane of two words, all but its highest ones, of which there are
        /// `dropped`. They come from a table: a shift of the highest bits would be made in a general
        /// register, and go from there to a vector register.
        ///
        /// # Contract
        ///
        /// ```text
        /// requires dropped: dropped < bits Self.width
        /// ensures masks: result
        ///     ≡ replicate 2 (in_each_lane Self.width (2 ^ (bits Self.width - dropped) - 1))
        /// ```
        ///
        /// Definitions: [`in_each_lane`](crate::specs::lanes::WordsSpecs#in_each_lane).
        fn shift_masks(dropped: u64) -> u64x2;
    }

    impl NarrowLane for u8 {
        #[inline(always)]
        fn shift_masks(dropped: u64) -> u64x2 {
            u64x2_of(V128::from(LOW_BITS_OF_8[dropped as usize]))
        }
    }

    impl NarrowLane for u16 {
        #[inline(always)]
        fn shift_masks(dropped: u64) -> u64x2 {
            u64x2_of(V128::from(LOW_BITS_OF_16[dropped as usize]))
        }
    }

    impl NarrowLane for u32 {
        #[inline(always)]
        fn shift_masks(dropped: u64) -> u64x2 {
            u64x2_of(V128::from(LOW_BITS_OF_32[dropped as usize]))
        }
    }

    /// In each lane, what is left of a number once so many bits are dropped. The first factor has the
    /// lowest bit of each lane.
    macro_rules! each_shifted {
    ($ones:literal * $all:literal >> [$($dropped:literal)*]) => {
        [$($ones * ($all >> $dropped)),*]
    };
}

    const LOW_BITS_OF_8: [u128; 8] =
        each_shifted!(0x0101_0101_0101_0101_0101_0101_0101_0101 * 0xff >> [0 1 2 3 4 5 6 7]);

    const LOW_BITS_OF_16: [u128; 16] = each_shifted!(
        0x0001_0001_0001_0001_0001_0001_0001_0001 * 0xffff >> [0 1 2 3 4 5 6 7 8 9 10 11 12 13 14 15]
    );

    const LOW_BITS_OF_32: [u128; 32] = each_shifted!(
        0x0000_0001_0000_0001_0000_0001_0000_0001 * 0xffff_ffff >>
        [0 1 2 3 4 5 6 7 8 9 10 11 12 13 14 15 16 17 18 19 20 21 22 23 24 25 26 27 28 29 30 31]
    );
}
pub mod simd {
    //! The vector instructions that work lane by lane, with the lane types and indices.
    //!
    //! Each function is the instruction of its name: `i8x16_add` is `i8x16.add`, of 16 lanes of 8 bits;
    //! lane 0 is the lowest. `i8x16_mul` is no instruction of WebAssembly. Core specification: vector
    //! instructions; what each gives stands in `specs/VectorTable.antt`. Upstream: `wasmi_core::simd`.
    //! Private functions here are steps of the instructions of one width; what is generic in the lane
    //! type is in `order` and `words`.

    mod order {
        //! Comparisons of lanes by order, and the smaller or larger of lanes, on vectors of `core::simd`.
        //!
        //! Lanes that are read signed are moved by half of their range, and then compared as unsigned ones.

        use crate::proved::lanes::SimdLane;
        use crate::proved::lanewise::simd::v128_not;
        use crate::proved::raw::V128;
        use crate::rattle::simd::prelude::AS_ARRAYS;

        /// All ones where the lane of `lhs` is less than that of `rhs`, read unsigned, else all zeros.
        ///
        /// # Contract
        ///
        /// ```text
        /// ensures: result ≡ vector.lt_u T.width lhs rhs
        /// ```
        ///
        /// Definitions: [`lt_u`](crate::specs::lanewise::VectorTableSpecs#lt_u).
        ///
        /// `T` is a type with the trait `SimdLane`.
        #[inline(always)]
        pub(super) fn less_u<T: SimdLane>(lhs: V128, rhs: V128) -> V128 {
            ones_if_less::<T>(T::lanes_of(lhs), T::lanes_of(rhs))
        }

        /// All ones where the lane of `lhs` is at most that of `rhs`, read unsigned, else all zeros.
        ///
        /// # Contract
        ///
        /// ```text
        /// ensures: result ≡ vector.le_u T.width lhs rhs
        /// ```
        ///
        /// Definitions: [`le_u`](crate::specs::lanewise::VectorTableSpecs#le_u).
        ///
        /// `T` is a type with the trait `SimdLane`.
        #[inline(always)]
        pub(super) fn at_most_u<T: SimdLane>(lhs: V128, rhs: V128) -> V128 {
            ones_unless_less::<T>(T::lanes_of(rhs), T::lanes_of(lhs))
        }

        /// All ones where the lane of `lhs` is less than that of `rhs`, read signed, else all zeros.
        ///
        /// # Contract
        ///
        /// ```text
        /// ensures: result ≡ vector.lt_s T.width lhs rhs
        /// ```
        ///
        /// Definitions: [`lt_s`](crate::specs::lanewise::VectorTableSpecs#lt_s).
        ///
        /// `T` is a type with the trait `SimdLane`.
        #[inline(always)]
        pub(super) fn less_s<T: SimdLane>(lhs: V128, rhs: V128) -> V128 {
            ones_if_less::<T>(T::biased(T::lanes_of(lhs)), T::biased(T::lanes_of(rhs)))
        }

        /// All ones where the lane of `lhs` is at most that of `rhs`, read signed, else all zeros.
        ///
        /// # Contract
        ///
        /// ```text
        /// ensures: result ≡ vector.le_s T.width lhs rhs
        /// ```
        ///
        /// Definitions: [`le_s`](crate::specs::lanewise::VectorTableSpecs#le_s).
        ///
        /// `T` is a type with the trait `SimdLane`.
        #[inline(always)]
        pub(super) fn at_most_s<T: SimdLane>(lhs: V128, rhs: V128) -> V128 {
            ones_unless_less::<T>(T::biased(T::lanes_of(rhs)), T::biased(T::lanes_of(lhs)))
        }

        /// The smaller ones of the lanes, read unsigned.
        ///
        /// # Contract
        ///
        /// ```text
        /// ensures: result ≡ vector.min_u T.width lhs rhs
        /// ```
        ///
        /// Definitions: [`min_u`](crate::specs::lanewise::VectorTableSpecs#min_u).
        ///
        /// `T` is a type with the trait `SimdLane`.
        #[inline(always)]
        pub(super) fn smaller_u<T: SimdLane>(lhs: V128, rhs: V128) -> V128 {
            let (a, b) = (T::lanes_of(lhs), T::lanes_of(rhs));
            T::vector_of(T::choose_if_less(b, a, b, a))
        }

        /// The larger ones of the lanes, read unsigned.
        ///
        /// # Contract
        ///
        /// ```text
        /// ensures: result ≡ vector.max_u T.width lhs rhs
        /// ```
        ///
        /// Definitions: [`max_u`](crate::specs::lanewise::VectorTableSpecs#max_u).
        ///
        /// `T` is a type with the trait `SimdLane`.
        #[inline(always)]
        pub(super) fn larger_u<T: SimdLane>(lhs: V128, rhs: V128) -> V128 {
            let (a, b) = (T::lanes_of(lhs), T::lanes_of(rhs));
            T::vector_of(T::choose_if_less(b, a, a, b))
        }

        /// The smaller ones of the lanes, read signed.
        ///
        /// # Contract
        ///
        /// ```text
        /// ensures: result ≡ vector.min_s T.width lhs rhs
        /// ```
        ///
        /// Definitions: [`min_s`](crate::specs::lanewise::VectorTableSpecs#min_s).
        ///
        /// `T` is a type with the trait `SimdLane`.
        #[inline(always)]
        pub(super) fn smaller_s<T: SimdLane>(lhs: V128, rhs: V128) -> V128 {
            let (a, b) = (T::lanes_of(lhs), T::lanes_of(rhs));
            T::vector_of(T::choose_if_less(T::biased(b), T::biased(a), b, a))
        }

        /// The larger ones of the lanes, read signed.
        ///
        /// # Contract
        ///
        /// ```text
        /// ensures: result ≡ vector.max_s T.width lhs rhs
        /// ```
        ///
        /// Definitions: [`max_s`](crate::specs::lanewise::VectorTableSpecs#max_s).
        ///
        /// `T` is a type with the trait `SimdLane`.
        #[inline(always)]
        pub(super) fn larger_s<T: SimdLane>(lhs: V128, rhs: V128) -> V128 {
            let (a, b) = (T::lanes_of(lhs), T::lanes_of(rhs));
            T::vector_of(T::choose_if_less(T::biased(b), T::biased(a), a, b))
        }

        /// All ones where the lane of `a` isn't less than that of `b`, else all zeros.
        #[inline(always)]
        fn ones_unless_less<T: SimdLane>(a: T::Vector, b: T::Vector) -> V128 {
            if AS_ARRAYS && size_of::<T>() < 4 {
                return v128_not(ones_if_less::<T>(a, b));
            }
            let ones = T::lanes_of(V128::from_word_pair(u64::MAX, u64::MAX));
            let zeros = T::lanes_of(V128::from_word_pair(0, 0));
            T::vector_of(T::choose_if_less(a, b, zeros, ones))
        }

        /// All ones in each lane of a word that is less than that of the other word, else all zeros: its highest bit, and those below it.
        #[inline(always)]
        fn ones_if_less_in_word<T>(a: u64, b: u64) -> u64 {
            let width = 8 * size_of::<T>();
            let tops = (u64::MAX / (u64::MAX >> (64 - width))) << (width - 1);
            let at_least = (a | tops) - (b & !tops);
            let less = ((!a & b) | (!(a ^ b) & !at_least)) & tops;
            (less << 1).wrapping_sub(less >> (width - 1))
        }

        // All ones where the lane of `a` is less than that of `b`, else all zeros.
        /// # Contract
        ///
        /// ```text
        /// ensures lanes: (i : ℕ) → i < lane_count T.width → lane T.width result i
        ///     ≡ (if nat_lt (T.at a i) (T.at b i) then 2 ^ bits T.width - 1 else 0)
        /// ensures in_range: result < 2 ^ 128
        /// ```
        ///
        /// Definitions: [`lane_count`](crate::specs::lanes::VectorSpecs#lane_count), [`lane`](crate::specs::lanes::VectorSpecs#lane).
        ///
        /// `T` is a type with the trait `SimdLane`.
        #[inline(always)]
        fn ones_if_less<T: SimdLane>(a: T::Vector, b: T::Vector) -> V128 {
            if AS_ARRAYS && size_of::<T>() < 4 {
                let (a, b) = (T::vector_of(a).words(), T::vector_of(b).words());
                let less = ones_if_less_in_word::<T>;
                return V128::from_word_pair(less(a.0, b.0), less(a.1, b.1));
            }
            let ones = T::lanes_of(V128::from_word_pair(u64::MAX, u64::MAX));
            let zeros = T::lanes_of(V128::from_word_pair(0, 0));
            T::vector_of(T::choose_if_less(a, b, ones, zeros))
        }
    }
    mod words {
        //! Sums, differences, negatives, equality and averages of lanes in place, on a vector's two words.
        //!
        //! What is generic in a lane type takes the highest bits of a word's lanes, the tops, from it.
        //! Lanes whose highest bit marks them as equal or as different are filled with ones.

        use crate::proved::lanes::words::{word_add, word_differ, word_sub};
        use crate::proved::lanes::{WordLane, from_u64x2};
        use crate::proved::lanewise::simd::v128_not;
        use crate::proved::raw::V128;
        use crate::rattle::simd::prelude::*;

        // The highest bit of each lane of a word but the last: a sum or a difference needs no top at the
        // end of the word, and without it LLVM makes one step of it where a word is one lane.
        /// # Contract
        ///
        /// ```text
        /// ensures: result ≡ in_each_lane T.width (2 ^ (bits T.width - 1)) % 2 ^ 63
        /// ```
        ///
        /// Definitions: [`in_each_lane`](crate::specs::lanes::WordsSpecs#in_each_lane).
        ///
        /// `T` is a type with the trait `WordLane`.
        #[inline(always)]
        fn inner_tops<T: WordLane>() -> u64 {
            T::TOPS % (1 << 63)
        }

        /// The sums of the lanes, modulo 2 to the power of their width.
        ///
        /// # Contract
        ///
        /// ```text
        /// ensures: result ≡ vector.add T.width lhs rhs
        /// ```
        ///
        /// Definitions: [`add`](crate::specs::lanewise::VectorTableSpecs#add).
        ///
        /// `T` is a type with the trait `WordLane`.
        #[inline(always)]
        pub(super) fn sums<T: WordLane>(lhs: V128, rhs: V128) -> V128 {
            let tops = inner_tops::<T>();
            let (a_low, a_high) = lhs.words();
            let (b_low, b_high) = rhs.words();
            V128::from_word_pair(word_add(a_low, b_low, tops), word_add(a_high, b_high, tops))
        }

        /// The differences of the lanes, modulo 2 to the power of their width.
        /// An operand and the result are inverted twice, as a vector and as words, which changes nothing.
        /// LLVM joins the inversions of the words with the masks of `word_sub`, and makes one step less.
        ///
        /// # Contract
        ///
        /// ```text
        /// ensures: result ≡ vector.sub T.width lhs rhs
        /// ```
        ///
        /// Definitions: [`sub`](crate::specs::lanewise::VectorTableSpecs#sub).
        ///
        /// `T` is a type with the trait `WordLane`.
        #[inline(always)]
        pub(super) fn differences<T: WordLane>(lhs: V128, rhs: V128) -> V128 {
            let tops = inner_tops::<T>();
            let (a_low, a_high) = v128_not(lhs).words();
            let (b_low, b_high) = rhs.words();
            v128_not(V128::from_word_pair(
                !word_sub(!a_low, b_low, tops),
                !word_sub(!a_high, b_high, tops),
            ))
        }

        /// The lanes negated, modulo 2 to the power of their width.
        /// A lane plus all ones is the lane less 1, whose bits inverted are those of the lane negated.
        ///
        /// # Contract
        ///
        /// ```text
        /// ensures: result ≡ vector.neg T.width v
        /// ```
        ///
        /// Definitions: [`neg`](crate::specs::lanewise::VectorTableSpecs#neg).
        ///
        /// `T` is a type with the trait `WordLane`.
        #[inline(always)]
        pub(super) fn negations<T: WordLane>(v: V128) -> V128 {
            let tops = inner_tops::<T>();
            let (low, high) = v.words();
            V128::from_word_pair(
                !word_add(low, u64::MAX, tops),
                !word_add(high, u64::MAX, tops),
            )
        }

        /// All ones in the lanes that are equal, else all zeros.
        ///
        /// # Contract
        ///
        /// ```text
        /// ensures: result ≡ vector.eq T.width lhs rhs
        /// ```
        ///
        /// Definitions: [`eq`](crate::specs::lanewise::VectorTableSpecs#eq).
        ///
        /// `T` is a type with the trait `WordLane`.
        #[inline(always)]
        pub(super) fn equal<T: WordLane>(lhs: V128, rhs: V128) -> V128 {
            let tops = T::TOPS;
            let (a_low, a_high) = lhs.words();
            let (b_low, b_high) = rhs.words();
            filled::<T>(
                word_differ(a_low, b_low, tops) ^ tops,
                word_differ(a_high, b_high, tops) ^ tops,
            )
        }

        /// All ones in the lanes that are different, else all zeros.
        ///
        /// # Contract
        ///
        /// ```text
        /// ensures: result ≡ vector.ne T.width lhs rhs
        /// ```
        ///
        /// Definitions: [`ne`](crate::specs::lanewise::VectorTableSpecs#ne).
        ///
        /// `T` is a type with the trait `WordLane`.
        #[inline(always)]
        pub(super) fn different<T: WordLane>(lhs: V128, rhs: V128) -> V128 {
            let tops = T::TOPS;
            let (a_low, a_high) = lhs.words();
            let (b_low, b_high) = rhs.words();
            filled::<T>(
                word_differ(a_low, b_low, tops),
                word_differ(a_high, b_high, tops),
            )
        }

        // The vector of two words of which each lane is 0 or its highest bit alone, those with the bit
        // filled with ones: twice the bit, which is the bit above the lane, less the lane's lowest. Of
        // plain words LLVM would take two vectors a turn of a loop, and regroup words before and after.
        /// # Contract
        ///
        /// ```text
        /// requires low: AreMarks T.width low
        /// requires high: AreMarks T.width high
        /// ensures words: (x : ℕ) × (y : ℕ) × (result ≡ vector_of x y) × (x < 2 ^ 64) × (y < 2 ^ 64)
        ///     × AreFilled T.width low x × AreFilled T.width high y
        /// ```
        ///
        /// Definitions: [`AreMarks`](crate::specs::lanes::WordsSpecs#AreMarks), [`vector_of`](crate::specs::raw::RawValSpecs#vector_of), [`AreFilled`](crate::specs::lanes::WordsSpecs#AreFilled).
        ///
        /// `T` is a type with the trait `WordLane`.
        #[inline(always)]
        fn filled<T: WordLane>(low: u64, high: u64) -> V128 {
            let marks = u64x2::from_array([low, high]);
            let ones = marks >> u64x2::splat(u64::from(T::BITS - 1));
            from_u64x2((marks + marks) - ones)
        }

        /// The averages of the lanes, read unsigned, halves rounded up.
        ///
        /// # Contract
        ///
        /// ```text
        /// ensures: result ≡ vector.avgr_u T.width lhs rhs
        /// ```
        ///
        /// Definitions: [`avgr_u`](crate::specs::lanewise::VectorTableSpecs#avgr_u).
        ///
        /// `T` is a type with the trait `WordLane`.
        #[inline(always)]
        pub(super) fn averages<T: WordLane>(lhs: V128, rhs: V128) -> V128 {
            let tops = T::TOPS;
            let (a_low, a_high) = lhs.words();
            let (b_low, b_high) = rhs.words();
            V128::from_word_pair(
                word_averages(a_low, b_low, tops),
                word_averages(a_high, b_high, tops),
            )
        }

        // The averages on a word: common bits and half the others, which never borrow from the lane below.
        /// # Contract
        ///
        /// ```text
        /// ensures: (start width : ℕ) → IsLane tops start width
        ///     → field start width result ≡ vector.average (field start width a) (field start width b)
        /// ```
        ///
        /// Definitions: [`IsLane`](crate::specs::lanes::WordsSpecs#IsLane), [`field`](crate::specs::lanes::WordsSpecs#field), [`average`](crate::specs::lanewise::VectorTableSpecs#average).
        #[inline(always)]
        fn word_averages(a: u64, b: u64, tops: u64) -> u64 {
            (a | b) - (((a ^ b) >> 1) & !tops)
        }
    }

    use crate::proved::lanes::words::word_differ;
    use crate::proved::lanes::{
        SimdLane, VariableLane, bytes_of, clamped_i8, clamped_i16, from_bytes, from_u64x2,
        on_vectors, u64x2_of,
    };
    use crate::proved::raw::V128;
    use crate::rattle::simd::prelude::*;

    // Lanes and their indices.
    pub use crate::proved::lanes::{
        FromNarrow, FromWide, I8x16, I16x8, I32x4, I64x2, ImmLaneIdx, ImmLaneIdx2, ImmLaneIdx4,
        ImmLaneIdx8, ImmLaneIdx16, ImmLaneIdx32, IntoLaneIdx, IntoLanes, Lanes, OutOfBoundsLaneIdx,
        U8x16, U16x8, U32x4, U64x2,
    };

    // Instructions of one operand, and those that work bit by bit on whole vectors.

    /// The lanes negated, modulo 2 to the power 8.
    ///
    /// # Contract
    ///
    /// ```text
    /// ensures: result ≡ vector.neg w8 v
    /// ```
    ///
    /// Definitions: [`neg`](crate::specs::lanewise::VectorTableSpecs#neg).
    #[must_use]
    #[inline]
    pub fn i8x16_neg(v: V128) -> V128 {
        words::negations::<u8>(v)
    }

    /// The lanes negated, modulo 2 to the power 16.
    ///
    /// # Contract
    ///
    /// ```text
    /// ensures: result ≡ vector.neg w16 v
    /// ```
    ///
    /// Definitions: [`neg`](crate::specs::lanewise::VectorTableSpecs#neg).
    #[must_use]
    #[inline]
    pub fn i16x8_neg(v: V128) -> V128 {
        words::negations::<u16>(v)
    }

    /// The lanes negated, modulo 2 to the power 32.
    ///
    /// # Contract
    ///
    /// ```text
    /// ensures: result ≡ vector.neg w32 v
    /// ```
    ///
    /// Definitions: [`neg`](crate::specs::lanewise::VectorTableSpecs#neg).
    #[must_use]
    #[inline]
    pub fn i32x4_neg(v: V128) -> V128 {
        words::negations::<u32>(v)
    }

    /// The lanes negated, modulo 2 to the power 64.
    ///
    /// # Contract
    ///
    /// ```text
    /// ensures: result ≡ vector.neg w64 v
    /// ```
    ///
    /// Definitions: [`neg`](crate::specs::lanewise::VectorTableSpecs#neg).
    #[must_use]
    #[inline]
    pub fn i64x2_neg(v: V128) -> V128 {
        words::negations::<u64>(v)
    }

    /// The absolute values of the lanes, read signed; that of the least number is itself.
    ///
    /// # Contract
    ///
    /// ```text
    /// ensures: result ≡ vector.abs w8 v
    /// ```
    ///
    /// Definitions: [`abs`](crate::specs::lanewise::VectorTableSpecs#abs).
    #[must_use]
    #[inline]
    pub fn i8x16_abs(v: V128) -> V128 {
        on_vectors::unary::<I8x16, _>(v, |x| x.wrapping_abs())
    }

    /// The absolute values of the lanes, read signed; that of the least number is itself.
    ///
    /// # Contract
    ///
    /// ```text
    /// ensures: result ≡ vector.abs w16 v
    /// ```
    ///
    /// Definitions: [`abs`](crate::specs::lanewise::VectorTableSpecs#abs).
    #[must_use]
    #[inline]
    pub fn i16x8_abs(v: V128) -> V128 {
        on_vectors::unary::<I16x8, _>(v, |x| x.wrapping_abs())
    }

    /// The absolute values of the lanes, read signed; that of the least number is itself.
    ///
    /// # Contract
    ///
    /// ```text
    /// ensures: result ≡ vector.abs w32 v
    /// ```
    ///
    /// Definitions: [`abs`](crate::specs::lanewise::VectorTableSpecs#abs).
    #[must_use]
    #[inline]
    pub fn i32x4_abs(v: V128) -> V128 {
        on_vectors::unary::<I32x4, _>(v, |x| x.wrapping_abs())
    }

    /// The absolute values of the lanes, read signed; that of the least number is itself.
    ///
    /// # Contract
    ///
    /// ```text
    /// ensures: result ≡ vector.abs w64 v
    /// ```
    ///
    /// Definitions: [`abs`](crate::specs::lanewise::VectorTableSpecs#abs).
    #[must_use]
    #[inline]
    pub fn i64x2_abs(v: V128) -> V128 {
        on_vectors::unary::<I64x2, _>(v, |x| x.wrapping_abs())
    }

    /// How many bits of each lane are one.
    ///
    /// Counted in lanes of 2, 4 and 8 bits in turn, each the sum of its halves. Both words are one
    /// value of the processor's, for the reason at `words::filled`.
    ///
    /// # Contract
    ///
    /// ```text
    /// ensures: result ≡ vector.popcnt w8 v
    /// ```
    ///
    /// Definitions: [`popcnt`](crate::specs::lanewise::VectorTableSpecs#popcnt).
    #[must_use]
    #[inline]
    pub fn i8x16_popcnt(v: V128) -> V128 {
        let words = u64x2_of(v);
        let ones = u64x2::splat(0x5555_5555_5555_5555);
        let pairs = words - ((words >> u64x2::splat(1)) & ones);
        let twos = u64x2::splat(0x3333_3333_3333_3333);
        let nibbles = (pairs & twos) + ((pairs >> u64x2::splat(2)) & twos);
        let fours = u64x2::splat(0x0f0f_0f0f_0f0f_0f0f);
        from_u64x2((nibbles + (nibbles >> u64x2::splat(4))) & fours)
    }

    /// Bitwise and.
    ///
    /// # Contract
    ///
    /// ```text
    /// ensures: result ≡ vector.v128_and lhs rhs
    /// ```
    ///
    /// Definitions: [`v128_and`](crate::specs::lanewise::VectorTableSpecs#v128_and).
    #[must_use]
    #[inline]
    pub fn v128_and(lhs: V128, rhs: V128) -> V128 {
        from_u64x2(u64x2_of(lhs) & u64x2_of(rhs))
    }

    /// Bitwise or.
    ///
    /// # Contract
    ///
    /// ```text
    /// ensures: result ≡ vector.v128_or lhs rhs
    /// ```
    ///
    /// Definitions: [`v128_or`](crate::specs::lanewise::VectorTableSpecs#v128_or).
    #[must_use]
    #[inline]
    pub fn v128_or(lhs: V128, rhs: V128) -> V128 {
        from_u64x2(u64x2_of(lhs) | u64x2_of(rhs))
    }

    /// Bitwise exclusive or.
    ///
    /// # Contract
    ///
    /// ```text
    /// ensures: result ≡ vector.v128_xor lhs rhs
    /// ```
    ///
    /// Definitions: [`v128_xor`](crate::specs::lanewise::VectorTableSpecs#v128_xor).
    #[must_use]
    #[inline]
    pub fn v128_xor(lhs: V128, rhs: V128) -> V128 {
        from_u64x2(u64x2_of(lhs) ^ u64x2_of(rhs))
    }

    /// The bits of `v` inverted.
    ///
    /// # Contract
    ///
    /// ```text
    /// ensures: result ≡ vector.v128_not v
    /// ```
    ///
    /// Definitions: [`v128_not`](crate::specs::lanewise::VectorTableSpecs#v128_not).
    #[must_use]
    #[inline]
    pub fn v128_not(v: V128) -> V128 {
        from_u64x2(!u64x2_of(v))
    }

    /// The bits of `lhs` where `rhs` has zeros.
    ///
    /// # Contract
    ///
    /// ```text
    /// ensures: result ≡ vector.v128_andnot lhs rhs
    /// ```
    ///
    /// Definitions: [`v128_andnot`](crate::specs::lanewise::VectorTableSpecs#v128_andnot).
    #[must_use]
    #[inline]
    pub fn v128_andnot(lhs: V128, rhs: V128) -> V128 {
        v128_and(lhs, v128_not(rhs))
    }

    /// The bits of `v1` where `c` has ones, those of `v2` where it has zeros.
    ///
    /// # Contract
    ///
    /// ```text
    /// ensures: result ≡ vector.v128_bitselect v1 v2 c
    /// ```
    ///
    /// Definitions: [`v128_bitselect`](crate::specs::lanewise::VectorTableSpecs#v128_bitselect).
    #[must_use]
    #[inline]
    pub fn v128_bitselect(v1: V128, v2: V128, c: V128) -> V128 {
        let ones = u64x2_of(c);
        from_u64x2((u64x2_of(v1) & ones) | (u64x2_of(v2) & !ones))
    }

    // Instructions of two operands.

    /// The sums of the lanes, modulo 2 to the power 8.
    ///
    /// # Contract
    ///
    /// ```text
    /// ensures: result ≡ vector.add w8 lhs rhs
    /// ```
    ///
    /// Definitions: [`add`](crate::specs::lanewise::VectorTableSpecs#add).
    #[must_use]
    #[inline]
    pub fn i8x16_add(lhs: V128, rhs: V128) -> V128 {
        words::sums::<u8>(lhs, rhs)
    }

    /// The sums of the lanes, modulo 2 to the power 16.
    ///
    /// # Contract
    ///
    /// ```text
    /// ensures: result ≡ vector.add w16 lhs rhs
    /// ```
    ///
    /// Definitions: [`add`](crate::specs::lanewise::VectorTableSpecs#add).
    #[must_use]
    #[inline]
    pub fn i16x8_add(lhs: V128, rhs: V128) -> V128 {
        words::sums::<u16>(lhs, rhs)
    }

    /// The sums of the lanes, modulo 2 to the power 32.
    ///
    /// # Contract
    ///
    /// ```text
    /// ensures: result ≡ vector.add w32 lhs rhs
    /// ```
    ///
    /// Definitions: [`add`](crate::specs::lanewise::VectorTableSpecs#add).
    #[must_use]
    #[inline]
    pub fn i32x4_add(lhs: V128, rhs: V128) -> V128 {
        words::sums::<u32>(lhs, rhs)
    }

    /// The sums of the lanes, modulo 2 to the power 64.
    ///
    /// # Contract
    ///
    /// ```text
    /// ensures: result ≡ vector.add w64 lhs rhs
    /// ```
    ///
    /// Definitions: [`add`](crate::specs::lanewise::VectorTableSpecs#add).
    #[must_use]
    #[inline]
    pub fn i64x2_add(lhs: V128, rhs: V128) -> V128 {
        words::sums::<u64>(lhs, rhs)
    }

    /// The differences of the lanes, modulo 2 to the power 8.
    ///
    /// # Contract
    ///
    /// ```text
    /// ensures: result ≡ vector.sub w8 lhs rhs
    /// ```
    ///
    /// Definitions: [`sub`](crate::specs::lanewise::VectorTableSpecs#sub).
    #[must_use]
    #[inline]
    pub fn i8x16_sub(lhs: V128, rhs: V128) -> V128 {
        words::differences::<u8>(lhs, rhs)
    }

    /// The differences of the lanes, modulo 2 to the power 16.
    ///
    /// # Contract
    ///
    /// ```text
    /// ensures: result ≡ vector.sub w16 lhs rhs
    /// ```
    ///
    /// Definitions: [`sub`](crate::specs::lanewise::VectorTableSpecs#sub).
    #[must_use]
    #[inline]
    pub fn i16x8_sub(lhs: V128, rhs: V128) -> V128 {
        words::differences::<u16>(lhs, rhs)
    }

    /// The differences of the lanes, modulo 2 to the power 32.
    ///
    /// # Contract
    ///
    /// ```text
    /// ensures: result ≡ vector.sub w32 lhs rhs
    /// ```
    ///
    /// Definitions: [`sub`](crate::specs::lanewise::VectorTableSpecs#sub).
    #[must_use]
    #[inline]
    pub fn i32x4_sub(lhs: V128, rhs: V128) -> V128 {
        words::differences::<u32>(lhs, rhs)
    }

    /// The differences of the lanes, modulo 2 to the power 64.
    ///
    /// # Contract
    ///
    /// ```text
    /// ensures: result ≡ vector.sub w64 lhs rhs
    /// ```
    ///
    /// Definitions: [`sub`](crate::specs::lanewise::VectorTableSpecs#sub).
    #[must_use]
    #[inline]
    pub fn i64x2_sub(lhs: V128, rhs: V128) -> V128 {
        words::differences::<u64>(lhs, rhs)
    }

    /// The products of the lanes, modulo 2 to the power 8: upstream's alone, not WebAssembly's.
    ///
    /// # Contract
    ///
    /// ```text
    /// ensures: result ≡ vector.mul w8 lhs rhs
    /// ```
    ///
    /// Definitions: [`mul`](crate::specs::lanewise::VectorTableSpecs#mul).
    #[must_use]
    #[inline]
    pub fn i8x16_mul(lhs: V128, rhs: V128) -> V128 {
        on_vectors::binary::<U8x16, _>(lhs, rhs, |x, y| x.wrapping_mul(y))
    }

    /// The products of the lanes, modulo 2 to the power 16.
    ///
    /// # Contract
    ///
    /// ```text
    /// ensures: result ≡ vector.mul w16 lhs rhs
    /// ```
    ///
    /// Definitions: [`mul`](crate::specs::lanewise::VectorTableSpecs#mul).
    #[must_use]
    #[inline]
    pub fn i16x8_mul(lhs: V128, rhs: V128) -> V128 {
        on_vectors::binary::<U16x8, _>(lhs, rhs, |x, y| x.wrapping_mul(y))
    }

    /// The products of the lanes, modulo 2 to the power 32.
    ///
    /// # Contract
    ///
    /// ```text
    /// ensures: result ≡ vector.mul w32 lhs rhs
    /// ```
    ///
    /// Definitions: [`mul`](crate::specs::lanewise::VectorTableSpecs#mul).
    #[must_use]
    #[inline]
    pub fn i32x4_mul(lhs: V128, rhs: V128) -> V128 {
        on_vectors::binary::<U32x4, _>(lhs, rhs, |x, y| x.wrapping_mul(y))
    }

    /// The products of the lanes, modulo 2 to the power 64.
    ///
    /// # Contract
    ///
    /// ```text
    /// ensures: result ≡ vector.mul w64 lhs rhs
    /// ```
    ///
    /// Definitions: [`mul`](crate::specs::lanewise::VectorTableSpecs#mul).
    #[must_use]
    #[inline]
    pub fn i64x2_mul(lhs: V128, rhs: V128) -> V128 {
        let (a_low, a_high) = lhs.words();
        let (b_low, b_high) = rhs.words();
        // The high word of a product of 128 bits: beside a product of two words LLVM doesn't take it for
        // a lane of the same vector, whose product (three of `pmuludq`) is slower than two of words.
        let high = (u128::from(a_high) << 64).wrapping_mul(u128::from(b_high)) >> 64;
        V128::from_word_pair(a_low.wrapping_mul(b_low), high as u64)
    }

    /// The sums of the lanes, read signed and clamped to the signed range of 8 bits.
    ///
    /// # Contract
    ///
    /// ```text
    /// ensures: result ≡ vector.add_sat_s w8 lhs rhs
    /// ```
    ///
    /// Definitions: [`add_sat_s`](crate::specs::lanewise::VectorTableSpecs#add_sat_s).
    #[must_use]
    #[inline]
    pub fn i8x16_add_sat_s(lhs: V128, rhs: V128) -> V128 {
        on_vectors::binary::<I8x16, _>(lhs, rhs, |x, y| clamped_i8(i16::from(x) + i16::from(y)))
    }

    /// The sums of the lanes, read unsigned and clamped to the unsigned range of 8 bits.
    ///
    /// # Contract
    ///
    /// ```text
    /// ensures: result ≡ vector.add_sat_u w8 lhs rhs
    /// ```
    ///
    /// Definitions: [`add_sat_u`](crate::specs::lanewise::VectorTableSpecs#add_sat_u).
    #[must_use]
    #[inline]
    pub fn i8x16_add_sat_u(lhs: V128, rhs: V128) -> V128 {
        u8::vector_of(u8::lanes_of(lhs).saturating_add(u8::lanes_of(rhs)))
    }

    /// The sums of the lanes, read signed and clamped to the signed range of 16 bits.
    ///
    /// # Contract
    ///
    /// ```text
    /// ensures: result ≡ vector.add_sat_s w16 lhs rhs
    /// ```
    ///
    /// Definitions: [`add_sat_s`](crate::specs::lanewise::VectorTableSpecs#add_sat_s).
    #[must_use]
    #[inline]
    pub fn i16x8_add_sat_s(lhs: V128, rhs: V128) -> V128 {
        on_vectors::binary::<I16x8, _>(lhs, rhs, |x, y| clamped_i16(i32::from(x) + i32::from(y)))
    }

    /// The sums of the lanes, read unsigned and clamped to the unsigned range of 16 bits.
    ///
    /// # Contract
    ///
    /// ```text
    /// ensures: result ≡ vector.add_sat_u w16 lhs rhs
    /// ```
    ///
    /// Definitions: [`add_sat_u`](crate::specs::lanewise::VectorTableSpecs#add_sat_u).
    #[must_use]
    #[inline]
    pub fn i16x8_add_sat_u(lhs: V128, rhs: V128) -> V128 {
        u16::vector_of(u16::lanes_of(lhs).saturating_add(u16::lanes_of(rhs)))
    }

    /// The differences of the lanes, read signed and clamped to the signed range of 8 bits.
    ///
    /// # Contract
    ///
    /// ```text
    /// ensures: result ≡ vector.sub_sat_s w8 lhs rhs
    /// ```
    ///
    /// Definitions: [`sub_sat_s`](crate::specs::lanewise::VectorTableSpecs#sub_sat_s).
    #[must_use]
    #[inline]
    pub fn i8x16_sub_sat_s(lhs: V128, rhs: V128) -> V128 {
        on_vectors::binary::<I8x16, _>(lhs, rhs, |x, y| clamped_i8(i16::from(x) - i16::from(y)))
    }

    /// The differences of the lanes, read unsigned and clamped to the unsigned range of 8 bits.
    ///
    /// # Contract
    ///
    /// ```text
    /// ensures: result ≡ vector.sub_sat_u w8 lhs rhs
    /// ```
    ///
    /// Definitions: [`sub_sat_u`](crate::specs::lanewise::VectorTableSpecs#sub_sat_u).
    #[must_use]
    #[inline]
    pub fn i8x16_sub_sat_u(lhs: V128, rhs: V128) -> V128 {
        u8::vector_of(u8::lanes_of(lhs).saturating_sub(u8::lanes_of(rhs)))
    }

    /// The differences of the lanes, read signed and clamped to the signed range of 16 bits.
    ///
    /// # Contract
    ///
    /// ```text
    /// ensures: result ≡ vector.sub_sat_s w16 lhs rhs
    /// ```
    ///
    /// Definitions: [`sub_sat_s`](crate::specs::lanewise::VectorTableSpecs#sub_sat_s).
    #[must_use]
    #[inline]
    pub fn i16x8_sub_sat_s(lhs: V128, rhs: V128) -> V128 {
        on_vectors::binary::<I16x8, _>(lhs, rhs, |x, y| clamped_i16(i32::from(x) - i32::from(y)))
    }

    /// The differences of the lanes, read unsigned and clamped to the unsigned range of 16 bits.
    ///
    /// # Contract
    ///
    /// ```text
    /// ensures: result ≡ vector.sub_sat_u w16 lhs rhs
    /// ```
    ///
    /// Definitions: [`sub_sat_u`](crate::specs::lanewise::VectorTableSpecs#sub_sat_u).
    #[must_use]
    #[inline]
    pub fn i16x8_sub_sat_u(lhs: V128, rhs: V128) -> V128 {
        u16::vector_of(u16::lanes_of(lhs).saturating_sub(u16::lanes_of(rhs)))
    }

    /// The lanes' products as q15 numbers (signed, over 2^15), rounded and clamped to the signed range.
    ///
    /// Twice the upper half of a product and its rounded lower half: each half is one instruction.
    ///
    /// # Contract
    ///
    /// ```text
    /// ensures: result ≡ vector.q15mulr_sat_s lhs rhs
    /// ```
    ///
    /// Definitions: [`q15mulr_sat_s`](crate::specs::lanewise::VectorTableSpecs#q15mulr_sat_s).
    #[must_use]
    #[inline]
    pub fn i16x8_q15mulr_sat_s(lhs: V128, rhs: V128) -> V128 {
        let x = u16::lanes_of(lhs);
        let y = u16::lanes_of(rhs);
        let rounded = (((x * y) >> u16x8::splat(1)) + u16x8::splat(0x2000)) >> u16x8::splat(14);
        u16::vector_of(twice(upper_halves(x, y)) + rounded)
    }

    // For `i16x8_q15mulr_sat_s`: the lanes, read signed, at twice their width.
    /// # Contract
    ///
    /// ```text
    /// ensures lanes: (i : ℕ) → i < 8
    ///     → slice_index result i ≡ cast_unsigned w32 (signed w16 (slice_index items i))
    /// ```
    #[inline(always)]
    fn sign_copied(items: u16x8) -> u32x8 {
        let tops = u32x8::splat(0x8000);
        (items.cast::<u32>() ^ tops) - tops
    }

    // For `i16x8_q15mulr_sat_s`: the upper halves of the products of lanes that are read signed.
    /// # Contract
    ///
    /// ```text
    /// ensures lanes: (i : ℕ) → i < 8 → slice_index result i
    ///     ≡ cast_unsigned w32 (signed w16 (slice_index x i)) * cast_unsigned w32
    ///     (signed w16 (slice_index y i)) % 2 ^ 32 / 2 ^ 16
    /// ```
    #[inline(always)]
    fn upper_halves(x: u16x8, y: u16x8) -> u16x8 {
        let products = sign_copied(x) * sign_copied(y);
        (products >> u32x8::splat(16)).cast::<u16>()
    }

    /// For `i16x8_q15mulr_sat_s`: twice the lanes, read signed, and the largest number in the place of
    /// the one double that doesn't fit, that of 2 to the power 14.
    ///
    /// # Contract
    ///
    /// ```text
    /// ensures lanes: (i : ℕ) → i < 8 → slice_index result i
    ///     ≡ (slice_index items i +
    ///     (if nat_lt ((slice_index items i + 0x8000) % 2 ^ 16) 0xbfff then slice_index items i
    ///     else 0x3fff)) % 2 ^ 16
    /// ```
    #[inline(always)]
    fn twice(items: u16x8) -> u16x8 {
        let most = u16x8::splat(0x3fff);
        items + u16::choose_if_less(u16::biased(items), u16::biased(most), items, most)
    }

    /// The smaller ones of the lanes, read signed.
    ///
    /// # Contract
    ///
    /// ```text
    /// ensures: result ≡ vector.min_s w8 lhs rhs
    /// ```
    ///
    /// Definitions: [`min_s`](crate::specs::lanewise::VectorTableSpecs#min_s).
    #[must_use]
    #[inline]
    pub fn i8x16_min_s(lhs: V128, rhs: V128) -> V128 {
        order::smaller_s::<u8>(lhs, rhs)
    }

    /// The smaller ones of the lanes, read unsigned.
    ///
    /// # Contract
    ///
    /// ```text
    /// ensures: result ≡ vector.min_u w8 lhs rhs
    /// ```
    ///
    /// Definitions: [`min_u`](crate::specs::lanewise::VectorTableSpecs#min_u).
    #[must_use]
    #[inline]
    pub fn i8x16_min_u(lhs: V128, rhs: V128) -> V128 {
        order::smaller_u::<u8>(lhs, rhs)
    }

    /// The smaller ones of the lanes, read signed.
    ///
    /// # Contract
    ///
    /// ```text
    /// ensures: result ≡ vector.min_s w16 lhs rhs
    /// ```
    ///
    /// Definitions: [`min_s`](crate::specs::lanewise::VectorTableSpecs#min_s).
    #[must_use]
    #[inline]
    pub fn i16x8_min_s(lhs: V128, rhs: V128) -> V128 {
        order::smaller_s::<u16>(lhs, rhs)
    }

    /// The smaller ones of the lanes, read unsigned.
    ///
    /// # Contract
    ///
    /// ```text
    /// ensures: result ≡ vector.min_u w16 lhs rhs
    /// ```
    ///
    /// Definitions: [`min_u`](crate::specs::lanewise::VectorTableSpecs#min_u).
    #[must_use]
    #[inline]
    pub fn i16x8_min_u(lhs: V128, rhs: V128) -> V128 {
        order::smaller_u::<u16>(lhs, rhs)
    }

    /// The smaller ones of the lanes, read signed.
    ///
    /// # Contract
    ///
    /// ```text
    /// ensures: result ≡ vector.min_s w32 lhs rhs
    /// ```
    ///
    /// Definitions: [`min_s`](crate::specs::lanewise::VectorTableSpecs#min_s).
    #[must_use]
    #[inline]
    pub fn i32x4_min_s(lhs: V128, rhs: V128) -> V128 {
        order::smaller_s::<u32>(lhs, rhs)
    }

    /// The smaller ones of the lanes, read unsigned.
    ///
    /// # Contract
    ///
    /// ```text
    /// ensures: result ≡ vector.min_u w32 lhs rhs
    /// ```
    ///
    /// Definitions: [`min_u`](crate::specs::lanewise::VectorTableSpecs#min_u).
    #[must_use]
    #[inline]
    pub fn i32x4_min_u(lhs: V128, rhs: V128) -> V128 {
        order::smaller_u::<u32>(lhs, rhs)
    }

    /// The larger ones of the lanes, read signed.
    ///
    /// # Contract
    ///
    /// ```text
    /// ensures: result ≡ vector.max_s w8 lhs rhs
    /// ```
    ///
    /// Definitions: [`max_s`](crate::specs::lanewise::VectorTableSpecs#max_s).
    #[must_use]
    #[inline]
    pub fn i8x16_max_s(lhs: V128, rhs: V128) -> V128 {
        order::larger_s::<u8>(lhs, rhs)
    }

    /// The larger ones of the lanes, read unsigned.
    ///
    /// # Contract
    ///
    /// ```text
    /// ensures: result ≡ vector.max_u w8 lhs rhs
    /// ```
    ///
    /// Definitions: [`max_u`](crate::specs::lanewise::VectorTableSpecs#max_u).
    #[must_use]
    #[inline]
    pub fn i8x16_max_u(lhs: V128, rhs: V128) -> V128 {
        order::larger_u::<u8>(lhs, rhs)
    }

    /// The larger ones of the lanes, read signed.
    ///
    /// # Contract
    ///
    /// ```text
    /// ensures: result ≡ vector.max_s w16 lhs rhs
    /// ```
    ///
    /// Definitions: [`max_s`](crate::specs::lanewise::VectorTableSpecs#max_s).
    #[must_use]
    #[inline]
    pub fn i16x8_max_s(lhs: V128, rhs: V128) -> V128 {
        order::larger_s::<u16>(lhs, rhs)
    }

    /// The larger ones of the lanes, read unsigned.
    ///
    /// # Contract
    ///
    /// ```text
    /// ensures: result ≡ vector.max_u w16 lhs rhs
    /// ```
    ///
    /// Definitions: [`max_u`](crate::specs::lanewise::VectorTableSpecs#max_u).
    #[must_use]
    #[inline]
    pub fn i16x8_max_u(lhs: V128, rhs: V128) -> V128 {
        order::larger_u::<u16>(lhs, rhs)
    }

    /// The larger ones of the lanes, read signed.
    ///
    /// # Contract
    ///
    /// ```text
    /// ensures: result ≡ vector.max_s w32 lhs rhs
    /// ```
    ///
    /// Definitions: [`max_s`](crate::specs::lanewise::VectorTableSpecs#max_s).
    #[must_use]
    #[inline]
    pub fn i32x4_max_s(lhs: V128, rhs: V128) -> V128 {
        order::larger_s::<u32>(lhs, rhs)
    }

    /// The larger ones of the lanes, read unsigned.
    ///
    /// # Contract
    ///
    /// ```text
    /// ensures: result ≡ vector.max_u w32 lhs rhs
    /// ```
    ///
    /// Definitions: [`max_u`](crate::specs::lanewise::VectorTableSpecs#max_u).
    #[must_use]
    #[inline]
    pub fn i32x4_max_u(lhs: V128, rhs: V128) -> V128 {
        order::larger_u::<u32>(lhs, rhs)
    }

    /// The averages of the lanes, read unsigned, halves rounded up.
    ///
    /// # Contract
    ///
    /// ```text
    /// ensures: result ≡ vector.avgr_u w8 lhs rhs
    /// ```
    ///
    /// Definitions: [`avgr_u`](crate::specs::lanewise::VectorTableSpecs#avgr_u).
    #[must_use]
    #[inline]
    pub fn i8x16_avgr_u(lhs: V128, rhs: V128) -> V128 {
        words::averages::<u8>(lhs, rhs)
    }

    /// The averages of the lanes, read unsigned, halves rounded up.
    ///
    /// # Contract
    ///
    /// ```text
    /// ensures: result ≡ vector.avgr_u w16 lhs rhs
    /// ```
    ///
    /// Definitions: [`avgr_u`](crate::specs::lanewise::VectorTableSpecs#avgr_u).
    #[must_use]
    #[inline]
    pub fn i16x8_avgr_u(lhs: V128, rhs: V128) -> V128 {
        words::averages::<u16>(lhs, rhs)
    }

    // Comparisons.

    /// All ones in the lanes that are equal, else all zeros.
    ///
    /// # Contract
    ///
    /// ```text
    /// ensures: result ≡ vector.eq w8 lhs rhs
    /// ```
    ///
    /// Definitions: [`eq`](crate::specs::lanewise::VectorTableSpecs#eq).
    #[must_use]
    #[inline]
    pub fn i8x16_eq(lhs: V128, rhs: V128) -> V128 {
        words::equal::<u8>(lhs, rhs)
    }

    /// All ones in the lanes that are equal, else all zeros.
    ///
    /// # Contract
    ///
    /// ```text
    /// ensures: result ≡ vector.eq w16 lhs rhs
    /// ```
    ///
    /// Definitions: [`eq`](crate::specs::lanewise::VectorTableSpecs#eq).
    #[must_use]
    #[inline]
    pub fn i16x8_eq(lhs: V128, rhs: V128) -> V128 {
        words::equal::<u16>(lhs, rhs)
    }

    /// All ones in the lanes that are equal, else all zeros.
    ///
    /// # Contract
    ///
    /// ```text
    /// ensures: result ≡ vector.eq w32 lhs rhs
    /// ```
    ///
    /// Definitions: [`eq`](crate::specs::lanewise::VectorTableSpecs#eq).
    #[must_use]
    #[inline]
    pub fn i32x4_eq(lhs: V128, rhs: V128) -> V128 {
        words::equal::<u32>(lhs, rhs)
    }

    /// All ones in the lanes that are equal, else all zeros.
    ///
    /// # Contract
    ///
    /// ```text
    /// ensures: result ≡ vector.eq w64 lhs rhs
    /// ```
    ///
    /// Definitions: [`eq`](crate::specs::lanewise::VectorTableSpecs#eq).
    #[must_use]
    #[inline]
    pub fn i64x2_eq(lhs: V128, rhs: V128) -> V128 {
        let (a_low, a_high) = lhs.words();
        let (b_low, b_high) = rhs.words();
        V128::from_word_pair(ones_if_equal(a_low, b_low), ones_if_equal(a_high, b_high))
    }

    /// All ones in the lanes that are different, else all zeros.
    ///
    /// # Contract
    ///
    /// ```text
    /// ensures: result ≡ vector.ne w8 lhs rhs
    /// ```
    ///
    /// Definitions: [`ne`](crate::specs::lanewise::VectorTableSpecs#ne).
    #[must_use]
    #[inline]
    pub fn i8x16_ne(lhs: V128, rhs: V128) -> V128 {
        words::different::<u8>(lhs, rhs)
    }

    /// All ones in the lanes that are different, else all zeros.
    ///
    /// # Contract
    ///
    /// ```text
    /// ensures: result ≡ vector.ne w16 lhs rhs
    /// ```
    ///
    /// Definitions: [`ne`](crate::specs::lanewise::VectorTableSpecs#ne).
    #[must_use]
    #[inline]
    pub fn i16x8_ne(lhs: V128, rhs: V128) -> V128 {
        words::different::<u16>(lhs, rhs)
    }

    /// All ones in the lanes that are different, else all zeros.
    ///
    /// # Contract
    ///
    /// ```text
    /// ensures: result ≡ vector.ne w32 lhs rhs
    /// ```
    ///
    /// Definitions: [`ne`](crate::specs::lanewise::VectorTableSpecs#ne).
    #[must_use]
    #[inline]
    pub fn i32x4_ne(lhs: V128, rhs: V128) -> V128 {
        words::different::<u32>(lhs, rhs)
    }

    /// All ones in the lanes that are different, else all zeros.
    ///
    /// # Contract
    ///
    /// ```text
    /// ensures: result ≡ vector.ne w64 lhs rhs
    /// ```
    ///
    /// Definitions: [`ne`](crate::specs::lanewise::VectorTableSpecs#ne).
    #[must_use]
    #[inline]
    pub fn i64x2_ne(lhs: V128, rhs: V128) -> V128 {
        let (a_low, a_high) = lhs.words();
        let (b_low, b_high) = rhs.words();
        V128::from_word_pair(!ones_if_equal(a_low, b_low), !ones_if_equal(a_high, b_high))
    }

    // For `i64x2_eq` and `i64x2_ne`: all ones if two words are equal, else 0. They are compared as
    // lanes of one bit, of which `word_differ` masks nothing.
    /// # Contract
    ///
    /// ```text
    /// ensures: result ≡ (if a == b then 2 ^ 64 - 1 else 0)
    /// ```
    #[inline(always)]
    fn ones_if_equal(a: u64, b: u64) -> u64 {
        if word_differ(a, b, u64::MAX) == 0 {
            u64::MAX
        } else {
            0
        }
    }

    /// All ones where the lane of `lhs` is less than that of `rhs`, both read signed, else all zeros.
    ///
    /// # Contract
    ///
    /// ```text
    /// ensures: result ≡ vector.lt_s w8 lhs rhs
    /// ```
    ///
    /// Definitions: [`lt_s`](crate::specs::lanewise::VectorTableSpecs#lt_s).
    #[must_use]
    #[inline]
    pub fn i8x16_lt_s(lhs: V128, rhs: V128) -> V128 {
        order::less_s::<u8>(lhs, rhs)
    }

    /// All ones where the lane of `lhs` is less than that of `rhs`, both read signed, else all zeros.
    ///
    /// # Contract
    ///
    /// ```text
    /// ensures: result ≡ vector.lt_s w16 lhs rhs
    /// ```
    ///
    /// Definitions: [`lt_s`](crate::specs::lanewise::VectorTableSpecs#lt_s).
    #[must_use]
    #[inline]
    pub fn i16x8_lt_s(lhs: V128, rhs: V128) -> V128 {
        order::less_s::<u16>(lhs, rhs)
    }

    /// All ones where the lane of `lhs` is less than that of `rhs`, both read signed, else all zeros.
    ///
    /// # Contract
    ///
    /// ```text
    /// ensures: result ≡ vector.lt_s w32 lhs rhs
    /// ```
    ///
    /// Definitions: [`lt_s`](crate::specs::lanewise::VectorTableSpecs#lt_s).
    #[must_use]
    #[inline]
    pub fn i32x4_lt_s(lhs: V128, rhs: V128) -> V128 {
        order::less_s::<u32>(lhs, rhs)
    }

    /// All ones where the lane of `lhs` is less than that of `rhs`, both read signed, else all zeros.
    ///
    /// # Contract
    ///
    /// ```text
    /// ensures: result ≡ vector.lt_s w64 lhs rhs
    /// ```
    ///
    /// Definitions: [`lt_s`](crate::specs::lanewise::VectorTableSpecs#lt_s).
    #[must_use]
    #[inline]
    pub fn i64x2_lt_s(lhs: V128, rhs: V128) -> V128 {
        order::less_s::<u64>(lhs, rhs)
    }

    /// All ones where the lane of `lhs` is less than that of `rhs`, both read unsigned, else all zeros.
    ///
    /// # Contract
    ///
    /// ```text
    /// ensures: result ≡ vector.lt_u w8 lhs rhs
    /// ```
    ///
    /// Definitions: [`lt_u`](crate::specs::lanewise::VectorTableSpecs#lt_u).
    #[must_use]
    #[inline]
    pub fn i8x16_lt_u(lhs: V128, rhs: V128) -> V128 {
        order::less_u::<u8>(lhs, rhs)
    }

    /// All ones where the lane of `lhs` is less than that of `rhs`, both read unsigned, else all zeros.
    ///
    /// # Contract
    ///
    /// ```text
    /// ensures: result ≡ vector.lt_u w16 lhs rhs
    /// ```
    ///
    /// Definitions: [`lt_u`](crate::specs::lanewise::VectorTableSpecs#lt_u).
    #[must_use]
    #[inline]
    pub fn i16x8_lt_u(lhs: V128, rhs: V128) -> V128 {
        order::less_u::<u16>(lhs, rhs)
    }

    /// All ones where the lane of `lhs` is less than that of `rhs`, both read unsigned, else all zeros.
    ///
    /// # Contract
    ///
    /// ```text
    /// ensures: result ≡ vector.lt_u w32 lhs rhs
    /// ```
    ///
    /// Definitions: [`lt_u`](crate::specs::lanewise::VectorTableSpecs#lt_u).
    #[must_use]
    #[inline]
    pub fn i32x4_lt_u(lhs: V128, rhs: V128) -> V128 {
        order::less_u::<u32>(lhs, rhs)
    }

    /// All ones where the lane of `lhs` is at most that of `rhs`, both read signed, else all zeros.
    ///
    /// # Contract
    ///
    /// ```text
    /// ensures: result ≡ vector.le_s w8 lhs rhs
    /// ```
    ///
    /// Definitions: [`le_s`](crate::specs::lanewise::VectorTableSpecs#le_s).
    #[must_use]
    #[inline]
    pub fn i8x16_le_s(lhs: V128, rhs: V128) -> V128 {
        order::at_most_s::<u8>(lhs, rhs)
    }

    /// All ones where the lane of `lhs` is at most that of `rhs`, both read signed, else all zeros.
    ///
    /// # Contract
    ///
    /// ```text
    /// ensures: result ≡ vector.le_s w16 lhs rhs
    /// ```
    ///
    /// Definitions: [`le_s`](crate::specs::lanewise::VectorTableSpecs#le_s).
    #[must_use]
    #[inline]
    pub fn i16x8_le_s(lhs: V128, rhs: V128) -> V128 {
        order::at_most_s::<u16>(lhs, rhs)
    }

    /// All ones where the lane of `lhs` is at most that of `rhs`, both read signed, else all zeros.
    ///
    /// # Contract
    ///
    /// ```text
    /// ensures: result ≡ vector.le_s w32 lhs rhs
    /// ```
    ///
    /// Definitions: [`le_s`](crate::specs::lanewise::VectorTableSpecs#le_s).
    #[must_use]
    #[inline]
    pub fn i32x4_le_s(lhs: V128, rhs: V128) -> V128 {
        order::at_most_s::<u32>(lhs, rhs)
    }

    /// All ones where the lane of `lhs` is at most that of `rhs`, both read signed, else all zeros.
    ///
    /// # Contract
    ///
    /// ```text
    /// ensures: result ≡ vector.le_s w64 lhs rhs
    /// ```
    ///
    /// Definitions: [`le_s`](crate::specs::lanewise::VectorTableSpecs#le_s).
    #[must_use]
    #[inline]
    pub fn i64x2_le_s(lhs: V128, rhs: V128) -> V128 {
        order::at_most_s::<u64>(lhs, rhs)
    }

    /// All ones where the lane of `lhs` is at most that of `rhs`, both read unsigned, else all zeros.
    ///
    /// # Contract
    ///
    /// ```text
    /// ensures: result ≡ vector.le_u w8 lhs rhs
    /// ```
    ///
    /// Definitions: [`le_u`](crate::specs::lanewise::VectorTableSpecs#le_u).
    #[must_use]
    #[inline]
    pub fn i8x16_le_u(lhs: V128, rhs: V128) -> V128 {
        order::at_most_u::<u8>(lhs, rhs)
    }

    /// All ones where the lane of `lhs` is at most that of `rhs`, both read unsigned, else all zeros.
    ///
    /// # Contract
    ///
    /// ```text
    /// ensures: result ≡ vector.le_u w16 lhs rhs
    /// ```
    ///
    /// Definitions: [`le_u`](crate::specs::lanewise::VectorTableSpecs#le_u).
    #[must_use]
    #[inline]
    pub fn i16x8_le_u(lhs: V128, rhs: V128) -> V128 {
        order::at_most_u::<u16>(lhs, rhs)
    }

    /// All ones where the lane of `lhs` is at most that of `rhs`, both read unsigned, else all zeros.
    ///
    /// # Contract
    ///
    /// ```text
    /// ensures: result ≡ vector.le_u w32 lhs rhs
    /// ```
    ///
    /// Definitions: [`le_u`](crate::specs::lanewise::VectorTableSpecs#le_u).
    #[must_use]
    #[inline]
    pub fn i32x4_le_u(lhs: V128, rhs: V128) -> V128 {
        order::at_most_u::<u32>(lhs, rhs)
    }

    /// All ones where the lane of `lhs` is the greater one, both read signed, else all zeros.
    ///
    /// # Contract
    ///
    /// ```text
    /// ensures: result ≡ vector.gt_s w8 lhs rhs
    /// ```
    ///
    /// Definitions: [`gt_s`](crate::specs::lanewise::VectorTableSpecs#gt_s).
    #[must_use]
    #[inline]
    pub fn i8x16_gt_s(lhs: V128, rhs: V128) -> V128 {
        order::less_s::<u8>(rhs, lhs)
    }

    /// All ones where the lane of `lhs` is the greater one, both read signed, else all zeros.
    ///
    /// # Contract
    ///
    /// ```text
    /// ensures: result ≡ vector.gt_s w16 lhs rhs
    /// ```
    ///
    /// Definitions: [`gt_s`](crate::specs::lanewise::VectorTableSpecs#gt_s).
    #[must_use]
    #[inline]
    pub fn i16x8_gt_s(lhs: V128, rhs: V128) -> V128 {
        order::less_s::<u16>(rhs, lhs)
    }

    /// All ones where the lane of `lhs` is the greater one, both read signed, else all zeros.
    ///
    /// # Contract
    ///
    /// ```text
    /// ensures: result ≡ vector.gt_s w32 lhs rhs
    /// ```
    ///
    /// Definitions: [`gt_s`](crate::specs::lanewise::VectorTableSpecs#gt_s).
    #[must_use]
    #[inline]
    pub fn i32x4_gt_s(lhs: V128, rhs: V128) -> V128 {
        order::less_s::<u32>(rhs, lhs)
    }

    /// All ones where the lane of `lhs` is the greater one, both read signed, else all zeros.
    ///
    /// # Contract
    ///
    /// ```text
    /// ensures: result ≡ vector.gt_s w64 lhs rhs
    /// ```
    ///
    /// Definitions: [`gt_s`](crate::specs::lanewise::VectorTableSpecs#gt_s).
    #[must_use]
    #[inline]
    pub fn i64x2_gt_s(lhs: V128, rhs: V128) -> V128 {
        order::less_s::<u64>(rhs, lhs)
    }

    /// All ones where the lane of `lhs` is the greater one, both read unsigned, else all zeros.
    ///
    /// # Contract
    ///
    /// ```text
    /// ensures: result ≡ vector.gt_u w8 lhs rhs
    /// ```
    ///
    /// Definitions: [`gt_u`](crate::specs::lanewise::VectorTableSpecs#gt_u).
    #[must_use]
    #[inline]
    pub fn i8x16_gt_u(lhs: V128, rhs: V128) -> V128 {
        order::less_u::<u8>(rhs, lhs)
    }

    /// All ones where the lane of `lhs` is the greater one, both read unsigned, else all zeros.
    ///
    /// # Contract
    ///
    /// ```text
    /// ensures: result ≡ vector.gt_u w16 lhs rhs
    /// ```
    ///
    /// Definitions: [`gt_u`](crate::specs::lanewise::VectorTableSpecs#gt_u).
    #[must_use]
    #[inline]
    pub fn i16x8_gt_u(lhs: V128, rhs: V128) -> V128 {
        order::less_u::<u16>(rhs, lhs)
    }

    /// All ones where the lane of `lhs` is the greater one, both read unsigned, else all zeros.
    ///
    /// # Contract
    ///
    /// ```text
    /// ensures: result ≡ vector.gt_u w32 lhs rhs
    /// ```
    ///
    /// Definitions: [`gt_u`](crate::specs::lanewise::VectorTableSpecs#gt_u).
    #[must_use]
    #[inline]
    pub fn i32x4_gt_u(lhs: V128, rhs: V128) -> V128 {
        order::less_u::<u32>(rhs, lhs)
    }

    /// All ones where the lane of `lhs` is at least that of `rhs`, both read signed, else all zeros.
    ///
    /// # Contract
    ///
    /// ```text
    /// ensures: result ≡ vector.ge_s w8 lhs rhs
    /// ```
    ///
    /// Definitions: [`ge_s`](crate::specs::lanewise::VectorTableSpecs#ge_s).
    #[must_use]
    #[inline]
    pub fn i8x16_ge_s(lhs: V128, rhs: V128) -> V128 {
        order::at_most_s::<u8>(rhs, lhs)
    }

    /// All ones where the lane of `lhs` is at least that of `rhs`, both read signed, else all zeros.
    ///
    /// # Contract
    ///
    /// ```text
    /// ensures: result ≡ vector.ge_s w16 lhs rhs
    /// ```
    ///
    /// Definitions: [`ge_s`](crate::specs::lanewise::VectorTableSpecs#ge_s).
    #[must_use]
    #[inline]
    pub fn i16x8_ge_s(lhs: V128, rhs: V128) -> V128 {
        order::at_most_s::<u16>(rhs, lhs)
    }

    /// All ones where the lane of `lhs` is at least that of `rhs`, both read signed, else all zeros.
    ///
    /// # Contract
    ///
    /// ```text
    /// ensures: result ≡ vector.ge_s w32 lhs rhs
    /// ```
    ///
    /// Definitions: [`ge_s`](crate::specs::lanewise::VectorTableSpecs#ge_s).
    #[must_use]
    #[inline]
    pub fn i32x4_ge_s(lhs: V128, rhs: V128) -> V128 {
        order::at_most_s::<u32>(rhs, lhs)
    }

    /// All ones where the lane of `lhs` is at least that of `rhs`, both read signed, else all zeros.
    ///
    /// # Contract
    ///
    /// ```text
    /// ensures: result ≡ vector.ge_s w64 lhs rhs
    /// ```
    ///
    /// Definitions: [`ge_s`](crate::specs::lanewise::VectorTableSpecs#ge_s).
    #[must_use]
    #[inline]
    pub fn i64x2_ge_s(lhs: V128, rhs: V128) -> V128 {
        order::at_most_s::<u64>(rhs, lhs)
    }

    /// All ones where the lane of `lhs` is at least that of `rhs`, both read unsigned, else all zeros.
    ///
    /// # Contract
    ///
    /// ```text
    /// ensures: result ≡ vector.ge_u w8 lhs rhs
    /// ```
    ///
    /// Definitions: [`ge_u`](crate::specs::lanewise::VectorTableSpecs#ge_u).
    #[must_use]
    #[inline]
    pub fn i8x16_ge_u(lhs: V128, rhs: V128) -> V128 {
        order::at_most_u::<u8>(rhs, lhs)
    }

    /// All ones where the lane of `lhs` is at least that of `rhs`, both read unsigned, else all zeros.
    ///
    /// # Contract
    ///
    /// ```text
    /// ensures: result ≡ vector.ge_u w16 lhs rhs
    /// ```
    ///
    /// Definitions: [`ge_u`](crate::specs::lanewise::VectorTableSpecs#ge_u).
    #[must_use]
    #[inline]
    pub fn i16x8_ge_u(lhs: V128, rhs: V128) -> V128 {
        order::at_most_u::<u16>(rhs, lhs)
    }

    /// All ones where the lane of `lhs` is at least that of `rhs`, both read unsigned, else all zeros.
    ///
    /// # Contract
    ///
    /// ```text
    /// ensures: result ≡ vector.ge_u w32 lhs rhs
    /// ```
    ///
    /// Definitions: [`ge_u`](crate::specs::lanewise::VectorTableSpecs#ge_u).
    #[must_use]
    #[inline]
    pub fn i32x4_ge_u(lhs: V128, rhs: V128) -> V128 {
        order::at_most_u::<u32>(rhs, lhs)
    }

    // Vectors of one item, one lane of a vector, and bytes chosen by their indices, for which an array is
    // slower than `core::simd` (docs/SPEED.md).

    /// The item in every lane.
    ///
    /// # Contract
    ///
    /// ```text
    /// ensures: result ≡ vector.splat w8 item
    /// ```
    ///
    /// Definitions: [`splat`](crate::specs::lanewise::VectorTableSpecs#splat).
    #[must_use]
    #[inline]
    pub fn i8x16_splat(item: i8) -> V128 {
        on_vectors::splat::<I8x16>(item)
    }

    /// The item in every lane.
    ///
    /// # Contract
    ///
    /// ```text
    /// ensures: result ≡ vector.splat w16 item
    /// ```
    ///
    /// Definitions: [`splat`](crate::specs::lanewise::VectorTableSpecs#splat).
    #[must_use]
    #[inline]
    pub fn i16x8_splat(item: i16) -> V128 {
        // By a `core::simd` vector: LLVM puts eight plain lanes together by shifts.
        u16::vector_of(u16x8::splat(item.cast_unsigned()))
    }

    /// The item in every lane.
    ///
    /// # Contract
    ///
    /// ```text
    /// ensures: result ≡ vector.splat w32 item
    /// ```
    ///
    /// Definitions: [`splat`](crate::specs::lanewise::VectorTableSpecs#splat).
    #[must_use]
    #[inline]
    pub fn i32x4_splat(item: i32) -> V128 {
        on_vectors::splat::<I32x4>(item)
    }

    /// The item in every lane.
    ///
    /// # Contract
    ///
    /// ```text
    /// ensures: result ≡ vector.splat w64 item
    /// ```
    ///
    /// Definitions: [`splat`](crate::specs::lanewise::VectorTableSpecs#splat).
    #[must_use]
    #[inline]
    pub fn i64x2_splat(item: i64) -> V128 {
        // By lanes of 32 bits: of one word in two places LLVM makes two stores.
        let items = u32::lanes_of(V128::from_word_pair(item.cast_unsigned(), 0));
        from_bytes(items.shuffle(items, [0, 1, 0, 1]).to_le_bytes())
    }

    /// One lane, read signed.
    ///
    /// # Contract
    ///
    /// ```text
    /// ensures: result ≡ vector.extract_lane_s w8 v lane
    /// ```
    ///
    /// Definitions: [`extract_lane_s`](crate::specs::lanewise::VectorTableSpecs#extract_lane_s).
    #[must_use]
    #[inline]
    pub fn i8x16_extract_lane_s(v: V128, lane: ImmLaneIdx16) -> i32 {
        i32::from(u8::lane_at(v, lane).cast_signed())
    }

    /// One lane, read unsigned.
    ///
    /// # Contract
    ///
    /// ```text
    /// ensures: result ≡ vector.extract_lane_u w8 v lane
    /// ```
    ///
    /// Definitions: [`extract_lane_u`](crate::specs::lanewise::VectorTableSpecs#extract_lane_u).
    #[must_use]
    #[inline]
    pub fn i8x16_extract_lane_u(v: V128, lane: ImmLaneIdx16) -> u32 {
        u32::from(u8::lane_at(v, lane))
    }

    /// One lane, read signed.
    ///
    /// # Contract
    ///
    /// ```text
    /// ensures: result ≡ vector.extract_lane_s w16 v lane
    /// ```
    ///
    /// Definitions: [`extract_lane_s`](crate::specs::lanewise::VectorTableSpecs#extract_lane_s).
    #[must_use]
    #[inline]
    pub fn i16x8_extract_lane_s(v: V128, lane: ImmLaneIdx8) -> i32 {
        i32::from(u16::lane_at(v, lane).cast_signed())
    }

    /// One lane, read unsigned.
    ///
    /// # Contract
    ///
    /// ```text
    /// ensures: result ≡ vector.extract_lane_u w16 v lane
    /// ```
    ///
    /// Definitions: [`extract_lane_u`](crate::specs::lanewise::VectorTableSpecs#extract_lane_u).
    #[must_use]
    #[inline]
    pub fn i16x8_extract_lane_u(v: V128, lane: ImmLaneIdx8) -> u32 {
        u32::from(u16::lane_at(v, lane))
    }

    /// One lane, read signed.
    ///
    /// # Contract
    ///
    /// ```text
    /// ensures: result ≡ vector.extract_lane_s w32 v lane
    /// ```
    ///
    /// Definitions: [`extract_lane_s`](crate::specs::lanewise::VectorTableSpecs#extract_lane_s).
    #[must_use]
    #[inline]
    pub fn i32x4_extract_lane(v: V128, lane: ImmLaneIdx4) -> i32 {
        u32::lane_at(v, lane).cast_signed()
    }

    /// One lane, read signed.
    ///
    /// # Contract
    ///
    /// ```text
    /// ensures: result ≡ vector.extract_lane_s w64 v lane
    /// ```
    ///
    /// Definitions: [`extract_lane_s`](crate::specs::lanewise::VectorTableSpecs#extract_lane_s).
    #[must_use]
    #[inline]
    pub fn i64x2_extract_lane(v: V128, lane: ImmLaneIdx2) -> i64 {
        u64::lane_at(v, lane).cast_signed()
    }

    /// `v` with the item in one lane.
    ///
    /// # Contract
    ///
    /// ```text
    /// ensures: result ≡ vector.replace_lane w8 v lane item
    /// ```
    ///
    /// Definitions: [`replace_lane`](crate::specs::lanewise::VectorTableSpecs#replace_lane).
    #[must_use]
    #[inline]
    pub fn i8x16_replace_lane(v: V128, lane: ImmLaneIdx16, item: i8) -> V128 {
        u8::with_lane(v, lane, item.cast_unsigned())
    }

    /// `v` with the item in one lane.
    ///
    /// # Contract
    ///
    /// ```text
    /// ensures: result ≡ vector.replace_lane w16 v lane item
    /// ```
    ///
    /// Definitions: [`replace_lane`](crate::specs::lanewise::VectorTableSpecs#replace_lane).
    #[must_use]
    #[inline]
    pub fn i16x8_replace_lane(v: V128, lane: ImmLaneIdx8, item: i16) -> V128 {
        u16::with_lane(v, lane, item.cast_unsigned())
    }

    /// `v` with the item in one lane.
    ///
    /// # Contract
    ///
    /// ```text
    /// ensures: result ≡ vector.replace_lane w32 v lane item
    /// ```
    ///
    /// Definitions: [`replace_lane`](crate::specs::lanewise::VectorTableSpecs#replace_lane).
    #[must_use]
    #[inline]
    pub fn i32x4_replace_lane(v: V128, lane: ImmLaneIdx4, item: i32) -> V128 {
        u32::with_lane(v, lane, item.cast_unsigned())
    }

    /// `v` with the item in one lane.
    ///
    /// # Contract
    ///
    /// ```text
    /// ensures: result ≡ vector.replace_lane w64 v lane item
    /// ```
    ///
    /// Definitions: [`replace_lane`](crate::specs::lanewise::VectorTableSpecs#replace_lane).
    #[must_use]
    #[inline]
    pub fn i64x2_replace_lane(v: V128, lane: ImmLaneIdx2, item: i64) -> V128 {
        u64::with_lane(v, lane, item.cast_unsigned())
    }

    /// Lane i is lane `s[i]` of `a`, or lane `s[i] - 16` of `b` where `s[i]` is above 15.
    ///
    /// # Contract
    ///
    /// ```text
    /// ensures: result ≡ vector.shuffle a b s
    /// ```
    ///
    /// Definitions: [`shuffle`](crate::specs::lanewise::VectorTableSpecs#shuffle).
    #[must_use]
    #[inline(always)]
    pub fn i8x16_shuffle(a: V128, b: V128, s: [ImmLaneIdx32; 16]) -> V128 {
        let indices = bytes_of_indices(s);
        let low = picked(bytes_of(a), indices);
        let high = picked(bytes_of(b), indices);
        from_bytes(indices.simd_lt(u8x16::splat(16)).select(low, high))
    }

    /// Lane i is the lane of `a` at the index that lane i of `s` is, and 0 where that is above 15.
    ///
    /// # Contract
    ///
    /// ```text
    /// ensures: result ≡ vector.swizzle a s
    /// ```
    ///
    /// Definitions: [`swizzle`](crate::specs::lanewise::VectorTableSpecs#swizzle).
    #[must_use]
    #[inline]
    pub fn i8x16_swizzle(a: V128, s: V128) -> V128 {
        if AS_ARRAYS {
            let table = bytes_of(a).to_array();
            let chosen = |i: u8| if i < 16 { table[usize::from(i)] } else { 0 };
            return from_bytes(u8x16::from_array(bytes_of(s).to_array().map(chosen)));
        }
        // An index above 15 becomes 128 or more, at which the processor's instruction gives 0. LLVM
        // leaves the last mask out, since that instruction reads no other bits.
        let biased = bytes_of(s).simd_min(u8x16::splat(16)) + u8x16::splat(0x70);
        from_bytes(bytes_of(a).swizzle_dyn_within::<16>(biased & u8x16::splat(0x8f)))
    }

    // For `i8x16_shuffle`: the lanes of `table` at the low four bits of the indices.
    /// # Contract
    ///
    /// ```text
    /// ensures lanes: (i : ℕ) → i < 16
    ///     → slice_index result i ≡ slice_index table (slice_index indices i % 16)
    /// ```
    #[inline(always)]
    fn picked(table: u8x16, indices: u8x16) -> u8x16 {
        table.swizzle_dyn_within::<16>(indices & u8x16::splat(15))
    }

    // For `i8x16_shuffle`: the indices, a byte each.
    /// # Contract
    ///
    /// ```text
    /// ensures lanes: (i : ℕ) → i < 16 → slice_index result i ≡ slice_index indices i
    /// ensures inside: (i : ℕ) → i < 16 → slice_index result i < 32
    /// ```
    #[inline(always)]
    fn bytes_of_indices(indices: [ImmLaneIdx32; 16]) -> u8x16 {
        let mut bytes = [0; 16];
        for i in 0..16 {
            bytes[i] = u8::from(indices[i]);
        }
        u8x16::from_array(bytes)
    }
}
