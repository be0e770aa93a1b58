//! Lanes of 128-bit vectors: lane indices, lane types, and what works on a vector lane by lane.
mod index {
    //! Immediate lane indices: how one is made of a number, and of which numbers of lanes there are.

    use crate::proved::lanes::item::LaneInteger;

    /// A number that is no index of a lane.
    #[derive(Debug, PartialEq, Eq)]
    pub struct OutOfBoundsLaneIdx;

    /// The index of one of `N` lanes, from 0 to `N - 1`, lane 0 the lowest. Contracts see the number.
    ///
    /// `N` is 2, 4, 8, 16 or 32: no other number of lanes has an index. The WebAssembly core
    /// specification calls it `laneidx`. Upstream: `ImmLaneIdx`, whose `N` is a `u8`.
    ///
    /// # Model
    ///
    /// ```text
    /// Value = ℕ
    /// view = λ lane. lane.index
    /// invariant = λ lane. (lane.index < N) × IsLaneCount N
    /// inverse = λ number. record { index = number }
    /// ```
    ///
    /// Definitions: [`IsLaneCount`](crate::specs::lanes::VectorSpecs#IsLaneCount).
    ///
    /// `N` is a number.
    #[derive(Clone, Copy, Debug, PartialEq, Eq)]
    pub struct ImmLaneIdx<const N: usize> {
        index: u8,
    }

    /// The index of a lane of 64 bits.
    pub type ImmLaneIdx2 = ImmLaneIdx<2>;
    /// The index of a lane of 32 bits.
    pub type ImmLaneIdx4 = ImmLaneIdx<4>;
    /// The index of a lane of 16 bits.
    pub type ImmLaneIdx8 = ImmLaneIdx<8>;
    /// The index of a lane of 8 bits.
    pub type ImmLaneIdx16 = ImmLaneIdx<16>;
    /// The index of a lane of 8 bits of two vectors, the second counted on from 16.
    pub type ImmLaneIdx32 = ImmLaneIdx<32>;

    /// A type of lane indices of which there are as many as a vector, or two vectors, have lanes.
    ///
    /// # Contract
    ///
    /// ```text
    /// -- A vector, or two vectors of bytes, have `N` lanes.
    /// is_lane_count: IsLaneCount N
    /// ```
    ///
    /// Definitions: [`IsLaneCount`](crate::specs::lanes::VectorSpecs#IsLaneCount).
    ///
    /// `A` is any type. `N` is a number.
    #[allow(unnameable_types)]
    pub trait CountsLanes<const N: usize> {}

    impl CountsLanes<2> for ImmLaneIdx2 {}

    impl CountsLanes<4> for ImmLaneIdx4 {}

    impl CountsLanes<8> for ImmLaneIdx8 {}

    impl CountsLanes<16> for ImmLaneIdx16 {}

    impl CountsLanes<32> for ImmLaneIdx32 {}

    /// # Contract
    ///
    /// ```text
    /// from_gives = λ lane number. (number ≡ lane) × (number < N)
    /// ```
    ///
    /// `N` is a number.
    impl<const N: usize> From<ImmLaneIdx<N>> for u8 {
        #[inline]
        fn from(lane: ImmLaneIdx<N>) -> u8 {
            lane.index
        }
    }

    /// # Contract
    ///
    /// ```text
    /// try_from_gives = λ number lane. OkIff lane (number < N) number
    /// ```
    ///
    /// `N` is a number.
    impl<const N: usize> TryFrom<u8> for ImmLaneIdx<N>
    where
        ImmLaneIdx<N>: CountsLanes<N>,
    {
        type Error = OutOfBoundsLaneIdx;

        #[inline]
        fn try_from(index: u8) -> Result<Self, OutOfBoundsLaneIdx> {
            if usize::from(index) < N {
                Ok(ImmLaneIdx { index })
            } else {
                Err(OutOfBoundsLaneIdx)
            }
        }
    }

    /// An index of a lane, which is made of its number and gives it back. Each number below `COUNT`
    /// makes an index, no other.
    ///
    /// # Contract
    ///
    /// ```text
    /// -- How many lanes there are.
    /// COUNT: ℕ
    /// -- The number of an index.
    /// number: Self → ℕ
    /// -- An index gives its number, which is below `COUNT`.
    /// number_is: (lane : Self) (n : ℕ) → Self.converts lane n
    ///     → (n ≡ number lane) × (n < COUNT)
    /// -- A number that makes an index is that of the index, and below `COUNT`.
    /// taken: (n : ℕ) (lane : Self) → Self.try_from_gives n (Ok lane)
    ///     → (number lane ≡ n) × (n < COUNT)
    /// -- A number that makes no index is `COUNT` or more.
    /// refused: (n : ℕ) (error : _) → Self.try_from_gives n (Err error) → COUNT ≤ n
    /// ```
    ///
    /// `A` is any type.
    pub trait LaneIndex: Copy + Into<u8> + TryFrom<u8, Error = OutOfBoundsLaneIdx> {}

    /// # Contract
    ///
    /// ```text
    /// COUNT = N
    /// number = λ lane. lane
    /// ```
    ///
    /// `N` is a number.
    impl<const N: usize> LaneIndex for ImmLaneIdx<N> where ImmLaneIdx<N>: CountsLanes<N> {}

    /// An integer with the index of one of its lanes in a vector, which are 128 divided by its width.
    ///
    /// # Contract
    ///
    /// ```text
    /// -- As many lanes as there are indices make 128 bits.
    /// count: Self.LaneIdx.COUNT * bits Self.width ≡ 128
    /// ```
    pub trait IntoLaneIdx: LaneInteger {
        /// The index of a lane of these integers.
        type LaneIdx: LaneIndex;
    }
}
mod item {
    //! The integers that are lanes: how a lane is read as one, and a vector as an array of them.

    use crate::proved::lanes::simd_lane::{bytes_to_take_out, from_bytes};
    use crate::proved::raw::V128;
    use crate::rattle::simd::prelude::*;

    /// An integer of 8 to 64 bits, as which a lane of its width is read.
    ///
    /// # Contract
    ///
    /// ```text
    /// -- The width of a lane.
    /// width: Width
    /// -- The item as which a lane's number is read.
    /// read: ℕ → Self
    /// -- The number of an item.
    /// image: Self → ℕ
    /// -- The item is in its type's range.
    /// Fits: Self → Type 0
    /// ALL_ONES: Self
    /// ALL_ZEROS: Self
    /// -- The items are those of the lanes of the width.
    /// laws: ReadsLanes width read image Fits ALL_ONES ALL_ZEROS
    /// ```
    ///
    /// Definitions: [`lane`](crate::specs::lanes::VectorSpecs#lane), [`ReadsLanes`](crate::specs::lanes::VectorSpecs#ReadsLanes).
    pub trait LaneInteger: Copy {
        /// The item whose bits are all ones.
        const ALL_ONES: Self;

        /// The item whose bits are all zeros.
        const ALL_ZEROS: Self;
    }

    /// An integer of which `N` fill a vector.
    ///
    /// # Contract
    ///
    /// ```text
    /// -- `N` lanes make 128 bits.
    /// filled: N * bits Self.width ≡ 128
    /// ```
    ///
    /// `N` is a number.
    pub trait LaneItem<const N: usize>: LaneInteger {
        /// Fills `items` with the lanes of a vector, lane 0 first.
        ///
        /// # Contract
        ///
        /// ```text
        /// ensures: (i : ℕ) → i < N
        ///     → slice_index_or items.new i Self.ALL_ZEROS ≡ Self.read (lane Self.width vector i)
        /// ```
        ///
        /// Definitions: [`lane`](crate::specs::lanes::VectorSpecs#lane).
        ///
        /// `N` is a number.
        fn read_into(vector: V128, items: &mut [Self; N]);

        /// The vector with these lanes, lane 0 first.
        ///
        /// # Contract
        ///
        /// ```text
        /// ensures lanes: (i : ℕ) → i < N
        ///     → slice_index_or items.now i Self.ALL_ZEROS ≡ Self.read (lane Self.width result i)
        /// ensures in_range: result < 2 ^ 128
        /// ```
        ///
        /// Definitions: [`lane`](crate::specs::lanes::VectorSpecs#lane).
        ///
        /// `N` is a number.
        fn write_from(items: &[Self; N]) -> V128;
    }

    /// # Contract
    ///
    /// ```text
    /// ALL_ONES = 255
    /// ALL_ZEROS = 0
    /// width = w8
    /// read = unsigned
    /// image = λ item. item
    /// Fits = λ item. item < 2 ^ 8
    /// ```
    ///
    /// Definitions: [`unsigned`](crate::specs::lanes::VectorSpecs#unsigned).
    impl LaneInteger for u8 {
        const ALL_ONES: u8 = u8::MAX;

        const ALL_ZEROS: u8 = 0;
    }

    impl LaneItem<16> for u8 {
        #[inline(always)]
        fn read_into(vector: V128, items: &mut [u8; 16]) {
            *items = bytes_to_take_out(vector).to_array();
        }

        #[inline(always)]
        fn write_from(items: &[u8; 16]) -> V128 {
            from_bytes(u8x16::from_array(*items))
        }
    }

    /// # Contract
    ///
    /// ```text
    /// ALL_ONES = negsuc 0
    /// ALL_ZEROS = pos 0
    /// width = w8
    /// read = signed w8
    /// image = cast_unsigned w8
    /// Fits = FitsSigned w8
    /// ```
    impl LaneInteger for i8 {
        const ALL_ONES: i8 = -1;

        const ALL_ZEROS: i8 = 0;
    }

    impl LaneItem<16> for i8 {
        #[inline(always)]
        fn read_into(vector: V128, items: &mut [i8; 16]) {
            let mut bits = [0; 16];
            u8::read_into(vector, &mut bits);
            for i in 0..16 {
                items[i] = bits[i].cast_signed();
            }
        }

        #[inline(always)]
        fn write_from(items: &[i8; 16]) -> V128 {
            let mut bits = [0; 16];
            for i in 0..16 {
                bits[i] = items[i].cast_unsigned();
            }
            u8::write_from(&bits)
        }
    }

    /// # Contract
    ///
    /// ```text
    /// ALL_ONES = 65535
    /// ALL_ZEROS = 0
    /// width = w16
    /// read = unsigned
    /// image = λ item. item
    /// Fits = λ item. item < 2 ^ 16
    /// ```
    ///
    /// Definitions: [`unsigned`](crate::specs::lanes::VectorSpecs#unsigned).
    impl LaneInteger for u16 {
        const ALL_ONES: u16 = u16::MAX;

        const ALL_ZEROS: u16 = 0;
    }

    impl LaneItem<8> for u16 {
        #[inline(always)]
        fn read_into(vector: V128, items: &mut [u16; 8]) {
            *items = u16x8::from_le_bytes(bytes_to_take_out(vector)).to_array();
        }

        #[inline(always)]
        fn write_from(items: &[u16; 8]) -> V128 {
            from_bytes(u16x8::from_array(*items).to_le_bytes())
        }
    }

    /// # Contract
    ///
    /// ```text
    /// ALL_ONES = negsuc 0
    /// ALL_ZEROS = pos 0
    /// width = w16
    /// read = signed w16
    /// image = cast_unsigned w16
    /// Fits = FitsSigned w16
    /// ```
    impl LaneInteger for i16 {
        const ALL_ONES: i16 = -1;

        const ALL_ZEROS: i16 = 0;
    }

    impl LaneItem<8> for i16 {
        #[inline(always)]
        fn read_into(vector: V128, items: &mut [i16; 8]) {
            *items = i16x8::from_le_bytes(bytes_to_take_out(vector)).to_array();
        }

        #[inline(always)]
        fn write_from(items: &[i16; 8]) -> V128 {
            let mut bits = [0; 8];
            for i in 0..8 {
                bits[i] = items[i].cast_unsigned();
            }
            u16::write_from(&bits)
        }
    }

    /// # Contract
    ///
    /// ```text
    /// ALL_ONES = 4294967295
    /// ALL_ZEROS = 0
    /// width = w32
    /// read = unsigned
    /// image = λ item. item
    /// Fits = λ item. item < 2 ^ 32
    /// ```
    ///
    /// Definitions: [`unsigned`](crate::specs::lanes::VectorSpecs#unsigned).
    impl LaneInteger for u32 {
        const ALL_ONES: u32 = u32::MAX;

        const ALL_ZEROS: u32 = 0;
    }

    impl LaneItem<4> for u32 {
        #[inline(always)]
        fn read_into(vector: V128, items: &mut [u32; 4]) {
            *items = u32x4::from_le_bytes(bytes_to_take_out(vector)).to_array();
        }

        #[inline(always)]
        fn write_from(items: &[u32; 4]) -> V128 {
            from_bytes(u32x4::from_array(*items).to_le_bytes())
        }
    }

    /// # Contract
    ///
    /// ```text
    /// ALL_ONES = negsuc 0
    /// ALL_ZEROS = pos 0
    /// width = w32
    /// read = signed w32
    /// image = cast_unsigned w32
    /// Fits = FitsSigned w32
    /// ```
    impl LaneInteger for i32 {
        const ALL_ONES: i32 = -1;

        const ALL_ZEROS: i32 = 0;
    }

    impl LaneItem<4> for i32 {
        #[inline(always)]
        fn read_into(vector: V128, items: &mut [i32; 4]) {
            *items = i32x4::from_le_bytes(bytes_to_take_out(vector)).to_array();
        }

        #[inline(always)]
        fn write_from(items: &[i32; 4]) -> V128 {
            let mut bits = [0; 4];
            for i in 0..4 {
                bits[i] = items[i].cast_unsigned();
            }
            u32::write_from(&bits)
        }
    }

    /// # Contract
    ///
    /// ```text
    /// ALL_ONES = 18446744073709551615
    /// ALL_ZEROS = 0
    /// width = w64
    /// read = unsigned
    /// image = λ item. item
    /// Fits = λ item. item < 2 ^ 64
    /// ```
    ///
    /// Definitions: [`unsigned`](crate::specs::lanes::VectorSpecs#unsigned).
    impl LaneInteger for u64 {
        const ALL_ONES: u64 = u64::MAX;

        const ALL_ZEROS: u64 = 0;
    }

    impl LaneItem<2> for u64 {
        #[inline(always)]
        fn read_into(vector: V128, items: &mut [u64; 2]) {
            *items = u64x2::from_le_bytes(bytes_to_take_out(vector)).to_array();
        }

        #[inline(always)]
        fn write_from(items: &[u64; 2]) -> V128 {
            from_bytes(u64x2::from_array(*items).to_le_bytes())
        }
    }

    /// # Contract
    ///
    /// ```text
    /// ALL_ONES = negsuc 0
    /// ALL_ZEROS = pos 0
    /// width = w64
    /// read = signed w64
    /// image = cast_unsigned w64
    /// Fits = FitsSigned w64
    /// ```
    impl LaneInteger for i64 {
        const ALL_ONES: i64 = -1;

        const ALL_ZEROS: i64 = 0;
    }

    impl LaneItem<2> for i64 {
        #[inline(always)]
        fn read_into(vector: V128, items: &mut [i64; 2]) {
            *items = i64x2::from_le_bytes(bytes_to_take_out(vector)).to_array();
        }

        #[inline(always)]
        fn write_from(items: &[i64; 2]) -> V128 {
            let mut bits = [0; 2];
            for i in 0..2 {
                bits[i] = items[i].cast_unsigned();
            }
            u64::write_from(&bits)
        }
    }
}
mod lanes {
    //! Vectors as lanes of one item, and the lane types; lanes made of narrower lanes, and of wider
    //! ones, and numbers clamped to the range of a narrower lane.

    use crate::proved::lanes::index::{
        CountsLanes, ImmLaneIdx, ImmLaneIdx2, ImmLaneIdx4, ImmLaneIdx8, ImmLaneIdx16, IntoLaneIdx,
        LaneIndex,
    };
    use crate::proved::lanes::item::{LaneInteger, LaneItem};
    use crate::proved::raw::V128;

    /// A vector as lanes of one item, lane 0 the lowest. Upstream: `simd::Lanes`.
    ///
    /// # Contract
    ///
    /// ```text
    /// -- The item of the lane at an index.
    /// item: Self → ℕ → Self.Item
    /// LANES: ℕ
    /// ALL_ONES: Self.Item
    /// ALL_ZEROS: Self.Item
    /// -- The lanes make 128 bits, there are as many indices, and all ones and zeros are the item's.
    /// laws: AreWholeLanes Self.Item.width LANES Self.LaneIdx.COUNT ALL_ONES ALL_ZEROS
    ///     Self.Item.ALL_ONES Self.Item.ALL_ZEROS
    /// ```
    ///
    /// Definitions: [`lane`](crate::specs::lanes::VectorSpecs#lane), [`AreWholeLanes`](crate::specs::lanes::VectorSpecs#AreWholeLanes).
    pub trait Lanes: Copy {
        /// The integer of one lane.
        type Item: LaneInteger;

        /// The index of a lane.
        type LaneIdx: LaneIndex;

        /// The number of lanes.
        const LANES: usize;

        /// The item whose bits are all ones.
        const ALL_ONES: Self::Item;

        /// The item whose bits are all zeros.
        const ALL_ZEROS: Self::Item;

        /// The lanes of a vector.
        ///
        /// # Contract
        ///
        /// ```text
        /// ensures lanes: (i : ℕ) → i < LANES
        ///     → item result i ≡ Self.Item.read (lane Self.Item.width vector i)
        /// ```
        ///
        /// Definitions: [`lane`](crate::specs::lanes::VectorSpecs#lane).
        fn from_v128(vector: V128) -> Self;

        /// The vector with these lanes.
        ///
        /// # Contract
        ///
        /// ```text
        /// ensures lanes: (i : ℕ) → i < LANES
        ///     → item self i ≡ Self.Item.read (lane Self.Item.width result i)
        /// ensures in_range: result < 2 ^ 128
        /// ```
        ///
        /// Definitions: [`lane`](crate::specs::lanes::VectorSpecs#lane).
        fn into_v128(self) -> V128;

        /// The same item in all lanes.
        ///
        /// # Contract
        ///
        /// ```text
        /// ensures lanes: (i : ℕ) → i < LANES → item result i ≡ value
        /// ```
        fn splat(value: Self::Item) -> Self;

        /// The item of one lane.
        ///
        /// # Contract
        ///
        /// ```text
        /// ensures item: result ≡ item self (Self.LaneIdx.number lane)
        /// ensures inside: Self.LaneIdx.number lane < LANES
        /// ```
        ///
        /// Definitions: [`lane`](crate::specs::lanes::VectorSpecs#lane).
        fn extract_lane(self, lane: Self::LaneIdx) -> Self::Item;

        /// The lanes with `value` in one of them.
        ///
        /// # Contract
        ///
        /// ```text
        /// ensures lanes: (i : ℕ) → i < LANES
        ///     → item result i ≡ (if i == Self.LaneIdx.number lane then value else item self i)
        /// ```
        ///
        /// Definitions: [`lane`](crate::specs::lanes::VectorSpecs#lane).
        fn replace_lane(self, lane: Self::LaneIdx, value: Self::Item) -> Self;

        /// What `f` gives for each lane.
        ///
        /// # Contract
        ///
        /// ```text
        /// requires callable: F.IsAlwaysCallable f
        /// ensures lanes: (i : ℕ) → i < LANES → F.post f (item self i) (item result i)
        /// ```
        ///
        /// `F` is the type of the closure.
        fn lanewise_unary<F: Fn(Self::Item) -> Self::Item>(self, f: F) -> Self;

        /// What `f` gives for the lanes of two vectors at each index.
        ///
        /// # Contract
        ///
        /// ```text
        /// requires callable: F.IsAlwaysCallable f
        /// ensures lanes: (i : ℕ) → i < LANES
        ///     → F.post f (item self i) (item other i) (item result i)
        /// ```
        ///
        /// `F` is the type of the closure.
        fn lanewise_binary<F: Fn(Self::Item, Self::Item) -> Self::Item>(
            self,
            other: Self,
            f: F,
        ) -> Self;

        /// What `f` gives for the lanes of three vectors at each index.
        ///
        /// # Contract
        ///
        /// ```text
        /// requires callable: F.IsAlwaysCallable f
        /// ensures lanes: (i : ℕ) → i < LANES
        ///     → F.post f (item self i) (item b i) (item c i) (item result i)
        /// ```
        ///
        /// `F` is the type of the closure.
        fn lanewise_ternary<F: Fn(Self::Item, Self::Item, Self::Item) -> Self::Item>(
            self,
            b: Self,
            c: Self,
            f: F,
        ) -> Self;

        /// `ALL_ONES` in the lanes where `f` holds, `ALL_ZEROS` in the others.
        ///
        /// # Contract
        ///
        /// ```text
        /// requires callable: F.IsAlwaysCallable f
        /// ensures lanes: (i : ℕ) → i < LANES → (holds : Bool) × F.post f (item self i)
        ///     (item other i) holds × (item result i ≡ (if holds then ALL_ONES else ALL_ZEROS))
        /// ```
        ///
        /// `F` is the type of the closure.
        fn lanewise_comparison<F: Fn(Self::Item, Self::Item) -> bool>(
            self,
            other: Self,
            f: F,
        ) -> Self;

        /// Turns `acc` into `f(i, lane i, acc)` for each lane index from 0 upwards.
        ///
        /// # Contract
        ///
        /// ```text
        /// requires callable: F.IsAlwaysCallable f
        /// ensures steps: ReducesTo
        ///     (λ i before after. F.post f i (item self i) before after) LANES acc result
        /// ```
        ///
        /// Definitions: [`ReducesTo`](crate::specs::lanes::VectorSpecs#ReducesTo).
        ///
        /// `F` is the type of the closure.
        fn lanewise_reduce<T, F: Fn(u8, Self::Item, T) -> T>(self, acc: T, f: F) -> T;
    }

    /// The `N` lanes of a vector, which each lane type names for its item.
    #[derive(Clone, Copy)]
    pub struct LaneArray<T, const N: usize> {
        pub(crate) items: [T; N],
    }

    // The item of a comparison of lanes: all ones where the test holds, else all zeros.
    /// # Contract
    ///
    /// ```text
    /// ensures: result ≡ (if holds then T.ALL_ONES else T.ALL_ZEROS)
    /// ```
    ///
    /// `T` is a type with the trait `LaneInteger`.
    #[inline(always)]
    fn ones_if<T: LaneInteger>(holds: bool) -> T {
        if holds { T::ALL_ONES } else { T::ALL_ZEROS }
    }

    /// # Contract
    ///
    /// ```text
    /// item = λ lanes i. slice_index_or lanes.items i T.ALL_ZEROS
    /// LANES = N
    /// ALL_ONES = T.ALL_ONES
    /// ALL_ZEROS = T.ALL_ZEROS
    /// ```
    ///
    /// `N` is a number. `T` is a type with the trait `LaneItem`.
    impl<T: LaneItem<N>, const N: usize> Lanes for LaneArray<T, N>
    where
        ImmLaneIdx<N>: CountsLanes<N>,
    {
        type Item = T;

        type LaneIdx = ImmLaneIdx<N>;

        const LANES: usize = N;

        const ALL_ONES: T = T::ALL_ONES;

        const ALL_ZEROS: T = T::ALL_ZEROS;

        #[inline(always)]
        fn from_v128(vector: V128) -> Self {
            let mut items = [T::ALL_ZEROS; N];
            T::read_into(vector, &mut items);
            LaneArray { items }
        }

        #[inline(always)]
        fn into_v128(self) -> V128 {
            T::write_from(&self.items)
        }

        #[inline(always)]
        fn splat(value: T) -> Self {
            LaneArray { items: [value; N] }
        }

        #[inline(always)]
        fn extract_lane(self, lane: ImmLaneIdx<N>) -> T {
            self.items[usize::from(u8::from(lane))]
        }

        #[inline(always)]
        fn replace_lane(self, lane: ImmLaneIdx<N>, value: T) -> Self {
            let mut items = self.items;
            items[usize::from(u8::from(lane))] = value;
            LaneArray { items }
        }

        #[inline(always)]
        fn lanewise_unary<F: Fn(T) -> T>(self, f: F) -> Self {
            let mut items = self.items;
            for i in 0..N {
                items[i] = f(self.items[i]);
            }
            LaneArray { items }
        }

        #[inline(always)]
        fn lanewise_binary<F: Fn(T, T) -> T>(self, other: Self, f: F) -> Self {
            let mut items = self.items;
            for i in 0..N {
                items[i] = f(self.items[i], other.items[i]);
            }
            LaneArray { items }
        }

        #[inline(always)]
        fn lanewise_ternary<F: Fn(T, T, T) -> T>(self, b: Self, c: Self, f: F) -> Self {
            let mut items = self.items;
            for i in 0..N {
                items[i] = f(self.items[i], b.items[i], c.items[i]);
            }
            LaneArray { items }
        }

        #[inline(always)]
        fn lanewise_comparison<F: Fn(T, T) -> bool>(self, other: Self, f: F) -> Self {
            let mut items = self.items;
            for i in 0..N {
                items[i] = ones_if::<T>(f(self.items[i], other.items[i]));
            }
            LaneArray { items }
        }

        #[inline(always)]
        fn lanewise_reduce<A, F: Fn(u8, T, A) -> A>(self, acc: A, f: F) -> A {
            let mut acc = acc;
            for i in 0..N {
                acc = f(i as u8, self.items[i], acc);
            }
            acc
        }
    }

    /// Two signed lanes of 64 bits.
    pub type I64x2 = LaneArray<i64, 2>;
    /// Two unsigned lanes of 64 bits.
    pub type U64x2 = LaneArray<u64, 2>;
    /// Four signed lanes of 32 bits.
    pub type I32x4 = LaneArray<i32, 4>;
    /// Four unsigned lanes of 32 bits.
    pub type U32x4 = LaneArray<u32, 4>;
    /// Eight signed lanes of 16 bits.
    pub type I16x8 = LaneArray<i16, 8>;
    /// Eight unsigned lanes of 16 bits.
    pub type U16x8 = LaneArray<u16, 8>;
    /// Sixteen signed lanes of 8 bits.
    pub type I8x16 = LaneArray<i8, 16>;
    /// Sixteen unsigned lanes of 8 bits.
    pub type U8x16 = LaneArray<u8, 16>;

    /// An integer that is the item of lanes. Upstream: `simd::IntoLanes`.
    pub trait IntoLanes: Sized {
        /// The lanes of a vector that are such integers.
        type Lanes: Lanes<Item = Self, LaneIdx = Self::LaneIdx>;

        /// The index of one of these lanes.
        type LaneIdx: LaneIndex;
    }

    // The index of a lane of an integer is that of its lanes.
    impl<T: LaneInteger + IntoLanes> IntoLaneIdx for T {
        type LaneIdx = <T as IntoLanes>::LaneIdx;
    }

    impl IntoLanes for i64 {
        type Lanes = I64x2;

        type LaneIdx = ImmLaneIdx2;
    }

    impl IntoLanes for u64 {
        type Lanes = U64x2;

        type LaneIdx = ImmLaneIdx2;
    }

    impl IntoLanes for i32 {
        type Lanes = I32x4;

        type LaneIdx = ImmLaneIdx4;
    }

    impl IntoLanes for u32 {
        type Lanes = U32x4;

        type LaneIdx = ImmLaneIdx4;
    }

    impl IntoLanes for i16 {
        type Lanes = I16x8;

        type LaneIdx = ImmLaneIdx8;
    }

    impl IntoLanes for u16 {
        type Lanes = U16x8;

        type LaneIdx = ImmLaneIdx8;
    }

    impl IntoLanes for i8 {
        type Lanes = I8x16;

        type LaneIdx = ImmLaneIdx16;
    }

    impl IntoLanes for u8 {
        type Lanes = U8x16;

        type LaneIdx = ImmLaneIdx16;
    }

    /// An integer of which twice as many fill a vector as of `U`.
    ///
    /// # Contract
    ///
    /// ```text
    /// -- There are twice as many as of `U`.
    /// twice: N ≡ 2 * M
    /// ```
    ///
    /// `M` is a number. `N` is a number. `U` is a type with the trait `LaneItem`.
    pub trait Narrower<U: LaneItem<M>, const N: usize, const M: usize>: LaneItem<N> {}

    impl Narrower<u16, 16, 8> for u8 {}

    impl Narrower<i16, 16, 8> for i8 {}

    impl Narrower<u32, 8, 4> for u16 {}

    impl Narrower<i32, 8, 4> for i16 {}

    impl Narrower<u64, 4, 2> for u32 {}

    impl Narrower<i64, 4, 2> for i32 {}

    /// Lanes that are made of wider ones, of two vectors. Upstream: `simd::FromWide`.
    ///
    /// # Contract
    ///
    /// ```text
    /// -- There are twice as many lanes as wide ones.
    /// twice: Self.LANES ≡ 2 * W.LANES
    /// ```
    ///
    /// `W` is a type with the trait `Lanes`.
    pub trait FromWide<W: Lanes>: Lanes {
        /// Lanes made of each lane of `low`, then of each lane of `high`.
        ///
        /// # Contract
        ///
        /// ```text
        /// requires callable: F.IsAlwaysCallable f
        /// ensures low: (i : ℕ) → i < W.LANES → F.post f (W.item low i) (Self.item result i)
        /// ensures high: (i : ℕ) → i < W.LANES
        ///     → F.post f (W.item high i) (Self.item result (W.LANES + i))
        /// ```
        ///
        /// `F` is the type of the closure. `W` is a type with the trait `Lanes`.
        fn from_low_high<F: Fn(W::Item) -> Self::Item>(low: W, high: W, f: F) -> Self;
    }

    impl<T: Narrower<U, N, M>, U: LaneItem<M>, const N: usize, const M: usize>
        FromWide<LaneArray<U, M>> for LaneArray<T, N>
    where
        ImmLaneIdx<N>: CountsLanes<N>,
        ImmLaneIdx<M>: CountsLanes<M>,
    {
        #[inline(always)]
        fn from_low_high<F: Fn(U) -> T>(low: LaneArray<U, M>, high: LaneArray<U, M>, f: F) -> Self {
            let mut items = [T::ALL_ZEROS; N];
            for i in 0..M {
                items[i] = f(low.items[i]);
                items[M + i] = f(high.items[i]);
            }
            LaneArray { items }
        }
    }

    /// Lanes made of narrower ones, of which there are twice as many. Upstream: `simd::FromNarrow`.
    pub trait FromNarrow<S: FromWide<Self>>: Lanes {
        /// Lane i is made of the narrow lanes 2i and 2i + 1.
        ///
        /// # Contract
        ///
        /// ```text
        /// requires callable: F.IsAlwaysCallable f
        /// ensures lanes: (i : ℕ) → i < Self.LANES
        ///     → F.post f (S.item narrow (2 * i)) (S.item narrow (2 * i + 1)) (Self.item result i)
        /// ```
        ///
        /// `F` is the type of the closure. `S` is a type with the trait `FromWide`.
        fn pairwise_unary<F: Fn(S::Item, S::Item) -> Self::Item>(narrow: S, f: F) -> Self;

        /// Lane i is made of the narrow lanes 2i and 2i + 1 of both operands.
        ///
        /// # Contract
        ///
        /// ```text
        /// requires callable: F.IsAlwaysCallable f
        /// ensures lanes: (i : ℕ) → i < Self.LANES
        ///     → F.post f (S.item a (2 * i) ∷ S.item a (2 * i + 1) ∷ [])
        ///     (S.item b (2 * i) ∷ S.item b (2 * i + 1) ∷ []) (Self.item result i)
        /// ```
        ///
        /// `F` is the type of the closure. `S` is a type with the trait `FromWide`.
        fn pairwise_binary<F: Fn([S::Item; 2], [S::Item; 2]) -> Self::Item>(
            a: S,
            b: S,
            f: F,
        ) -> Self;

        /// Lane i is made of the narrow lane i.
        ///
        /// # Contract
        ///
        /// ```text
        /// requires callable: F.IsAlwaysCallable f
        /// ensures lanes: (i : ℕ) → i < Self.LANES
        ///     → F.post f (S.item narrow i) (Self.item result i)
        /// ```
        ///
        /// `F` is the type of the closure. `S` is a type with the trait `FromWide`.
        fn low_unary<F: Fn(S::Item) -> Self::Item>(narrow: S, f: F) -> Self;

        /// Lane i is made of the narrow lane i of the upper half.
        ///
        /// # Contract
        ///
        /// ```text
        /// requires callable: F.IsAlwaysCallable f
        /// ensures lanes: (i : ℕ) → i < Self.LANES
        ///     → F.post f (S.item narrow (Self.LANES + i)) (Self.item result i)
        /// ```
        ///
        /// `F` is the type of the closure. `S` is a type with the trait `FromWide`.
        fn high_unary<F: Fn(S::Item) -> Self::Item>(narrow: S, f: F) -> Self;

        /// Lane i is made of the narrow lanes i of both operands.
        ///
        /// # Contract
        ///
        /// ```text
        /// requires callable: F.IsAlwaysCallable f
        /// ensures lanes: (i : ℕ) → i < Self.LANES
        ///     → F.post f (S.item a i) (S.item b i) (Self.item result i)
        /// ```
        ///
        /// `F` is the type of the closure. `S` is a type with the trait `FromWide`.
        fn low_binary<F: Fn(S::Item, S::Item) -> Self::Item>(a: S, b: S, f: F) -> Self;

        /// Lane i is made of the narrow lanes i of the upper halves of both operands.
        ///
        /// # Contract
        ///
        /// ```text
        /// requires callable: F.IsAlwaysCallable f
        /// ensures lanes: (i : ℕ) → i < Self.LANES → F.post f
        ///     (S.item a (Self.LANES + i)) (S.item b (Self.LANES + i)) (Self.item result i)
        /// ```
        ///
        /// `F` is the type of the closure. `S` is a type with the trait `FromWide`.
        fn high_binary<F: Fn(S::Item, S::Item) -> Self::Item>(a: S, b: S, f: F) -> Self;
    }

    impl<T: Narrower<U, N, M>, U: LaneItem<M>, const N: usize, const M: usize>
        FromNarrow<LaneArray<T, N>> for LaneArray<U, M>
    where
        ImmLaneIdx<N>: CountsLanes<N>,
        ImmLaneIdx<M>: CountsLanes<M>,
    {
        #[inline(always)]
        fn pairwise_unary<F: Fn(T, T) -> U>(narrow: LaneArray<T, N>, f: F) -> Self {
            let mut items = [U::ALL_ZEROS; M];
            for i in 0..M {
                items[i] = f(narrow.items[2 * i], narrow.items[2 * i + 1]);
            }
            LaneArray { items }
        }

        #[inline(always)]
        fn pairwise_binary<F: Fn([T; 2], [T; 2]) -> U>(
            a: LaneArray<T, N>,
            b: LaneArray<T, N>,
            f: F,
        ) -> Self {
            let mut items = [U::ALL_ZEROS; M];
            for i in 0..M {
                items[i] = f(
                    [a.items[2 * i], a.items[2 * i + 1]],
                    [b.items[2 * i], b.items[2 * i + 1]],
                );
            }
            LaneArray { items }
        }

        #[inline(always)]
        fn low_unary<F: Fn(T) -> U>(narrow: LaneArray<T, N>, f: F) -> Self {
            let mut items = [U::ALL_ZEROS; M];
            for i in 0..M {
                items[i] = f(narrow.items[i]);
            }
            LaneArray { items }
        }

        #[inline(always)]
        fn high_unary<F: Fn(T) -> U>(narrow: LaneArray<T, N>, f: F) -> Self {
            let mut items = [U::ALL_ZEROS; M];
            for i in 0..M {
                items[i] = f(narrow.items[M + i]);
            }
            LaneArray { items }
        }

        #[inline(always)]
        fn low_binary<F: Fn(T, T) -> U>(a: LaneArray<T, N>, b: LaneArray<T, N>, f: F) -> Self {
            let mut items = [U::ALL_ZEROS; M];
            for i in 0..M {
                items[i] = f(a.items[i], b.items[i]);
            }
            LaneArray { items }
        }

        #[inline(always)]
        fn high_binary<F: Fn(T, T) -> U>(a: LaneArray<T, N>, b: LaneArray<T, N>, f: F) -> Self {
            let mut items = [U::ALL_ZEROS; M];
            for i in 0..M {
                items[i] = f(a.items[M + i], b.items[M + i]);
            }
            LaneArray { items }
        }
    }

    /// The number clamped to the signed range of 8 bits.
    ///
    /// Of a clamped sum or difference LLVM makes a saturating one, which it doesn't of `saturating_add`
    /// and `saturating_sub`.
    ///
    /// # Contract
    ///
    /// ```text
    /// ensures: result ≡ clamp_signed w8 number
    /// ```
    #[must_use]
    #[inline]
    pub fn clamped_i8(number: i16) -> i8 {
        number.clamp(-128, 127) as i8
    }

    /// The number clamped to the signed range of 16 bits, as `clamped_i8` does at 8.
    ///
    /// # Contract
    ///
    /// ```text
    /// ensures: result ≡ clamp_signed w16 number
    /// ```
    #[must_use]
    #[inline]
    pub fn clamped_i16(number: i32) -> i16 {
        number.clamp(-32768, 32767) as i16
    }
}
#[cfg(any(doc, test))]
pub mod laws {
    //! Laws on the lanes of vectors and of words.

    use crate::proved::lanes::lanes::Lanes;
    use crate::proved::lanes::words::{word_add, word_differ, word_sub};

    /// The lanes of the vector of some lanes are these lanes.
    ///
    /// # Contract
    ///
    /// ```text
    /// ensures same: (i : ℕ) → i < L.LANES → L.item result i ≡ L.item lanes i
    /// ```
    ///
    /// `L` is a type with the trait `Lanes`.
    #[must_use]
    #[inline]
    pub fn lanes_there_and_back<L: Lanes>(lanes: L) -> L {
        L::from_v128(lanes.into_v128())
    }

    /// Lane i of a vector made of lanes is the number of lane i, wrapped to the width of the lanes.
    ///
    /// # Contract
    ///
    /// ```text
    /// ensures made: (w : Width) (f : ℕ → ℕ) (i : ℕ) → i < 128 / bits w
    ///     → lane w (from_lanes w f) i ≡ f i % 2 ^ bits w
    /// ensures splat: (w : Width) (n i : ℕ) → i < 128 / bits w → n < 2 ^ bits w
    ///     → lane w (splat_of w n) i ≡ n
    /// ensures with_lane: (w : Width) (v k n i : ℕ) → i < 128 / bits w → n < 2 ^ bits w
    ///     → lane w (with_lane w v k n) i ≡ (if i == k then n else lane w v i)
    /// ```
    ///
    /// Definitions: [`lane`](crate::specs::lanes::VectorSpecs#lane), [`from_lanes`](crate::specs::lanes::VectorSpecs#from_lanes), [`splat_of`](crate::specs::lanes::VectorSpecs#splat_of), [`with_lane`](crate::specs::lanes::VectorSpecs#with_lane).
    #[inline]
    pub fn lanes_of_made_vector() {}

    /// Lane i of a vector that a row of lanes names is the row of the operands' lanes i, wrapped to the
    /// width of the lanes; `read` is how the operands' lanes are read.
    ///
    /// # Contract
    ///
    /// ```text
    /// ensures unary: (read : ℕ → L.Item) (row : L.Item → ℕ) (a i : ℕ) → i < L.LANES
    ///     → lane L.Item.width (unary_of_lanes L.Item.width read row a) i
    ///     ≡ row (read (lane L.Item.width a i)) % 2 ^ bits L.Item.width
    /// ensures binary: (read : ℕ → L.Item) (row : L.Item → L.Item → ℕ) (a b i : ℕ)
    ///     → i < L.LANES → lane L.Item.width (binary_of_lanes L.Item.width read row a b) i ≡ row
    ///     (read (lane L.Item.width a i)) (read (lane L.Item.width b i)) % 2 ^ bits L.Item.width
    /// ensures comparison: (read : ℕ → L.Item) (test : L.Item → L.Item → Bool) (a b i : ℕ)
    ///     → i < L.LANES → lane L.Item.width (comparison_of_lanes L.Item.width read test a b) i
    ///     ≡ (if test (read (lane L.Item.width a i))
    ///     (read (lane L.Item.width b i)) then 2 ^ bits L.Item.width - 1 else 0)
    /// ```
    ///
    /// Definitions: [`lane`](crate::specs::lanes::VectorSpecs#lane), [`unary_of_lanes`](crate::specs::lanes::VectorSpecs#unary_of_lanes), [`binary_of_lanes`](crate::specs::lanes::VectorSpecs#binary_of_lanes), [`comparison_of_lanes`](crate::specs::lanes::VectorSpecs#comparison_of_lanes).
    ///
    /// `L` is a type with the trait `Lanes`.
    #[inline]
    pub fn lanes_of_rows<L: Lanes>() {}

    /// A word is made of its lanes, whatever widths it is divided into.
    ///
    /// # Contract
    ///
    /// ```text
    /// ensures: (widths : List ℕ) → sum widths ≡ 64
    ///     → word ≡ word_of_lanes (λ start width. field start width word) 0 widths
    /// ```
    ///
    /// Definitions: [`word_of_lanes`](crate::specs::lanes::WordsSpecs#word_of_lanes), [`field`](crate::specs::lanes::WordsSpecs#field).
    #[inline]
    pub fn word_is_made_of_lanes(word: u64) {}

    /// The sums of the lanes of two words are the word of `word_add`.
    ///
    /// # Contract
    ///
    /// ```text
    /// ensures: (widths : List ℕ) → AreLanes tops 0 widths → result ≡ word_of_lanes
    ///     (λ start width. (field start width a + field start width b) % 2 ^ width) 0 widths
    /// ```
    ///
    /// Definitions: [`AreLanes`](crate::specs::lanes::WordsSpecs#AreLanes), [`word_of_lanes`](crate::specs::lanes::WordsSpecs#word_of_lanes), [`field`](crate::specs::lanes::WordsSpecs#field).
    #[must_use]
    #[inline]
    pub fn sums_of_lanes(a: u64, b: u64, tops: u64) -> u64 {
        word_add(a, b, tops)
    }

    /// The differences of the lanes of two words are the word of `word_sub`.
    ///
    /// # Contract
    ///
    /// ```text
    /// ensures: (widths : List ℕ) → AreLanes tops 0 widths → result ≡ word_of_lanes (λ start width.
    ///     (field start width a + (2 ^ width - field start width b)) % 2 ^ width) 0 widths
    /// ```
    ///
    /// Definitions: [`AreLanes`](crate::specs::lanes::WordsSpecs#AreLanes), [`word_of_lanes`](crate::specs::lanes::WordsSpecs#word_of_lanes), [`field`](crate::specs::lanes::WordsSpecs#field).
    #[must_use]
    #[inline]
    pub fn differences_of_lanes(a: u64, b: u64, tops: u64) -> u64 {
        word_sub(a, b, tops)
    }

    /// The highest bits of the lanes in which two words differ are the word of `word_differ`.
    ///
    /// # Contract
    ///
    /// ```text
    /// ensures: (widths : List ℕ) → AreLanes tops 0 widths → result ≡ word_of_lanes (λ start width.
    ///     if field start width a == field start width b then 0 else 2 ^ (width - 1)) 0 widths
    /// ```
    ///
    /// Definitions: [`AreLanes`](crate::specs::lanes::WordsSpecs#AreLanes), [`word_of_lanes`](crate::specs::lanes::WordsSpecs#word_of_lanes), [`field`](crate::specs::lanes::WordsSpecs#field).
    #[must_use]
    #[inline]
    pub fn tops_of_different_lanes(a: u64, b: u64, tops: u64) -> u64 {
        word_differ(a, b, tops)
    }
}
pub mod on_vectors {
    //! Work on whole vectors lane by lane: each gives the vector of whatever row its closure computes.

    use crate::proved::lanes::lanes::Lanes;
    use crate::proved::raw::V128;

    /// Applies `f` to the lanes of a vector.
    ///
    /// # Contract
    ///
    /// ```text
    /// requires callable: F.IsAlwaysCallable f
    /// ensures each: (i : ℕ) → i < L.LANES → F.post f
    ///     (L.Item.read (lane L.Item.width a i)) (L.Item.read (lane L.Item.width result i))
    /// ensures lanes: (row : L.Item → ℕ) → ComputesLane L.Item.Fits L.Item.image
    ///     (λ x z. F.post f x z) row → result ≡ unary_of_lanes L.Item.width L.Item.read row a
    /// ```
    ///
    /// Definitions: [`lane`](crate::specs::lanes::VectorSpecs#lane), [`ComputesLane`](crate::specs::lanes::VectorSpecs#ComputesLane), [`unary_of_lanes`](crate::specs::lanes::VectorSpecs#unary_of_lanes).
    ///
    /// `F` is the type of the closure. `L` is a type with the trait `Lanes`.
    #[inline(always)]
    #[must_use]
    pub fn unary<L: Lanes, F: Fn(L::Item) -> L::Item>(a: V128, f: F) -> V128 {
        L::from_v128(a).lanewise_unary(f).into_v128()
    }

    /// Applies `f` to the lanes of two vectors.
    ///
    /// # Contract
    ///
    /// ```text
    /// requires callable: F.IsAlwaysCallable f
    /// ensures each: (i : ℕ) → i < L.LANES → F.post f (L.Item.read (lane L.Item.width a i))
    ///     (L.Item.read (lane L.Item.width b i)) (L.Item.read (lane L.Item.width result i))
    /// ensures lanes: (row : L.Item → L.Item → ℕ) → ComputesLaneOfTwo L.Item.Fits L.Item.image
    ///     (λ x y z. F.post f x y z) row → result ≡ binary_of_lanes L.Item.width L.Item.read row a b
    /// ```
    ///
    /// Definitions: [`lane`](crate::specs::lanes::VectorSpecs#lane), [`ComputesLaneOfTwo`](crate::specs::lanes::VectorSpecs#ComputesLaneOfTwo), [`binary_of_lanes`](crate::specs::lanes::VectorSpecs#binary_of_lanes).
    ///
    /// `F` is the type of the closure. `L` is a type with the trait `Lanes`.
    #[inline(always)]
    #[must_use]
    pub fn binary<L: Lanes, F: Fn(L::Item, L::Item) -> L::Item>(a: V128, b: V128, f: F) -> V128 {
        L::from_v128(a)
            .lanewise_binary(L::from_v128(b), f)
            .into_v128()
    }

    /// The vector with `value` in each lane.
    ///
    /// # Contract
    ///
    /// ```text
    /// ensures lanes: (number : ℕ) → (L.Item.Fits value → L.Item.image value ≡ number)
    ///     → result ≡ splat_of L.Item.width number
    /// ensures image: result ≡ splat_of L.Item.width (L.Item.image value)
    /// ```
    ///
    /// Definitions: [`splat_of`](crate::specs::lanes::VectorSpecs#splat_of).
    ///
    /// `L` is a type with the trait `Lanes`.
    #[inline(always)]
    #[must_use]
    pub fn splat<L: Lanes>(value: L::Item) -> V128 {
        L::splat(value).into_v128()
    }
}
mod simd_lane {
    //! The lanes of a vector as a vector of `core::simd`, its bytes and its words too, and one of the
    //! lanes at an index that is known only when the program runs.

    use crate::proved::lanes::index::{
        ImmLaneIdx2, ImmLaneIdx4, ImmLaneIdx8, ImmLaneIdx16, IntoLaneIdx,
    };
    use crate::proved::lanes::item::{LaneInteger, LaneItem};
    use crate::proved::raw::V128;
    use crate::rattle::simd::prelude::*;

    /// An unsigned integer whose lanes are a vector of `core::simd`.
    ///
    /// # Contract
    ///
    /// ```text
    /// -- The number of the lane at an index.
    /// at: Self.Vector → ℕ → ℕ
    /// ```
    ///
    /// Definitions: [`lane`](crate::specs::lanes::VectorSpecs#lane).
    pub trait SimdLane: LaneInteger {
        /// The lanes that fill a vector.
        type Vector: Copy;

        /// The lanes of a vector.
        ///
        /// # Contract
        ///
        /// ```text
        /// ensures lanes: (i : ℕ) → i < lane_count Self.width
        ///     → at result i ≡ lane Self.width vector i
        /// ```
        ///
        /// Definitions: [`lane_count`](crate::specs::lanes::VectorSpecs#lane_count), [`lane`](crate::specs::lanes::VectorSpecs#lane).
        fn lanes_of(vector: V128) -> Self::Vector;

        /// The vector with these lanes.
        ///
        /// # Contract
        ///
        /// ```text
        /// ensures lanes: (i : ℕ) → i < lane_count Self.width
        ///     → lane Self.width result i ≡ at items i
        /// ensures in_range: result < 2 ^ 128
        /// ```
        ///
        /// Definitions: [`lane_count`](crate::specs::lanes::VectorSpecs#lane_count), [`lane`](crate::specs::lanes::VectorSpecs#lane).
        fn vector_of(items: Self::Vector) -> V128;

        /// The lanes moved by half their range: unsigned, they stand in the order of the signed ones.
        ///
        /// # Contract
        ///
        /// ```text
        /// ensures lanes: (i : ℕ) → i < lane_count Self.width
        ///     → at result i ≡ (at items i + 2 ^ (bits Self.width - 1)) % 2 ^ bits Self.width
        /// ```
        ///
        /// Definitions: [`lane_count`](crate::specs::lanes::VectorSpecs#lane_count).
        fn biased(items: Self::Vector) -> Self::Vector;

        /// The lanes of `chosen` where that of `a` is less than that of `b`, else those of `other`.
        ///
        /// # Contract
        ///
        /// ```text
        /// ensures lanes: (i : ℕ) → i < lane_count Self.width
        ///     → at result i ≡ (if nat_lt (at a i) (at b i) then at chosen i else at other i)
        /// ```
        ///
        /// Definitions: [`lane_count`](crate::specs::lanes::VectorSpecs#lane_count).
        fn choose_if_less(
            a: Self::Vector,
            b: Self::Vector,
            chosen: Self::Vector,
            other: Self::Vector,
        ) -> Self::Vector;
    }

    /// # Contract
    ///
    /// ```text
    /// at = λ items i. slice_index items i
    /// ```
    impl SimdLane for u8 {
        type Vector = u8x16;

        #[inline(always)]
        fn lanes_of(vector: V128) -> u8x16 {
            bytes_of(vector)
        }

        #[inline(always)]
        fn vector_of(items: u8x16) -> V128 {
            from_bytes(items)
        }

        #[inline(always)]
        fn biased(items: u8x16) -> u8x16 {
            items + u8x16::splat(0x80)
        }

        #[inline(always)]
        fn choose_if_less(a: u8x16, b: u8x16, chosen: u8x16, other: u8x16) -> u8x16 {
            a.simd_lt(b).select(chosen, other)
        }
    }

    /// # Contract
    ///
    /// ```text
    /// at = λ items i. slice_index items i
    /// ```
    impl SimdLane for u16 {
        type Vector = u16x8;

        #[inline(always)]
        fn lanes_of(vector: V128) -> u16x8 {
            u16x8::from_le_bytes(bytes_of(vector))
        }

        #[inline(always)]
        fn vector_of(items: u16x8) -> V128 {
            u16::write_from(&items.to_array())
        }

        #[inline(always)]
        fn biased(items: u16x8) -> u16x8 {
            items + u16x8::splat(0x8000)
        }

        #[inline(always)]
        fn choose_if_less(a: u16x8, b: u16x8, chosen: u16x8, other: u16x8) -> u16x8 {
            a.simd_lt(b).select(chosen, other)
        }
    }

    /// # Contract
    ///
    /// ```text
    /// at = λ items i. slice_index items i
    /// ```
    impl SimdLane for u32 {
        type Vector = u32x4;

        #[inline(always)]
        fn lanes_of(vector: V128) -> u32x4 {
            u32x4::from_le_bytes(bytes_of(vector))
        }

        #[inline(always)]
        fn vector_of(items: u32x4) -> V128 {
            u32::write_from(&items.to_array())
        }

        #[inline(always)]
        fn biased(items: u32x4) -> u32x4 {
            items + u32x4::splat(0x8000_0000)
        }

        #[inline(always)]
        fn choose_if_less(a: u32x4, b: u32x4, chosen: u32x4, other: u32x4) -> u32x4 {
            a.simd_lt(b).select(chosen, other)
        }
    }

    /// # Contract
    ///
    /// ```text
    /// at = λ items i. slice_index items i
    /// ```
    impl SimdLane for u64 {
        type Vector = u64x2;

        #[inline(always)]
        fn lanes_of(vector: V128) -> u64x2 {
            u64x2::from_le_bytes(bytes_of(vector))
        }

        #[inline(always)]
        fn vector_of(items: u64x2) -> V128 {
            u64::write_from(&items.to_array())
        }

        #[inline(always)]
        fn biased(items: u64x2) -> u64x2 {
            items + u64x2::splat(0x8000_0000_0000_0000)
        }

        #[inline(always)]
        fn choose_if_less(a: u64x2, b: u64x2, chosen: u64x2, other: u64x2) -> u64x2 {
            a.simd_lt(b).select(chosen, other)
        }
    }

    /// The bytes of a vector, the lowest first.
    ///
    /// # Contract
    ///
    /// ```text
    /// ensures number: number_l (2 ^ 8) result ≡ vector
    /// ensures lanes: (i : ℕ) → i < 16 → slice_index_or result i 0 ≡ lane w8 vector i
    /// ```
    ///
    /// Definitions: [`lane`](crate::specs::lanes::VectorSpecs#lane).
    #[inline(always)]
    #[must_use]
    pub fn bytes_of(vector: V128) -> u8x16 {
        let (low, high) = vector.words();
        u64x2::from_array([low, high]).to_le_bytes()
    }

    /// The bytes of a vector, the lowest first, to be taken out one by one or in lanes.
    ///
    /// The words come together by a shuffle. Of a vector made of them LLVM takes the lowest lane of
    /// each word out of the word once more, and inserts it.
    ///
    /// # Contract
    ///
    /// ```text
    /// ensures number: number_l (2 ^ 8) result ≡ vector
    /// ensures lanes: (i : ℕ) → i < 16 → slice_index_or result i 0 ≡ lane w8 vector i
    /// ```
    ///
    /// Definitions: [`lane`](crate::specs::lanes::VectorSpecs#lane).
    #[inline(always)]
    pub(crate) fn bytes_to_take_out(vector: V128) -> u8x16 {
        let (low, high) = vector.words();
        let lower = u64x2::from_array([0, low]);
        let upper = u64x2::from_array([high, 0]);
        lower.shuffle(upper, [1, 2]).to_le_bytes()
    }

    /// The vector of these bytes, the lowest first.
    ///
    /// # Contract
    ///
    /// ```text
    /// ensures number: result ≡ number_l (2 ^ 8) bytes
    /// ensures lanes: (i : ℕ) → i < 16 → lane w8 result i ≡ slice_index_or bytes i 0
    /// ensures in_range: result < 2 ^ 128
    /// ```
    ///
    /// Definitions: [`lane`](crate::specs::lanes::VectorSpecs#lane).
    #[inline(always)]
    #[must_use]
    pub fn from_bytes(bytes: u8x16) -> V128 {
        let [low, high] = u64x2::from_le_bytes(bytes).to_array();
        V128::from_word_pair(low, high)
    }

    /// The words of a vector, the lower one first, as one value of the processor's.
    ///
    /// # Contract
    ///
    /// ```text
    /// ensures: result ≡ vector % 2 ^ 64 ∷ vector / 2 ^ 64 ∷ []
    /// ```
    #[inline(always)]
    #[must_use]
    pub fn u64x2_of(vector: V128) -> u64x2 {
        let (low, high) = vector.words();
        u64x2::from_array([low, high])
    }

    /// The vector of these words, the lower one first.
    ///
    /// # Contract
    ///
    /// ```text
    /// ensures: (low high : ℕ) → words ≡ low ∷ high ∷ [] → result ≡ vector_of low high
    /// ```
    ///
    /// Definitions: [`vector_of`](crate::specs::raw::RawValSpecs#vector_of).
    #[inline(always)]
    #[must_use]
    pub fn from_u64x2(words: u64x2) -> V128 {
        let [low, high] = words.to_array();
        V128::from_word_pair(low, high)
    }

    // One lane, at an index that is known only when the program runs.
    //
    // An array of the lanes would go through memory (docs/SPEED.md): the bytes of a lane are picked by
    // their indices, and a lane is put where the number of a lane is the index. What is made of the
    // index comes from tables, since what a general register makes has to go to a vector register.

    /// An unsigned integer as which one lane of a vector is taken out or put in, at an index that is
    /// known only when the program runs. Core specification: `extract_lane`, `replace_lane`.
    pub trait VariableLane: IntoLaneIdx {
        /// The lane at an index.
        ///
        /// # Contract
        ///
        /// ```text
        /// ensures: Self.image result ≡ lane Self.width vector (Self.LaneIdx.number at)
        /// ```
        ///
        /// Definitions: [`lane`](crate::specs::lanes::VectorSpecs#lane).
        fn lane_at(vector: V128, at: Self::LaneIdx) -> Self;

        /// The vector with `item` in the lane at an index.
        ///
        /// # Contract
        ///
        /// ```text
        /// ensures: result
        ///     ≡ vectors.with_lane Self.width vector (Self.LaneIdx.number at) (Self.image item)
        /// ```
        ///
        /// Definitions: [`with_lane`](crate::specs::lanes::VectorSpecs#with_lane).
        fn with_lane(vector: V128, at: Self::LaneIdx, item: Self) -> V128;
    }

    impl VariableLane for u8 {
        #[inline(always)]
        fn lane_at(vector: V128, at: ImmLaneIdx16) -> u8 {
            let bytes = bytes_at(vector, u32::from(u8::from(at)));
            let [word, ..] = u32x4::from_le_bytes(bytes).to_array();
            (word & 0xff) as u8
        }

        #[inline(always)]
        fn with_lane(vector: V128, at: ImmLaneIdx16, item: u8) -> V128 {
            if AS_ARRAYS {
                let mut items = u8::lanes_of(vector).to_array();
                items[usize::from(u8::from(at))] = item;
                return u8::vector_of(u8x16::from_array(items));
            }
            let numbers = u8x16::from_array([0, 1, 2, 3, 4, 5, 6, 7, 8, 9, 10, 11, 12, 13, 14, 15]);
            let here = numbers.simd_eq(u8x16::splat(u8::from(at)));
            u8::vector_of(here.select(u8x16::splat(item), u8::lanes_of(vector)))
        }
    }

    impl VariableLane for u16 {
        #[inline(always)]
        fn lane_at(vector: V128, at: ImmLaneIdx8) -> u16 {
            if AS_ARRAYS {
                return u16::lanes_of(vector).to_array()[usize::from(u8::from(at))];
            }
            let bytes = bytes_at(vector, BYTES_OF_U16[usize::from(u8::from(at))]);
            let [item, ..] = u16x8::from_le_bytes(bytes).to_array();
            item
        }

        #[inline(always)]
        fn with_lane(vector: V128, at: ImmLaneIdx8, item: u16) -> V128 {
            let numbers = u16x8::from_array([0, 1, 2, 3, 4, 5, 6, 7]);
            let places = u64x2::splat(IN_EACH_U16[usize::from(u8::from(at))]).to_le_bytes();
            let here = numbers.simd_eq(u16x8::from_le_bytes(places));
            u16::vector_of(here.select(u16x8::splat(item), u16::lanes_of(vector)))
        }
    }

    impl VariableLane for u32 {
        #[inline(always)]
        fn lane_at(vector: V128, at: ImmLaneIdx4) -> u32 {
            if AS_ARRAYS {
                return u32::lanes_of(vector).to_array()[usize::from(u8::from(at))];
            }
            let bytes = bytes_at(vector, BYTES_OF_U32[usize::from(u8::from(at))]);
            let [item, ..] = u32x4::from_le_bytes(bytes).to_array();
            item
        }

        #[inline(always)]
        fn with_lane(vector: V128, at: ImmLaneIdx4, item: u32) -> V128 {
            let numbers = u32x4::from_array([0, 1, 2, 3]);
            let here = numbers.simd_eq(u32x4::splat(u32::from(u8::from(at))));
            u32::vector_of(here.select(u32x4::splat(item), u32::lanes_of(vector)))
        }
    }

    impl VariableLane for u64 {
        #[inline(always)]
        fn lane_at(vector: V128, at: ImmLaneIdx2) -> u64 {
            let (low, high) = vector.words();
            if u8::from(at) == 0 { low } else { high }
        }

        #[inline(always)]
        fn with_lane(vector: V128, at: ImmLaneIdx2, item: u64) -> V128 {
            let numbers = u64x2::from_array([0, 1]);
            let here = numbers.simd_eq(u64x2::splat(u64::from(u8::from(at))));
            u64::vector_of(here.select(u64x2::splat(item), u64::lanes_of(vector)))
        }
    }

    // The bytes of a vector at the indices that are the bytes of a word.
    /// # Contract
    ///
    /// ```text
    /// requires inside: (i : ℕ) → i < 16 → lane w8 indices i < 16
    /// ensures lanes: (i : ℕ) → i < 16 → slice_index result i ≡ lane w8 vector (lane w8 indices i)
    /// ```
    ///
    /// Definitions: [`lane`](crate::specs::lanes::VectorSpecs#lane).
    #[inline(always)]
    fn bytes_at(vector: V128, indices: u32) -> u8x16 {
        let places = u32x4::from_array([indices, 0, 0, 0]).to_le_bytes();
        bytes_of(vector).swizzle_dyn_within::<16>(places)
    }

    // The indices of the two bytes of a lane of 16 bits.
    const BYTES_OF_U16: [u32; 8] = [
        0x0100, 0x0302, 0x0504, 0x0706, 0x0908, 0x0b0a, 0x0d0c, 0x0f0e,
    ];

    // The indices of the four bytes of a lane of 32 bits.
    const BYTES_OF_U32: [u32; 4] = [0x0302_0100, 0x0706_0504, 0x0b0a_0908, 0x0f0e_0d0c];

    // The index of a lane of 16 bits, in each lane.
    const IN_EACH_U16: [u64; 8] = [
        0x0000_0000_0000_0000,
        0x0001_0001_0001_0001,
        0x0002_0002_0002_0002,
        0x0003_0003_0003_0003,
        0x0004_0004_0004_0004,
        0x0005_0005_0005_0005,
        0x0006_0006_0006_0006,
        0x0007_0007_0007_0007,
    ];
}
pub mod words {
    //! Sums, differences and inequality of the lanes of a word, without taking the lanes out, and the
    //! integers as which lanes of a word are read.
    //!
    //! `tops` has the highest bit of each lane, and no other; the widths may be unequal. No carry or
    //! borrow leaves a lane: at each lane's highest bit the operands are made to leave room. A sum or a
    //! difference needs no top at the end of the word, where a carry or borrow is dropped.

    use crate::proved::lanes::item::LaneInteger;

    /// The sums of the lanes of `a` and `b`, each modulo 2 to the power of its width.
    ///
    /// # Contract
    ///
    /// ```text
    /// ensures lanes: (start width : ℕ) → IsLane tops start width
    ///     → field start width result ≡ (field start width a + field start width b) % 2 ^ width
    /// ensures last: (start width : ℕ) → IsLastLane tops start width
    ///     → field start width result ≡ (field start width a + field start width b) % 2 ^ width
    /// ```
    ///
    /// Definitions: [`IsLane`](crate::specs::lanes::WordsSpecs#IsLane), [`field`](crate::specs::lanes::WordsSpecs#field), [`IsLastLane`](crate::specs::lanes::WordsSpecs#IsLastLane).
    #[must_use]
    #[inline]
    pub fn word_add(a: u64, b: u64, tops: u64) -> u64 {
        let rest = !tops;
        (a & rest).wrapping_add(b & rest) ^ ((a ^ b) & tops)
    }

    /// The differences of the lanes of `a` and `b`, each modulo 2 to the power of its width.
    ///
    /// # Contract
    ///
    /// ```text
    /// ensures lanes: (start width : ℕ) → IsLane tops start width → field start width result
    ///     ≡ (field start width a + (2 ^ width - field start width b)) % 2 ^ width
    /// ensures last: (start width : ℕ) → IsLastLane tops start width → field start width result
    ///     ≡ (field start width a + (2 ^ width - field start width b)) % 2 ^ width
    /// ```
    ///
    /// Definitions: [`IsLane`](crate::specs::lanes::WordsSpecs#IsLane), [`field`](crate::specs::lanes::WordsSpecs#field), [`IsLastLane`](crate::specs::lanes::WordsSpecs#IsLastLane).
    #[must_use]
    #[inline]
    pub fn word_sub(a: u64, b: u64, tops: u64) -> u64 {
        (a | tops).wrapping_sub(b & !tops) ^ ((a ^ !b) & tops)
    }

    /// The highest bits of the lanes in which `a` and `b` differ.
    ///
    /// # Contract
    ///
    /// ```text
    /// ensures lanes: (start width : ℕ) → IsLane tops start width → field start width result
    ///     ≡ (if field start width a == field start width b then 0 else 2 ^ (width - 1))
    /// ensures tops_alone: bit_and result tops ≡ result
    /// ```
    ///
    /// Definitions: [`IsLane`](crate::specs::lanes::WordsSpecs#IsLane), [`field`](crate::specs::lanes::WordsSpecs#field).
    #[must_use]
    #[inline]
    pub fn word_differ(a: u64, b: u64, tops: u64) -> u64 {
        let rest = !tops;
        let different = a ^ b;
        ((different & rest).wrapping_add(rest) | different) & tops
    }

    /// An unsigned integer as which the lanes of a word are read, of which a word has a whole number.
    ///
    /// # Contract
    ///
    /// ```text
    /// BITS: ℕ
    /// TOPS: ℕ
    /// ONES: ℕ
    /// -- These are the numbers of the lanes of the width.
    /// laws: IsWordLane Self.width BITS TOPS ONES
    /// ```
    ///
    /// Definitions: [`IsWordLane`](crate::specs::lanes::WordsSpecs#IsWordLane).
    pub trait WordLane: LaneInteger {
        /// The width of a lane.
        const BITS: u32;

        /// The highest bit of each lane of a word.
        const TOPS: u64;

        /// The lowest bit of each lane of a word.
        const ONES: u64;
    }

    /// # Contract
    ///
    /// ```text
    /// BITS = 8
    /// TOPS = 0x8080_8080_8080_8080
    /// ONES = 0x0101_0101_0101_0101
    /// ```
    impl WordLane for u8 {
        const BITS: u32 = 8;

        const TOPS: u64 = 0x8080_8080_8080_8080;

        const ONES: u64 = 0x0101_0101_0101_0101;
    }

    /// # Contract
    ///
    /// ```text
    /// BITS = 16
    /// TOPS = 0x8000_8000_8000_8000
    /// ONES = 0x0001_0001_0001_0001
    /// ```
    impl WordLane for u16 {
        const BITS: u32 = 16;

        const TOPS: u64 = 0x8000_8000_8000_8000;

        const ONES: u64 = 0x0001_0001_0001_0001;
    }

    /// # Contract
    ///
    /// ```text
    /// BITS = 32
    /// TOPS = 0x8000_0000_8000_0000
    /// ONES = 0x0000_0001_0000_0001
    /// ```
    impl WordLane for u32 {
        const BITS: u32 = 32;

        const TOPS: u64 = 0x8000_0000_8000_0000;

        const ONES: u64 = 0x0000_0001_0000_0001;
    }

    /// # Contract
    ///
    /// ```text
    /// BITS = 64
    /// TOPS = 0x8000_0000_0000_0000
    /// ONES = 1
    /// ```
    impl WordLane for u64 {
        const BITS: u32 = 64;

        const TOPS: u64 = 0x8000_0000_0000_0000;

        const ONES: u64 = 1;
    }
}

pub use index::{
    ImmLaneIdx, ImmLaneIdx2, ImmLaneIdx4, ImmLaneIdx8, ImmLaneIdx16, ImmLaneIdx32, IntoLaneIdx,
    LaneIndex, OutOfBoundsLaneIdx,
};
pub use item::{LaneInteger, LaneItem};
pub use lanes::{
    FromNarrow, FromWide, I8x16, I16x8, I32x4, I64x2, IntoLanes, LaneArray, Lanes, Narrower, U8x16,
    U16x8, U32x4, U64x2, clamped_i8, clamped_i16,
};
pub use simd_lane::{SimdLane, VariableLane, bytes_of, from_bytes, from_u64x2, u64x2_of};
pub use words::WordLane;
