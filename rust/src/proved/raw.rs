//! Raw values: what a register, local or global variable of WebAssembly holds, whatever its type.
mod convert {
    //! Conversions (`From`) into and from raw values, of integers, `bool`, floats and vectors.

    use crate::proved::raw::float::{F32, F64};
    use crate::proved::raw::raw::{OneWord, RawVal, ReadAs, WriteAs};
    use crate::proved::raw::vector::V128;

    /// # Contract
    ///
    /// ```text
    /// from_gives = λ raw value. value ≡ signed_in w8 raw
    /// ```
    ///
    /// Definitions: [`signed_in`](crate::specs::raw::RawValSpecs#signed_in).
    impl From<RawVal> for i8 {
        #[inline]
        fn from(raw: RawVal) -> i8 {
            raw.read_as()
        }
    }

    /// # Contract
    ///
    /// ```text
    /// from_gives = λ raw value. value ≡ signed_in w16 raw
    /// ```
    ///
    /// Definitions: [`signed_in`](crate::specs::raw::RawValSpecs#signed_in).
    impl From<RawVal> for i16 {
        #[inline]
        fn from(raw: RawVal) -> i16 {
            raw.read_as()
        }
    }

    /// # Contract
    ///
    /// ```text
    /// from_gives = λ raw value. value ≡ signed_in w32 raw
    /// ```
    ///
    /// Definitions: [`signed_in`](crate::specs::raw::RawValSpecs#signed_in).
    impl From<RawVal> for i32 {
        #[inline]
        fn from(raw: RawVal) -> i32 {
            raw.read_as()
        }
    }

    /// # Contract
    ///
    /// ```text
    /// from_gives = λ raw value. value ≡ signed_in w64 raw
    /// ```
    ///
    /// Definitions: [`signed_in`](crate::specs::raw::RawValSpecs#signed_in).
    impl From<RawVal> for i64 {
        #[inline]
        fn from(raw: RawVal) -> i64 {
            raw.read_as()
        }
    }

    /// # Contract
    ///
    /// ```text
    /// from_gives = λ raw value. value ≡ unsigned_in w8 raw
    /// ```
    ///
    /// Definitions: [`unsigned_in`](crate::specs::raw::RawValSpecs#unsigned_in).
    impl From<RawVal> for u8 {
        #[inline]
        fn from(raw: RawVal) -> u8 {
            raw.read_as()
        }
    }

    /// # Contract
    ///
    /// ```text
    /// from_gives = λ raw value. value ≡ unsigned_in w16 raw
    /// ```
    ///
    /// Definitions: [`unsigned_in`](crate::specs::raw::RawValSpecs#unsigned_in).
    impl From<RawVal> for u16 {
        #[inline]
        fn from(raw: RawVal) -> u16 {
            raw.read_as()
        }
    }

    /// # Contract
    ///
    /// ```text
    /// from_gives = λ raw value. value ≡ unsigned_in w32 raw
    /// ```
    ///
    /// Definitions: [`unsigned_in`](crate::specs::raw::RawValSpecs#unsigned_in).
    impl From<RawVal> for u32 {
        #[inline]
        fn from(raw: RawVal) -> u32 {
            raw.read_as()
        }
    }

    /// # Contract
    ///
    /// ```text
    /// from_gives = λ raw value. value ≡ unsigned_in w64 raw
    /// ```
    ///
    /// Definitions: [`unsigned_in`](crate::specs::raw::RawValSpecs#unsigned_in).
    impl From<RawVal> for u64 {
        #[inline]
        fn from(raw: RawVal) -> u64 {
            raw.read_as()
        }
    }

    /// # Contract
    ///
    /// ```text
    /// from_gives = λ raw value. value ≡ bool_in raw
    /// ```
    ///
    /// Definitions: [`bool_in`](crate::specs::raw::RawValSpecs#bool_in).
    impl From<RawVal> for bool {
        #[inline]
        fn from(raw: RawVal) -> bool {
            raw.read_as()
        }
    }

    /// # Contract
    ///
    /// ```text
    /// from_gives = λ raw value. value ≡ unsigned_in w32 raw
    /// ```
    ///
    /// Definitions: [`unsigned_in`](crate::specs::raw::RawValSpecs#unsigned_in).
    impl From<RawVal> for F32 {
        #[inline]
        fn from(raw: RawVal) -> F32 {
            F32::from_bits(raw.read_as())
        }
    }

    /// # Contract
    ///
    /// ```text
    /// from_gives = λ raw value. value ≡ unsigned_in w64 raw
    /// ```
    ///
    /// Definitions: [`unsigned_in`](crate::specs::raw::RawValSpecs#unsigned_in).
    impl From<RawVal> for F64 {
        #[inline]
        fn from(raw: RawVal) -> F64 {
            F64::from_bits(raw.read_as())
        }
    }

    /// # Contract
    ///
    /// ```text
    /// from_gives = λ raw value. value ≡ vector_in raw
    /// ```
    ///
    /// Definitions: [`vector_in`](crate::specs::raw::RawValSpecs#vector_in).
    impl From<RawVal> for V128 {
        #[inline]
        fn from(raw: RawVal) -> V128 {
            raw.read_as()
        }
    }

    // The words of the vector, which give it back.
    /// # Contract
    ///
    /// ```text
    /// from_gives = λ value raw. (raw ≡ raw_of_vector value) × (vector_in raw ≡ value)
    /// ```
    ///
    /// Definitions: [`raw_of_vector`](crate::specs::raw::RawValSpecs#raw_of_vector), [`vector_in`](crate::specs::raw::RawValSpecs#vector_in).
    impl From<V128> for RawVal {
        #[inline]
        fn from(value: V128) -> RawVal {
            let (lo, hi) = value.words();
            RawVal { lo, hi }
        }
    }

    /// An integer of up to 64 bits, one that isn't 0 (`NonZero`), a `bool` or a `RawRef`: its unsigned
    /// image at its own width in the low word, and 0 in the high word.
    ///
    /// # Contract
    ///
    /// ```text
    /// from_gives = λ value raw. raw ≡ ⟦<RawVal as WriteAs<T>>⟧.written (raw_of 0) value
    /// ```
    ///
    /// Definitions: [`raw_of`](crate::specs::raw::RawValSpecs#raw_of).
    ///
    /// `T` is a type with the trait `OneWord`.
    impl<T: OneWord> From<T> for RawVal
    where
        RawVal: WriteAs<T>,
    {
        #[inline]
        fn from(value: T) -> RawVal {
            let mut raw = RawVal::from_bits64(0);
            raw.write_as(value);
            raw
        }
    }

    /// # Contract
    ///
    /// ```text
    /// from_gives = λ value raw. raw ≡ raw_of value
    /// ```
    ///
    /// Definitions: [`raw_of`](crate::specs::raw::RawValSpecs#raw_of).
    impl From<F32> for RawVal {
        #[inline]
        fn from(value: F32) -> RawVal {
            RawVal::from(value.to_bits())
        }
    }

    /// # Contract
    ///
    /// ```text
    /// from_gives = λ value raw. raw ≡ raw_of value
    /// ```
    ///
    /// Definitions: [`raw_of`](crate::specs::raw::RawValSpecs#raw_of).
    impl From<F64> for RawVal {
        #[inline]
        fn from(value: F64) -> RawVal {
            RawVal::from(value.to_bits())
        }
    }
}
mod float {
    //! Floats of 32 and 64 bits, of which only the bits are known.

    /// The 32 bits of a float, which contracts see as a number. Upstream: `wasmi_core::F32`.
    ///
    /// # Model
    ///
    /// ```text
    /// Value = ℕ
    /// view = λ float. float.bits
    /// inverse = λ bits. record { bits = bits }
    /// ```
    #[derive(Clone, Copy)]
    pub struct F32 {
        bits: u32,
    }

    impl F32 {
        /// The float with these bits.
        ///
        /// # Contract
        ///
        /// ```text
        /// ensures: result ≡ bits
        /// ```
        #[must_use]
        #[inline]
        pub fn from_bits(bits: u32) -> F32 {
            F32 { bits }
        }

        /// The bits of the float.
        ///
        /// # Contract
        ///
        /// ```text
        /// ensures: result ≡ self
        /// ```
        #[must_use]
        #[inline]
        pub fn to_bits(self) -> u32 {
            self.bits
        }
    }

    /// The 64 bits of a float, which contracts see as a number. Upstream: `wasmi_core::F64`.
    ///
    /// # Model
    ///
    /// ```text
    /// Value = ℕ
    /// view = λ float. float.bits
    /// inverse = λ bits. record { bits = bits }
    /// ```
    #[derive(Clone, Copy)]
    pub struct F64 {
        bits: u64,
    }

    impl F64 {
        /// The float with these bits.
        ///
        /// # Contract
        ///
        /// ```text
        /// ensures: result ≡ bits
        /// ```
        #[must_use]
        #[inline]
        pub fn from_bits(bits: u64) -> F64 {
            F64 { bits }
        }

        /// The bits of the float.
        ///
        /// # Contract
        ///
        /// ```text
        /// ensures: result ≡ self
        /// ```
        #[must_use]
        #[inline]
        pub fn to_bits(self) -> u64 {
            self.bits
        }
    }
}
#[cfg(any(doc, test))]
pub mod laws {
    //! The law of a write and the read that follows it.

    use crate::proved::raw::raw::{ReadAs, ReadBack, WriteAs};

    /// Whatever a value is written to, reading gives it back.
    ///
    /// # Contract
    ///
    /// ```text
    /// ensures: result ≡ T.read_back value
    /// ```
    ///
    /// `T` is a type with the trait `ReadBack`.
    #[inline]
    pub fn written_value_is_read<T: ReadBack, P: WriteAs<T>>(place: &mut P, value: T) -> T::Read {
        place.write_as(value);
        place.read_as()
    }
}
mod number {
    //! The integer types, as contracts see them: the trait that has the numbers of each.

    mod sealed {
        /// # Contract
        ///
        /// ```text
        /// -- The numbers of the type.
        /// numbers: NumberType Self
        /// ```
        ///
        /// Definitions: [`NumberType`](crate::specs::raw::NumberSpecs#NumberType).
        #[allow(unnameable_types)]
        pub trait Sealed {}

        impl Sealed for i8 {}

        impl Sealed for i16 {}

        impl Sealed for i32 {}

        impl Sealed for i64 {}

        impl Sealed for i128 {}

        impl Sealed for u8 {}

        impl Sealed for u16 {}

        impl Sealed for u32 {}

        impl Sealed for u64 {}

        impl Sealed for u128 {}
    }

    /// An integer type: its width, its sign, and the numbers that its values stand for.
    ///
    /// The crate has no such trait. It has no function: contracts of conversions, loads, stores and
    /// shifts name its members. The ten integer types from 8 to 128 bits have it, and no other can.
    ///
    /// # Contract
    ///
    /// ```text
    /// -- How many bits the type has.
    /// width: Width
    /// -- Whether its numbers are signed.
    /// is_signed: Bool
    /// -- The number of a value.
    /// number: Self → ℤ
    /// -- The value of a number of the type.
    /// of_number: ℤ → Self
    /// -- A value is that of its number, and a number of the type is that of its value.
    /// laws: AreNumbers is_signed width number of_number
    /// ```
    ///
    /// Definitions: [`AreNumbers`](crate::specs::raw::NumberSpecs#AreNumbers).
    ///
    /// `A` is any type.
    pub trait Number: sealed::Sealed {}

    /// # Contract
    ///
    /// ```text
    /// width = T.numbers.width
    /// is_signed = T.numbers.is_signed
    /// number = T.numbers.number
    /// of_number = T.numbers.of_number
    /// ```
    ///
    /// `T` is a type with the trait `Sealed`.
    impl<T: sealed::Sealed> Number for T {}
}
mod raw {
    //! Raw values, and the traits that say what it means to read and write one.

    /// A raw value: two words of 64 bits, without a type.
    ///
    /// A value of up to 64 bits stands in `lo`, and a vector in both words. The order is that of `lo`,
    /// then of `hi`. C has it as a struct of the two. Upstream: `wasmi_core::RawVal`.
    ///
    /// # Fields in contracts
    ///
    /// Contracts name fields that are private here:
    ///
    /// - `lo`: Bits 0 to 63.
    /// - `hi`: Bits 64 to 127.
    #[doc = examples!(raw RawVal)]
    #[repr(C)]
    #[derive(Clone, Copy, Default, PartialEq, Eq, PartialOrd, Ord)]
    pub struct RawVal {
        /// Bits 0 to 63.
        pub(crate) lo: u64,
        /// Bits 64 to 127.
        pub(crate) hi: u64,
    }

    impl RawVal {
        /// The raw value with `lo` as its low word, and 0 as its high word.
        ///
        /// # Contract
        ///
        /// ```text
        /// ensures: result ≡ raw_of lo
        /// ```
        ///
        /// Definitions: [`raw_of`](crate::specs::raw::RawValSpecs#raw_of).
        #[must_use]
        #[inline]
        pub const fn from_bits64(lo: u64) -> RawVal {
            RawVal { lo, hi: 0 }
        }

        /// The low word. The high word is left out.
        ///
        /// # Contract
        ///
        /// ```text
        /// ensures: result ≡ self.lo
        /// ```
        #[must_use]
        #[inline]
        pub const fn to_bits64(self) -> u64 {
            self.lo
        }
    }

    /// What can be read as a `T`.
    ///
    /// Of a raw value, an integer is the low word cut to the width of the integer, and a `bool` is
    /// whether the low word is not 0. A vector is both words. Upstream: `wasmi_core::ReadAs`.
    ///
    /// # Contract
    ///
    /// ```text
    /// -- The `T` that `self` is read as.
    /// read: Self → T
    /// ```
    ///
    /// `T` is any type.
    pub trait ReadAs<T> {
        /// Reads `self` as a `T`.
        ///
        /// # Contract
        ///
        /// ```text
        /// ensures: result ≡ read self.now
        /// ```
        fn read_as(&self) -> T;
    }

    /// A type whose values can be written, and what is read after that.
    ///
    /// The crate has no such trait. There too a `NonZero` can be written, and its integer is read.
    ///
    /// # Contract
    ///
    /// ```text
    /// -- The value that is read after the `Self` was written.
    /// read_back: Self → Self.Read
    /// ```
    pub trait ReadBack {
        /// The type that is read after a `Self` was written: a `NonZero`'s integer type, else `Self`.
        type Read;
    }

    /// What a `T` can be written to, and read back from.
    ///
    /// An integer or a `bool` sets the low word of a raw value and keeps the high word. The low word is
    /// then the integer's unsigned image at its own width, so `-1i32` gives 4294967295. A vector or a
    /// raw value sets both words. Upstream: `wasmi_core::WriteAs`.
    ///
    /// # Contract
    ///
    /// ```text
    /// -- What `self` becomes when the `T` is written to it.
    /// written: Self → T → Self
    /// ```
    ///
    /// `T` is a type with the trait `ReadBack`.
    pub trait WriteAs<T: ReadBack>: ReadAs<T::Read> {
        /// Writes `value` to `self`.
        ///
        /// # Contract
        ///
        /// ```text
        /// ensures written: self.new ≡ written self.old value
        /// ensures read_back: Self.read self.new ≡ T.read_back value
        /// ```
        ///
        /// `T` is a type with the trait `ReadBack`.
        fn write_as(&mut self, value: T);
    }

    /// A type whose values stand in the low word of a raw value. Only this crate's `From` names it.
    #[allow(unnameable_types)]
    pub trait OneWord: ReadBack {}
}
mod raw_ref {
    //! Raw references: what a table's element holds, whatever its type, converted, read and written.

    use crate::proved::raw::raw::{OneWord, RawVal, ReadAs, ReadBack, WriteAs};

    /// A reference of 32 bits without a type, which contracts see as a number. The null reference is 0.
    /// Upstream: `wasmi_core::RawRef`.
    ///
    /// # Model
    ///
    /// ```text
    /// Value = ℕ
    /// view = λ reference. reference.bits
    /// inverse = λ bits. record { bits = bits }
    /// ```
    #[derive(Clone, Copy, Debug, PartialEq, Eq, PartialOrd, Ord, Hash)]
    #[repr(transparent)]
    pub struct RawRef {
        bits: u32,
    }

    impl RawRef {
        /// The null reference.
        ///
        /// # Contract
        ///
        /// ```text
        /// ensures: result ≡ 0
        /// ```
        #[must_use]
        #[inline]
        pub fn null() -> Self {
            RawRef { bits: 0 }
        }

        /// Whether this is the null reference.
        ///
        /// # Contract
        ///
        /// ```text
        /// ensures: IsTrue result ↔ (self ≡ 0)
        /// ```
        #[must_use]
        #[inline]
        pub fn is_null(self) -> bool {
            self.bits == 0
        }
    }

    /// # Contract
    ///
    /// ```text
    /// from_gives = λ bits reference. reference ≡ bits
    /// ```
    impl From<u32> for RawRef {
        #[inline]
        fn from(bits: u32) -> RawRef {
            RawRef { bits }
        }
    }

    /// # Contract
    ///
    /// ```text
    /// from_gives = λ reference bits. bits ≡ reference
    /// ```
    impl From<RawRef> for u32 {
        #[inline]
        fn from(reference: RawRef) -> u32 {
            reference.bits
        }
    }

    /// # Contract
    ///
    /// ```text
    /// from_gives = λ raw reference. reference ≡ unsigned_in w32 raw
    /// ```
    ///
    /// Definitions: [`unsigned_in`](crate::specs::raw::RawValSpecs#unsigned_in).
    impl From<RawVal> for RawRef {
        #[inline]
        fn from(raw: RawVal) -> RawRef {
            raw.read_as()
        }
    }

    /// # Contract
    ///
    /// ```text
    /// read = unsigned_in w32
    /// ```
    ///
    /// Definitions: [`unsigned_in`](crate::specs::raw::RawValSpecs#unsigned_in).
    impl ReadAs<RawRef> for RawVal {
        #[inline]
        fn read_as(&self) -> RawRef {
            RawRef::from(u32::from(*self))
        }
    }

    /// # Contract
    ///
    /// ```text
    /// read_back = λ value. value
    /// ```
    impl ReadBack for RawRef {
        type Read = RawRef;
    }

    impl OneWord for RawRef {}

    /// # Contract
    ///
    /// ```text
    /// written = with_low
    /// ```
    ///
    /// Definitions: [`with_low`](crate::specs::raw::RawValSpecs#with_low).
    impl WriteAs<RawRef> for RawVal {
        #[inline]
        fn write_as(&mut self, value: RawRef) {
            self.write_as(value.bits);
        }
    }
}
mod read_write {
    //! Reading and writing a raw value, and what is read after a write: the implementations of the
    //! traits, type by type, except for references.

    use crate::proved::raw::number::Number;
    use crate::proved::raw::raw::{OneWord, RawVal, ReadAs, ReadBack, WriteAs};
    use crate::proved::raw::vector::V128;
    use core::num::NonZero;

    /// # Contract
    ///
    /// ```text
    /// read = λ raw. raw
    /// ```
    impl ReadAs<RawVal> for RawVal {
        #[inline]
        fn read_as(&self) -> RawVal {
            *self
        }
    }

    /// # Contract
    ///
    /// ```text
    /// read = signed_in w8
    /// ```
    ///
    /// Definitions: [`signed_in`](crate::specs::raw::RawValSpecs#signed_in).
    impl ReadAs<i8> for RawVal {
        #[inline]
        fn read_as(&self) -> i8 {
            u8::from(*self).cast_signed()
        }
    }

    /// # Contract
    ///
    /// ```text
    /// read = signed_in w16
    /// ```
    ///
    /// Definitions: [`signed_in`](crate::specs::raw::RawValSpecs#signed_in).
    impl ReadAs<i16> for RawVal {
        #[inline]
        fn read_as(&self) -> i16 {
            u16::from(*self).cast_signed()
        }
    }

    /// # Contract
    ///
    /// ```text
    /// read = signed_in w32
    /// ```
    ///
    /// Definitions: [`signed_in`](crate::specs::raw::RawValSpecs#signed_in).
    impl ReadAs<i32> for RawVal {
        #[inline]
        fn read_as(&self) -> i32 {
            u32::from(*self).cast_signed()
        }
    }

    /// # Contract
    ///
    /// ```text
    /// read = signed_in w64
    /// ```
    ///
    /// Definitions: [`signed_in`](crate::specs::raw::RawValSpecs#signed_in).
    impl ReadAs<i64> for RawVal {
        #[inline]
        fn read_as(&self) -> i64 {
            u64::from(*self).cast_signed()
        }
    }

    /// # Contract
    ///
    /// ```text
    /// read = unsigned_in w8
    /// ```
    ///
    /// Definitions: [`unsigned_in`](crate::specs::raw::RawValSpecs#unsigned_in).
    impl ReadAs<u8> for RawVal {
        #[inline]
        fn read_as(&self) -> u8 {
            (self.lo & 0xff) as u8
        }
    }

    /// # Contract
    ///
    /// ```text
    /// read = unsigned_in w16
    /// ```
    ///
    /// Definitions: [`unsigned_in`](crate::specs::raw::RawValSpecs#unsigned_in).
    impl ReadAs<u16> for RawVal {
        #[inline]
        fn read_as(&self) -> u16 {
            (self.lo & 0xffff) as u16
        }
    }

    /// # Contract
    ///
    /// ```text
    /// read = unsigned_in w32
    /// ```
    ///
    /// Definitions: [`unsigned_in`](crate::specs::raw::RawValSpecs#unsigned_in).
    impl ReadAs<u32> for RawVal {
        #[inline]
        fn read_as(&self) -> u32 {
            (self.lo & 0xffff_ffff) as u32
        }
    }

    /// # Contract
    ///
    /// ```text
    /// read = unsigned_in w64
    /// ```
    ///
    /// Definitions: [`unsigned_in`](crate::specs::raw::RawValSpecs#unsigned_in).
    impl ReadAs<u64> for RawVal {
        #[inline]
        fn read_as(&self) -> u64 {
            self.lo
        }
    }

    /// # Contract
    ///
    /// ```text
    /// read = vector_in
    /// ```
    ///
    /// Definitions: [`vector_in`](crate::specs::raw::RawValSpecs#vector_in).
    impl ReadAs<V128> for RawVal {
        #[inline]
        fn read_as(&self) -> V128 {
            V128::from_word_pair(self.lo, self.hi)
        }
    }

    /// # Contract
    ///
    /// ```text
    /// read = bool_in
    /// ```
    ///
    /// Definitions: [`bool_in`](crate::specs::raw::RawValSpecs#bool_in).
    impl ReadAs<bool> for RawVal {
        #[inline]
        fn read_as(&self) -> bool {
            self.lo != 0
        }
    }

    /// # Contract
    ///
    /// ```text
    /// read_back = λ value. value
    /// ```
    impl ReadBack for RawVal {
        type Read = RawVal;
    }

    // An integer is read back as it is.
    /// # Contract
    ///
    /// ```text
    /// read_back = λ value. value
    /// ```
    impl<T: Number> ReadBack for T {
        type Read = T;
    }

    /// # Contract
    ///
    /// ```text
    /// read_back = λ value. value
    /// ```
    impl ReadBack for bool {
        type Read = bool;
    }

    /// # Contract
    ///
    /// ```text
    /// read_back = λ value. value
    /// ```
    impl ReadBack for V128 {
        type Read = V128;
    }

    /// # Contract
    ///
    /// ```text
    /// read_back = non_zero_i8_get
    /// ```
    impl ReadBack for NonZero<i8> {
        type Read = i8;
    }

    /// # Contract
    ///
    /// ```text
    /// read_back = non_zero_i16_get
    /// ```
    impl ReadBack for NonZero<i16> {
        type Read = i16;
    }

    /// # Contract
    ///
    /// ```text
    /// read_back = non_zero_i32_get
    /// ```
    impl ReadBack for NonZero<i32> {
        type Read = i32;
    }

    /// # Contract
    ///
    /// ```text
    /// read_back = non_zero_i64_get
    /// ```
    impl ReadBack for NonZero<i64> {
        type Read = i64;
    }

    /// # Contract
    ///
    /// ```text
    /// read_back = non_zero_u8_get
    /// ```
    impl ReadBack for NonZero<u8> {
        type Read = u8;
    }

    /// # Contract
    ///
    /// ```text
    /// read_back = non_zero_u16_get
    /// ```
    impl ReadBack for NonZero<u16> {
        type Read = u16;
    }

    /// # Contract
    ///
    /// ```text
    /// read_back = non_zero_u32_get
    /// ```
    impl ReadBack for NonZero<u32> {
        type Read = u32;
    }

    /// # Contract
    ///
    /// ```text
    /// read_back = non_zero_u64_get
    /// ```
    impl ReadBack for NonZero<u64> {
        type Read = u64;
    }

    impl<T: Number> OneWord for T {}

    impl OneWord for bool {}

    impl OneWord for NonZero<i8> {}

    impl OneWord for NonZero<i16> {}

    impl OneWord for NonZero<i32> {}

    impl OneWord for NonZero<i64> {}

    impl OneWord for NonZero<u8> {}

    impl OneWord for NonZero<u16> {}

    impl OneWord for NonZero<u32> {}

    impl OneWord for NonZero<u64> {}

    /// # Contract
    ///
    /// ```text
    /// written = λ _ value. value
    /// ```
    impl WriteAs<RawVal> for RawVal {
        #[inline]
        fn write_as(&mut self, value: RawVal) {
            *self = value;
        }
    }

    /// # Contract
    ///
    /// ```text
    /// written = λ raw value. with_low raw (cast_unsigned w8 value)
    /// ```
    ///
    /// Definitions: [`with_low`](crate::specs::raw::RawValSpecs#with_low).
    impl WriteAs<i8> for RawVal {
        #[inline]
        fn write_as(&mut self, value: i8) {
            self.write_as(value.cast_unsigned());
        }
    }

    /// # Contract
    ///
    /// ```text
    /// written = λ raw value. with_low raw (cast_unsigned w8 (non_zero_i8_get value))
    /// ```
    ///
    /// Definitions: [`with_low`](crate::specs::raw::RawValSpecs#with_low).
    impl WriteAs<NonZero<i8>> for RawVal {
        #[inline]
        fn write_as(&mut self, value: NonZero<i8>) {
            self.write_as(value.get());
        }
    }

    /// # Contract
    ///
    /// ```text
    /// written = λ raw value. with_low raw (cast_unsigned w16 value)
    /// ```
    ///
    /// Definitions: [`with_low`](crate::specs::raw::RawValSpecs#with_low).
    impl WriteAs<i16> for RawVal {
        #[inline]
        fn write_as(&mut self, value: i16) {
            self.write_as(value.cast_unsigned());
        }
    }

    /// # Contract
    ///
    /// ```text
    /// written = λ raw value. with_low raw (cast_unsigned w16 (non_zero_i16_get value))
    /// ```
    ///
    /// Definitions: [`with_low`](crate::specs::raw::RawValSpecs#with_low).
    impl WriteAs<NonZero<i16>> for RawVal {
        #[inline]
        fn write_as(&mut self, value: NonZero<i16>) {
            self.write_as(value.get());
        }
    }

    /// # Contract
    ///
    /// ```text
    /// written = λ raw value. with_low raw (cast_unsigned w32 value)
    /// ```
    ///
    /// Definitions: [`with_low`](crate::specs::raw::RawValSpecs#with_low).
    impl WriteAs<i32> for RawVal {
        #[inline]
        fn write_as(&mut self, value: i32) {
            self.write_as(value.cast_unsigned());
        }
    }

    /// # Contract
    ///
    /// ```text
    /// written = λ raw value. with_low raw (cast_unsigned w32 (non_zero_i32_get value))
    /// ```
    ///
    /// Definitions: [`with_low`](crate::specs::raw::RawValSpecs#with_low).
    impl WriteAs<NonZero<i32>> for RawVal {
        #[inline]
        fn write_as(&mut self, value: NonZero<i32>) {
            self.write_as(value.get());
        }
    }

    /// # Contract
    ///
    /// ```text
    /// written = λ raw value. with_low raw (cast_unsigned w64 value)
    /// ```
    ///
    /// Definitions: [`with_low`](crate::specs::raw::RawValSpecs#with_low).
    impl WriteAs<i64> for RawVal {
        #[inline]
        fn write_as(&mut self, value: i64) {
            self.write_as(value.cast_unsigned());
        }
    }

    /// # Contract
    ///
    /// ```text
    /// written = λ raw value. with_low raw (cast_unsigned w64 (non_zero_i64_get value))
    /// ```
    ///
    /// Definitions: [`with_low`](crate::specs::raw::RawValSpecs#with_low).
    impl WriteAs<NonZero<i64>> for RawVal {
        #[inline]
        fn write_as(&mut self, value: NonZero<i64>) {
            self.write_as(value.get());
        }
    }

    /// # Contract
    ///
    /// ```text
    /// written = with_low
    /// ```
    ///
    /// Definitions: [`with_low`](crate::specs::raw::RawValSpecs#with_low).
    impl WriteAs<u8> for RawVal {
        #[inline]
        fn write_as(&mut self, value: u8) {
            self.lo = u64::from(value);
        }
    }

    /// # Contract
    ///
    /// ```text
    /// written = λ raw value. with_low raw (non_zero_u8_get value)
    /// ```
    ///
    /// Definitions: [`with_low`](crate::specs::raw::RawValSpecs#with_low).
    impl WriteAs<NonZero<u8>> for RawVal {
        #[inline]
        fn write_as(&mut self, value: NonZero<u8>) {
            self.write_as(value.get());
        }
    }

    /// # Contract
    ///
    /// ```text
    /// written = with_low
    /// ```
    ///
    /// Definitions: [`with_low`](crate::specs::raw::RawValSpecs#with_low).
    impl WriteAs<u16> for RawVal {
        #[inline]
        fn write_as(&mut self, value: u16) {
            self.lo = u64::from(value);
        }
    }

    /// # Contract
    ///
    /// ```text
    /// written = λ raw value. with_low raw (non_zero_u16_get value)
    /// ```
    ///
    /// Definitions: [`with_low`](crate::specs::raw::RawValSpecs#with_low).
    impl WriteAs<NonZero<u16>> for RawVal {
        #[inline]
        fn write_as(&mut self, value: NonZero<u16>) {
            self.write_as(value.get());
        }
    }

    /// # Contract
    ///
    /// ```text
    /// written = with_low
    /// ```
    ///
    /// Definitions: [`with_low`](crate::specs::raw::RawValSpecs#with_low).
    impl WriteAs<u32> for RawVal {
        #[inline]
        fn write_as(&mut self, value: u32) {
            self.lo = u64::from(value);
        }
    }

    /// # Contract
    ///
    /// ```text
    /// written = λ raw value. with_low raw (non_zero_u32_get value)
    /// ```
    ///
    /// Definitions: [`with_low`](crate::specs::raw::RawValSpecs#with_low).
    impl WriteAs<NonZero<u32>> for RawVal {
        #[inline]
        fn write_as(&mut self, value: NonZero<u32>) {
            self.write_as(value.get());
        }
    }

    /// # Contract
    ///
    /// ```text
    /// written = with_low
    /// ```
    ///
    /// Definitions: [`with_low`](crate::specs::raw::RawValSpecs#with_low).
    impl WriteAs<u64> for RawVal {
        #[inline]
        fn write_as(&mut self, value: u64) {
            self.lo = value;
        }
    }

    /// # Contract
    ///
    /// ```text
    /// written = λ raw value. with_low raw (non_zero_u64_get value)
    /// ```
    ///
    /// Definitions: [`with_low`](crate::specs::raw::RawValSpecs#with_low).
    impl WriteAs<NonZero<u64>> for RawVal {
        #[inline]
        fn write_as(&mut self, value: NonZero<u64>) {
            self.write_as(value.get());
        }
    }

    /// # Contract
    ///
    /// ```text
    /// written = λ raw value. with_low raw (from_bool value)
    /// ```
    ///
    /// Definitions: [`with_low`](crate::specs::raw::RawValSpecs#with_low).
    impl WriteAs<bool> for RawVal {
        #[inline]
        fn write_as(&mut self, value: bool) {
            self.lo = u64::from(value);
        }
    }

    /// # Contract
    ///
    /// ```text
    /// written = λ _ value. raw_of_vector value
    /// ```
    ///
    /// Definitions: [`raw_of_vector`](crate::specs::raw::RawValSpecs#raw_of_vector).
    impl WriteAs<V128> for RawVal {
        #[inline]
        fn write_as(&mut self, value: V128) {
            *self = RawVal::from(value);
        }
    }
}
mod vector {
    //! The 128-bit value that vector instructions work on: its two words, and its number.

    /// A vector of 128 bits, which contracts see as a number below 2^128.
    ///
    /// It is kept as two words of 64 bits. Upstream: `wasmi_core::V128`.
    ///
    /// # Model
    ///
    /// ```text
    /// Value = ℕ
    /// view = λ vector. vector_of vector.low vector.high
    /// invariant = λ vector. vector.low < 2 ^ 64
    /// inverse = λ number. record { low = number % 2 ^ 64; high = number / 2 ^ 64 }
    /// ```
    ///
    /// Definitions: [`vector_of`](crate::specs::raw::RawValSpecs#vector_of).
    #[doc = examples!(raw V128)]
    #[derive(Clone, Copy, PartialEq, Eq)]
    pub struct V128 {
        low: u64,
        high: u64,
    }

    impl V128 {
        /// The vector whose bits 0 to 63 are `low` and whose bits 64 to 127 are `high`.
        ///
        /// # Contract
        ///
        /// ```text
        /// ensures: result ≡ vector_of low high
        /// ```
        ///
        /// Definitions: [`vector_of`](crate::specs::raw::RawValSpecs#vector_of).
        #[must_use]
        #[inline]
        pub(crate) fn from_word_pair(low: u64, high: u64) -> V128 {
            V128 { low, high }
        }

        /// Bits 0 to 63, and bits 64 to 127.
        ///
        /// # Contract
        ///
        /// ```text
        /// ensures whole: self ≡ vector_of result.0 result.1
        /// ensures low: result.0 ≡ self % 2 ^ 64
        /// ensures high: result.1 ≡ self / 2 ^ 64
        /// ```
        ///
        /// Definitions: [`vector_of`](crate::specs::raw::RawValSpecs#vector_of).
        #[must_use]
        #[inline]
        pub(crate) fn words(self) -> (u64, u64) {
            (self.low, self.high)
        }

        /// The number, whose lowest byte is the first of the vector.
        ///
        /// # Contract
        ///
        /// ```text
        /// ensures value: result ≡ self
        /// ensures in_range: self < 2 ^ 128
        /// ```
        #[must_use]
        #[inline]
        pub fn as_u128(&self) -> u128 {
            (u128::from(self.high) << 64) | u128::from(self.low)
        }
    }

    /// # Contract
    ///
    /// ```text
    /// from_gives = λ number vector. vector ≡ number
    /// ```
    impl From<u128> for V128 {
        #[inline]
        fn from(number: u128) -> V128 {
            let low = (number & 0xffff_ffff_ffff_ffff) as u64;
            V128::from_word_pair(low, (number >> 64) as u64)
        }
    }
}

pub use float::{F32, F64};
pub use number::Number;
pub use raw::{RawVal, ReadAs, ReadBack, WriteAs};
pub use raw_ref::RawRef;
pub use vector::V128;
