//! Loads and stores of little-endian numbers in a linear memory.
pub mod access {
    //! Loads and stores of any type with little-endian bytes; traits of these, of wrapping, extending.
    //!
    //! A memory is a slice of bytes, and an address counts bytes from its start. An access to `ptr +
    //! offset` has the unbounded sum for its address. The only error is `MemoryOutOfBounds`, where the
    //! memory ends before the last byte, and then nothing is written. Upstream: the module
    //! `memory::access`, private there. Core specification: memory instructions; storage of integers.

    use crate::proved::raw::Number;
    use crate::proved::types::TrapCode;

    mod sealed {
        pub trait Sealed {}

        impl<const N: usize> Sealed for [u8; N] {}
    }

    /// A conversion to the low bits of a number, as many as `T` has. Upstream: the private `WrapInto`.
    pub trait WrapInto<T: Number>: Number {
        /// The number of `T` that differs from `self` by a multiple of 2 to the power of `T`'s width.
        ///
        /// # Contract
        ///
        /// ```text
        /// ensures value: result ≡ T.of_number (int_wrap T.width (Self.number self))
        /// ensures low_bits: wrap T.width (T.number result) ≡ wrap T.width (Self.number self)
        /// ```
        ///
        /// Definitions: [`wrap`](crate::specs::types::NumbersSpecs#wrap).
        ///
        /// `T` is a type with the trait `Number`.
        fn wrap_into(self) -> T;
    }

    /// A conversion to a wider number: a signed one is extended by its sign, an unsigned one by zeros.
    /// Upstream: `ExtendInto`, private there.
    pub trait ExtendInto<T: Number>: Number {
        /// The number of `self` as a `T`.
        ///
        /// # Contract
        ///
        /// ```text
        /// ensures: result ≡ T.of_number (Self.number self)
        /// ```
        ///
        /// `T` is a type with the trait `Number`.
        fn extend_into(self) -> T;
    }

    /// An array of bytes, as the contracts of this module see it. The arrays `[u8; N]` have it, and no
    /// other type can.
    ///
    /// # Contract
    ///
    /// ```text
    /// -- How many bytes there are.
    /// LEN: ℕ
    /// -- The bytes, in their order.
    /// bytes_of: Self → List ℕ
    /// ```
    pub trait ByteArray: sealed::Sealed {}

    /// # Contract
    ///
    /// ```text
    /// LEN = N
    /// bytes_of = λ bytes. bytes
    /// ```
    ///
    /// `N` is a number.
    impl<const N: usize> ByteArray for [u8; N] {}

    /// Whether `N` bytes at an address end past a length. Of one byte that is one comparison.
    ///
    /// # Contract
    ///
    /// ```text
    /// ensures: IsTrue result ↔ len < address + N
    /// ```
    ///
    /// `N` is a number.
    #[inline(always)]
    fn ends_past<const N: usize>(len: usize, address: usize) -> bool {
        if N == 1 {
            address >= len
        } else {
            len < N || address > len - N
        }
    }

    /// Bytes that are read from a memory. Upstream: `LoadInto`, private there.
    pub trait LoadInto: ByteArray {
        /// Copies the bytes at `address` into `self`.
        ///
        /// # Contract
        ///
        /// ```text
        /// ensures copied: IsCopy memory.now address Self.LEN (Self.bytes_of self.old)
        ///     (Self.bytes_of self.new) result
        /// ensures length: length (Self.bytes_of self.new) ≡ Self.LEN
        /// ```
        ///
        /// Definitions: [`IsCopy`](crate::specs::accesses::LoadStoreSpecs#IsCopy).
        fn load_into(&mut self, memory: &[u8], address: usize) -> Result<(), TrapCode>;
    }

    impl<const N: usize> LoadInto for [u8; N] {
        #[inline]
        fn load_into(&mut self, memory: &[u8], address: usize) -> Result<(), TrapCode> {
            if ends_past::<N>(memory.len(), address) {
                return Err(TrapCode::MemoryOutOfBounds);
            }
            let Some((bytes, _)) = memory[address..].split_first_chunk::<N>() else {
                return Err(TrapCode::MemoryOutOfBounds);
            };
            *self = *bytes;
            Ok(())
        }
    }

    /// Bytes that are written to a memory. Upstream: `StoreFrom`, private there.
    pub trait StoreFrom: ByteArray {
        /// Copies `self` to the bytes at `address`.
        ///
        /// # Errors
        ///
        /// [`MemoryOutOfBounds`](crate::TrapCode::MemoryOutOfBounds) if the bytes would end past the memory; then nothing is written.
        ///
        /// # Contract
        ///
        /// ```text
        /// ensures stored: IsStore memory.old address (Self.bytes_of self.now) memory.new result
        /// ensures length: length (Self.bytes_of self.now) ≡ Self.LEN
        /// ```
        ///
        /// Definitions: [`IsStore`](crate::specs::accesses::LoadStoreSpecs#IsStore).
        fn store_from(&self, memory: &mut [u8], address: usize) -> Result<(), TrapCode>;
    }

    impl<const N: usize> StoreFrom for [u8; N] {
        #[inline]
        fn store_from(&self, memory: &mut [u8], address: usize) -> Result<(), TrapCode> {
            if ends_past::<N>(memory.len(), address) {
                return Err(TrapCode::MemoryOutOfBounds);
            }
            put(memory, address, self);
            Ok(())
        }
    }

    /// Writes bytes over those at an address. In this form a number is stored from a register.
    ///
    /// # Contract
    ///
    /// ```text
    /// requires room: address + N ≤ length memory.old
    /// ensures written: overwrite memory.old address bytes.now ≡ Some memory.new
    /// ```
    ///
    /// Definitions: [`overwrite`](crate::specs::types::AccessSpecs#overwrite).
    ///
    /// `N` is a number.
    #[inline]
    fn put<const N: usize>(memory: &mut [u8], address: usize, bytes: &[u8; N]) {
        memory[address..][..N].copy_from_slice(bytes);
    }

    /// A number that is stored in little-endian bytes. Upstream: `LittleEndianConvert`, private there.
    ///
    /// # Contract
    ///
    /// ```text
    /// -- The bytes have the bits of the number.
    /// is_as_wide: Self.Bytes.LEN * 8 ≡ bits Self.width
    /// ```
    pub trait LittleEndianConvert: Number {
        /// As many bytes as the number has.
        type Bytes: Default + LoadInto + StoreFrom;

        /// The bytes of `self`, lowest first: those of its number modulo 2 to the power of its width.
        ///
        /// # Contract
        ///
        /// ```text
        /// ensures bytes: Self.Bytes.bytes_of result
        ///     ≡ le_bytes Self.Bytes.LEN (wrap Self.width (Self.number self))
        /// ensures number: number_of (Self.Bytes.bytes_of result)
        ///     ≡ wrap Self.width (Self.number self)
        /// ensures round_trip: Self.of_number (number_of_bits Self.is_signed Self.width
        ///     (number_of (Self.Bytes.bytes_of result))) ≡ self
        /// ```
        ///
        /// Definitions: [`le_bytes`](crate::specs::types::NumbersSpecs#le_bytes), [`wrap`](crate::specs::types::NumbersSpecs#wrap), [`number_of`](crate::specs::types::NumbersSpecs#number_of), [`number_of_bits`](crate::specs::raw::NumberSpecs#number_of_bits).
        fn into_le_bytes(self) -> Self::Bytes;

        /// The value of some bytes, the lowest first.
        ///
        /// # Contract
        ///
        /// ```text
        /// ensures value: result ≡ Self.of_number
        ///     (number_of_bits Self.is_signed Self.width (number_of (Self.Bytes.bytes_of bytes)))
        /// ensures read: Self.number result
        ///     ≡ number_of_bits Self.is_signed Self.width (number_of (Self.Bytes.bytes_of bytes))
        /// ensures number: wrap Self.width (Self.number result)
        ///     ≡ number_of (Self.Bytes.bytes_of bytes)
        /// ensures round_trip: le_bytes Self.Bytes.LEN (wrap Self.width (Self.number result))
        ///     ≡ Self.Bytes.bytes_of bytes
        /// ```
        ///
        /// Definitions: [`number_of_bits`](crate::specs::raw::NumberSpecs#number_of_bits), [`number_of`](crate::specs::types::NumbersSpecs#number_of), [`wrap`](crate::specs::types::NumbersSpecs#wrap), [`le_bytes`](crate::specs::types::NumbersSpecs#le_bytes).
        fn from_le_bytes(bytes: Self::Bytes) -> Self;
    }

    /// The address of an access, `ptr + offset`, if it is below 2 to the power 64. The only error is
    /// `MemoryOutOfBounds`. Core specification, effective addresses under memory instructions.
    ///
    /// # Contract
    ///
    /// ```text
    /// ensures: MatchResult result (λ address. address ≡ ptr + offset)
    ///     (λ trap. (trap ≡ TrapCode.MemoryOutOfBounds) × (2 ^ 64 ≤ ptr + offset))
    /// ```
    #[inline(always)]
    pub fn effective_address(ptr: u64, offset: u64) -> Result<usize, TrapCode> {
        let address = ptr.wrapping_add(offset);
        // A sum that wraps is below both numbers. In this form the compiler tests the carry.
        if address < ptr {
            return Err(TrapCode::MemoryOutOfBounds);
        }
        usize::try_from(address).map_err(|_| TrapCode::MemoryOutOfBounds)
    }

    /// The number at `ptr + offset`.
    ///
    /// # Errors
    ///
    /// [`MemoryOutOfBounds`](crate::TrapCode::MemoryOutOfBounds) if the bytes end past the memory.
    ///
    /// # Contract
    ///
    /// ```text
    /// ensures value: result ≡ loaded T.Bytes.LEN
    ///     (λ n. T.of_number (number_of_bits T.is_signed T.width n)) memory.now (ptr + offset)
    /// ensures number: GivesNumber T.number result
    ///     (loaded T.Bytes.LEN (number_of_bits T.is_signed T.width) memory.now (ptr + offset))
    /// ```
    ///
    /// Definitions: [`loaded`](crate::specs::accesses::LoadStoreSpecs#loaded), [`number_of_bits`](crate::specs::raw::NumberSpecs#number_of_bits), [`GivesNumber`](crate::specs::accesses::LoadStoreSpecs#GivesNumber).
    ///
    /// `T` is a type with the trait `LittleEndianConvert`.
    #[inline]
    pub fn load<T: LittleEndianConvert>(
        memory: &[u8],
        ptr: u64,
        offset: u64,
    ) -> Result<T, TrapCode> {
        load_at::<T>(memory, effective_address(ptr, offset)?)
    }

    /// The number at `address`.
    ///
    /// # Errors
    ///
    /// [`MemoryOutOfBounds`](crate::TrapCode::MemoryOutOfBounds) if the bytes end past the memory.
    ///
    /// # Contract
    ///
    /// ```text
    /// ensures value: result ≡ loaded T.Bytes.LEN
    ///     (λ n. T.of_number (number_of_bits T.is_signed T.width n)) memory.now address
    /// ensures number: GivesNumber T.number result
    ///     (loaded T.Bytes.LEN (number_of_bits T.is_signed T.width) memory.now address)
    /// ```
    ///
    /// Definitions: [`loaded`](crate::specs::accesses::LoadStoreSpecs#loaded), [`number_of_bits`](crate::specs::raw::NumberSpecs#number_of_bits), [`GivesNumber`](crate::specs::accesses::LoadStoreSpecs#GivesNumber).
    ///
    /// `T` is a type with the trait `LittleEndianConvert`.
    #[inline]
    pub fn load_at<T: LittleEndianConvert>(memory: &[u8], address: usize) -> Result<T, TrapCode> {
        let mut buffer = T::Bytes::default();
        buffer.load_into(memory, address)?;
        Ok(T::from_le_bytes(buffer))
    }

    /// The number at `ptr + offset`, read as a `U` and extended to a `T`.
    ///
    /// # Errors
    ///
    /// [`MemoryOutOfBounds`](crate::TrapCode::MemoryOutOfBounds) if the bytes end past the memory.
    ///
    /// # Contract
    ///
    /// ```text
    /// ensures: result ≡ loaded U.Bytes.LEN
    ///     (λ n. T.of_number (number_of_bits U.is_signed U.width n)) memory.now (ptr + offset)
    /// ```
    ///
    /// Definitions: [`loaded`](crate::specs::accesses::LoadStoreSpecs#loaded), [`number_of_bits`](crate::specs::raw::NumberSpecs#number_of_bits).
    ///
    /// `T` is a type with the trait `Number`. `U` is a type with the trait `LittleEndianConvert`.
    #[inline]
    pub fn load_extend<T, U>(memory: &[u8], ptr: u64, offset: u64) -> Result<T, TrapCode>
    where
        T: Number,
        U: LittleEndianConvert + ExtendInto<T>,
    {
        load_extend_at::<T, U>(memory, effective_address(ptr, offset)?)
    }

    /// The number at `address`, read as a `U` and extended to a `T`.
    ///
    /// # Errors
    ///
    /// [`MemoryOutOfBounds`](crate::TrapCode::MemoryOutOfBounds) if the bytes end past the memory.
    ///
    /// # Contract
    ///
    /// ```text
    /// ensures: result ≡ loaded U.Bytes.LEN
    ///     (λ n. T.of_number (number_of_bits U.is_signed U.width n)) memory.now address
    /// ```
    ///
    /// Definitions: [`loaded`](crate::specs::accesses::LoadStoreSpecs#loaded), [`number_of_bits`](crate::specs::raw::NumberSpecs#number_of_bits).
    ///
    /// `T` is a type with the trait `Number`. `U` is a type with the trait `LittleEndianConvert`.
    #[inline]
    pub fn load_extend_at<T, U>(memory: &[u8], address: usize) -> Result<T, TrapCode>
    where
        T: Number,
        U: LittleEndianConvert + ExtendInto<T>,
    {
        Ok(load_at::<U>(memory, address)?.extend_into())
    }

    /// Writes a number at `ptr + offset`.
    ///
    /// # Errors
    ///
    /// [`MemoryOutOfBounds`](crate::TrapCode::MemoryOutOfBounds) if the bytes would end past the memory; then nothing is written.
    ///
    /// # Contract
    ///
    /// ```text
    /// ensures: IsStore memory.old (ptr + offset)
    ///     (le_bytes T.Bytes.LEN (wrap T.width (T.number value))) memory.new result
    /// ```
    ///
    /// Definitions: [`IsStore`](crate::specs::accesses::LoadStoreSpecs#IsStore), [`le_bytes`](crate::specs::types::NumbersSpecs#le_bytes), [`wrap`](crate::specs::types::NumbersSpecs#wrap).
    ///
    /// `T` is a type with the trait `LittleEndianConvert`.
    #[inline]
    pub fn store<T>(memory: &mut [u8], ptr: u64, offset: u64, value: T) -> Result<(), TrapCode>
    where
        T: LittleEndianConvert,
    {
        store_at::<T>(memory, effective_address(ptr, offset)?, value)
    }

    /// Writes a number at `address`.
    ///
    /// # Errors
    ///
    /// [`MemoryOutOfBounds`](crate::TrapCode::MemoryOutOfBounds) if the bytes would end past the memory; then nothing is written.
    ///
    /// # Contract
    ///
    /// ```text
    /// ensures: IsStore memory.old address
    ///     (le_bytes T.Bytes.LEN (wrap T.width (T.number value))) memory.new result
    /// ```
    ///
    /// Definitions: [`IsStore`](crate::specs::accesses::LoadStoreSpecs#IsStore), [`le_bytes`](crate::specs::types::NumbersSpecs#le_bytes), [`wrap`](crate::specs::types::NumbersSpecs#wrap).
    ///
    /// `T` is a type with the trait `LittleEndianConvert`.
    #[inline]
    pub fn store_at<T>(memory: &mut [u8], address: usize, value: T) -> Result<(), TrapCode>
    where
        T: LittleEndianConvert,
    {
        value.into_le_bytes().store_from(memory, address)
    }

    /// Writes a number at `ptr + offset`, wrapped to a `U`.
    ///
    /// # Errors
    ///
    /// [`MemoryOutOfBounds`](crate::TrapCode::MemoryOutOfBounds) if the bytes would end past the memory; then nothing is written.
    ///
    /// # Contract
    ///
    /// ```text
    /// ensures: IsStore memory.old (ptr + offset)
    ///     (le_bytes U.Bytes.LEN (wrap U.width (T.number value))) memory.new result
    /// ```
    ///
    /// Definitions: [`IsStore`](crate::specs::accesses::LoadStoreSpecs#IsStore), [`le_bytes`](crate::specs::types::NumbersSpecs#le_bytes), [`wrap`](crate::specs::types::NumbersSpecs#wrap).
    ///
    /// `T` is a type with the trait `WrapInto`. `U` is a type with the trait `LittleEndianConvert`.
    #[inline]
    pub fn store_wrap<T, U>(
        memory: &mut [u8],
        ptr: u64,
        offset: u64,
        value: T,
    ) -> Result<(), TrapCode>
    where
        T: WrapInto<U>,
        U: LittleEndianConvert,
    {
        store_wrap_at::<T, U>(memory, effective_address(ptr, offset)?, value)
    }

    /// Writes a number at `address`, wrapped to a `U`.
    ///
    /// # Errors
    ///
    /// [`MemoryOutOfBounds`](crate::TrapCode::MemoryOutOfBounds) if the bytes would end past the memory; then nothing is written.
    ///
    /// # Contract
    ///
    /// ```text
    /// ensures: IsStore memory.old address
    ///     (le_bytes U.Bytes.LEN (wrap U.width (T.number value))) memory.new result
    /// ```
    ///
    /// Definitions: [`IsStore`](crate::specs::accesses::LoadStoreSpecs#IsStore), [`le_bytes`](crate::specs::types::NumbersSpecs#le_bytes), [`wrap`](crate::specs::types::NumbersSpecs#wrap).
    ///
    /// `T` is a type with the trait `WrapInto`. `U` is a type with the trait `LittleEndianConvert`.
    #[inline]
    pub fn store_wrap_at<T, U>(memory: &mut [u8], address: usize, value: T) -> Result<(), TrapCode>
    where
        T: WrapInto<U>,
        U: LittleEndianConvert,
    {
        store_at::<U>(memory, address, value.wrap_into())
    }
}
mod convert {
    //! Extending and wrapping between the integers: the implementations of `ExtendInto` and `WrapInto`.

    use crate::proved::accesses::access::{ExtendInto, WrapInto};

    impl ExtendInto<u16> for u8 {
        #[inline]
        fn extend_into(self) -> u16 {
            self as u16
        }
    }

    impl ExtendInto<u32> for u16 {
        #[inline]
        fn extend_into(self) -> u32 {
            self as u32
        }
    }

    impl ExtendInto<u64> for u32 {
        #[inline]
        fn extend_into(self) -> u64 {
            self as u64
        }
    }

    impl ExtendInto<i16> for i8 {
        #[inline]
        fn extend_into(self) -> i16 {
            self as i16
        }
    }

    impl ExtendInto<i32> for i8 {
        #[inline]
        fn extend_into(self) -> i32 {
            self as i32
        }
    }

    impl ExtendInto<i64> for i8 {
        #[inline]
        fn extend_into(self) -> i64 {
            self as i64
        }
    }

    impl ExtendInto<i32> for i16 {
        #[inline]
        fn extend_into(self) -> i32 {
            self as i32
        }
    }

    impl ExtendInto<i64> for i16 {
        #[inline]
        fn extend_into(self) -> i64 {
            self as i64
        }
    }

    impl ExtendInto<i64> for i32 {
        #[inline]
        fn extend_into(self) -> i64 {
            self as i64
        }
    }

    impl ExtendInto<i32> for u8 {
        #[inline]
        fn extend_into(self) -> i32 {
            self as i32
        }
    }

    impl ExtendInto<i64> for u8 {
        #[inline]
        fn extend_into(self) -> i64 {
            self as i64
        }
    }

    impl ExtendInto<i32> for u16 {
        #[inline]
        fn extend_into(self) -> i32 {
            self as i32
        }
    }

    impl ExtendInto<i64> for u16 {
        #[inline]
        fn extend_into(self) -> i64 {
            self as i64
        }
    }

    impl ExtendInto<i64> for u32 {
        #[inline]
        fn extend_into(self) -> i64 {
            self as i64
        }
    }

    impl WrapInto<i8> for i32 {
        #[inline]
        fn wrap_into(self) -> i8 {
            <i64 as WrapInto<i8>>::wrap_into(self as i64)
        }
    }

    impl WrapInto<i16> for i32 {
        #[inline]
        fn wrap_into(self) -> i16 {
            <i64 as WrapInto<i16>>::wrap_into(self as i64)
        }
    }

    impl WrapInto<i8> for i64 {
        #[inline]
        fn wrap_into(self) -> i8 {
            ((self.cast_unsigned() % 256) as u8).cast_signed()
        }
    }

    impl WrapInto<i16> for i64 {
        #[inline]
        fn wrap_into(self) -> i16 {
            ((self.cast_unsigned() % 65536) as u16).cast_signed()
        }
    }

    impl WrapInto<i32> for i64 {
        #[inline]
        fn wrap_into(self) -> i32 {
            ((self.cast_unsigned() % 0x1_0000_0000) as u32).cast_signed()
        }
    }
}
mod integer {
    //! The integers of 8 to 128 bits in little-endian bytes: `LittleEndianConvert` of each.

    use crate::proved::accesses::access::LittleEndianConvert;

    impl LittleEndianConvert for u8 {
        type Bytes = [u8; 1];

        #[inline]
        fn into_le_bytes(self) -> [u8; 1] {
            self.to_le_bytes()
        }

        #[inline]
        fn from_le_bytes(bytes: [u8; 1]) -> u8 {
            u8::from_le_bytes(bytes)
        }
    }

    impl LittleEndianConvert for u16 {
        type Bytes = [u8; 2];

        #[inline]
        fn into_le_bytes(self) -> [u8; 2] {
            self.to_le_bytes()
        }

        #[inline]
        fn from_le_bytes(bytes: [u8; 2]) -> u16 {
            u16::from_le_bytes(bytes)
        }
    }

    impl LittleEndianConvert for u32 {
        type Bytes = [u8; 4];

        #[inline]
        fn into_le_bytes(self) -> [u8; 4] {
            self.to_le_bytes()
        }

        #[inline]
        fn from_le_bytes(bytes: [u8; 4]) -> u32 {
            u32::from_le_bytes(bytes)
        }
    }

    impl LittleEndianConvert for u64 {
        type Bytes = [u8; 8];

        #[inline]
        fn into_le_bytes(self) -> [u8; 8] {
            self.to_le_bytes()
        }

        #[inline]
        fn from_le_bytes(bytes: [u8; 8]) -> u64 {
            u64::from_le_bytes(bytes)
        }
    }

    impl LittleEndianConvert for u128 {
        type Bytes = [u8; 16];

        #[inline]
        fn into_le_bytes(self) -> [u8; 16] {
            self.to_le_bytes()
        }

        #[inline]
        fn from_le_bytes(bytes: [u8; 16]) -> u128 {
            u128::from_le_bytes(bytes)
        }
    }

    impl LittleEndianConvert for i8 {
        type Bytes = [u8; 1];

        #[inline]
        fn into_le_bytes(self) -> [u8; 1] {
            self.cast_unsigned().into_le_bytes()
        }

        #[inline]
        fn from_le_bytes(bytes: [u8; 1]) -> i8 {
            <u8 as LittleEndianConvert>::from_le_bytes(bytes).cast_signed()
        }
    }

    impl LittleEndianConvert for i16 {
        type Bytes = [u8; 2];

        #[inline]
        fn into_le_bytes(self) -> [u8; 2] {
            self.cast_unsigned().into_le_bytes()
        }

        #[inline]
        fn from_le_bytes(bytes: [u8; 2]) -> i16 {
            <u16 as LittleEndianConvert>::from_le_bytes(bytes).cast_signed()
        }
    }

    impl LittleEndianConvert for i32 {
        type Bytes = [u8; 4];

        #[inline]
        fn into_le_bytes(self) -> [u8; 4] {
            self.cast_unsigned().into_le_bytes()
        }

        #[inline]
        fn from_le_bytes(bytes: [u8; 4]) -> i32 {
            <u32 as LittleEndianConvert>::from_le_bytes(bytes).cast_signed()
        }
    }

    impl LittleEndianConvert for i64 {
        type Bytes = [u8; 8];

        #[inline]
        fn into_le_bytes(self) -> [u8; 8] {
            self.cast_unsigned().into_le_bytes()
        }

        #[inline]
        fn from_le_bytes(bytes: [u8; 8]) -> i64 {
            <u64 as LittleEndianConvert>::from_le_bytes(bytes).cast_signed()
        }
    }

    impl LittleEndianConvert for i128 {
        type Bytes = [u8; 16];

        #[inline]
        fn into_le_bytes(self) -> [u8; 16] {
            self.cast_unsigned().into_le_bytes()
        }

        #[inline]
        fn from_le_bytes(bytes: [u8; 16]) -> i128 {
            <u128 as LittleEndianConvert>::from_le_bytes(bytes).cast_signed()
        }
    }
}
#[cfg(any(doc, test))]
pub mod laws {
    //! Laws on loads, on stores and on the bytes of numbers.

    use crate::proved::accesses::access::LittleEndianConvert;

    /// After an accepted store of `k` bytes of a number `n`, every load of `k` bytes at the same
    /// address gives `n` modulo 2 to the power `8 * k`, read signed or unsigned as its `value` makes an
    /// integer or a natural number of it. All other bytes are the same.
    ///
    /// # Contract
    ///
    /// ```text
    /// ensures integer: (k n a : ℕ) (old new : List ℕ) (value : ℕ → ℤ)
    ///     → IsStore old a (le_bytes k n) new (Ok (tt {0}))
    ///     → loaded k value new a ≡ Ok (value (n % 2 ^ (8 * k)))
    /// ensures natural: (k n a : ℕ) (old new : List ℕ) (value : ℕ → ℕ)
    ///     → IsStore old a (le_bytes k n) new (Ok (tt {0}))
    ///     → loaded k value new a ≡ Ok (value (n % 2 ^ (8 * k)))
    /// ensures outside: (k n a : ℕ) (old new : List ℕ)
    ///     → IsStore old a (le_bytes k n) new (Ok (tt {0})) → IsSameOutside old new a k
    /// ```
    ///
    /// Definitions: [`IsStore`](crate::specs::accesses::LoadStoreSpecs#IsStore), [`le_bytes`](crate::specs::types::NumbersSpecs#le_bytes), [`loaded`](crate::specs::accesses::LoadStoreSpecs#loaded), [`IsSameOutside`](crate::specs::accesses::LoadStoreSpecs#IsSameOutside).
    #[inline]
    pub fn stored_number_is_loaded() {}

    /// The bytes of the value of some bytes are those bytes.
    ///
    /// # Contract
    ///
    /// ```text
    /// ensures: T.Bytes.bytes_of result ≡ T.Bytes.bytes_of bytes
    /// ```
    ///
    /// `T` is a type with the trait `LittleEndianConvert`.
    #[must_use]
    #[inline]
    pub fn bytes_of_their_value<T: LittleEndianConvert>(bytes: T::Bytes) -> T::Bytes {
        T::from_le_bytes(bytes).into_le_bytes()
    }

    /// The value of the bytes of a value is that value.
    ///
    /// # Contract
    ///
    /// ```text
    /// ensures: result ≡ value
    /// ```
    #[must_use]
    #[inline]
    pub fn value_of_its_bytes<T: LittleEndianConvert>(value: T) -> T {
        T::from_le_bytes(value.into_le_bytes())
    }
}
pub mod wasm {
    //! The loads and stores of the integer types.
    //!
    //! A form without `_at` accesses the address `ptr + offset`, a form with `_at` the given one;
    //! addresses count bytes. The only error is `MemoryOutOfBounds`, and then nothing is written. Core
    //! specification: memory instructions. Upstream: `wasmi_core::wasm`.

    use crate::proved::accesses::access::{
        load, load_at, load_extend, load_extend_at, store, store_at, store_wrap, store_wrap_at,
    };
    use crate::proved::types::TrapCode;

    /// `i32.load8_s`: 8 bits, read signed.
    ///
    /// # Errors
    ///
    /// [`MemoryOutOfBounds`](crate::TrapCode::MemoryOutOfBounds) if the bytes end past the memory.
    ///
    /// # Contract
    ///
    /// ```text
    /// ensures: result ≡ loaded 1 (cast_signed w8) memory.now (ptr + offset)
    /// ```
    ///
    /// Definitions: [`loaded`](crate::specs::accesses::LoadStoreSpecs#loaded).
    #[inline]
    pub fn i32_load8_s(memory: &[u8], ptr: u64, offset: u64) -> Result<i32, TrapCode> {
        load_extend::<i32, i8>(memory, ptr, offset)
    }

    /// `i32.load8_s` at an address.
    ///
    /// # Errors
    ///
    /// [`MemoryOutOfBounds`](crate::TrapCode::MemoryOutOfBounds) if the bytes end past the memory.
    ///
    /// # Contract
    ///
    /// ```text
    /// ensures: result ≡ loaded 1 (cast_signed w8) memory.now address
    /// ```
    ///
    /// Definitions: [`loaded`](crate::specs::accesses::LoadStoreSpecs#loaded).
    #[inline]
    pub fn i32_load8_s_at(memory: &[u8], address: usize) -> Result<i32, TrapCode> {
        load_extend_at::<i32, i8>(memory, address)
    }

    /// `i32.load8_u`: 8 bits, read unsigned.
    ///
    /// # Errors
    ///
    /// [`MemoryOutOfBounds`](crate::TrapCode::MemoryOutOfBounds) if the bytes end past the memory.
    ///
    /// # Contract
    ///
    /// ```text
    /// ensures: result ≡ loaded 1 pos memory.now (ptr + offset)
    /// ```
    ///
    /// Definitions: [`loaded`](crate::specs::accesses::LoadStoreSpecs#loaded).
    #[inline]
    pub fn i32_load8_u(memory: &[u8], ptr: u64, offset: u64) -> Result<i32, TrapCode> {
        load_extend::<i32, u8>(memory, ptr, offset)
    }

    /// `i32.load8_u` at an address.
    ///
    /// # Errors
    ///
    /// [`MemoryOutOfBounds`](crate::TrapCode::MemoryOutOfBounds) if the bytes end past the memory.
    ///
    /// # Contract
    ///
    /// ```text
    /// ensures: result ≡ loaded 1 pos memory.now address
    /// ```
    ///
    /// Definitions: [`loaded`](crate::specs::accesses::LoadStoreSpecs#loaded).
    #[inline]
    pub fn i32_load8_u_at(memory: &[u8], address: usize) -> Result<i32, TrapCode> {
        load_extend_at::<i32, u8>(memory, address)
    }

    /// `i32.load16_s`: 16 bits, read signed.
    ///
    /// # Errors
    ///
    /// [`MemoryOutOfBounds`](crate::TrapCode::MemoryOutOfBounds) if the bytes end past the memory.
    ///
    /// # Contract
    ///
    /// ```text
    /// ensures: result ≡ loaded 2 (cast_signed w16) memory.now (ptr + offset)
    /// ```
    ///
    /// Definitions: [`loaded`](crate::specs::accesses::LoadStoreSpecs#loaded).
    #[inline]
    pub fn i32_load16_s(memory: &[u8], ptr: u64, offset: u64) -> Result<i32, TrapCode> {
        load_extend::<i32, i16>(memory, ptr, offset)
    }

    /// `i32.load16_s` at an address.
    ///
    /// # Errors
    ///
    /// [`MemoryOutOfBounds`](crate::TrapCode::MemoryOutOfBounds) if the bytes end past the memory.
    ///
    /// # Contract
    ///
    /// ```text
    /// ensures: result ≡ loaded 2 (cast_signed w16) memory.now address
    /// ```
    ///
    /// Definitions: [`loaded`](crate::specs::accesses::LoadStoreSpecs#loaded).
    #[inline]
    pub fn i32_load16_s_at(memory: &[u8], address: usize) -> Result<i32, TrapCode> {
        load_extend_at::<i32, i16>(memory, address)
    }

    /// `i32.load16_u`: 16 bits, read unsigned.
    ///
    /// # Errors
    ///
    /// [`MemoryOutOfBounds`](crate::TrapCode::MemoryOutOfBounds) if the bytes end past the memory.
    ///
    /// # Contract
    ///
    /// ```text
    /// ensures: result ≡ loaded 2 pos memory.now (ptr + offset)
    /// ```
    ///
    /// Definitions: [`loaded`](crate::specs::accesses::LoadStoreSpecs#loaded).
    #[inline]
    pub fn i32_load16_u(memory: &[u8], ptr: u64, offset: u64) -> Result<i32, TrapCode> {
        load_extend::<i32, u16>(memory, ptr, offset)
    }

    /// `i32.load16_u` at an address.
    ///
    /// # Errors
    ///
    /// [`MemoryOutOfBounds`](crate::TrapCode::MemoryOutOfBounds) if the bytes end past the memory.
    ///
    /// # Contract
    ///
    /// ```text
    /// ensures: result ≡ loaded 2 pos memory.now address
    /// ```
    ///
    /// Definitions: [`loaded`](crate::specs::accesses::LoadStoreSpecs#loaded).
    #[inline]
    pub fn i32_load16_u_at(memory: &[u8], address: usize) -> Result<i32, TrapCode> {
        load_extend_at::<i32, u16>(memory, address)
    }

    /// `i64.load8_s`: 8 bits, read signed.
    ///
    /// # Errors
    ///
    /// [`MemoryOutOfBounds`](crate::TrapCode::MemoryOutOfBounds) if the bytes end past the memory.
    ///
    /// # Contract
    ///
    /// ```text
    /// ensures: result ≡ loaded 1 (cast_signed w8) memory.now (ptr + offset)
    /// ```
    ///
    /// Definitions: [`loaded`](crate::specs::accesses::LoadStoreSpecs#loaded).
    #[inline]
    pub fn i64_load8_s(memory: &[u8], ptr: u64, offset: u64) -> Result<i64, TrapCode> {
        load_extend::<i64, i8>(memory, ptr, offset)
    }

    /// `i64.load8_s` at an address.
    ///
    /// # Errors
    ///
    /// [`MemoryOutOfBounds`](crate::TrapCode::MemoryOutOfBounds) if the bytes end past the memory.
    ///
    /// # Contract
    ///
    /// ```text
    /// ensures: result ≡ loaded 1 (cast_signed w8) memory.now address
    /// ```
    ///
    /// Definitions: [`loaded`](crate::specs::accesses::LoadStoreSpecs#loaded).
    #[inline]
    pub fn i64_load8_s_at(memory: &[u8], address: usize) -> Result<i64, TrapCode> {
        load_extend_at::<i64, i8>(memory, address)
    }

    /// `i64.load8_u`: 8 bits, read unsigned.
    ///
    /// # Errors
    ///
    /// [`MemoryOutOfBounds`](crate::TrapCode::MemoryOutOfBounds) if the bytes end past the memory.
    ///
    /// # Contract
    ///
    /// ```text
    /// ensures: result ≡ loaded 1 pos memory.now (ptr + offset)
    /// ```
    ///
    /// Definitions: [`loaded`](crate::specs::accesses::LoadStoreSpecs#loaded).
    #[inline]
    pub fn i64_load8_u(memory: &[u8], ptr: u64, offset: u64) -> Result<i64, TrapCode> {
        load_extend::<i64, u8>(memory, ptr, offset)
    }

    /// `i64.load8_u` at an address.
    ///
    /// # Errors
    ///
    /// [`MemoryOutOfBounds`](crate::TrapCode::MemoryOutOfBounds) if the bytes end past the memory.
    ///
    /// # Contract
    ///
    /// ```text
    /// ensures: result ≡ loaded 1 pos memory.now address
    /// ```
    ///
    /// Definitions: [`loaded`](crate::specs::accesses::LoadStoreSpecs#loaded).
    #[inline]
    pub fn i64_load8_u_at(memory: &[u8], address: usize) -> Result<i64, TrapCode> {
        load_extend_at::<i64, u8>(memory, address)
    }

    /// `i64.load16_s`: 16 bits, read signed.
    ///
    /// # Errors
    ///
    /// [`MemoryOutOfBounds`](crate::TrapCode::MemoryOutOfBounds) if the bytes end past the memory.
    ///
    /// # Contract
    ///
    /// ```text
    /// ensures: result ≡ loaded 2 (cast_signed w16) memory.now (ptr + offset)
    /// ```
    ///
    /// Definitions: [`loaded`](crate::specs::accesses::LoadStoreSpecs#loaded).
    #[inline]
    pub fn i64_load16_s(memory: &[u8], ptr: u64, offset: u64) -> Result<i64, TrapCode> {
        load_extend::<i64, i16>(memory, ptr, offset)
    }

    /// `i64.load16_s` at an address.
    ///
    /// # Errors
    ///
    /// [`MemoryOutOfBounds`](crate::TrapCode::MemoryOutOfBounds) if the bytes end past the memory.
    ///
    /// # Contract
    ///
    /// ```text
    /// ensures: result ≡ loaded 2 (cast_signed w16) memory.now address
    /// ```
    ///
    /// Definitions: [`loaded`](crate::specs::accesses::LoadStoreSpecs#loaded).
    #[inline]
    pub fn i64_load16_s_at(memory: &[u8], address: usize) -> Result<i64, TrapCode> {
        load_extend_at::<i64, i16>(memory, address)
    }

    /// `i64.load16_u`: 16 bits, read unsigned.
    ///
    /// # Errors
    ///
    /// [`MemoryOutOfBounds`](crate::TrapCode::MemoryOutOfBounds) if the bytes end past the memory.
    ///
    /// # Contract
    ///
    /// ```text
    /// ensures: result ≡ loaded 2 pos memory.now (ptr + offset)
    /// ```
    ///
    /// Definitions: [`loaded`](crate::specs::accesses::LoadStoreSpecs#loaded).
    #[inline]
    pub fn i64_load16_u(memory: &[u8], ptr: u64, offset: u64) -> Result<i64, TrapCode> {
        load_extend::<i64, u16>(memory, ptr, offset)
    }

    /// `i64.load16_u` at an address.
    ///
    /// # Errors
    ///
    /// [`MemoryOutOfBounds`](crate::TrapCode::MemoryOutOfBounds) if the bytes end past the memory.
    ///
    /// # Contract
    ///
    /// ```text
    /// ensures: result ≡ loaded 2 pos memory.now address
    /// ```
    ///
    /// Definitions: [`loaded`](crate::specs::accesses::LoadStoreSpecs#loaded).
    #[inline]
    pub fn i64_load16_u_at(memory: &[u8], address: usize) -> Result<i64, TrapCode> {
        load_extend_at::<i64, u16>(memory, address)
    }

    /// `i64.load32_s`: 32 bits, read signed.
    ///
    /// # Errors
    ///
    /// [`MemoryOutOfBounds`](crate::TrapCode::MemoryOutOfBounds) if the bytes end past the memory.
    ///
    /// # Contract
    ///
    /// ```text
    /// ensures: result ≡ loaded 4 (cast_signed w32) memory.now (ptr + offset)
    /// ```
    ///
    /// Definitions: [`loaded`](crate::specs::accesses::LoadStoreSpecs#loaded).
    #[inline]
    pub fn i64_load32_s(memory: &[u8], ptr: u64, offset: u64) -> Result<i64, TrapCode> {
        load_extend::<i64, i32>(memory, ptr, offset)
    }

    /// `i64.load32_s` at an address.
    ///
    /// # Errors
    ///
    /// [`MemoryOutOfBounds`](crate::TrapCode::MemoryOutOfBounds) if the bytes end past the memory.
    ///
    /// # Contract
    ///
    /// ```text
    /// ensures: result ≡ loaded 4 (cast_signed w32) memory.now address
    /// ```
    ///
    /// Definitions: [`loaded`](crate::specs::accesses::LoadStoreSpecs#loaded).
    #[inline]
    pub fn i64_load32_s_at(memory: &[u8], address: usize) -> Result<i64, TrapCode> {
        load_extend_at::<i64, i32>(memory, address)
    }

    /// `i64.load32_u`: 32 bits, read unsigned.
    ///
    /// # Errors
    ///
    /// [`MemoryOutOfBounds`](crate::TrapCode::MemoryOutOfBounds) if the bytes end past the memory.
    ///
    /// # Contract
    ///
    /// ```text
    /// ensures: result ≡ loaded 4 pos memory.now (ptr + offset)
    /// ```
    ///
    /// Definitions: [`loaded`](crate::specs::accesses::LoadStoreSpecs#loaded).
    #[inline]
    pub fn i64_load32_u(memory: &[u8], ptr: u64, offset: u64) -> Result<i64, TrapCode> {
        load_extend::<i64, u32>(memory, ptr, offset)
    }

    /// `i64.load32_u` at an address.
    ///
    /// # Errors
    ///
    /// [`MemoryOutOfBounds`](crate::TrapCode::MemoryOutOfBounds) if the bytes end past the memory.
    ///
    /// # Contract
    ///
    /// ```text
    /// ensures: result ≡ loaded 4 pos memory.now address
    /// ```
    ///
    /// Definitions: [`loaded`](crate::specs::accesses::LoadStoreSpecs#loaded).
    #[inline]
    pub fn i64_load32_u_at(memory: &[u8], address: usize) -> Result<i64, TrapCode> {
        load_extend_at::<i64, u32>(memory, address)
    }

    /// `i32.load`: 32 bits, read unsigned.
    ///
    /// # Errors
    ///
    /// [`MemoryOutOfBounds`](crate::TrapCode::MemoryOutOfBounds) if the bytes end past the memory.
    ///
    /// # Contract
    ///
    /// ```text
    /// ensures: result ≡ loaded 4 (λ n. n) memory.now (ptr + offset)
    /// ```
    ///
    /// Definitions: [`loaded`](crate::specs::accesses::LoadStoreSpecs#loaded).
    #[inline]
    pub fn load_u32(memory: &[u8], ptr: u64, offset: u64) -> Result<u32, TrapCode> {
        load::<u32>(memory, ptr, offset)
    }

    /// `i32.load` at an address.
    ///
    /// # Errors
    ///
    /// [`MemoryOutOfBounds`](crate::TrapCode::MemoryOutOfBounds) if the bytes end past the memory.
    ///
    /// # Contract
    ///
    /// ```text
    /// ensures: result ≡ loaded 4 (λ n. n) memory.now address
    /// ```
    ///
    /// Definitions: [`loaded`](crate::specs::accesses::LoadStoreSpecs#loaded).
    #[inline]
    pub fn load_u32_at(memory: &[u8], address: usize) -> Result<u32, TrapCode> {
        load_at::<u32>(memory, address)
    }

    /// `i64.load`: 64 bits, read unsigned.
    ///
    /// # Errors
    ///
    /// [`MemoryOutOfBounds`](crate::TrapCode::MemoryOutOfBounds) if the bytes end past the memory.
    ///
    /// # Contract
    ///
    /// ```text
    /// ensures: result ≡ loaded 8 (λ n. n) memory.now (ptr + offset)
    /// ```
    ///
    /// Definitions: [`loaded`](crate::specs::accesses::LoadStoreSpecs#loaded).
    #[inline]
    pub fn load_u64(memory: &[u8], ptr: u64, offset: u64) -> Result<u64, TrapCode> {
        load::<u64>(memory, ptr, offset)
    }

    /// `i64.load` at an address.
    ///
    /// # Errors
    ///
    /// [`MemoryOutOfBounds`](crate::TrapCode::MemoryOutOfBounds) if the bytes end past the memory.
    ///
    /// # Contract
    ///
    /// ```text
    /// ensures: result ≡ loaded 8 (λ n. n) memory.now address
    /// ```
    ///
    /// Definitions: [`loaded`](crate::specs::accesses::LoadStoreSpecs#loaded).
    #[inline]
    pub fn load_u64_at(memory: &[u8], address: usize) -> Result<u64, TrapCode> {
        load_at::<u64>(memory, address)
    }

    /// `i32.store8`: the value modulo 2 to the power 8.
    ///
    /// # Errors
    ///
    /// [`MemoryOutOfBounds`](crate::TrapCode::MemoryOutOfBounds) if the bytes would end past the memory; then nothing is written.
    ///
    /// # Contract
    ///
    /// ```text
    /// ensures: IsStore memory.old (ptr + offset)
    ///     (le_bytes 1 (cast_unsigned w32 value % 2 ^ 8)) memory.new result
    /// ```
    ///
    /// Definitions: [`IsStore`](crate::specs::accesses::LoadStoreSpecs#IsStore), [`le_bytes`](crate::specs::types::NumbersSpecs#le_bytes).
    #[inline]
    pub fn i32_store8(
        memory: &mut [u8],
        ptr: u64,
        offset: u64,
        value: i32,
    ) -> Result<(), TrapCode> {
        store_wrap::<i32, i8>(memory, ptr, offset, value)
    }

    /// `i32.store8` at an address.
    ///
    /// # Errors
    ///
    /// [`MemoryOutOfBounds`](crate::TrapCode::MemoryOutOfBounds) if the bytes would end past the memory; then nothing is written.
    ///
    /// # Contract
    ///
    /// ```text
    /// ensures: IsStore memory.old address
    ///     (le_bytes 1 (cast_unsigned w32 value % 2 ^ 8)) memory.new result
    /// ```
    ///
    /// Definitions: [`IsStore`](crate::specs::accesses::LoadStoreSpecs#IsStore), [`le_bytes`](crate::specs::types::NumbersSpecs#le_bytes).
    #[inline]
    pub fn i32_store8_at(memory: &mut [u8], address: usize, value: i32) -> Result<(), TrapCode> {
        store_wrap_at::<i32, i8>(memory, address, value)
    }

    /// `i32.store16`: the value modulo 2 to the power 16.
    ///
    /// # Errors
    ///
    /// [`MemoryOutOfBounds`](crate::TrapCode::MemoryOutOfBounds) if the bytes would end past the memory; then nothing is written.
    ///
    /// # Contract
    ///
    /// ```text
    /// ensures: IsStore memory.old (ptr + offset)
    ///     (le_bytes 2 (cast_unsigned w32 value % 2 ^ 16)) memory.new result
    /// ```
    ///
    /// Definitions: [`IsStore`](crate::specs::accesses::LoadStoreSpecs#IsStore), [`le_bytes`](crate::specs::types::NumbersSpecs#le_bytes).
    #[inline]
    pub fn i32_store16(
        memory: &mut [u8],
        ptr: u64,
        offset: u64,
        value: i32,
    ) -> Result<(), TrapCode> {
        store_wrap::<i32, i16>(memory, ptr, offset, value)
    }

    /// `i32.store16` at an address.
    ///
    /// # Errors
    ///
    /// [`MemoryOutOfBounds`](crate::TrapCode::MemoryOutOfBounds) if the bytes would end past the memory; then nothing is written.
    ///
    /// # Contract
    ///
    /// ```text
    /// ensures: IsStore memory.old address
    ///     (le_bytes 2 (cast_unsigned w32 value % 2 ^ 16)) memory.new result
    /// ```
    ///
    /// Definitions: [`IsStore`](crate::specs::accesses::LoadStoreSpecs#IsStore), [`le_bytes`](crate::specs::types::NumbersSpecs#le_bytes).
    #[inline]
    pub fn i32_store16_at(memory: &mut [u8], address: usize, value: i32) -> Result<(), TrapCode> {
        store_wrap_at::<i32, i16>(memory, address, value)
    }

    /// `i64.store8`: the value modulo 2 to the power 8.
    ///
    /// # Errors
    ///
    /// [`MemoryOutOfBounds`](crate::TrapCode::MemoryOutOfBounds) if the bytes would end past the memory; then nothing is written.
    ///
    /// # Contract
    ///
    /// ```text
    /// ensures: IsStore memory.old (ptr + offset)
    ///     (le_bytes 1 (cast_unsigned w64 value % 2 ^ 8)) memory.new result
    /// ```
    ///
    /// Definitions: [`IsStore`](crate::specs::accesses::LoadStoreSpecs#IsStore), [`le_bytes`](crate::specs::types::NumbersSpecs#le_bytes).
    #[inline]
    pub fn i64_store8(
        memory: &mut [u8],
        ptr: u64,
        offset: u64,
        value: i64,
    ) -> Result<(), TrapCode> {
        store_wrap::<i64, i8>(memory, ptr, offset, value)
    }

    /// `i64.store8` at an address.
    ///
    /// # Errors
    ///
    /// [`MemoryOutOfBounds`](crate::TrapCode::MemoryOutOfBounds) if the bytes would end past the memory; then nothing is written.
    ///
    /// # Contract
    ///
    /// ```text
    /// ensures: IsStore memory.old address
    ///     (le_bytes 1 (cast_unsigned w64 value % 2 ^ 8)) memory.new result
    /// ```
    ///
    /// Definitions: [`IsStore`](crate::specs::accesses::LoadStoreSpecs#IsStore), [`le_bytes`](crate::specs::types::NumbersSpecs#le_bytes).
    #[inline]
    pub fn i64_store8_at(memory: &mut [u8], address: usize, value: i64) -> Result<(), TrapCode> {
        store_wrap_at::<i64, i8>(memory, address, value)
    }

    /// `i64.store16`: the value modulo 2 to the power 16.
    ///
    /// # Errors
    ///
    /// [`MemoryOutOfBounds`](crate::TrapCode::MemoryOutOfBounds) if the bytes would end past the memory; then nothing is written.
    ///
    /// # Contract
    ///
    /// ```text
    /// ensures: IsStore memory.old (ptr + offset)
    ///     (le_bytes 2 (cast_unsigned w64 value % 2 ^ 16)) memory.new result
    /// ```
    ///
    /// Definitions: [`IsStore`](crate::specs::accesses::LoadStoreSpecs#IsStore), [`le_bytes`](crate::specs::types::NumbersSpecs#le_bytes).
    #[inline]
    pub fn i64_store16(
        memory: &mut [u8],
        ptr: u64,
        offset: u64,
        value: i64,
    ) -> Result<(), TrapCode> {
        store_wrap::<i64, i16>(memory, ptr, offset, value)
    }

    /// `i64.store16` at an address.
    ///
    /// # Errors
    ///
    /// [`MemoryOutOfBounds`](crate::TrapCode::MemoryOutOfBounds) if the bytes would end past the memory; then nothing is written.
    ///
    /// # Contract
    ///
    /// ```text
    /// ensures: IsStore memory.old address
    ///     (le_bytes 2 (cast_unsigned w64 value % 2 ^ 16)) memory.new result
    /// ```
    ///
    /// Definitions: [`IsStore`](crate::specs::accesses::LoadStoreSpecs#IsStore), [`le_bytes`](crate::specs::types::NumbersSpecs#le_bytes).
    #[inline]
    pub fn i64_store16_at(memory: &mut [u8], address: usize, value: i64) -> Result<(), TrapCode> {
        store_wrap_at::<i64, i16>(memory, address, value)
    }

    /// `i64.store32`: the value modulo 2 to the power 32.
    ///
    /// # Errors
    ///
    /// [`MemoryOutOfBounds`](crate::TrapCode::MemoryOutOfBounds) if the bytes would end past the memory; then nothing is written.
    ///
    /// # Contract
    ///
    /// ```text
    /// ensures: IsStore memory.old (ptr + offset)
    ///     (le_bytes 4 (cast_unsigned w64 value % 2 ^ 32)) memory.new result
    /// ```
    ///
    /// Definitions: [`IsStore`](crate::specs::accesses::LoadStoreSpecs#IsStore), [`le_bytes`](crate::specs::types::NumbersSpecs#le_bytes).
    #[inline]
    pub fn i64_store32(
        memory: &mut [u8],
        ptr: u64,
        offset: u64,
        value: i64,
    ) -> Result<(), TrapCode> {
        store_wrap::<i64, i32>(memory, ptr, offset, value)
    }

    /// `i64.store32` at an address.
    ///
    /// # Errors
    ///
    /// [`MemoryOutOfBounds`](crate::TrapCode::MemoryOutOfBounds) if the bytes would end past the memory; then nothing is written.
    ///
    /// # Contract
    ///
    /// ```text
    /// ensures: IsStore memory.old address
    ///     (le_bytes 4 (cast_unsigned w64 value % 2 ^ 32)) memory.new result
    /// ```
    ///
    /// Definitions: [`IsStore`](crate::specs::accesses::LoadStoreSpecs#IsStore), [`le_bytes`](crate::specs::types::NumbersSpecs#le_bytes).
    #[inline]
    pub fn i64_store32_at(memory: &mut [u8], address: usize, value: i64) -> Result<(), TrapCode> {
        store_wrap_at::<i64, i32>(memory, address, value)
    }

    /// `i32.store`: the 32 bits of the value.
    ///
    /// # Errors
    ///
    /// [`MemoryOutOfBounds`](crate::TrapCode::MemoryOutOfBounds) if the bytes would end past the memory; then nothing is written.
    ///
    /// # Contract
    ///
    /// ```text
    /// ensures: IsStore memory.old (ptr + offset) (le_bytes 4 value) memory.new result
    /// ```
    ///
    /// Definitions: [`IsStore`](crate::specs::accesses::LoadStoreSpecs#IsStore), [`le_bytes`](crate::specs::types::NumbersSpecs#le_bytes).
    #[inline]
    pub fn store32(memory: &mut [u8], ptr: u64, offset: u64, value: u32) -> Result<(), TrapCode> {
        store::<u32>(memory, ptr, offset, value)
    }

    /// `i32.store` at an address.
    ///
    /// # Errors
    ///
    /// [`MemoryOutOfBounds`](crate::TrapCode::MemoryOutOfBounds) if the bytes would end past the memory; then nothing is written.
    ///
    /// # Contract
    ///
    /// ```text
    /// ensures: IsStore memory.old address (le_bytes 4 value) memory.new result
    /// ```
    ///
    /// Definitions: [`IsStore`](crate::specs::accesses::LoadStoreSpecs#IsStore), [`le_bytes`](crate::specs::types::NumbersSpecs#le_bytes).
    #[inline]
    pub fn store32_at(memory: &mut [u8], address: usize, value: u32) -> Result<(), TrapCode> {
        store_at::<u32>(memory, address, value)
    }

    /// `i64.store`: the 64 bits of the value.
    ///
    /// # Errors
    ///
    /// [`MemoryOutOfBounds`](crate::TrapCode::MemoryOutOfBounds) if the bytes would end past the memory; then nothing is written.
    ///
    /// # Contract
    ///
    /// ```text
    /// ensures: IsStore memory.old (ptr + offset) (le_bytes 8 value) memory.new result
    /// ```
    ///
    /// Definitions: [`IsStore`](crate::specs::accesses::LoadStoreSpecs#IsStore), [`le_bytes`](crate::specs::types::NumbersSpecs#le_bytes).
    #[inline]
    pub fn store64(memory: &mut [u8], ptr: u64, offset: u64, value: u64) -> Result<(), TrapCode> {
        store::<u64>(memory, ptr, offset, value)
    }

    /// `i64.store` at an address.
    ///
    /// # Errors
    ///
    /// [`MemoryOutOfBounds`](crate::TrapCode::MemoryOutOfBounds) if the bytes would end past the memory; then nothing is written.
    ///
    /// # Contract
    ///
    /// ```text
    /// ensures: IsStore memory.old address (le_bytes 8 value) memory.new result
    /// ```
    ///
    /// Definitions: [`IsStore`](crate::specs::accesses::LoadStoreSpecs#IsStore), [`le_bytes`](crate::specs::types::NumbersSpecs#le_bytes).
    #[inline]
    pub fn store64_at(memory: &mut [u8], address: usize, value: u64) -> Result<(), TrapCode> {
        store_at::<u64>(memory, address, value)
    }
}
