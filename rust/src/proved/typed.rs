//! Raw values with their types, shift amounts, and global variables.
mod global {
    //! Global variables, their types, and the errors of writing one.

    use crate::proved::raw::RawVal;
    use crate::proved::typed::typed::TypedRawVal;
    use crate::proved::types::ValType;
    use core::fmt;

    /// Why a global variable was not written. Upstream: `wasmi_core::GlobalError`.
    #[derive(Debug, PartialEq, Eq)]
    #[non_exhaustive]
    pub enum GlobalError {
        /// The variable is a constant.
        ImmutableWrite,
        /// The variable can be written, and holds values of another type.
        TypeMismatch,
    }

    impl GlobalError {
        /// Its text.
        ///
        /// # Contract
        ///
        /// ```text
        /// ensures: result.now ≡ global_error_text self.now
        /// ```
        ///
        /// Definitions: [`global_error_text`](crate::specs::typed::GlobalSpecs#global_error_text).
        #[must_use]
        #[inline]
        pub(crate) fn words(&self) -> &'static str {
            match self {
                Self::ImmutableWrite => "tried to write to immutable global variable",
                Self::TypeMismatch => {
                    "tried to write value of non-matching type to global variable"
                }
            }
        }
    }

    /// # Contract
    ///
    /// ```text
    /// output = λ error. Some (global_error_text error)
    /// ```
    ///
    /// Definitions: [`global_error_text`](crate::specs::typed::GlobalSpecs#global_error_text).
    impl fmt::Display for GlobalError {
        #[inline]
        fn fmt(&self, f: &mut fmt::Formatter<'_>) -> fmt::Result {
            f.write_str(self.words())
        }
    }

    impl core::error::Error for GlobalError {}

    /// Whether a global variable can be written. Core specification 2.3, global types. Upstream:
    /// `wasmi_core::Mutability`.
    #[derive(Clone, Copy, Debug, PartialEq, Eq)]
    pub enum Mutability {
        /// It keeps its first value.
        Const,
        /// It can be written.
        Var,
    }

    impl Mutability {
        /// Whether a global variable keeps its first value.
        ///
        /// # Contract
        ///
        /// ```text
        /// ensures: IsTrue result ↔ (self.now ≡ Mutability.Const)
        /// ```
        #[must_use]
        #[inline]
        pub fn is_const(&self) -> bool {
            matches!(self, Mutability::Const)
        }

        /// Whether a global variable can be written.
        ///
        /// # Contract
        ///
        /// ```text
        /// ensures: IsTrue result ↔ (self.now ≡ Mutability.Var)
        /// ```
        #[must_use]
        #[inline]
        pub fn is_mut(&self) -> bool {
            matches!(self, Mutability::Var)
        }
    }

    /// The type of a global variable. Core specification 2.3, global types. Upstream:
    /// `wasmi_core::GlobalType`.
    ///
    /// # Fields in contracts
    ///
    /// Contracts name fields that are private here:
    ///
    /// - `content`: The type of its value.
    /// - `mutability`: Whether it can be written.
    #[derive(Clone, Copy, Debug, PartialEq, Eq)]
    pub struct GlobalType {
        /// The type of its value.
        pub(crate) content: ValType,
        /// Whether it can be written.
        pub(crate) mutability: Mutability,
    }

    impl GlobalType {
        /// The type of the global variables with this type of value, constant or not.
        ///
        /// # Contract
        ///
        /// ```text
        /// ensures: result ≡ record { content = content; mutability = mutability }
        /// ```
        #[must_use]
        #[inline]
        pub fn new(content: ValType, mutability: Mutability) -> GlobalType {
            GlobalType {
                content,
                mutability,
            }
        }

        /// The type of the value.
        ///
        /// # Contract
        ///
        /// ```text
        /// ensures: result ≡ self.now.content
        /// ```
        #[must_use]
        #[inline]
        pub fn content(&self) -> ValType {
            self.content
        }

        /// Whether the global variable can be written.
        ///
        /// # Contract
        ///
        /// ```text
        /// ensures: result ≡ self.now.mutability
        /// ```
        #[must_use]
        #[inline]
        pub fn mutability(&self) -> Mutability {
            self.mutability
        }
    }

    /// A global variable, which contracts see as its present value and its type. Core specification
    /// 4.2, global instances. Upstream: `wasmi_core::Global`.
    #[doc = examples!(typed Global)]
    #[derive(Debug)]
    pub struct Global {
        pub(crate) value: RawVal,
        ty: GlobalType,
    }

    impl Global {
        /// The global variable of this type with `value`, which is taken to be of that type.
        ///
        /// # Contract
        ///
        /// ```text
        /// ensures: result ≡ record { value = value; ty = ty }
        /// ```
        #[must_use]
        #[inline]
        pub fn new(value: RawVal, ty: GlobalType) -> Global {
            Global { value, ty }
        }

        /// The type.
        ///
        /// # Contract
        ///
        /// ```text
        /// ensures: result ≡ self.now.ty
        /// ```
        #[must_use]
        #[inline]
        pub fn ty(&self) -> GlobalType {
            self.ty
        }

        /// Writes `new_value`, where the variable is no constant and the value is of its type.
        ///
        /// # Errors
        ///
        /// In the order of the tests: [`ImmutableWrite`](crate::GlobalError::ImmutableWrite) if the variable is a constant; [`TypeMismatch`](crate::GlobalError::TypeMismatch) if the value is of another type.
        ///
        /// # Contract
        ///
        /// ```text
        /// ensures: SetsGlobal self.old new_value result self.new
        /// ```
        ///
        /// Definitions: [`SetsGlobal`](crate::specs::typed::GlobalSpecs#SetsGlobal).
        #[inline]
        #[doc(alias = "global.set")]
        pub fn set(&mut self, new_value: TypedRawVal) -> Result<(), GlobalError> {
            if self.ty.mutability.is_const() {
                return Err(GlobalError::ImmutableWrite);
            }
            if self.ty.content != new_value.ty {
                return Err(GlobalError::TypeMismatch);
            }
            self.value = new_value.raw;
            Ok(())
        }

        /// The present value with its type.
        ///
        /// # Contract
        ///
        /// ```text
        /// ensures: result ≡ record { ty = self.now.ty.content; raw = self.now.value }
        /// ```
        #[must_use]
        #[inline]
        #[doc(alias = "global.get")]
        pub fn get(&self) -> TypedRawVal {
            TypedRawVal::new(self.ty.content, self.value)
        }

        /// The present value.
        ///
        /// # Contract
        ///
        /// ```text
        /// ensures: result.now ≡ self.now.value
        /// ```
        #[must_use]
        #[inline]
        pub fn get_raw(&self) -> &RawVal {
            &self.value
        }

        /// The present value, to be written in place, of a variable that is no constant.
        ///
        /// What is written has no type, so it is read as a value of the variable's type.
        ///
        /// # Panics
        ///
        /// Panics if the variable is a constant.
        ///
        /// # Contract
        ///
        /// ```text
        /// requires variable: self.old.ty.mutability ≡ Mutability.Var
        /// ensures* writes_back: sem 𝓛 (LendsValue self.entry result)
        /// ensures value: result.now ≡ self.old.value
        /// ```
        ///
        /// Definitions: [`LendsValue`](crate::specs::typed::GlobalSpecs#LendsValue).
        #[inline]
        pub(crate) fn get_raw_mut(&mut self) -> &mut RawVal {
            assert!(!self.ty.mutability.is_const(), "the variable is a constant");
            &mut self.value
        }
    }
}
mod shift_amount {
    //! The amount of a shift: how many bits a number is shifted by.

    use crate::proved::raw::Number;

    mod sealed {
        use crate::proved::raw::Number;

        #[allow(unnameable_types)]
        pub trait Sealed<Lane> {}

        impl<T: Number> Sealed<T> for T {}

        impl<T: Number, const N: usize> Sealed<T> for [T; N] {}
    }

    /// By how many bits a number is shifted. Contracts see it as that number. Upstream:
    /// `wasmi_core::ShiftAmount`.
    ///
    /// # Model
    ///
    /// ```text
    /// Value = ℕ
    /// view = λ amount. amount.bits
    /// inverse = λ bits. record { bits = bits }
    /// ```
    #[derive(Clone, Copy, PartialEq, Eq)]
    pub struct ShiftAmount {
        bits: u8,
    }

    /// # Contract
    ///
    /// ```text
    /// from_gives = λ bits amount. amount ≡ bits
    /// ```
    impl From<u8> for ShiftAmount {
        #[inline]
        fn from(bits: u8) -> ShiftAmount {
            ShiftAmount { bits }
        }
    }

    /// # Contract
    ///
    /// ```text
    /// from_gives = λ amount bits. bits ≡ amount
    /// ```
    impl From<ShiftAmount> for u8 {
        #[inline]
        fn from(amount: ShiftAmount) -> u8 {
            amount.bits
        }
    }

    /// A number whose bits are shifted, or a vector the bits of whose lanes are.
    ///
    /// The ten integer types have it and the arrays of the unsigned lanes of a vector, and no other
    /// type can. Upstream: `wasmi_core::IntoShiftAmount`, which other types can have.
    pub trait IntoShiftAmount: sealed::Sealed<<Self as IntoShiftAmount>::Lane> {
        /// The type in which the amount is given.
        type ShiftSource: Copy + Number;

        /// The type of the number, or of a lane of the vector.
        type Lane: Number;

        /// The remainder of `source` by the number of bits, or `None` where that is 0 and nothing is
        /// shifted.
        ///
        /// # Contract
        ///
        /// ```text
        /// ensures: result ≡ shift_amount (bits Self.Lane.width) (Self.ShiftSource.number source)
        /// ```
        ///
        /// Definitions: [`shift_amount`](crate::specs::typed::TypedSpecs#shift_amount).
        fn into_shift_amount(source: Self::ShiftSource) -> Option<ShiftAmount>;
    }

    // The amount of a shift, or `None` where it is 0.
    /// # Contract
    ///
    /// ```text
    /// ensures: result ≡ (if bits == 0 then None else Some bits)
    /// ```
    #[inline]
    fn unless_zero(bits: u8) -> Option<ShiftAmount> {
        (bits != 0).then_some(ShiftAmount { bits })
    }

    impl IntoShiftAmount for i8 {
        type ShiftSource = i8;

        type Lane = i8;

        #[inline]
        fn into_shift_amount(source: i8) -> Option<ShiftAmount> {
            unless_zero(source.rem_euclid(8) as u8)
        }
    }

    impl IntoShiftAmount for u8 {
        type ShiftSource = u8;

        type Lane = u8;

        #[inline]
        fn into_shift_amount(source: u8) -> Option<ShiftAmount> {
            unless_zero(source % 8)
        }
    }

    impl IntoShiftAmount for i16 {
        type ShiftSource = i16;

        type Lane = i16;

        #[inline]
        fn into_shift_amount(source: i16) -> Option<ShiftAmount> {
            unless_zero(source.rem_euclid(16) as u8)
        }
    }

    impl IntoShiftAmount for u16 {
        type ShiftSource = u16;

        type Lane = u16;

        #[inline]
        fn into_shift_amount(source: u16) -> Option<ShiftAmount> {
            unless_zero((source % 16) as u8)
        }
    }

    impl IntoShiftAmount for i32 {
        type ShiftSource = i32;

        type Lane = i32;

        #[inline]
        fn into_shift_amount(source: i32) -> Option<ShiftAmount> {
            unless_zero(source.rem_euclid(32) as u8)
        }
    }

    impl IntoShiftAmount for u32 {
        type ShiftSource = u32;

        type Lane = u32;

        #[inline]
        fn into_shift_amount(source: u32) -> Option<ShiftAmount> {
            unless_zero((source % 32) as u8)
        }
    }

    impl IntoShiftAmount for i64 {
        type ShiftSource = i64;

        type Lane = i64;

        #[inline]
        fn into_shift_amount(source: i64) -> Option<ShiftAmount> {
            unless_zero(source.rem_euclid(64) as u8)
        }
    }

    impl IntoShiftAmount for u64 {
        type ShiftSource = u64;

        type Lane = u64;

        #[inline]
        fn into_shift_amount(source: u64) -> Option<ShiftAmount> {
            unless_zero((source % 64) as u8)
        }
    }

    impl IntoShiftAmount for i128 {
        type ShiftSource = i128;

        type Lane = i128;

        #[inline]
        fn into_shift_amount(source: i128) -> Option<ShiftAmount> {
            unless_zero(source.rem_euclid(128) as u8)
        }
    }

    impl IntoShiftAmount for u128 {
        type ShiftSource = u128;

        type Lane = u128;

        #[inline]
        fn into_shift_amount(source: u128) -> Option<ShiftAmount> {
            unless_zero((source % 128) as u8)
        }
    }

    impl IntoShiftAmount for [u8; 16] {
        type ShiftSource = u32;

        type Lane = u8;

        #[inline]
        fn into_shift_amount(source: u32) -> Option<ShiftAmount> {
            unless_zero((source % 8) as u8)
        }
    }

    impl IntoShiftAmount for [u16; 8] {
        type ShiftSource = u32;

        type Lane = u16;

        #[inline]
        fn into_shift_amount(source: u32) -> Option<ShiftAmount> {
            unless_zero((source % 16) as u8)
        }
    }

    impl IntoShiftAmount for [u32; 4] {
        type ShiftSource = u32;

        type Lane = u32;

        #[inline]
        fn into_shift_amount(source: u32) -> Option<ShiftAmount> {
            unless_zero((source % 32) as u8)
        }
    }

    impl IntoShiftAmount for [u64; 2] {
        type ShiftSource = u32;

        type Lane = u64;

        #[inline]
        fn into_shift_amount(source: u32) -> Option<ShiftAmount> {
            unless_zero((source % 64) as u8)
        }
    }
}
mod typed {
    //! Raw values with their types, and of which value type the values of a Rust type are.

    use crate::proved::raw::{F32, F64, RawVal, ReadAs, V128};
    use crate::proved::typed::shift_amount::ShiftAmount;
    use crate::proved::types::ValType;
    use core::num::NonZero;

    /// A type whose values are all of one value type. Upstream: `wasmi_core::Typed`.
    ///
    /// # Contract
    ///
    /// ```text
    /// -- The value type, in contracts.
    /// TY: ValType
    /// ```
    pub trait Typed {
        /// The value type.
        const TY: ValType;
    }

    /// A type whose values are of the value type `I32`. Only this crate's `Typed` names it.
    #[allow(unnameable_types)]
    pub trait TypedI32 {}

    /// Of type `I32` are `bool`, `i8`, `u8`, `i16`, `u16`, `i32`, `u32`, `NonZero<i32>`,
    /// `NonZero<u32>` and [`ShiftAmount`].
    ///
    /// # Contract
    ///
    /// ```text
    /// TY = types.I32
    /// ```
    impl<T: TypedI32> Typed for T {
        const TY: ValType = ValType::I32;
    }

    impl TypedI32 for bool {}

    impl TypedI32 for i8 {}

    impl TypedI32 for u8 {}

    impl TypedI32 for i16 {}

    impl TypedI32 for u16 {}

    impl TypedI32 for i32 {}

    impl TypedI32 for u32 {}

    impl TypedI32 for ShiftAmount {}

    impl TypedI32 for NonZero<i32> {}

    impl TypedI32 for NonZero<u32> {}

    /// # Contract
    ///
    /// ```text
    /// TY = types.I64
    /// ```
    impl Typed for i64 {
        const TY: ValType = ValType::I64;
    }

    /// # Contract
    ///
    /// ```text
    /// TY = types.I64
    /// ```
    impl Typed for u64 {
        const TY: ValType = ValType::I64;
    }

    /// # Contract
    ///
    /// ```text
    /// TY = types.I64
    /// ```
    impl Typed for NonZero<i64> {
        const TY: ValType = ValType::I64;
    }

    /// # Contract
    ///
    /// ```text
    /// TY = types.I64
    /// ```
    impl Typed for NonZero<u64> {
        const TY: ValType = ValType::I64;
    }

    /// # Contract
    ///
    /// ```text
    /// TY = types.F32
    /// ```
    impl Typed for F32 {
        const TY: ValType = ValType::F32;
    }

    /// # Contract
    ///
    /// ```text
    /// TY = types.F64
    /// ```
    impl Typed for F64 {
        const TY: ValType = ValType::F64;
    }

    /// # Contract
    ///
    /// ```text
    /// TY = types.V128
    /// ```
    impl Typed for V128 {
        const TY: ValType = ValType::V128;
    }

    /// A raw value with its type. Upstream: `wasmi_core::TypedRawVal`.
    ///
    /// # Fields in contracts
    ///
    /// Contracts name fields that are private here:
    ///
    /// - `ty`: The type.
    /// - `raw`: The value.
    #[doc = examples!(typed TypedRawVal)]
    #[derive(Clone, Copy, PartialEq, Eq)]
    pub struct TypedRawVal {
        /// The type.
        pub(crate) ty: ValType,
        /// The value.
        pub(crate) raw: RawVal,
    }

    impl TypedRawVal {
        /// The raw value with a type. None is refused: every raw value has a reading at every type.
        ///
        /// # Contract
        ///
        /// ```text
        /// ensures: result ≡ record { ty = ty; raw = raw }
        /// ```
        #[must_use]
        #[inline]
        pub fn new(ty: ValType, raw: RawVal) -> TypedRawVal {
            TypedRawVal { ty, raw }
        }

        /// The type.
        ///
        /// # Contract
        ///
        /// ```text
        /// ensures: result ≡ self.now.ty
        /// ```
        #[must_use]
        #[inline]
        pub fn ty(&self) -> ValType {
            self.ty
        }

        /// The value.
        ///
        /// # Contract
        ///
        /// ```text
        /// ensures: result ≡ self.now.raw
        /// ```
        #[must_use]
        #[inline]
        pub fn raw(&self) -> RawVal {
            self.raw
        }
    }

    /// # Contract
    ///
    /// ```text
    /// from_gives = λ value typed. (typed.ty ≡ T.TY) × (T.converts value typed.raw)
    /// ```
    ///
    /// `T` is a type with the trait `Typed`.
    impl<T: Typed + Into<RawVal>> From<T> for TypedRawVal {
        #[inline]
        fn from(value: T) -> TypedRawVal {
            TypedRawVal::new(T::TY, value.into())
        }
    }

    /// # Contract
    ///
    /// ```text
    /// from_gives = λ typed raw. raw ≡ typed.raw
    /// ```
    impl From<TypedRawVal> for RawVal {
        #[inline]
        fn from(typed: TypedRawVal) -> RawVal {
            typed.raw
        }
    }

    /// # Contract
    ///
    /// ```text
    /// from_gives = λ typed value. value ≡ bool_in typed.raw
    /// ```
    ///
    /// Definitions: [`bool_in`](crate::specs::raw::RawValSpecs#bool_in).
    impl From<TypedRawVal> for bool {
        #[inline]
        fn from(typed: TypedRawVal) -> bool {
            typed.raw.read_as()
        }
    }

    /// # Contract
    ///
    /// ```text
    /// from_gives = λ typed value. value ≡ signed_in w8 typed.raw
    /// ```
    ///
    /// Definitions: [`signed_in`](crate::specs::raw::RawValSpecs#signed_in).
    impl From<TypedRawVal> for i8 {
        #[inline]
        fn from(typed: TypedRawVal) -> i8 {
            typed.raw.read_as()
        }
    }

    /// # Contract
    ///
    /// ```text
    /// from_gives = λ typed value. value ≡ signed_in w16 typed.raw
    /// ```
    ///
    /// Definitions: [`signed_in`](crate::specs::raw::RawValSpecs#signed_in).
    impl From<TypedRawVal> for i16 {
        #[inline]
        fn from(typed: TypedRawVal) -> i16 {
            typed.raw.read_as()
        }
    }

    /// # Contract
    ///
    /// ```text
    /// from_gives = λ typed value. value ≡ signed_in w32 typed.raw
    /// ```
    ///
    /// Definitions: [`signed_in`](crate::specs::raw::RawValSpecs#signed_in).
    impl From<TypedRawVal> for i32 {
        #[inline]
        fn from(typed: TypedRawVal) -> i32 {
            typed.raw.read_as()
        }
    }

    /// # Contract
    ///
    /// ```text
    /// from_gives = λ typed value. value ≡ signed_in w64 typed.raw
    /// ```
    ///
    /// Definitions: [`signed_in`](crate::specs::raw::RawValSpecs#signed_in).
    impl From<TypedRawVal> for i64 {
        #[inline]
        fn from(typed: TypedRawVal) -> i64 {
            typed.raw.read_as()
        }
    }

    /// # Contract
    ///
    /// ```text
    /// from_gives = λ typed value. value ≡ unsigned_in w8 typed.raw
    /// ```
    ///
    /// Definitions: [`unsigned_in`](crate::specs::raw::RawValSpecs#unsigned_in).
    impl From<TypedRawVal> for u8 {
        #[inline]
        fn from(typed: TypedRawVal) -> u8 {
            typed.raw.read_as()
        }
    }

    /// # Contract
    ///
    /// ```text
    /// from_gives = λ typed value. value ≡ unsigned_in w16 typed.raw
    /// ```
    ///
    /// Definitions: [`unsigned_in`](crate::specs::raw::RawValSpecs#unsigned_in).
    impl From<TypedRawVal> for u16 {
        #[inline]
        fn from(typed: TypedRawVal) -> u16 {
            typed.raw.read_as()
        }
    }

    /// # Contract
    ///
    /// ```text
    /// from_gives = λ typed value. value ≡ unsigned_in w32 typed.raw
    /// ```
    ///
    /// Definitions: [`unsigned_in`](crate::specs::raw::RawValSpecs#unsigned_in).
    impl From<TypedRawVal> for u32 {
        #[inline]
        fn from(typed: TypedRawVal) -> u32 {
            typed.raw.read_as()
        }
    }

    /// # Contract
    ///
    /// ```text
    /// from_gives = λ typed value. value ≡ unsigned_in w64 typed.raw
    /// ```
    ///
    /// Definitions: [`unsigned_in`](crate::specs::raw::RawValSpecs#unsigned_in).
    impl From<TypedRawVal> for u64 {
        #[inline]
        fn from(typed: TypedRawVal) -> u64 {
            typed.raw.read_as()
        }
    }

    /// # Contract
    ///
    /// ```text
    /// from_gives = λ typed value. value ≡ vector_in typed.raw
    /// ```
    ///
    /// Definitions: [`vector_in`](crate::specs::raw::RawValSpecs#vector_in).
    impl From<TypedRawVal> for V128 {
        #[inline]
        fn from(typed: TypedRawVal) -> V128 {
            typed.raw.read_as()
        }
    }
}
mod typed_ref {
    //! Raw references with their types, and the error where a typed raw value is none.

    use crate::proved::raw::{RawRef, RawVal};
    use crate::proved::typed::typed::TypedRawVal;
    use crate::proved::types::{RefType, ValType};
    use core::fmt;

    /// A raw reference with its type. Upstream: `wasmi_core::TypedRawRef`.
    ///
    /// # Fields in contracts
    ///
    /// Contracts name fields that are private here:
    ///
    /// - `raw`: The reference.
    /// - `ty`: The type.
    #[derive(Clone, Copy, Debug, PartialEq, Eq)]
    pub struct TypedRawRef {
        /// The reference.
        pub(crate) raw: RawRef,
        /// The type.
        pub(crate) ty: RefType,
    }

    impl TypedRawRef {
        /// The raw reference with a type. Any raw reference can be one of either type.
        ///
        /// # Contract
        ///
        /// ```text
        /// ensures: result ≡ record { raw = raw; ty = ty }
        /// ```
        #[must_use]
        #[inline]
        pub fn new(raw: RawRef, ty: RefType) -> TypedRawRef {
            TypedRawRef { raw, ty }
        }

        /// The null reference of a type.
        ///
        /// # Contract
        ///
        /// ```text
        /// ensures: result ≡ record { raw = 0; ty = ty }
        /// ```
        #[must_use]
        #[inline]
        pub fn null(ty: RefType) -> TypedRawRef {
            TypedRawRef::new(RawRef::null(), ty)
        }

        /// The reference.
        ///
        /// # Contract
        ///
        /// ```text
        /// ensures: result ≡ self.now.raw
        /// ```
        #[must_use]
        #[inline]
        pub fn raw(&self) -> RawRef {
            self.raw
        }

        /// The type.
        ///
        /// # Contract
        ///
        /// ```text
        /// ensures: result ≡ self.now.ty
        /// ```
        #[must_use]
        #[inline]
        pub fn ty(&self) -> RefType {
            self.ty
        }
    }

    /// # Contract
    ///
    /// ```text
    /// from_gives = λ reference typed. typed
    ///     ≡ record { ty = value_of reference.ty; raw = raw_of reference.raw }
    /// ```
    ///
    /// Definitions: [`value_of`](crate::specs::types::ValueSpecs#value_of), [`raw_of`](crate::specs::raw::RawValSpecs#raw_of).
    impl From<TypedRawRef> for TypedRawVal {
        #[inline]
        fn from(reference: TypedRawRef) -> TypedRawVal {
            TypedRawVal::new(ValType::from(reference.ty), RawVal::from(reference.raw))
        }
    }

    /// Why a typed raw value is no reference: its type is none of references. Own: upstream panics.
    #[derive(Debug, PartialEq, Eq)]
    pub struct NotAReference;

    /// # Contract
    ///
    /// ```text
    /// output = λ _. Some not_a_reference_text
    /// ```
    ///
    /// Definitions: [`not_a_reference_text`](crate::specs::typed::TypedSpecs#not_a_reference_text).
    impl fmt::Display for NotAReference {
        #[inline]
        fn fmt(&self, f: &mut fmt::Formatter<'_>) -> fmt::Result {
            f.write_str("not a reference type")
        }
    }

    impl core::error::Error for NotAReference {}

    /// # Contract
    ///
    /// ```text
    /// try_from_gives = IsReference
    /// ```
    ///
    /// Definitions: [`IsReference`](crate::specs::typed::TypedSpecs#IsReference).
    impl TypedRawRef {
        #[inline]
        pub(crate) fn of_value(typed: TypedRawVal) -> Result<TypedRawRef, NotAReference> {
            match typed.ty.as_ref() {
                Some(ty) => Ok(TypedRawRef::new(RawRef::from(typed.raw), ty)),
                None => Err(NotAReference),
            }
        }
    }
}

pub use global::{Global, GlobalError, GlobalType, Mutability};
pub use shift_amount::{IntoShiftAmount, ShiftAmount};
pub use typed::{Typed, TypedRawVal};
pub use typed_ref::{NotAReference, TypedRawRef};
