//! Value types, raw and typed values, references and global variables.
use std::fmt::Debug;
use std::hash::{DefaultHasher, Hash, Hasher};
use std::num::{
    NonZeroI8, NonZeroI16, NonZeroI32, NonZeroI64, NonZeroU8, NonZeroU16, NonZeroU32, NonZeroU64,
};
use wasmi_core_proved::machine::{ReadAs, ReadBack, WriteAs};
use wasmi_core_proved::{
    F32, F64, Global, GlobalError, GlobalType, IndexType, Mutability, RawRef, RawVal, RefType,
    ShiftAmount, Typed, TypedRawRef, TypedRawVal, V128, ValType, hint,
};

/// Each value type, whether it is a number type, and its reference type.
static VALUE_TYPES: [(ValType, bool, Option<RefType>); 7] = [
    (ValType::I32, true, None),
    (ValType::I64, true, None),
    (ValType::F32, true, None),
    (ValType::F64, true, None),
    (ValType::V128, false, None),
    (ValType::FuncRef, false, Some(RefType::Func)),
    (ValType::ExternRef, false, Some(RefType::Extern)),
];

#[test]
fn value_types_are_numbers_vectors_or_references() {
    for &(ty, is_num, reference) in &VALUE_TYPES {
        let answer = (ty, ty.is_num(), ty.is_ref(), ty.as_ref());
        let expected = (ty, is_num, reference.is_some(), reference);
        assert_eq!(answer, expected, "is_num, is_ref, as_ref");
        if let Some(reference) = reference {
            assert_eq!(ValType::from(reference), ty, "type of a reference");
        }
    }
}

#[test]
fn value_types_ascend() {
    let ascending = [
        ValType::I32 < ValType::I64,
        ValType::I64 < ValType::F32,
        ValType::F32 < ValType::F64,
        ValType::F64 < ValType::V128,
        ValType::V128 < ValType::FuncRef,
        ValType::FuncRef < ValType::ExternRef,
        None < Some(ValType::I32),
        RefType::Func < RefType::Extern,
    ];
    assert_eq!(ascending, [true; 8], "value types");
}

#[test]
fn index_types_are_32_or_64_bits_wide() {
    let (narrow, wide) = (IndexType::I32, IndexType::I64);
    let answers = [(narrow.ty(), narrow.is_64()), (wide.ty(), wide.is_64())];
    assert_eq!(
        answers,
        [(ValType::I32, false), (ValType::I64, true)],
        "narrow, wide"
    );
    let sizes = [narrow.max_size(), wide.max_size()];
    let expected = [4_294_967_296, 18_446_744_073_709_551_616];
    assert_eq!(sizes, expected, "sizes");
}

#[test]
fn the_narrower_index_type_is_the_minimum() {
    let (narrow, wide) = (IndexType::I32, IndexType::I64);
    let least = [
        wide.min(&wide),
        wide.min(&narrow),
        narrow.min(&wide),
        narrow.min(&narrow),
    ];
    assert_eq!(least, [wide, narrow, narrow, narrow], "minima");
}

#[test]
fn hints_answer_their_condition() {
    hint::cold();
    for condition in [false, true] {
        let answers = (hint::likely(condition), hint::unlikely(condition));
        assert_eq!(answers, (condition, condition), "hints");
    }
}

/// The raw value of two words.
fn raw_val(lo: u64, hi: u64) -> RawVal {
    RawVal::from(V128::from(u128::from(hi) << 64 | u128::from(lo)))
}

/// All bits of it are set.
fn ones() -> RawVal {
    raw_val(u64::MAX, u64::MAX)
}

/// All ones, with `value` written to it.
fn over<T: ReadBack>(value: T) -> RawVal
where
    RawVal: WriteAs<T>,
{
    let mut raw = ones();
    raw.write_as(value);
    raw
}

/// Writes a value over all ones, and reads it back.
fn check_read_back<T: Copy + PartialEq + Debug + ReadBack<Read = T>>(value: T)
where
    RawVal: WriteAs<T>,
{
    assert_eq!(over(value).read_as(), value, "written by `write_as`");
}

#[test]
fn what_is_written_is_read_back() {
    check_read_back(-1i8);
    check_read_back(-2i16);
    check_read_back(-3i32);
    check_read_back(i64::MIN);
    check_read_back(200u8);
    check_read_back(60000u16);
    check_read_back(0u32);
    check_read_back(5u64);
    check_read_back(true);
    check_read_back(V128::from(u128::MAX));
    check_read_back(raw_val(1, 2));
}

/// Makes a raw value of a value, and writes the value over all ones. Both set the low word alone.
fn check_low_word<T: Copy + Into<RawVal> + ReadBack>(what: &str, value: T, lo: u64)
where
    RawVal: WriteAs<T>,
{
    assert_eq!(value.into(), raw_val(lo, 0), "{}", what);
    assert_eq!(over(value), raw_val(lo, u64::MAX), "{}", what);
}

#[test]
fn integers_and_bools_set_the_low_word_alone() {
    check_low_word("i8", -1i8, 255);
    check_low_word("i16", -1i16, 65535);
    check_low_word("i32", -1i32, 4294967295);
    check_low_word("i64", -1i64, u64::MAX);
    check_low_word("u8", 7u8, 7);
    check_low_word("u16", 7u16, 7);
    check_low_word("u32", 7u32, 7);
    check_low_word("u64", 7u64, 7);
    check_low_word("u32", 0u32, 0);
    check_low_word("bool", true, 1);
    check_low_word("bool", false, 0);
}

#[test]
fn non_zero_integers_set_the_low_word_alone() {
    check_low_word("NonZeroI8", NonZeroI8::MIN, 128);
    check_low_word("NonZeroI16", NonZeroI16::MIN, 32768);
    check_low_word("NonZeroI32", NonZeroI32::MIN, 2147483648);
    check_low_word("NonZeroI64", NonZeroI64::MIN, 9223372036854775808);
    check_low_word("NonZeroU8", NonZeroU8::MAX, 255);
    check_low_word("NonZeroU16", NonZeroU16::MAX, 65535);
    check_low_word("NonZeroU32", NonZeroU32::MAX, 4294967295);
    check_low_word("NonZeroU64", NonZeroU64::MIN, 1);
}

#[test]
fn floats_and_bits_are_the_low_word() {
    let floats = (F32::from_bits(9), F64::from_bits(9));
    let answers = [
        RawVal::from(floats.0),
        RawVal::from(floats.1),
        RawVal::from_bits64(3),
        RawVal::default(),
    ];
    let nine = raw_val(9, 0);
    let (three, zero) = (raw_val(3, 0), raw_val(0, 0));
    let expected = [nine, nine, three, zero];
    assert_eq!(answers, expected, "two floats, bits, default");
}

#[test]
fn a_vector_is_both_words() {
    let vector = V128::from((2 << 64) + 1);
    let answer = (
        RawVal::from(vector),
        vector.as_u128(),
        V128::from(ones()).as_u128(),
    );
    let expected = (raw_val(1, 2), (2 << 64) + 1, u128::MAX);
    assert_eq!(answer, expected, "a vector, its number, ones");
}

#[test]
fn a_raw_value_becomes_an_integer() {
    let signed = (
        i8::from(ones()),
        i16::from(ones()),
        i32::from(ones()),
        i64::from(ones()),
    );
    assert_eq!(signed, (-1, -1, -1, -1), "signed");
    let unsigned = (
        u8::from(ones()),
        u16::from(ones()),
        u32::from(ones()),
        u64::from(ones()),
    );
    assert_eq!(unsigned, (255, 65535, 4294967295, u64::MAX), "unsigned");
}

#[test]
fn a_raw_value_becomes_a_bool_or_a_float() {
    let raw = RawVal::from_bits64(256);
    let boolean: bool = raw.read_as();
    let byte: u8 = raw.read_as();
    let booleans = (
        boolean,
        byte,
        bool::from(raw),
        bool::from(RawVal::default()),
    );
    let bits = (
        raw.to_bits64(),
        F32::from(ones()).to_bits(),
        F64::from(ones()).to_bits(),
    );
    let expected = ((true, 0, true, false), (256, u32::MAX, u64::MAX));
    assert_eq!((booleans, bits), expected, "bools and bits");
}

#[test]
fn is_ordered_by_the_low_word_first() {
    let ascending = [raw_val(0, 9), raw_val(1, 0), raw_val(1, 1), raw_val(2, 0)];
    for (lower, higher) in ascending.iter().zip(&ascending[1..]) {
        let answer = (lower, higher, lower < higher);
        assert_eq!(answer, (lower, higher, true), "order");
    }
}

#[test]
fn references_are_their_bits() {
    let null = (u32::from(RawRef::null()), RawRef::null().is_null());
    let seven = RawRef::from(7);
    let answer = (
        null,
        (seven.is_null(), u32::from(seven)),
        (seven == RawRef::from(7), seven < RawRef::from(u32::MAX)),
    );
    let expected = ((0, true), (false, 7), (true, true));
    assert_eq!(answer, expected, "null, seven, equality and order");
}

#[test]
fn references_are_read_and_written() {
    let mut raw = raw_val(u64::MAX, u64::MAX);
    let read: RawRef = raw.read_as();
    raw.write_as(RawRef::from(7));
    let expected = raw_val(7, u64::MAX);
    let raws = [raw, RawVal::from(RawRef::from(7))];
    let expected = [expected, raw_val(7, 0)];
    assert_eq!(raws, expected, "written, raw value");
    let cut = raw_val((1 << 32) + 5, 1);
    let references = [read, RawRef::from(cut)];
    let expected = [RawRef::from(u32::MAX), RawRef::from(5)];
    assert_eq!(references, expected, "read, low bits");
}

#[test]
fn equal_references_hash_alike() {
    let mut first = DefaultHasher::new();
    RawRef::from(7).hash(&mut first);
    let mut second = DefaultHasher::new();
    RawRef::from(7).hash(&mut second);
    assert_eq!(first.finish(), second.finish(), "hash");
}

#[test]
fn typed_references_are_typed_values() {
    let null = TypedRawRef::null(RefType::Extern);
    assert_eq!(
        (null.raw(), null.ty()),
        (RawRef::null(), RefType::Extern),
        "typed null"
    );
    let reference = TypedRawRef::new(RawRef::from(7), RefType::Func);
    let typed = TypedRawVal::new(ValType::FuncRef, RawVal::from(7u32));
    assert_eq!(TypedRawVal::from(reference), typed, "typed value");
    let expected = TypedRawRef::new(RawRef::from(7), RefType::Func);
    let typed = TypedRawVal::new(ValType::FuncRef, RawVal::from(7u32));
    assert_eq!(TypedRawRef::from(typed), expected, "typed reference");
    let wide = raw_val((1 << 32) + 7, 1);
    let of_host = TypedRawVal::new(ValType::ExternRef, wide);
    let expected = TypedRawRef::new(RawRef::from(7), RefType::Extern);
    assert_eq!(
        TypedRawRef::from(of_host),
        expected,
        "reference of the host"
    );
}

/// Makes a typed value, which has to have this type and this low word.
fn check_typed<T: Typed + Into<RawVal>>(what: &str, value: T, ty: ValType, lo: u64) {
    let typed = TypedRawVal::from(value);
    let raw = raw_val(lo, 0);
    assert_eq!((typed.ty(), typed.raw()), (ty, raw), "{}", what);
    assert_eq!(typed, TypedRawVal::new(ty, RawVal::from(lo)), "{}", what);
    assert_eq!(RawVal::from(typed), raw, "{}", what);
}

#[test]
fn typed_values_have_their_type_and_bits() {
    check_typed("bool", true, ValType::I32, 1);
    check_typed("i8", -1i8, ValType::I32, 255);
    check_typed("i16", -1i16, ValType::I32, 65535);
    check_typed("i32", -1i32, ValType::I32, 4294967295);
    check_typed("i64", -1i64, ValType::I64, u64::MAX);
    check_typed("u8", 7u8, ValType::I32, 7);
    check_typed("u16", 7u16, ValType::I32, 7);
    check_typed("u32", 7u32, ValType::I32, 7);
    check_typed("u64", 7u64, ValType::I64, 7);
    check_typed("F32", F32::from_bits(9), ValType::F32, 9);
    check_typed("F64", F64::from_bits(9), ValType::F64, 9);
    check_typed("V128", V128::from(5), ValType::V128, 5);
    check_typed("NonZeroI32", NonZeroI32::MIN, ValType::I32, 1 << 31);
    check_typed("NonZeroU32", NonZeroU32::MIN, ValType::I32, 1);
    check_typed("NonZeroI64", NonZeroI64::MIN, ValType::I64, 1 << 63);
    check_typed("NonZeroU64", NonZeroU64::MIN, ValType::I64, 1);
    assert_eq!(ShiftAmount::TY, ValType::I32, "type of an amount");
}

#[test]
fn typed_values_are_read_by_their_bits() {
    let ones = TypedRawVal::from(V128::from(u128::MAX));
    let signed = (
        i8::from(ones),
        i16::from(ones),
        i32::from(ones),
        i64::from(ones),
    );
    let unsigned = (
        u8::from(ones),
        u16::from(ones),
        u32::from(ones),
        u64::from(ones),
    );
    let others = (bool::from(ones), V128::from(ones).as_u128());
    let expected = (
        (-1, -1, -1, -1),
        (255, 65535, u32::MAX, u64::MAX),
        (true, u128::MAX),
    );
    let answer = (signed, unsigned, others);
    assert_eq!(answer, expected, "signed, unsigned, bool and V128");
}

#[test]
fn constants_are_not_written() {
    let constant = GlobalType::new(ValType::I32, Mutability::Const);
    let mut global = Global::new(RawVal::from(7u32), constant);
    let set = global.set(TypedRawVal::from(1i64));
    assert_eq!(set, Err(GlobalError::ImmutableWrite), "set a constant");
    assert_eq!(global.get(), TypedRawVal::from(7u32), "value of a constant");
}

#[test]
fn variables_are_written_with_their_type() {
    let variable = GlobalType::new(ValType::I32, Mutability::Var);
    let mut global = Global::new(RawVal::from(7u32), variable);
    let mismatch = global.set(TypedRawVal::from(1i64));
    let kept = *global.get_raw();
    let set = global.set(TypedRawVal::from(8u32));
    let answer = (mismatch, kept, set, global.get(), global.ty());
    let expected = (
        Err(GlobalError::TypeMismatch),
        RawVal::from(7u32),
        Ok(()),
        TypedRawVal::from(8u32),
        variable,
    );
    assert_eq!(answer, expected, "a variable");
}

#[test]
fn global_types_are_constant_or_variable() {
    for (mutability, is_mut) in [(Mutability::Const, false), (Mutability::Var, true)] {
        let ty = GlobalType::new(ValType::I32, mutability);
        let kind = (mutability.is_const(), mutability.is_mut());
        let answer = (ty.content(), ty.mutability(), kind);
        let expected = (ValType::I32, mutability, (!is_mut, is_mut));
        assert_eq!(answer, expected, "content and mutability");
    }
}

#[test]
fn errors_say_what_is_wrong() {
    assert_eq!(
        GlobalError::ImmutableWrite.to_string(),
        "tried to write to immutable global variable"
    );
    assert_eq!(
        GlobalError::TypeMismatch.to_string(),
        "tried to write value of non-matching type to global variable"
    );
}
