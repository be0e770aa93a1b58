//! Values as text: what a user writes as an argument, and what a result is printed as.

use engine::library::{FuncType, RawRef, RawVal, TypedRawVal, V128, ValType};
use engine::{AsContext, AsContextMut, ExternType, Func, Instance, Module, Val};

/// Reads an argument of this type: a number in decimal or, after `0x`, in hexadecimal, or `null`. A float has its bits, in
/// hexadecimal. A number of a reference is that of a function or of an object of the host.
pub fn parse(text: &str, ty: ValType) -> Option<TypedRawVal> {
    let raw: RawVal = match ty {
        ValType::I32 => (integer(text, 32)? as u32).into(),
        ValType::I64 => (integer(text, 64)? as u64).into(),
        ValType::V128 => V128::from(integer(text, 128)?).into(),
        ValType::FuncRef | ValType::ExternRef if text == "null" => RawRef::null().into(),
        ValType::FuncRef | ValType::ExternRef => RawRef::from(text.parse::<u32>().ok()?.checked_add(1)?).into(),
        ValType::F32 | ValType::F64 if !text.starts_with("0x") => return None,
        ValType::F32 => (integer(text, 32)? as u32).into(),
        ValType::F64 => (integer(text, 64)? as u64).into(),
    };
    Some(TypedRawVal::new(ty, raw))
}

/// The type of an exported function. An error is a sentence.
pub fn type_of(module: &Module, function: &str) -> Result<FuncType, String> {
    match module.get_export(function) {
        Some(ExternType::Func(ty)) => Ok(ty),
        _ => Err(missing(module, function)),
    }
}

/// Which functions there are, where there is none of this name.
fn missing(module: &Module, function: &str) -> String {
    let is_function = |(name, ty): (&str, ExternType)| matches!(ty, ExternType::Func(_)).then(|| name.to_string());
    let mut names: Vec<String> = module.exports().filter_map(is_function).collect();
    names.sort();
    match names[..] {
        [] => format!("there is no exported function {function}, and no other one"),
        _ => format!("there is no exported function {function}, but {}", names.join(", ")),
    }
}

/// A value that was [parsed](parse), with a function of the instance in place of its number.
pub fn referring(instance: &Instance, context: impl AsContextMut, value: Val) -> Option<Val> {
    let reference = RawRef::from(value.raw());
    if value.ty() != ValType::FuncRef || reference.is_null() {
        return Some(value);
    }
    let reference = instance.function_reference(context, u32::from(reference) - 1)?;
    Some(Val::new(ValType::FuncRef, reference.into()))
}

/// A value to be [printed](print), with a number in place of a function: that which it has in its module.
pub fn numbered(context: impl AsContext, value: Val) -> Val {
    match Func::from_val(&context, value) {
        Some(function) => Val::new(ValType::FuncRef, RawRef::from(function.index(&context) + 1).into()),
        None => value,
    }
}

/// Reads the arguments of an exported function. An error is a sentence.
pub fn arguments<'a>(
    ty: &FuncType,
    function: &str,
    words: impl Iterator<Item = &'a str>,
) -> Result<Vec<TypedRawVal>, String> {
    let words: Vec<&str> = words.collect();
    if words.len() != ty.params().len() {
        return Err(format!("{function} takes {} arguments", ty.params().len()));
    }
    let read = |(word, ty): (&&str, _)| parse(word, ty).ok_or(format!("{word} is no {ty:?}"));
    words.iter().zip(ty.params().iter().copied()).map(read).collect()
}

/// A signed or unsigned number of so many bits, as the unsigned number that has its bits.
fn integer(text: &str, bits: u32) -> Option<u128> {
    let (is_negative, digits) = text.strip_prefix('-').map_or((false, text), |digits| (true, digits));
    let size = match digits.strip_prefix("0x") {
        Some(digits) if !digits.starts_with('+') => u128::from_str_radix(digits, 16).ok()?,
        _ if digits.starts_with('+') => return None,
        _ => digits.parse().ok()?,
    };
    let (most, least) = (u128::MAX >> (128 - bits), 1 << (bits - 1));
    match is_negative {
        true => (size <= least).then(|| size.wrapping_neg() & most),
        false => (size <= most).then_some(size),
    }
}

/// A value as text: an integer in signed decimal, the bits of a float as `0x` and 8 or 16 digits, a vector as `0x` and 32
/// digits, a reference as `null` or by its number.
pub fn print(value: TypedRawVal) -> String {
    let reference = RawRef::from(value.raw());
    let number = u32::from(reference).wrapping_sub(1);
    match value.ty() {
        ValType::I32 => i32::from(value).to_string(),
        ValType::I64 => i64::from(value).to_string(),
        ValType::V128 => format!("0x{:032x}", V128::from(value).as_u128()),
        ValType::FuncRef | ValType::ExternRef if reference.is_null() => "null".into(),
        ValType::FuncRef => format!("func {number}"),
        ValType::ExternRef => format!("extern {number}"),
        ValType::F32 => format!("0x{:08x}", u32::from(value.raw())),
        ValType::F64 => format!("0x{:016x}", u64::from(value.raw())),
    }
}

#[cfg(test)]
mod tests {
    use super::*;

    #[test]
    fn numbers() {
        assert_eq!(integer("-1", 32), Some(0xffff_ffff));
        assert_eq!(integer("4294967295", 32), Some(0xffff_ffff));
        assert_eq!(integer("4294967296", 32), None);
        assert_eq!(integer("-2147483649", 32), None);
        assert_eq!(integer("-0x8000000000000000", 64), Some(1 << 63));
        assert_eq!(integer("0xffffffffffffffffffffffffffffffff", 128), Some(u128::MAX));
        assert_eq!(integer("+1", 32), None);
        assert_eq!(integer("0x+1", 32), None);
        assert_eq!(integer("", 32), None);
    }

    #[test]
    fn both_ways() {
        for (ty, text) in [
            (ValType::I32, "-2147483648"),
            (ValType::I64, "9223372036854775807"),
            (ValType::V128, "0x00000000000000010000000000000002"),
            (ValType::ExternRef, "null"),
            (ValType::F32, "0x7fa00000"),
            (ValType::F64, "0x3ff0000000000000"),
        ] {
            assert_eq!(parse(text, ty).map(print).as_deref(), Some(text));
        }
        assert_eq!(parse("7", ValType::FuncRef).map(print).as_deref(), Some("func 7"));
        assert!(parse("1.5", ValType::F32).is_none());
    }
}
