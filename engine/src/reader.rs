//! Reads the primitive parts of the binary format: bytes, numbers, names, vectors and types.
//!
//! WebAssembly core specification, 5.1 to 5.3.

use crate::library::{FuncType, GlobalType, MemoryType, Mutability, RefType, TableType, V128, ValType};
use crate::proposals;
use std::fmt;

/// Why a module is refused, and where.
#[derive(Clone, Copy, Debug, PartialEq, Eq)]
pub struct Refusal {
    /// Which rules the module breaks.
    pub kind: RefusalKind,
    /// The byte of the file at which that was seen.
    pub offset: usize,
    /// What is wrong there, as a clause without a full stop.
    pub what: &'static str,
}

/// Which rules a module breaks.
#[derive(Clone, Copy, Debug, PartialEq, Eq)]
pub enum RefusalKind {
    /// Those of the binary format.
    Malformed,
    /// Those of validation.
    Invalid,
    /// Those of this engine, which lacks some proposals and bounds what a module may have.
    Unsupported,
}

impl fmt::Display for Refusal {
    fn fmt(&self, f: &mut fmt::Formatter<'_>) -> fmt::Result {
        write!(f, "offset {}: {}", self.offset, self.what)
    }
}

impl std::error::Error for Refusal {}

/// What was read. A refusal lies apart, so that this is small.
pub(crate) type Read<T> = Result<T, Box<Refusal>>;

/// Refuses what doesn't hold.
#[inline(always)]
pub(crate) fn ensure(holds: bool, refusal: Refusal) -> Read<()> {
    if holds { Ok(()) } else { refuse(refusal) }
}

#[cold]
#[inline(never)]
fn refuse(refusal: Refusal) -> Read<()> {
    Err(refusal.into())
}

/// The unread bytes of a file, or of a part of it.
#[derive(Clone, Copy)]
pub(crate) struct Reader<'a> {
    /// The file up to the end of the part.
    file: &'a [u8],
    /// The place of the next byte in the file.
    pub at: usize,
    /// Whether floats are refused.
    pub is_strict: bool,
}

impl<'a> Reader<'a> {
    pub fn new(file: &'a [u8], is_strict: bool) -> Self {
        Self { file, at: 0, is_strict }
    }

    pub fn is_empty(&self) -> bool {
        self.at == self.file.len()
    }

    pub fn len(&self) -> usize {
        self.file.len() - self.at
    }

    pub fn malformed(&self, what: &'static str) -> Refusal {
        Refusal { kind: RefusalKind::Malformed, offset: self.at, what }
    }

    pub fn invalid(&self, what: &'static str) -> Refusal {
        Refusal { kind: RefusalKind::Invalid, offset: self.at, what }
    }

    pub fn unsupported(&self, what: &'static str) -> Refusal {
        Refusal { kind: RefusalKind::Unsupported, offset: self.at, what }
    }

    /// The refusal of what is unknown, unless a proposal is known to have it.
    pub fn unknown(&self, proposal: Option<&'static str>, what: &'static str) -> Refusal {
        proposal.map_or(self.malformed(what), |proposal| self.unsupported(proposal))
    }

    pub fn take(&mut self, len: usize) -> Read<&'a [u8]> {
        ensure(len <= self.len(), self.malformed("the file or the section ends too soon"))?;
        self.at += len;
        Ok(&self.file[self.at - len..self.at])
    }

    pub fn peek(&self) -> Option<u8> {
        self.file.get(self.at).copied()
    }

    #[inline(always)]
    pub fn byte(&mut self) -> Read<u8> {
        let byte = self.peek().unwrap_or_default();
        ensure(!self.is_empty(), self.malformed("the file or the section ends too soon"))?;
        self.at += 1;
        Ok(byte)
    }

    /// A number of so many bits in LEB128. Most have one byte.
    #[inline(always)]
    fn leb128(&mut self, bits: u32, is_signed: bool) -> Read<u64> {
        match self.peek() {
            Some(byte) if byte < 0x80 => {
                self.at += 1;
                let signed = i64::from((byte << 1).cast_signed() >> 1);
                Ok(if is_signed { signed.cast_unsigned() } else { byte.into() })
            }
            _ => self.long_leb128(bits, is_signed),
        }
    }

    /// The same, of at most as many bytes as the bits need.
    #[inline(never)]
    fn long_leb128(&mut self, bits: u32, is_signed: bool) -> Read<u64> {
        let (mut value, mut shift) = (0, 0);
        loop {
            let begin = *self;
            let byte = self.byte()?;
            value |= u64::from(byte & 0x7f) << shift;
            let rest = bits - shift;
            if rest <= 7 {
                let high = (byte & 0x7f) >> (rest - u32::from(is_signed));
                let is_sign = high == 0 || is_signed && high == 0x7f >> (rest - 1);
                ensure(byte & 0x80 == 0, begin.malformed("a number has too many bytes"))?;
                ensure(is_sign, begin.malformed("a number is too great"))?;
            }
            shift += 7;
            if byte & 0x80 == 0 {
                let is_negative = is_signed && byte & 0x40 != 0 && shift < 64;
                return Ok(if is_negative { value | u64::MAX << shift } else { value });
            }
        }
    }

    pub fn u32(&mut self) -> Read<u32> {
        Ok(self.leb128(32, false)? as u32)
    }

    pub fn u64(&mut self) -> Read<u64> {
        self.leb128(64, false)
    }

    pub fn i32(&mut self) -> Read<i32> {
        Ok(self.leb128(32, true)? as i32)
    }

    pub fn i64(&mut self) -> Read<i64> {
        Ok(self.leb128(64, true)? as i64)
    }

    /// A number of 33 bits, which names the type of a block.
    pub fn type_of_block(&mut self) -> Read<Option<u32>> {
        Ok(u32::try_from(self.leb128(33, true)?).ok())
    }

    pub fn v128(&mut self) -> Read<V128> {
        Ok(V128::from(self.take(16)?.iter().rev().fold(0, |bits, byte| bits << 8 | u128::from(*byte))))
    }

    /// The bits of a float of so many bytes.
    pub fn float(&mut self, bytes: usize) -> Read<u64> {
        ensure(!self.is_strict, self.unsupported("a constant is a float"))?;
        Ok(self.take(bytes)?.iter().rev().fold(0, |bits, byte| bits << 8 | u64::from(*byte)))
    }

    /// A part that begins with its length in bytes.
    pub fn part(&mut self) -> Read<Reader<'a>> {
        let len = self.u32()? as usize;
        let at = self.at;
        self.take(len)?;
        Ok(Reader { file: &self.file[..self.at], at, ..*self })
    }

    pub fn bytes(&mut self) -> Read<&'a [u8]> {
        let len = self.u32()?;
        self.take(len as usize)
    }

    pub fn name(&mut self) -> Read<&'a str> {
        let begin = *self;
        str::from_utf8(self.bytes()?).map_err(|_| begin.malformed("a name isn't UTF-8").into())
    }

    /// A vector: its length, and then its items, which have at least a byte each.
    pub fn list<T>(&mut self, mut item: impl FnMut(&mut Self) -> Read<T>) -> Read<Vec<T>> {
        let count = self.u32()? as usize;
        ensure(count <= self.len(), self.malformed("the file or the section ends too soon"))?;
        (0..count).map(|_| item(self)).collect()
    }

    pub fn val_type(&mut self) -> Read<ValType> {
        let begin = *self;
        Ok(match self.byte()? {
            0x7f => ValType::I32,
            0x7e => ValType::I64,
            0x7c | 0x7d if self.is_strict => return Err(begin.unsupported("a type is one of floats").into()),
            0x7d => ValType::F32,
            0x7c => ValType::F64,
            0x7b => ValType::V128,
            0x70 => ValType::FuncRef,
            0x6f => ValType::ExternRef,
            byte => return Err(begin.unknown(proposals::of_type(byte), "a type of values is unknown").into()),
        })
    }

    pub fn ref_type(&mut self) -> Read<RefType> {
        let begin = *self;
        match self.byte()? {
            0x70 => Ok(RefType::Func),
            0x6f => Ok(RefType::Extern),
            byte => Err(begin.unknown(proposals::of_type(byte), "a type of references is unknown").into()),
        }
    }

    pub fn func_type(&mut self) -> Read<FuncType> {
        let begin = *self;
        let form = self.byte()?;
        ensure(form == 0x60, begin.unknown(proposals::of_type(form), "a type isn't one of functions"))?;
        let (params, results) = (self.list(Self::val_type)?, self.list(Self::val_type)?);
        let refusal = begin.unsupported("a type has more than 1,000 parameters or results");
        FuncType::new(params, results).map_err(|_| refusal.into())
    }

    /// Limits: their flags, the least and the greatest size. Flag 0 is for a greatest size, 2 for addresses of 64 bits.
    fn limits(&mut self, most_flags: u8) -> Read<(u8, u64, Option<u64>)> {
        let begin = *self;
        let flags = self.byte()?;
        let unknown = begin.unknown(proposals::of_limits(flags), "the flags of limits are unknown");
        ensure(flags & !most_flags == 0, unknown)?;
        let size = |it: &mut Self| if flags & 4 != 0 { it.u64() } else { it.u32().map(u64::from) };
        let min = size(self)?;
        let max = if flags & 1 != 0 { Some(size(self)?) } else { None };
        ensure(max.is_none_or(|max| min <= max), begin.invalid("the least size is above the greatest one"))?;
        Ok((flags, min, max))
    }

    pub fn memory_type(&mut self) -> Read<MemoryType> {
        let begin = *self;
        let (flags, min, max) = self.limits(0b1101)?;
        let mut builder = MemoryType::builder();
        builder.min(min).max(max).memory64(flags & 4 != 0);
        if flags & 8 != 0 {
            builder.page_size_log2(self.u32()?.try_into().unwrap_or(u8::MAX));
        }
        let refusal = begin.invalid("a memory has a size beyond its addresses or an unknown size of pages");
        builder.build().map_err(|_| refusal.into())
    }

    pub fn table_type(&mut self) -> Read<TableType> {
        let element = self.ref_type()?;
        let (flags, min, max) = self.limits(0b101)?;
        let cut = |size: u64| size as u32;
        Ok(match flags & 4 {
            0 => TableType::new(element, cut(min), max.map(cut)),
            _ => TableType::new64(element, min, max),
        })
    }

    pub fn global_type(&mut self) -> Read<GlobalType> {
        let content = self.val_type()?;
        let mutability = match self.byte()? {
            0 => Mutability::Const,
            1 => Mutability::Var,
            _ => return Err(self.malformed("a global is neither constant nor mutable").into()),
        };
        Ok(GlobalType::new(content, mutability))
    }
}

#[cfg(test)]
mod tests {
    use super::*;

    fn read<'a, T>(bytes: &'a [u8], f: impl FnOnce(&mut Reader<'a>) -> Read<T>) -> Result<T, &'static str> {
        f(&mut Reader::new(bytes, true)).map_err(|it| it.what)
    }

    #[test]
    fn numbers() {
        assert_eq!(read(&[0xe5, 0x8e, 0x26], Reader::u32), Ok(624_485));
        assert_eq!(read(&[0xff, 0xff, 0xff, 0xff, 0x0f], Reader::u32), Ok(u32::MAX));
        assert_eq!(read(&[0xff, 0xff, 0xff, 0xff, 0x1f], Reader::u32), Err("a number is too great"));
        assert_eq!(read(&[0x80, 0x80, 0x80, 0x80, 0x80, 0], Reader::u32), Err("a number has too many bytes"));
        assert_eq!(read(&[0x7f], Reader::i32), Ok(-1));
        assert_eq!(read(&[0x80, 0x80, 0x80, 0x80, 0x78], Reader::i32), Ok(i32::MIN));
        assert_eq!(read(&[0x80, 0x80, 0x80, 0x80, 0x70], Reader::i32), Err("a number is too great"));
        let least = [0x80, 0x80, 0x80, 0x80, 0x80, 0x80, 0x80, 0x80, 0x80, 0x7f];
        assert_eq!(read(&least, Reader::i64), Ok(i64::MIN));
        assert_eq!(read(&least, Reader::u64), Err("a number is too great"));
        assert_eq!(read(&[0x80], Reader::u32), Err("the file or the section ends too soon"));
    }

    #[test]
    fn names_and_lists() {
        assert_eq!(read(&[2, 0xc3, 0xa9], Reader::name), Ok("é"));
        assert_eq!(read(&[1, 0xc3], Reader::name), Err("a name isn't UTF-8"));
        assert_eq!(read(&[2, 0x7f, 0x7e], |it| it.list(Reader::val_type)), Ok(vec![ValType::I32, ValType::I64]));
        let long = [0xff, 0xff, 0xff, 0xff, 0x0f, 0x7f];
        assert_eq!(read(&long, |it| it.list(Reader::val_type)), Err("the file or the section ends too soon"));
    }

    #[test]
    fn types() {
        assert_eq!(read(&[0x7d], Reader::val_type), Err("a type is one of floats"));
        assert_eq!(Reader::new(&[0x7d], false).val_type(), Ok(ValType::F32));
        assert_eq!(read(&[0x70, 1, 2, 1], Reader::table_type), Err("the least size is above the greatest one"));
        assert_eq!(read(&[0x60, 1, 0x7f, 0], Reader::func_type), Ok(FuncType::new([ValType::I32], []).unwrap()));
        assert!(read(&[5, 1, 3], Reader::memory_type).is_ok_and(|it| it.is_64() && it.maximum() == Some(3)));
        assert!(read(&[0, 0x81, 0x80, 0x04], Reader::memory_type).is_err());
        assert_eq!(read(&[0x69], Reader::val_type), Err("exceptions aren't supported"));
        assert_eq!(read(&[0x5f, 0], Reader::func_type), Err("garbage collection isn't supported"));
        assert_eq!(read(&[3, 1, 2], Reader::memory_type), Err("threads aren't supported"));
        assert_eq!(read(&[0x17, 1, 2], Reader::memory_type), Err("the flags of limits are unknown"));
    }
}
