//! The words of a line, and what is read from them: numbers, types, references, values and names of instructions.
use crate::calls::*;
use crate::random::Random;
use wasmi_core::{
    GlobalType, MemoryType, Mutability, RawRef, RawVal, RefType, TableType, TypedRawRef, TypedRawVal, V128, ValType,
};

/// The words of one line, taken from the left.
pub struct Words<'a>(pub std::vec::IntoIter<&'a [u8]>);

impl<'a> Words<'a> {
    pub fn word(&mut self) -> Option<&'a [u8]> {
        self.0.next()
    }
    pub fn num<N: TryFrom<u128>>(&mut self) -> Option<N> {
        number(self.word()?)
    }
    /// The numbers that all words are that are left.
    fn nums<N: TryFrom<u128>>(&mut self) -> Option<Vec<N>> {
        self.0.by_ref().map(number).collect()
    }
    fn optional<N: TryFrom<u128>>(&mut self) -> Option<Option<N>> {
        match self.word()? {
            b"none" => Some(None),
            word => number(word).map(Some),
        }
    }
    /// Whether a type has addresses or indices of 64 bits.
    fn is_64(&mut self) -> Option<bool> {
        match self.word()? {
            b"32" => Some(false),
            b"64" => Some(true),
            _ => None,
        }
    }
    pub fn end(mut self) -> Option<()> {
        match self.0.next() {
            None => Some(()),
            Some(_) => None,
        }
    }
}

fn number<N: TryFrom<u128>>(word: &[u8]) -> Option<N> {
    if word.is_empty() {
        return None;
    }
    let mut n: u128 = 0;
    for &b in word {
        if !b.is_ascii_digit() {
            return None;
        }
        // Any number past 64 bits fits no field; more digits can't bring it back.
        n = (n * 10 + u128::from(b - b'0')).min(1 << 100);
    }
    n.try_into().ok()
}

/// What one or several words write. The bench times the reading too, so that of numbers and names is inlined.
pub trait Operand: Sized {
    fn read(words: &mut Words<'_>) -> Option<Self>;
    /// Words that write a random one, each after a space.
    fn draw(random: &mut Random) -> String;
}

/// The maximum of a type.
fn draw_maximum(random: &mut Random, min: u64) -> String {
    if random.chance(40) { "none".into() } else { (min + random.below(9)).to_string() }
}

macro_rules! numbers {
    ($($type:ty)*) => { $(
        impl Operand for $type {
            #[inline(always)]
            fn read(words: &mut Words<'_>) -> Option<Self> {
                words.num()
            }
            fn draw(random: &mut Random) -> String {
                let number = match random.below(16) {
                    0 => random.edge(),
                    1..=3 => random.below(70),
                    _ => random.below(4),
                };
                format!(" {}", number as $type)
            }
        }
    )* };
}
numbers! { u8 u32 u64 usize }

macro_rules! instructions {
    ($($type:ty: $table:ident)*) => { $(
        impl Operand for $type {
            #[inline(always)]
            fn read(words: &mut Words<'_>) -> Option<Self> {
                find($table, words.word()?)
            }
            fn draw(random: &mut Random) -> String {
                format!(" {}", random.pick($table).0)
            }
        }
    )* };
}
instructions! {
    Load: LOAD Store: STORE Make: MAKE Unary: UNARY Binary: BINARY Ternary: TERNARY Shift: SHIFT Test: TEST
    Extract: EXTRACT Replace: REPLACE VectorLoad: VECTOR_LOAD LoadLane: LOAD_LANE StoreLane: STORE_LANE
}

impl Operand for RefType {
    fn read(words: &mut Words<'_>) -> Option<Self> {
        match words.word()? {
            b"func" => Some(RefType::Func),
            b"extern" => Some(RefType::Extern),
            _ => None,
        }
    }
    fn draw(random: &mut Random) -> String {
        random.pick(&[" func", " func", " extern"]).into()
    }
}

impl Operand for TypedRawRef {
    fn read(words: &mut Words<'_>) -> Option<Self> {
        let ty = RefType::read(words)?;
        Some(TypedRawRef::new(RawRef::from(words.num::<u32>()?), ty))
    }
    fn draw(random: &mut Random) -> String {
        RefType::draw(random) + &u32::draw(random)
    }
}

impl Operand for ValType {
    fn read(words: &mut Words<'_>) -> Option<Self> {
        Some(match words.word()? {
            b"i32" => ValType::I32,
            b"i64" => ValType::I64,
            b"f32" => ValType::F32,
            b"f64" => ValType::F64,
            b"v128" => ValType::V128,
            b"funcref" => ValType::FuncRef,
            b"externref" => ValType::ExternRef,
            _ => return None,
        })
    }
    fn draw(random: &mut Random) -> String {
        random.pick(&[" i32", " i64", " f32", " f64", " v128", " funcref", " externref"]).into()
    }
}

impl Operand for RawVal {
    #[inline(always)]
    fn read(words: &mut Words<'_>) -> Option<Self> {
        let (lo, hi) = (words.num::<u64>()?, words.num::<u64>()?);
        Some(RawVal::from(V128::from(u128::from(hi) << 64 | u128::from(lo))))
    }
    fn draw(random: &mut Random) -> String {
        let (lo, hi) = random.vector();
        format!(" {lo} {hi}")
    }
}

impl Operand for TypedRawVal {
    fn read(words: &mut Words<'_>) -> Option<Self> {
        let ty = ValType::read(words)?;
        Some(TypedRawVal::new(ty, RawVal::read(words)?))
    }
    fn draw(random: &mut Random) -> String {
        ValType::draw(random) + &RawVal::draw(random)
    }
}

impl Operand for GlobalType {
    fn read(words: &mut Words<'_>) -> Option<Self> {
        let content = ValType::read(words)?;
        let mutability = match words.word()? {
            b"const" => Mutability::Const,
            b"var" => Mutability::Var,
            _ => return None,
        };
        Some(GlobalType::new(content, mutability))
    }
    fn draw(random: &mut Random) -> String {
        ValType::draw(random) + random.pick(&[" const", " var", " var"])
    }
}

impl Operand for MemoryType {
    fn read(words: &mut Words<'_>) -> Option<Self> {
        let mut b = MemoryType::builder();
        b.min(words.num()?);
        b.max(words.optional()?);
        b.page_size_log2(words.num()?);
        b.memory64(words.is_64()?);
        b.build().ok()
    }
    fn draw(random: &mut Random) -> String {
        let min = random.below(3);
        format!(" {min} {} {} {}", draw_maximum(random, min), random.pick(&[0, 16]), random.pick(&[32, 64]))
    }
}

impl Operand for TableType {
    fn read(words: &mut Words<'_>) -> Option<Self> {
        let element = RefType::read(words)?;
        let min: u64 = words.num()?;
        let max: Option<u64> = words.optional()?;
        let is_64 = words.is_64()?;
        if max.is_some_and(|max| min > max) {
            return None;
        }
        if is_64 {
            return Some(TableType::new64(element, min, max));
        }
        let max = match max {
            Some(max) => Some(u32::try_from(max).ok()?),
            None => None,
        };
        Some(TableType::new(element, u32::try_from(min).ok()?, max))
    }
    fn draw(random: &mut Random) -> String {
        let (element, min) = (RefType::draw(random), random.below(9));
        format!("{element} {min} {} {}", draw_maximum(random, min), random.pick(&[32, 64]))
    }
}

impl Operand for Vec<u8> {
    fn read(words: &mut Words<'_>) -> Option<Self> {
        words.nums()
    }
    fn draw(random: &mut Random) -> String {
        (0..random.below(9)).map(|_| u8::draw(random)).collect()
    }
}

impl Operand for Vec<RawRef> {
    fn read(words: &mut Words<'_>) -> Option<Self> {
        Some(words.nums::<u32>()?.into_iter().map(RawRef::from).collect())
    }
    fn draw(random: &mut Random) -> String {
        (0..random.below(9)).map(|_| u32::draw(random)).collect()
    }
}

impl Operand for [u8; 16] {
    fn read(words: &mut Words<'_>) -> Option<Self> {
        words.nums::<u8>()?.try_into().ok()
    }
    fn draw(random: &mut Random) -> String {
        (0..16).map(|_| format!(" {}", random.below(32))).collect()
    }
}
