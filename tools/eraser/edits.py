"""What the generated text has otherwise than the sources, so that the Rust crate's API can stand on it. The edit under "Upstream's feature" alone
changes what a function returns, and those of `Debug` what is printed; tools/erased.toml has the reason of each."""
import re

from calls import calls

# (module, text, its replacement, how often it stands there)
EDITS = [
    # Upstream's `const` functions, receivers, representations and attributes.
    ("raw", "pub fn from_bits64", "pub const fn from_bits64", 1),
    ("raw", "pub fn to_bits64", "pub const fn to_bits64", 1),
    ("raw", "pub fn as_u128(self)", "pub fn as_u128(&self)", 1),
    ("raw", "pub struct RawRef", "#[repr(transparent)]\npub struct RawRef", 1),
    ("types", "pub enum TrapCode", "#[repr(u8)]\npub enum TrapCode", 1),
    ("typed", "pub enum GlobalError", "#[non_exhaustive]\npub enum GlobalError", 1),
    ("meter", "pub enum TableError", "#[non_exhaustive]\npub enum TableError", 1),
    # Fields that Rattle's contracts name and upstream hides.
    ("raw", "pub lo: u64", "pub(crate) lo: u64", 1),
    ("raw", "pub hi: u64", "pub(crate) hi: u64", 1),
    ("typed", "pub ty: ValType", "pub(crate) ty: ValType", 1),
    ("typed", "pub raw: RawVal", "pub(crate) raw: RawVal", 1),
    ("typed", "pub raw: RawRef", "pub(crate) raw: RawRef", 1),
    ("typed", "pub ty: RefType", "pub(crate) ty: RefType", 1),
    ("typed", "pub struct Global {\n    value: RawVal", "pub struct Global {\n    pub(crate) value: RawVal", 1),
    ("typed", "pub content: ValType", "pub(crate) content: ValType", 1),
    ("typed", "pub mutability: Mutability", "pub(crate) mutability: Mutability", 1),
    ("store", "pub struct ElementSegment {\n    ty: RefType,\n    items: Vec<RawRef>",
     "pub struct ElementSegment {\n    pub(crate) ty: RefType,\n    pub(crate) items: Vec<RawRef>", 1),
    # Rust derives `TryFrom` from upstream's `From`, which panics: Rattle's conversion, an answer in its place, becomes a function.
    ("meter", "impl TryFrom<FuelError> for TableError {\n    type Error = FuelError;\n", "impl TableError {\n", 1),
    ("meter", "fn try_from(error: FuelError)", "pub(crate) fn of_fuel(error: FuelError)", 1),
    ("typed", "impl TryFrom<TypedRawVal> for TypedRawRef {\n    type Error = NotAReference;\n", "impl TypedRawRef {\n", 1),
    ("typed", "fn try_from(typed: TypedRawVal)", "pub(crate) fn of_value(typed: TypedRawVal)", 1),
    ("tests", "TableError::try_from(", "TableError::of_fuel(", 2),
    ("tests", "TypedRawRef::try_from(", "TypedRawRef::of_value(", 1),
    ("tests", "#[test] fn all_addresses_are_too_many", "#[cfg(feature = \"memory64\")]\n#[test]\nfn all_addresses_are_too_many", 1),
    ("tests", "mod script {", "#[cfg(feature = \"std\")]\nmod script {", 1),
    # Rust knows the size of each type.
    ("meter", "/// # Contract /// /// ```text /// SIZE = 1 /// ``` impl ValueSize for u8 { const SIZE: u64 = 1;",
     "/// The size in memory. Proved are the 1 of a byte and the 4 of a reference and of a `u32`.\nimpl<T> ValueSize for T { const SIZE: u64 = size_of::<T>() as u64;", 1),
    ("meter", "/// # Contract /// /// ```text /// SIZE = 4 /// ``` impl ValueSize for u32 { const SIZE: u64 = 4; }", "", 1),
    ("meter", "/// # Contract /// /// ```text /// SIZE = 4 /// ``` impl ValueSize for RawRef { const SIZE: u64 = 4; }", "", 1),
    ("meter", "pub fn fuel_for_copying_values<T: ValueSize>", "pub fn fuel_for_copying_values<T>", 1),
    # `impl Trait` as upstream's.
    ("meter", "<C: FnOnce(&FuelCostsProvider) -> u64>", "", 2),
    ("meter", "f: C,", "f: impl FnOnce(&FuelCostsProvider) -> u64,", 2),
    # Printed by code of this crate, with upstream's names of fields.
    ("raw", "#[derive(Clone, Copy, Debug, Default, PartialEq, Eq, PartialOrd, Ord)]\npub struct RawVal",
     "#[derive(Clone, Copy, Default, PartialEq, Eq, PartialOrd, Ord)]\npub struct RawVal", 1),
    ("raw", "#[derive(Clone, Copy, Debug, PartialEq, Eq)]\npub struct V128", "#[derive(Clone, Copy, PartialEq, Eq)]\npub struct V128", 1),
    ("typed", "#[derive(Clone, Copy, Debug, PartialEq, Eq)]\npub struct TypedRawVal", "#[derive(Clone, Copy, PartialEq, Eq)]\npub struct TypedRawVal", 1),
    ("typed", "#[derive(Clone, Copy, Debug, PartialEq, Eq)]\npub struct ShiftAmount", "#[derive(Clone, Copy, PartialEq, Eq)]\npub struct ShiftAmount", 1),
    ("meter", "#[derive(Clone, Debug, Default)]\npub struct FuelCostsProvider", "#[derive(Clone, Default)]\npub struct FuelCostsProvider", 1),
    ("meter", "fn costs(&self)", "pub(crate) fn costs(&self)", 1),
    # A pool's invariant has what a reserving run would test by a sum over all slots of the tenant.
    ("budget", "run_into_reserving, run_reserving}", "run_into_lending, run_lending}", 1),
    ("budget", "run_reserving(&mut self.machine", "run_lending(&mut self.machine", 1),
    ("budget", "run_into_reserving(&mut self.machine", "run_into_lending(&mut self.machine", 1),
    # Fields without docs.
    ("grammar", "BadCommand { line: usize }", "BadCommand {\n/// The number of the line, from 1 on.\nline: usize }", 1),
    ("meter", "OutOfFuel { required_fuel: u64 }", "OutOfFuel {\n/// How much fuel the call takes.\nrequired_fuel: u64 }", 3),
    ("machine", "pub enum Call {", """///
/// Of the fields, `memory`, `table`, `segment` and `global` are indices, `a`, `b`, `c` and `item` registers of operands; `offset`
/// is added to `ptr`, or counts bytes itself; `len`, `pages` and `delta` are how many; `lanes` has the index of the byte for each lane.
#[allow(missing_docs)]
pub enum Call {""", 1),
    # What a search of the reference finds by the standard's name.
    ("typed", "pub fn get(&self) -> TypedRawVal", '#[doc(alias = "global.get")]\npub fn get(&self) -> TypedRawVal', 1),
    ("typed", "pub fn set(&mut self, new_value: TypedRawVal)", '#[doc(alias = "global.set")]\npub fn set(&mut self, new_value: TypedRawVal)', 1),
    # Upstream's feature.
    ("store", "let Some(page) = PageSize::from_log2(",
     "        if cfg!(not(feature = \"memory64\")) && self.index.is_64() {\n            return Err(MemoryError::InvalidMemoryType);\n        }\n        let Some(page) = PageSize::from_log2(", 1),
]

# What may get a variant in a minor version: instructions, calls, replies, lines of scripts, and errors that upstream hasn't got.
OPEN = {
    "ops": "LoadOp StoreOp MakeOp UnaryOp BinaryOp TernaryOp ShiftOp TestOp ExtractKind ReplaceKind VectorLoadOp LoadLaneKind StoreLaneKind",
    "scalar_ops": "ScalarUnaryOp ScalarBinaryOp", "machine": "Call Reply", "budget": "AddError PoolError", "store": "SegmentError",
    "grammar": "ParseError MeterLine LimiterLine", "script": "ReplayError Status",
}
EDITS += [(module, f"pub enum {name} {{", f"#[non_exhaustive]\npub enum {name} {{", 1) for module, names in OPEN.items() for name in names.split()]

# Calls of a machine that `MachineStore::step` passes on by groups, to a function with a jump table of its own. Where each call has an
# arm of its own, LLVM makes one table of the two. Where all are named, rustc knows that there are no others, and tests nothing.
GROUPS = {"Memories": "step_memory", "Tables": "step_table"}


def patterns(subject):
    """The calls of a subject as patterns."""
    return [f"Call::{it.name}{'(_)' if 'operand' in it.row else ' { .. }'}" for it in calls() if it.row["subject"] == subject]


for subject, step in GROUPS.items():
    arm, last = f" => self.{step}(call, limiter).unwrap_or(Reply::NoSuch),\n", patterns(subject)[-1]
    # As rustfmt sets the last one: in one line of at most 100 columns, or in three.
    set_arm = arm if len(f"            | {last}{arm}") <= 101 else re.sub(r"\.(step_\w+\(|unwrap_or)", rf"\n{' ' * 16}.\1", arm)
    EDITS.append(("machine", "\n            | ".join(patterns(subject)) + set_arm, "".join(pattern + arm for pattern in patterns(subject)), 1))
EDITS.append(("machine", "            _ => self.step_register", " | ".join(patterns("RegisterFile")) + " => self.step_register", 1))

# A macro that is exported is at the root.
EDITS += [("c", f"$crate::generated::c::{name}!", f"$crate::{name}!", 1) for name in ("on_machine", "on_pool")]
EDITS += [("c", f"Box::new({name})", f"crate::memory::boxed({name})", 1) for name in ("machine", "pool")]
EDITS += [("c", "numbers.iter().map(|number| answer(*number)).collect()",
           "let mut answers = Vec::new();\n    answers.read_all(numbers.iter().map(|number| answer(*number)), usize::MAX)?;\n    Ok(answers)", 1)]
EDITS += [("c_lib", "use crate::generated::c::{on_machine, on_pool};", "use crate::{on_machine, on_pool};", 1)]

# A test of a size that a `usize` of 32 bits hasn't got.
EDITS += [("tests", "fn prints_the_cost_of_the_greatest_growth", '#[cfg(target_pointer_width = "64")]\nfn prints_the_cost_of_the_greatest_growth', 1)]

# Functions that upstream hasn't got, for this crate alone.
HIDDEN = {
    "meter": ["unmetered"], "raw": ["from_word_pair", "words"], "typed": ["get_raw_mut"],
    "store": ["allows_size", "ensure_element_type_matches", "indexes_size", "pages_in", "size_of_pages"],
}
EDITS += [(module, f"pub fn {name}(", f"pub(crate) fn {name}(", 1) for module, names in HIDDEN.items() for name in names]
EDITS += [("store", f"pub fn {name}(self", f"pub(crate) fn {name}(self", 2) for name in ("grown_size", "maximum_size")]
EDITS += [(module, "pub fn words(&self)", "pub(crate) fn words(&self)", count) for module, count in (("meter", 3), ("typed", 1), ("store", 1))]

# Traits that no caller is to name: with them a trait is implemented here alone.
UNNAMED = {"lanes": ["CountsLanes"], "meter": ["Sealed"], "raw": ["Sealed", "OneWord"], "store": ["Sealed"], "typed": ["Sealed", "TypedI32"]}
EDITS += [(module, f"pub trait {name}", f"#[allow(unnameable_types)]\npub trait {name}", 1) for module, names in UNNAMED.items() for name in names]

# Types that print their sizes and nothing of their contents: rust/src/debug.rs.
PRINTED = ["enum Storage", "pub struct Buffer", "pub struct LinearMemory", "pub struct ElementSegment", "pub struct Table"]
EDITS += [("store", f"#[derive(Debug)] {item}", item, 1) for item in PRINTED]
EDITS += [("machine", "#[derive(Debug)] pub struct DataSegment", "pub struct DataSegment", 1)]
EDITS += [("store", "#[derive(Clone, Copy, Debug)] pub struct ElementSegmentRef", "#[derive(Clone, Copy)]\npub struct ElementSegmentRef", 1)]

# Texts that rustc's LLVM compiles badly, or that older compilers lack.
TESTED = "if !lies_within(bytes, offset as u64, buffer.len() as u64) { return Err(MemoryError::OutOfBoundsAccess); }"
PART = """        let end = offset.checked_add(buffer.len());
        let Some(part) = end.and_then(|end| bytes.{}(offset..end)) else {{
            return Err(MemoryError::OutOfBoundsAccess);
        }};"""
EDITS += [
    ("grammar", "let Some(words) = words.as_array::<16>() else {", "let Ok(words) = <&[&str; 16]>::try_from(words) else {", 1),
    # Rust's search for a char takes a word of memory at a time, and words of scripts are shorter.
    ("operands", "line.split(' ')", "crate::rattle::between_spaces(line)", 1),
    ("accesses", "for i in 0..N { memory[address + i] = bytes[i]; }", "memory[address..][..N].copy_from_slice(bytes);", 1),
    ("accesses", "memory[address..address + N].split_first_chunk::<N>()", "memory[address..].split_first_chunk::<N>()", 1),
    # The bounds one by one, as they were tested before: LLVM tests their sum once more.
    ("store", "elements[index..index + items.len()]", "elements[index..][..items.len()]", 1),
    ("machine", "memory[offset..offset + len]", "memory[offset..][..len]", 1),
    ("store", "#[inline] fn front_mut(&mut self, end: usize) -> &mut [u8] { match self {",
     "#[inline(always)]\n            fn front_mut(&mut self, end: usize) -> &mut [u8] {\n                match self {", 1),
    # The bounds and the range by one sum, which is one comparison.
    ("store", f"{TESTED} let end = offset + buffer.len(); buffer.copy_from_slice(&bytes[offset..end]);", f"""{PART.format("get")}
        buffer.copy_from_slice(part);""", 1),
    ("store", f"{TESTED} write_range(bytes, offset, buffer);", f"""{PART.format("get_mut")}
        part.copy_from_slice(buffer);""", 1),
    # A panic without numbers, for which none is in a register.
    ("store", "&block[..self.len]", "crate::rattle::front(block, self.len)", 1),
    ("store", "&mut self[..end]", "crate::rattle::front_mut(self, end)", 1),
    # LLVM makes two instructions more of the quotient.
    ("store", "self.buffer.len() as u64 / u64::from(self.ty.page_size())", "self.buffer.len() as u64 >> self.ty.page_size_log2()", 1),
]

# Function types: an array is filled by one loop over its cells, which LLVM unrolls; what is above it is made out of line; and no gap of 7
# bytes stands in front of the array, which LLVM copies by two overlapping words.
EDITS += [
    ("types", "enum Kept {", "#[repr(u16)]\n    enum Kept {", 1),
    ("types", "match entries.kept() {", """
            if entries.rest.is_empty() {
                let kept = Kept::Inline(entries.inline);
                return Ok(FuncType { len_params, len_results, kept });
            }
            match entries.kept() {""", 1),
    ("types", "#[inline] fn kept(", "#[inline(never)]\n        fn kept(", 1),
    ("types", "let types = match &self.kept { Kept::Inline(types) => &types[..], Kept::Big(types) => types.as_slice(), };"
     " &types[..usize::from(self.len_params) + usize::from(self.len_results)]", """
            let count = usize::from(self.len_params) + usize::from(self.len_results);
            match &self.kept {
                Kept::Inline(types) => &types[..count],
                Kept::Big(types) => &types.as_slice()[..count],
            }""", 1),
    ("types", "let mut items = Vec::from_slice(&self.inline)?;", """
            let mut items = Vec::with_capacity(INLINE_SIZE + self.rest.len())?;
            items.extend_from_slice(&self.inline)?;""", 1),
    ("types", "for count in 0..MAX_LEN { match self.push_next(types) { Ok(true) => {} Ok(false) => return Ok(count),"
     " Err(_) => return Err(FuncTypeError::OutOfMemory), } } match types.next() { Some(_) => Err(too_many), None => Ok(MAX_LEN), }", """
            let cells = &mut self.inline[self.len..];
            let (room, mut count) = (cells.len(), 0);
            for (cell, ty) in cells.iter_mut().zip(types.by_ref()) {
                *cell = ty;
                count += 1;
            }
            self.len += count;
            if count < room {
                return Ok(count as u16);
            }
            self.read_rest(types, count, too_many)""", 1),
    ("types", "/// Appends the next type, and answers whether there was one.", """
        /// Appends what follows on `count` types, and answers how many there are with them.
        #[inline(never)]
        fn read_rest<I>(&mut self, types: &mut I, count: usize, too_many: FuncTypeError) -> Result<u16, FuncTypeError>
        where
            I: Iterator<Item = ValType>,
        {
            let (before, most) = (self.rest.len(), usize::from(MAX_LEN));
            if self.rest.read(types, most + 1 - count).is_err() {
                return Err(FuncTypeError::OutOfMemory);
            }
            match count + self.rest.len() - before {
                count if count > most => Err(too_many),
                count => Ok(count as u16),
            }
        }

        /// Appends the next type, and answers whether there was one.""", 1),
]

# Where lanes are arrays, a lane at an index is that of the array: the instruction that picks bytes is a loop there.
EDITS += [
    ("lanes", f"let bytes = bytes_at(vector, BYTES_OF_{name}[", f"""if AS_ARRAYS {{
                return {name.lower()}::lanes_of(vector).to_array()[usize::from(u8::from(at))];
            }}
            let bytes = bytes_at(vector, BYTES_OF_{name}[""", 1) for name in ("U16", "U32")
]
EDITS += [
    ("lanewise", "#[inline] pub fn i8x16_shuffle(", "#[inline(always)]\n    pub fn i8x16_shuffle(", 1),
    ("lanes", "let numbers = u8x16::from_array([0, 1, 2,", """if AS_ARRAYS {
                let mut items = u8::lanes_of(vector).to_array();
                items[usize::from(u8::from(at))] = item;
                return u8::vector_of(u8x16::from_array(items));
            }
            let numbers = u8x16::from_array([0, 1, 2,""", 1),
    ("lanewise", "// An index above 15 becomes 128 or more,", """if AS_ARRAYS {
            let table = bytes_of(a).to_array();
            let chosen = |i: u8| if i < 16 { table[usize::from(i)] } else { 0 };
            return from_bytes(u8x16::from_array(bytes_of(s).to_array().map(chosen)));
        }
        // An index above 15 becomes 128 or more,""", 1),
    # The signs of numbers of 8 bits are made in both words at once.
    ("widening", "let tops = u16x8::splat(0x80);", """if AS_ARRAYS {
                let words = u64x2::from_le_bytes(bytes.to_le_bytes());
                let tops = words & u64x2::splat(0x0080_0080_0080_0080);
                return u16x8::from_le_bytes((words | (tops << 9) - (tops << 1)).to_le_bytes());
            }
            let tops = u16x8::splat(0x80);""", 1),
    # Lanes of 8 and 16 bits that are less are found in the words of a vector: LLVM takes each lane out by itself.
    ("lanewise", "use crate::proved::lanes::SimdLane;\n    use crate::proved::raw::V128;", "use crate::proved::lanes::SimdLane;\n    use crate::proved::raw::V128;\n    use crate::rattle::simd::prelude::AS_ARRAYS;", 1),
    ("lanewise", "let ones = T::lanes_of(V128::from_word_pair(u64::MAX, u64::MAX));", """if AS_ARRAYS && size_of::<T>() < 4 {
                let (a, b) = (T::vector_of(a).words(), T::vector_of(b).words());
                let less = ones_if_less_in_word::<T>;
                return V128::from_word_pair(less(a.0, b.0), less(a.1, b.1));
            }
            let ones = T::lanes_of(V128::from_word_pair(u64::MAX, u64::MAX));""", 1),
    ("widening", "T::Wide::vector_of(T::sums(T::even(v), T::odd(v)))", """if AS_ARRAYS {
            let (even, odd) = (T::Wide::vector_of(T::even(v)).words(), T::Wide::vector_of(T::odd(v)).words());
            return V128::from_word_pair(even.0 + odd.0, even.1 + odd.1);
        }
        T::Wide::vector_of(T::sums(T::even(v), T::odd(v)))""", 1),
    # A comparison whose result is inverted becomes two masks of 64 bits.
    ("lanewise", "v128_not(less_u::<T>(rhs, lhs))", "ones_unless_less::<T>(T::lanes_of(rhs), T::lanes_of(lhs))", 1),
    ("lanewise", "v128_not(less_s::<T>(rhs, lhs))", "ones_unless_less::<T>(T::biased(T::lanes_of(rhs)), T::biased(T::lanes_of(lhs)))", 1),
    ("lanewise", "T::vector_of(T::choose_if_less(T::biased(b), T::biased(a), a, b))", """T::vector_of(T::choose_if_less(T::biased(b), T::biased(a), a, b))
        }

        /// All ones where the lane of `a` isn't less than that of `b`, else all zeros.
        #[inline(always)]
        fn ones_unless_less<T: SimdLane>(a: T::Vector, b: T::Vector) -> V128 {
            if AS_ARRAYS && size_of::<T>() < 4 {
                return v128_not(ones_if_less::<T>(a, b));
            }
            let ones = T::lanes_of(V128::from_word_pair(u64::MAX, u64::MAX));
            let zeros = T::lanes_of(V128::from_word_pair(0, 0));
            T::vector_of(T::choose_if_less(a, b, zeros, ones))
        }

        /// All ones in each lane of a word that is less than that of the other word, else all zeros: its highest bit, and those below it.
        #[inline(always)]
        fn ones_if_less_in_word<T>(a: u64, b: u64) -> u64 {
            let width = 8 * size_of::<T>();
            let tops = (u64::MAX / (u64::MAX >> (64 - width))) << (width - 1);
            let at_least = (a | tops) - (b & !tops);
            let less = ((!a & b) | (!(a ^ b) & !at_least)) & tops;
            (less << 1).wrapping_sub(less >> (width - 1))""", 1),
]

# The printer's texts, piece by piece: Rattle makes code of each piece, and rustc a call of `core::fmt`.
EDITS += [
    ("script", "use std::fmt::{Display, Write};", "use crate::rattle::arrayvec::{Show, Sink};", 1),
    ("script", "D: Display>", "D: Show>", 2),
    ("script", 'format_args!("{error}")', "&error", 1),
    ("script", 'format_args!(" {byte}")', '(" ", &byte)', 1),
    ("script", 'format_args!("held {bytes} {elements}")', '("held ", &bytes, " ", &elements)', 1),
    ("script", 'format_args!("held {index} {bytes} {elements}")', '("held ", &index, " ", &bytes, " ", &elements)', 1),
    ("script", 'write!(f, "{}{}", wording.start, wording.words)', "(wording.start, wording.words).show(f)", 1),
    ("script", 'write!(f, "{first}")', "first.show(f)", 1),
    ("script", 'write!(f, " {second}")', '(" ", &second).show(f)', 1),
    ("script", 'write!(f, "{first} {second}")', '(&first, " ", &second).show(f)', 1),
    ("script", "impl fmt::Display for ReplyHead<'_> { #[inline] fn fmt(&self, f: &mut fmt::Formatter<'_>) -> fmt::Result {", """impl fmt::Display for ReplyHead<'_> {
    fn fmt(&self, f: &mut fmt::Formatter<'_>) -> fmt::Result {
        self.show(f)
    }
}

impl Show for ReplyHead<'_> {
    #[inline]
    fn show<W: Sink>(&self, f: &mut W) -> fmt::Result {""", 1),
]
