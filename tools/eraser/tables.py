"""What the eraser knows by name: attributes, macros, modules, what callers have to meet, texts that Rust has otherwise."""

import re

STD_KEPT = {"mem", "slice", "fmt", "cmp", "error", "hash", "num", "str", "io"}  # as in Rust's std
ATTRIBUTES = {"inline", "cold", "derive", "repr"}  # kept; `tactic` is left out
DERIVES = {"Clone", "Copy", "Debug", "Default", "PartialEq", "Eq", "PartialOrd", "Ord", "Hash"}
MACROS = {"assert", "matches", "unreachable", "write", "writeln", "stringify", "format_args"}
ATTRIBUTES_OF_C = {"macro_export", "unsafe"}
ATTRIBUTES_OF_TESTS, MACROS_OF_TESTS = {"test"}, {"concat"}
# What tests and programs have otherwise.
OF_TESTS = {
    r"\bprintln!\(rt;\s*": "writeln!(std::io::stdout(), ",
    r"(?<=[(\[{])[&$]*rt(:expr)?;\s*": "",
    r"<\w+: Abort>": "",
    r"\banyhow::Result<\(\)>": "Result<(), Box<dyn std::error::Error>>",
    r"\.repeat\(": ".try_repeat(",
    r"\.push_str\(": ".try_push_str(",
    r"\bString::from_str\(": "String::try_of(",
}

GROWS = ("current <= desired", "the desired size is below the current one")
ORDERED = ("maximum.is_none_or(|most| minimum <= most)", "the minimum is above the maximum")
NO_SUCH_SIZE = "the type allows no such size"
# What a public function requires: the test of it, and what its panic says, as the section `Panics` of the function's docs does.
REQUIRES = {
    "ordered: IfSome maximum (λ most. minimum ≤ most)": ORDERED,
    "variable: self.old.ty.mutability ≡ Mutability.Var": ("!self.ty.mutability.is_const()", "the variable is a constant"),
    "grows: length self.old.bytes ≤ new_size": ("self.len() <= new_size", "the new size is below the present one"),
    "grows: current ≤ desired": GROWS,
    "grows: old_size < size": ("old_size < size", "the size isn't above the old one"),
    "whole: size % page_bytes self.page ≡ 0":
        ("size as u64 % u64::from(self.page_size()) == 0", "the size is no number of whole pages"),
    "sized: IsSized ty size.old": ("is_sized(ty, *size)", NO_SUCH_SIZE),
    "sized: IsSized ty size": ("is_sized(ty, size)", NO_SUCH_SIZE),
    "lent: IsSome (loan self)": ("self.limiter.is_some()", "the reference lends no limiter"),
    "within: size.old ≤ length region.old": ("*size <= region.len()", "the size is above the length of the region"),
    "within: size.old ≤ length region.now": ("*size <= region.len()", "the size is above the length of the region"),
    "totals: HoldsTotals (L.Reserving.holdings limiter.old) machine.old":
        ("u128::from(limiter.held_bytes()) == machine.total_bytes()"
         " && u128::from(limiter.held_elements()) == machine.total_elements()",
         "what the limiter holds isn't the machine's totals"),
}

# The same of functions of public traits, whatever an implementation here calls the parameters that it uses: those of a pattern, the test
# of them, and what it says. Or it hands them on to one that has the test.
OF_TRAITS = {"growing": (r"(\w{2,}): usize, (\w{2,}): usize", "{} <= {}", GROWS[1]), "memory_growing": None, "table_growing": None}

# What has no test, and why. The callers of a function that Rust doesn't export are proved.
NO_TEST_CAN = "a closure or an iterator that panics"
NOT_EXPORTED = "its functions aren't exported"
INDEX = "Rust tests the index"
UNTESTED = {
    "callable: F.IsAlwaysCallable f": NO_TEST_CAN,
    "callable: IsSome self.old.left → C.IsAlwaysCallable f": NO_TEST_CAN,
    "readable: EachBecomes I.into_iter_gives items I.IntoIter.can_next": NO_TEST_CAN,
    "readable: I.can_next items.old": NO_TEST_CAN,
    "params: EachBecomes P.into_iter_gives params P.IntoIter.can_next": NO_TEST_CAN,
    "params: P.can_next params.old": NO_TEST_CAN,
    "results: AfterAll P.next_gives params.old (R.can_next results.old)": NO_TEST_CAN,
    "results: EachBecomes P.into_iter_gives params (λ first. EachBecomes R.into_iter_gives results (λ second."
    " AfterAll P.IntoIter.next_gives first (R.IntoIter.can_next second)))": NO_TEST_CAN,
    "dst: dst + len ≤ length elements.old": NOT_EXPORTED,
    "src: src + len ≤ length elements.old": NOT_EXPORTED,
    "few: len ≤ 4096": NOT_EXPORTED,
    "dropped: dropped < bits Self.width": NOT_EXPORTED,
    "inside: index + length items.now ≤ length elements.old": NOT_EXPORTED,
    "start: start ≤ end": NOT_EXPORTED,
    "end: end ≤ length elements.old": NOT_EXPORTED,
    "infallible: T.is_infallible value": NOT_EXPORTED,
    "same: (clone : T) → T.is_clone value clone → clone ≡ value": NOT_EXPORTED,
    "short: IsShort (D.output text)": NOT_EXPORTED,
    ": end ≤ length (bytes self.old)": INDEX,
}

# The module of each crate under `proved` is its name without the prefix, except these.
MODULES = {"wasmi_core": "facade", "wasmi_simd": "widening", "wasmi_access": "accesses"}
# The crates that have laws alone: pages of the reference.
CRATES_OF_LAWS = {"wasmi_laws"}
# The crates whose laws have a page in the module `laws` of the Rust crate's root.
PAGES_OF_LAWS = [f"wasmi_{it}" for it in "access budget grammar lanes machine raw script store simd".split()]
# The crates that tests alone use: rust/src/machine.rs has what the facade re-exports.
CRATES_OF_TESTS = {"wasmi_core"}
# The modules of the Rust crate's root that have another name than under `proved`.
PUBLIC = {"wasmi_budget": "pool", "wasmi_core": "machine"}

# The form of a load's clause, but for that of the private `load_front`.
LOADED = r"result ≡ loaded(?:_raw|_vector|_lane)? (?!self bytes)"
# What several errors begin with.
ORDER = "In the order of the tests: "
NO_TENANT = ORDER + "`NoTenant` if no tenant has the index; "
OTHER_TYPE = ORDER + "`ElementTypeMismatch` if the reference is of another type; "
DENIED = "`ResourceLimiterDeniedAllocation` if the limiter doesn't permit it"
MINIMUM = ORDER + f"`MinimumSizeOverflow` if the minimum has 2^64 bytes or more; {DENIED}"
MINIMUM_32 = "`MinimumSizeOverflow` if `usize` has 32 bits and the minimum more; " + DENIED
# The errors of a function that has a clause of such a form.
ERRORS = {
    LOADED: "`MemoryOutOfBounds` if the bytes end past the memory.",
    r"IsStore ": "`MemoryOutOfBounds` if the bytes would end past the memory; then nothing is written.",
    r"result ≡ idiv_s ": ORDER + "`IntegerDivisionByZero` if the divisor is 0; `IntegerOverflow` for the least number by -1.",
    r"result ≡ (?:idiv_u|irem_[su]) ": "`IntegerDivisionByZero` if the divisor is 0.",
    r"rules\.(?:asked|noticed) self": "An implementation's own. The call then returns `ResourceLimiterDeniedAllocation`.",
    r"\(optional_rules L\.rules\)\.(?:asked|noticed) \(lent_limiter self": "The limiter's. Without a limiter there is none.",
    r"\(optional_rules L\.rules\)\.noticed \(Some limiter\.old\) \(notice": "The limiter's.",
    r"FuelError\.FuelMeteringDisabled": "`FuelMeteringDisabled` if the meter is off.",
    r"\bConsumesFuel ": "`OutOfFuel` with the amount if less is left; then nothing is consumed.",
    r"result ≡ binary_raw ": "Divisions and remainders alone can trap: by zero with `IntegerDivisionByZero`, and a signed division"
                             " of the least number by -1 with `IntegerOverflow`.",
    r"SetsGlobal ": ORDER + "`ImmutableWrite` if the variable is a constant; `TypeMismatch` if the value is of another type.",
    # Of memories.
    r"PermitsMinimum ": MINIMUM + ".",
    r"MakesMemory \(.*?\) Owned": MINIMUM + "; `OutOfSystemMemory`, of which the limiter is notified.",
    r"MakesMemory \(.*?\) \(Lent": MINIMUM + "; `InvalidStaticBufferSize` if the region is shorter than the minimum, of which the limiter is notified."
                                             " After an error the bytes of the region are unchanged.",
    r"zeros_in Owned": "`OutOfSystemMemory` if memory is refused.",
    r"zeros_in \(Lent": "`InvalidStaticBufferSize` if the borrowed buffer is shorter. Then the loan has ended, and its bytes are unchanged.",
    r"\(CanFail ": "`OutOfSystemMemory` if the bytes are owned and memory is refused; `InvalidStaticBufferSize` if they are borrowed and the borrowed"
                   " buffer is shorter.",
    r"GrowsMemory .*\(memory_in ": "Those of [`wasmi_store::LinearMemory::grow`] on a lent region.",
    r"\(at \S+ offset \(length buffer": "`OutOfBoundsAccess` if they end past the memory; then nothing is copied.",
    r"WritesMemory |\(overwrite bytes\.old offset": "`OutOfBoundsAccess` if they would end past the memory; then nothing is written.",
    r"WritesMemoryRange |BulkWrites ": ORDER + "`OutOfBoundsAccess` if a range ends past its memory or segment; `OutOfFuel`, which is tested also if no byte"
                                               " is written. Then no byte is written, and no fuel taken.",
    # Of tables and element segments.
    r"MakesTable ": OTHER_TYPE + MINIMUM_32 + "; `OutOfSystemMemory`, of which the limiter is notified.",
    r"MakesTableIn ": ORDER + MINIMUM_32 + "; `OutOfSystemMemory` if the region is shorter than the minimum, of which the limiter is notified."
                                           " After an error the region is unchanged.",
    r"GrowsTable ": "`ElementTypeMismatch` if the type differs, also in a growth by 0; then those of `grow_raw`.",
    r"GrowsTableIn ": "Those of [`wasmi_store::Table::grow_raw`], of which `OutOfSystemMemory` comes only if the region is shorter than the new size."
                      " After an error the whole region is unchanged.",
    r"SetsTable ": OTHER_TYPE + "`SetOutOfBounds` past the end.",
    r"SetsTableRaw ": "`SetOutOfBounds` past the end.",
    r"\(initialization_of ": ORDER + "`ElementTypeMismatch` if the items are of another type; `InitOutOfBounds` if a range ends past the segment or the"
                                     " table; `OutOfFuel`.",
    r"\(copy_of (?:\w+ ){3}(?:src_table|\(table_of source)": ORDER + "`ElementTypeMismatch` if the types differ; `CopyOutOfBounds` if a range ends past its"
                                                                  " table; `OutOfFuel`, which is tested also if no element is copied.",
    r"\(copy_of (?:\w+ ){3}(?:self|\(table_of ty)": ORDER + "`CopyOutOfBounds` if a range ends past the table; `OutOfFuel`, which is tested also if no"
                                                         " element is copied.",
    r"\(filling_of ": "`ElementTypeMismatch` if the reference is of another type; then those of `fill_raw`.",
    r"\(raw_filling_of ": ORDER + "`FillOutOfBounds` if they end past the table; `OutOfFuel`, which is tested also if no element is filled.",
    r"IsReading(?:Of)? I\.": "`TooManyItems` at item 2^32; `OutOfSystemMemory` at the item for which memory is refused.",
    # Of machines and pools.
    r"≡ with_(?:elements_)?reserved self\.old": "`AllocError` if memory for some of it is refused; then no more is reserved.",
    r"IfOk result \(λ replies\. IsRunOf ": "`AllocError` if memory for the replies, allocated first, is refused; then nothing has happened.",
    r"IsOk result ↔ \(length calls\.now ≤ replies": "`TooManyCalls` for more calls than the capacity of `replies`; then nothing has happened.",
    r"IsAddRefusal ": ORDER + "`NotEmpty` if the machine has or had bytes or elements; `NoRoom` if memory for one more tenant is refused, or each index was"
                              " given. The machine is handed back with the error.",
    r"\(error ≡ PoolError\.NoTenant\)": "`NoTenant` if no tenant has the index, and no other; then nothing has changed.",
    r"IsErrOf result PoolError\.": NO_TENANT + "`OutOfMemory` if memory for the replies is refused. Then no call was executed.",
    r"IsErrOf result ReserveError\.": NO_TENANT + "`OutOfMemory` if memory for some of the slots is refused. Then none more is reserved.",
    r"IsErrOf result RunIntoError\.": NO_TENANT + "`TooManyCalls` if there are more calls than the capacity of `replies`. Then no call was executed, and the"
                                                  " replies stay.",
}
# The module of each public error.
PLACES_OF_ERRORS = dict.fromkeys(("FuelError", "GlobalError", "MemoryError", "TableError", "TrapCode"), "crate") | {
    "AddError": "crate::pool", "ParseError": "crate::grammar", "PoolError": "crate::pool", "SegmentError": "crate::machine",
}
# What a type of one letter is, by the trait that it has, in the legend of a contract.
LEGENDS = {
    "ResourceLimiter": "the type of the limiter, a [`ResourceLimiter`](crate::machine::ResourceLimiter#contract)",
    "Reserving": "the type of the limiter, a [`Reserving`](crate::machine::Reserving#contract)",
    "LimiterByKind": "the type of the limiter, a [`LimiterByKind`](crate::machine::LimiterByKind#contract)",
    "CappedLimiter": "the type of the limiter, a [`CappedLimiter`](crate::machine::CappedLimiter#contract)",
    "Read": "the type of the reader",
    "Lender": "the type of what lends the limiter, a [`Lender`](crate::machine::Lender#contract)",
    "Region": "the type of what has the bytes, a [`Region`](crate::machine::Region#contract)",
    "HostError": "the type of the host's error",
    "Fn": "the type of the closure",
    "FnOnce": "the type of the closure",
    "IntoIterator": "the type of the items, an [`IntoIterator`]",
    "Iterator": "the type of the items, an [`Iterator`]",
    "BufRead": "the type of the reader",
    "Write": "the type of the writer",
    "usize": "a number",
}
# Structs whose fields contracts see, and Rust hides.
HIDDEN_FIELDS = {"GlobalType", "RawVal", "TypedRawRef", "TypedRawVal"}
# Instructions that upstream calls otherwise than the standard.
STANDARD_NAMES = {"load_u32": "i32.load", "load_u64": "i64.load", "store32": "i32.store", "store64": "i64.store",
                  "load_f32": "f32.load", "load_f64": "f64.load", "store_f32": "f32.store", "store_f64": "f64.store"}
# The instructions on integers that are ones on the bits of floats, too, with what they are called there.
ON_FLOATS = {f"{its}{width}{at}": f"{own}{width}{at}" for its, own in (("load_u", "load_f"), ("store", "store_f")) for width in (32, 64) for at in ("", "_at")}
ON_FLOATS |= {f"i{its}": f"f{its}" for shape in ("32x4", "64x2") for its in (f"{shape}_splat", f"{shape}_extract_lane", f"{shape}_replace_lane")}
# Methods that pass on, and have another name than their instruction.
METHOD_NAMES = {"LinearMemory.copy_within": "memory.copy", "ElementSegment.drop_items": "elem.drop"}
# Instructions of the wide-arithmetic proposal, which the engine and V8's list lack.
PROPOSED = {"i64.add128", "i64.sub128", "i64.mul_wide_s", "i64.mul_wide_u"}

# Functions that return one of these are inlined always: a value that a call returns through memory is stored by words and read as a
# whole, which stalls a run of calls, or the call itself where a memory or a table is made.
INLINED_ALWAYS = {"Reply", "Option<Reply>", "Result<Memory<'r>, MemoryError>", "Result<ByteBuffer<'r>, MemoryError>", "Result<Self, TableError>"}


def module_of(crate):
    return MODULES.get(crate, crate.removeprefix("wasmi_"))


def module_of_instruction(name):
    return "simd" if name.startswith(("i8x16", "i16x8", "i32x4", "i64x2", "v128")) else "wasm"


def standard_name(name):
    """What the standard calls the instruction of a function."""
    return STANDARD_NAMES.get(name) or re.sub(r"\.bit(?=and|or|xor)", ".", name.replace("_", ".", 1))
