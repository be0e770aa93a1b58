//! Memories, tables, element segments, meters and limiters, by the generic calls of `machine`: every way in which a creation
//! or a growth can end, what is written, what it costs, and the texts of errors.

/// A row in which the limiter gives another answer to the question of a row, and is obeyed.
macro_rules! denied {
    ($row:ident, $what:literal, $answer:expr, $base:ident) => {
        $row {
            what: $what,
            answer: $answer,
            outcome: Err(DENIED),
            ..$base
        }
    };
}

/// A row in which the limiter accepts the notice of a row by an error.
macro_rules! complained {
    ($row:ident, $what:literal, $base:ident) => {
        $row {
            what: concat!($what, ", and the limiter accepts with an error"),
            notice_answer: Err(COMPLAINT),
            outcome: Err(DENIED),
            ..$base
        }
    };
}

mod bulk;
mod creations;
mod errors;
mod growths;
mod limiters;
mod regions;
mod tables;

use wasmi_core_proved::machine::{
    CustomFuelCosts, ElementSegment, Fuel, FuelCostsProvider, Memory, MemoryError, MemoryType,
    NoLimits, RawRef, RefType, ResourceLimiter, ResourceLimiterRef, Table, TableType, TypedRawRef,
};

/// Builds a type of memories, which may be invalid.
fn build_type(
    minimum: u64,
    maximum: Option<u64>,
    page_size_log2: u8,
    memory64: bool,
) -> Result<MemoryType, MemoryError> {
    let mut builder = MemoryType::builder();
    builder
        .min(minimum)
        .max(maximum)
        .page_size_log2(page_size_log2)
        .memory64(memory64);
    builder.build()
}

/// A type of memories.
fn memory_type(
    minimum: u64,
    maximum: Option<u64>,
    page_size_log2: u8,
    memory64: bool,
) -> MemoryType {
    build_type(minimum, maximum, page_size_log2, memory64).expect("a valid type")
}

/// Pages of 64 KiB under 32-bit addresses.
fn page_type(minimum: u64, maximum: Option<u64>) -> MemoryType {
    memory_type(minimum, maximum, 16, false)
}

/// Pages of 64 KiB under 64-bit addresses.
#[cfg(feature = "memory64")]
fn wide_type(minimum: u64, maximum: Option<u64>) -> MemoryType {
    memory_type(minimum, maximum, 16, true)
}

/// A meter with so much fuel, of which one is taken for 64 copied bytes.
fn metered(fuel: u64) -> Fuel {
    metered_at(64, fuel)
}

/// A meter with so much fuel, of which one is taken for so many copied bytes.
fn metered_at(bytes_copied_per_fuel: u32, fuel: u64) -> Fuel {
    let costs = CustomFuelCosts {
        bytes_copied_per_fuel,
        fuel_per_bytes_translated: 7,
        fuel_per_bytes_validated: 2,
    };
    let mut meter = Fuel::new(true, FuelCostsProvider::custom(costs));
    let _ = meter.set_fuel(fuel);
    meter
}

/// A new memory without limits.
fn ample_memory(ty: MemoryType) -> Memory<'static> {
    new_memory(ty, &mut NoLimits).expect("a memory")
}

/// A new memory under a limiter.
fn new_memory<L: ResourceLimiter>(
    ty: MemoryType,
    limiter: &mut L,
) -> Result<Memory<'static>, MemoryError> {
    Memory::new(ty, &mut ResourceLimiterRef::from(limiter))
}

/// A new memory on a lent region, under a limiter.
fn lent_memory<'r, L: ResourceLimiter>(
    ty: MemoryType,
    limiter: &mut L,
    region: &'r mut [u8],
) -> Result<Memory<'r>, MemoryError> {
    Memory::new_static(ty, &mut ResourceLimiterRef::from(limiter), region)
}

/// Grows a memory under a limiter.
fn grow<L: ResourceLimiter>(
    memory: &mut Memory,
    pages: u64,
    fuel: Option<&mut Fuel>,
    limiter: &mut L,
) -> Result<u64, MemoryError> {
    memory.grow(pages, fuel, &mut ResourceLimiterRef::from(limiter))
}

/// A reference to a function.
fn func(bits: u32) -> TypedRawRef {
    TypedRawRef::new(RawRef::from(bits), RefType::Func)
}

/// A reference to an object of the host.
fn external(bits: u32) -> TypedRawRef {
    TypedRawRef::new(RawRef::from(bits), RefType::Extern)
}

/// A table under no limits, full of one function.
fn table_of(ty: TableType, init: TypedRawRef) -> Table {
    let mut limits = NoLimits;
    let mut limiter = ResourceLimiterRef::from(&mut limits);
    Table::new(ty, init, &mut limiter).expect("a table")
}

/// A table of functions, 1 to 5.
fn five_functions() -> Table {
    let ty = TableType::new(RefType::Func, 5, None);
    let mut table = table_of(ty, func(1));
    for index in 1..5u32 {
        assert_eq!(
            table.set(u64::from(index), func(index + 1)),
            Ok(()),
            "an element"
        );
    }
    table
}

/// An element segment of three items.
fn segment_of(ty: RefType, items: [RawRef; 3]) -> ElementSegment {
    ElementSegment::new(ty, items).expect("a segment")
}

/// Compares the first five elements of a table of functions.
fn same_elements(what: &str, table: &Table, expected: [u32; 5]) {
    for index in 0..5u32 {
        let bits = expected[index as usize];
        let element = table.get(u64::from(index));
        assert_eq!(element, Some(func(bits)), "{}", what);
    }
}
