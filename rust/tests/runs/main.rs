//! Lists of calls on machines, their replies, and what a host sees afterwards.
mod pools;
mod random;
mod runs;
mod writes;

use wasmi_core_proved::machine::{
    AllocError, ByteList, Call, CustomFuelCosts, Fuel, FuelCostsProvider, FuelError, GlobalType,
    Machine, MemoryError, MemoryType, Mutability, NoLimits, RawRef, RawVal, RefType, Reply,
    ResourceLimiter, ResourceLimiterRef, TableError, TableType, TypedRawRef, ValType, Vec, run,
    run_lending,
};
use wasmi_core_proved::ops::{LoadOp, StoreOp};

/// A call on a memory, as a table can have it.
#[derive(Clone, Copy)]
enum MemoryCall {
    /// By how many pages.
    Grow(u64),
    /// From an offset on, so many bytes.
    Read(usize, usize),
    /// From an offset on, these bytes.
    Write(usize, &'static [u8]),
    /// A byte at a place.
    Load(u64),
    /// The byte 7 at a place.
    Store(u64),
    Drop,
}

/// A call, as a table can have it.
#[derive(Clone, Copy)]
enum StaticCall {
    SetFuel(u64),
    GetFuel,
    /// A memory with pages of 64 KiB: its minimum and maximum.
    NewPages(u64, Option<u64>),
    /// A memory with pages of one byte, without a maximum.
    NewBytes(u64),
    /// Such a memory in the spare region.
    NewLentBytes(u64),
    /// A call on the memory of an index.
    Memory(usize, MemoryCall),
    /// A table of null references to functions, without a maximum.
    NewTable(u32),
    /// A table, and by how many null references to functions.
    GrowTable(usize, u64),
    DropTable(usize),
    /// A segment of these objects of the host.
    NewSegment(&'static [u32]),
    NewData(&'static [u8]),
    /// A constant of 32 bits.
    NewGlobal(u32),
    /// A register, and a number of 32 bits.
    SetRegister(u8, u32),
}

/// A reply, as a table can have it.
#[derive(Clone, Copy)]
enum StaticReply {
    Done,
    Made(usize),
    Number(u64),
    Bytes(&'static [u8]),
    Memory(MemoryError),
    Table(TableError),
    /// The meter is off.
    NoMeter,
    NoSuch,
    NoRegion,
}

/// A call, and the reply that is expected.
type Step = (StaticCall, StaticReply);

/// A segment of these objects of the host.
fn new_segment(bits: &[u32]) -> Result<Call, AllocError> {
    let mut items = Vec::new();
    for item in bits {
        items.push(RawRef::from(*item))?;
    }
    Ok(Call::NewSegment {
        ty: RefType::Extern,
        items,
    })
}

/// The call of a row on a memory.
fn memory_call(memory: usize, row: MemoryCall) -> Result<Call, AllocError> {
    Ok(match row {
        MemoryCall::Grow(pages) => Call::GrowMemory { memory, pages },
        MemoryCall::Read(offset, len) => Call::Read {
            memory,
            offset,
            len,
        },
        MemoryCall::Write(offset, bytes) => Call::Write {
            memory,
            offset,
            bytes: Vec::from_slice(bytes)?,
        },
        MemoryCall::Load(ptr) => Call::Load {
            op: LoadOp::I32Load8U,
            memory,
            ptr,
            offset: 0,
        },
        MemoryCall::Store(ptr) => Call::Store {
            op: StoreOp::I32Store8,
            memory,
            ptr,
            offset: 0,
            value: RawVal::from(7u32),
        },
        MemoryCall::Drop => Call::DropMemory(memory),
    })
}

/// The call of a row.
fn call_of(row: StaticCall) -> Result<Call, AllocError> {
    Ok(match row {
        StaticCall::SetFuel(fuel) => Call::SetFuel(fuel),
        StaticCall::GetFuel => Call::GetFuel,
        StaticCall::NewPages(minimum, maximum) => {
            Call::NewMemory(memory_type(minimum, maximum, 16))
        }
        StaticCall::NewBytes(minimum) => Call::NewMemory(memory_type(minimum, None, 0)),
        StaticCall::NewLentBytes(minimum) => Call::NewLentMemory(memory_type(minimum, None, 0)),
        StaticCall::Memory(memory, row) => memory_call(memory, row)?,
        StaticCall::NewTable(minimum) => Call::NewTable {
            ty: TableType::new(RefType::Func, minimum, None),
            init: func(0),
        },
        StaticCall::GrowTable(table, delta) => Call::GrowTable {
            table,
            delta,
            init: func(0),
        },
        StaticCall::DropTable(table) => Call::DropTable(table),
        StaticCall::NewSegment(bits) => new_segment(bits)?,
        StaticCall::NewData(bytes) => Call::NewData(bytes.to_vec().into()),
        StaticCall::NewGlobal(number) => Call::NewGlobal {
            value: RawVal::from(number),
            ty: GlobalType::new(ValType::I32, Mutability::Const),
        },
        StaticCall::SetRegister(dst, number) => Call::SetRegister {
            dst,
            value: RawVal::from(number),
        },
    })
}

/// The reply of a row.
fn reply_of(row: StaticReply) -> Result<Reply, AllocError> {
    Ok(match row {
        StaticReply::Done => Reply::Done,
        StaticReply::Made(index) => Reply::Made(index),
        StaticReply::Number(number) => Reply::Number(number),
        StaticReply::Bytes(bytes) => Reply::Bytes(ByteList::from(Vec::from_slice(bytes)?)),
        StaticReply::Memory(error) => Reply::Memory(error),
        StaticReply::Table(error) => Reply::Table(error),
        StaticReply::NoMeter => Reply::Fuel(FuelError::FuelMeteringDisabled),
        StaticReply::NoSuch => Reply::NoSuch,
        StaticReply::NoRegion => Reply::NoRegion,
    })
}

/// The calls, and the replies that are expected.
fn split(steps: &[Step]) -> Result<(Vec<Call>, Vec<Reply>), AllocError> {
    let mut calls = Vec::new();
    let mut expected = Vec::new();
    for (call, reply) in steps {
        calls.push(call_of(*call)?)?;
        expected.push(reply_of(*reply)?)?;
    }
    Ok((calls, expected))
}

/// Runs calls under a limiter, and compares the replies.
fn runs_under<L: ResourceLimiter>(machine: &mut Machine, steps: &[Step], limiter: &mut L) {
    let (calls, expected) = split(steps).unwrap();
    let replies = run_lending(machine, &calls, limiter).ok();
    assert_eq!(replies, Some(expected), "replies");
}

/// Runs calls without a limiter, and compares the replies.
fn runs_to(machine: &mut Machine, steps: &[Step]) {
    let (calls, expected) = split(steps).unwrap();
    let mut limiter = ResourceLimiterRef::<NoLimits>::default();
    let replies = run(machine, &calls, &mut limiter).ok();
    assert_eq!(replies, Some(expected), "replies");
}

/// A new machine whose meter is off.
fn unmetered() -> Machine<'static> {
    Machine::new(meter(false))
}

/// A meter that takes one fuel for 64 copied bytes, where it is on.
fn meter(is_on: bool) -> Fuel {
    let costs = CustomFuelCosts {
        bytes_copied_per_fuel: 64,
        fuel_per_bytes_translated: 7,
        fuel_per_bytes_validated: 2,
    };
    Fuel::new(is_on, FuelCostsProvider::custom(costs))
}

/// A new machine with such a meter, which is on.
fn metered() -> Machine<'static> {
    Machine::new(meter(true))
}

/// The pages of the memory of an index.
fn memory_size(machine: &Machine, index: usize) -> Option<u64> {
    machine.memory(index).map(|memory| memory.size())
}

/// The elements of the table of an index.
fn table_size(machine: &Machine, index: usize) -> Option<u64> {
    machine.table(index).map(|table| table.size())
}

fn memory_type(minimum: u64, maximum: Option<u64>, page_size_log2: u8) -> MemoryType {
    let mut builder = MemoryType::builder();
    builder
        .min(minimum)
        .max(maximum)
        .page_size_log2(page_size_log2);
    builder.build().expect("a memory type")
}

/// A function reference.
fn func(number: u32) -> TypedRawRef {
    TypedRawRef::new(RawRef::from(number), RefType::Func)
}
